#!/usr/bin/env bash
# Compares the callers on the pages crates/*/CALLING.md with the functions that they quote, which the gate proves: the code below
# each line that names a file stands in that file, its indentation aside.
# Usage: checks/calling.sh
set -u
cd "$(dirname "${BASH_SOURCE[0]}")/.." || exit 1
work="$(mktemp -d)"
trap 'rm -rf "$work"' EXIT
quoted=0 differing=0

for page in crates/*/CALLING.md; do
  awk -v folder="$work" '
    match($0, /\.\.\/\.\.\/crates\/[^)]*\.rt/) { file = substr($0, RSTART + 6, RLENGTH - 6) }
    /^```$/ && inside { inside = 0; close(name) }
    inside { sub(/^ +/, ""); print > name }
    /^```rust$/ { inside = 1; name = folder "/" ++count; print file > (name ".file"); close(name ".file") }' "$page"
  for code in "$work"/*.file; do
    [ -e "$code" ] || continue
    file="$(cat "$code")"
    quoted=$((quoted + 1))
    if [[ "$(sed 's/^ *//' "$file")" != *"$(cat "${code%.file}")"* ]]; then
      echo "$page quotes what does not stand in $file" >&2
      differing=1
    fi
  done
  rm -f "$work"/*
done
if [ "$differing" -ne 0 ] || [ "$quoted" -eq 0 ]; then
  exit 1
fi
echo "$quoted callers stand in the files that are named"
