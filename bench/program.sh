# What the scripts that build a program over copies of the crates share; it is read by `source`. `crates` is the folder of the
# crates, `work` a folder that goes with the script.
set -euo pipefail
crates="$(cd "$(dirname "${BASH_SOURCE[0]}")/../crates" && pwd)"
if [ -z "${work:-}" ]; then
  work="$(mktemp -d)"
  trap 'rm -rf "$work"' EXIT
fi

# Makes a program of a name over these crates and what they stand on, without sources.
make_program() {
  program="$work/crates/$1"
  mkdir -p "$program/src"
  echo "$1: anyhow ${*:2}" > "$work/crates.txt"
  copy_crates "${@:2}"
  git init -q "$work"
}

# Copies crates and those below them.
copy_crates() {
  local name below folder
  for name in "$@"; do
    if [ ! -d "$crates/$name" ] || [ -d "$work/crates/$name" ]; then continue; fi
    mkdir -p "$work/crates/$name"
    for folder in src specs proofs; do
      if [ -d "$crates/$name/$folder" ]; then cp -r "$crates/$name/$folder" "$work/crates/$name"; fi
    done
    grep "^$name:" "$crates/../crates.txt" >> "$work/crates.txt"
    read -ra below <<< "$(sed -n "s/^$name://p" "$crates/../crates.txt")"
    copy_crates "${below[@]}"
  done
}

# Proves and runs the program, and prints its lines that have a ratio, and what is wrong with it.
run_program() {
  (cd "$program" && rt run 2>&1) | grep -E 'ratio|: error|no proof'
}
