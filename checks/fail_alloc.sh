#!/usr/bin/env bash
# Runs the built program over the small cases of crates/cases_runs and those of checks/runs with one call after the other
# refused: each allocation (alloc), each allocation and all behind it (on), each open, read and write (io). Each run must
# come to what checks/refusals.py says at its head. Then the pair: a publish that is refused is tried again
# (again). Outside the gate; it needs gcc and python3. Without a KIND it does all four, some minutes on four processors. PROGRAM is
# a program that is built elsewhere, and JOBS how many runs are made at once; with EACH only the first of so many allocations is refused.
# Usage: [PROGRAM=PATH] [JOBS=N] [EACH=N] checks/fail_alloc.sh [alloc|on|io|again [WORD]], WORD being a part of the names of the cases.
set -u
root="$(cd "$(dirname "${BASH_SOURCE[0]}")/.." && pwd)"
program="$(realpath -m "${PROGRAM:-$root/crates/casbin_cli/out/casbin_cli}")"
object="$(mktemp -d)"
# In memory where there is such a folder: on a disk, rewriting a file may wait for it.
[ -d /dev/shm ] && work="$(mktemp -d -p /dev/shm)" || work="$(mktemp -d)"
trap 'rm -rf "$object" "$work"' EXIT
export PYTHONDONTWRITEBYTECODE=1
gcc -O2 -shared -fPIC -o "$object/refuse.so" "$root/checks/refuse.c" || exit 1

[ -n "${PROGRAM:-}" ] || "$root/casbin_cli" prove || exit 1
[ -x "$program" ] || { echo "the program is not built" >&2; exit 1; }

failed=0
for kind in ${1:-alloc on io again}; do
  started="$SECONDS"
  if [ "$kind" = again ]; then
    python3 "$root/checks/again.py" "$object/refuse.so" "$work" || failed=1
  else
    python3 "$root/checks/refusals.py" "$program" "$object/refuse.so" "$work" "$kind" ${2:+"$2"} || failed=1
  fi
  echo "$kind: $((SECONDS - started)) s"
done
exit "$failed"
