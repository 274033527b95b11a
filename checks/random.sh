#!/usr/bin/env bash
# Runs the built program over the texts of the examples, mutated at random: the runs FIRST to FIRST + COUNT - 1 of a seed, or the
# first 100,000 of seed 1, some minutes on four processors. checks/random_texts.py says at its head what no run may do. The
# texts of a run that does are left in a folder, which is named. Outside the gate; it needs python3. PROGRAM is a program that is
# built elsewhere, and JOBS how many runs are made at once.
# Usage: [PROGRAM=PATH] [JOBS=N] checks/random.sh [SEED [FIRST [COUNT]]]
set -u
root="$(cd "$(dirname "${BASH_SOURCE[0]}")/.." && pwd)"
program="$(realpath -m "${PROGRAM:-$root/crates/casbin_cli/out/casbin_cli}")"
# In memory where there is such a folder: on a disk, rewriting a file may wait for it.
[ -d /dev/shm ] && work="$(mktemp -d -p /dev/shm)" || work="$(mktemp -d)"
export PYTHONDONTWRITEBYTECODE=1

[ -n "${PROGRAM:-}" ] || "$root/casbin_cli" prove || exit 1
[ -x "$program" ] || { echo "the program is not built" >&2; exit 1; }

if python3 "$root/checks/random_texts.py" "$program" "$work" "${1:-1}" "${2:-0}" "${3:-100000}"; then
  rm -rf "$work"
else
  echo "to see the texts of a wrong run alone: checks/random.sh SEED NUMBER 1; they are left in $work/NUMBER" >&2
  exit 1
fi
