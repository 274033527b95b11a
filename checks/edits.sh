#!/usr/bin/env bash
# Tries the must-fail edits of checks/edits that the gate leaves out for its price, each of which a crate's proof has to refuse, beside
# those that the gate tries, in a copy of the crates. Outside the gate. It first proves what the crates stand on, but for what `rt check`
# kept on this machine (what the gate kept does not serve), and then takes some minutes a crate. Usage: checks/edits.sh [CRATE]...,
# all crates that have some where none is told
set -eu
root="$(cd "$(dirname "${BASH_SOURCE[0]}")/.." && pwd)"
work="$(mktemp -d)"
trap 'rm -rf "$work"' EXIT
cd "$root"
[ "$#" -gt 0 ] || set -- $(ls checks/edits)
tar -c --exclude=out crates crates.txt HANDLES | tar -x -C "$work"
for crate; do
  [ -d "checks/edits/$crate" ] || { echo "$crate: no edits" >&2; exit 1; }
  mkdir -p "$work/crates/$crate/must-fail"
  cp "checks/edits/$crate"/*.edit "$work/crates/$crate/must-fail"
done
cd "$work"
rt must-fail "$@"
