#!/usr/bin/env bash
# Prints what the edits of edits.sh cost a plain program without proofs (plain_edits.rs) over 1,000 rows and over 200,000, each as a
# ratio of one run: rules of p, rules of a ranked p, role rows, and links among roles that are all linked. So much of a ratio of
# edits.sh is the machine's, whose memory is slower where there is more of it. It needs rustc. Usage: bench/plain_edits.sh [EDITS]
set -eu
root="$(cd "$(dirname "${BASH_SOURCE[0]}")/.." && pwd)"
work="$(mktemp -d)"
trap 'rm -rf "$work"' EXIT
rustc -O -o "$work/plain_edits" "$root/bench/plain_edits.rs"
"$work/plain_edits" "${1:-20000}"
