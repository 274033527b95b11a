#!/usr/bin/env bash
# Prints how many requests a second `enforce` answers for a model of three equalities over 10, 1,000 and 10,000 rules,
# from inputs of 4 MiB, the time to load model, policy and program taken out. Each request matches the last rule or none
# by turns, so that no row in front ends the evaluation. The last columns are the time of one row, as a ratio to that over the
# smallest policy and, where another checkout of this repository is given, to that of its program, which runs by turns
# with this one over the same files. The index leaves most rows out; a checkout from before it takes some ten minutes, nearly all
# of them over 10,000 rules.
# Usage: bench/enforce.sh [BYTES [CHECKOUT]], the size of the inputs and the folder of the other checkout.
source "$(dirname "${BASH_SOURCE[0]}")/timing.sh"
bytes="${1:-4194304}"
other="${2:-}"

model "$equalities" >"$work/model.conf"
build "$root"
[ -z "$other" ] || build "$other"

# Measures a program over the policy and the input: the milliseconds to load, those of the whole run, and the nanoseconds
# of a row.
measure() {
  local load whole
  load="$(run model.conf policy.csv empty)"
  whole="$(run model.conf policy.csv input)"
  check_answers "$requests" "$rules"
  awk -v load="$load" -v whole="$whole" -v q="$requests" -v n="$rules" 'BEGIN { print load, whole, (whole - load) * 1e6 / q / n }'
}

first=""
for rules in 10 1000 10000; do
  awk -v n="$rules" 'BEGIN { for (i = 1; i <= n; i++) printf "p, user%05d, data%05d, read\n", i, i }' >"$work/policy.csv"
  awk -v n="$rules" -v most="$bytes" 'BEGIN {
    line[0] = sprintf("user%05d, data%05d, read", n, n); line[1] = sprintf("user%05d, data%05d, write", n, n)
    for (i = size = 0; size + length(line[i % 2]) + 1 <= most; i++) { print line[i % 2]; size += length(line[i % 2]) + 1 }
  }' >"$work/input"
  requests="$(wc -l <"$work/input")"
  timed="$(measure)"
  read -r load whole row <<<"$timed"
  first="${first:-$row}"
  awk -v n="$rules" -v ms="$((whole - load))" -v load="$load" -v q="$requests" -v row="$row" -v first="$first" 'BEGIN {
    printf "%6d rules  %8d requests  %10.0f requests/s  load %5d ms  %8.1f ns a row  ratio %.2f", n, q, q * 1000 / (ms > 0 ? ms : 1), load, row, row / first
  }'
  if [ -n "$other" ]; then
    timed="$(checkout="$other" measure)"
    read -r _ _ before <<<"$timed"
    awk -v row="$row" -v before="$before" 'BEGIN { printf "  other %8.1f ns a row  ratio to it %.2f", before, row / before }'
  fi
  echo
done
