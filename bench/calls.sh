#!/usr/bin/env bash
# Prints how many requests a second `enforce` answers by `keyMatch2` and `regexMatch` over 10 and 1,000 rules, beside a matcher
# of equalities over the same rules, the time to load model, policy and program taken out. Each request matches the last
# rule or none by turns, and every rule's path fits, so `regexMatch` searches at each rule. The last column is the time of a
# row as a ratio to a row of the equalities. Usage: bench/calls.sh [REQUESTS], how many over 10 rules; over 1,000 rules a
# hundredth of them.
source "$(dirname "${BASH_SOURCE[0]}")/timing.sh"
most="${1:-20000}"

model "$equalities" >"$work/equal.conf"
model 'keyMatch2(r.obj, p.obj) && regexMatch(r.act, p.act)' >"$work/calls.conf"
build "$root"

# Measures one model over one policy: the nanoseconds of a row.
measure() {
  local load whole
  load="$(run "$1" "$2" empty)"
  whole="$(run "$1" "$2" input)"
  check_answers "$requests" "$rules"
  awk -v ms="$((whole - load))" -v q="$requests" -v n="$rules" 'BEGIN { printf "%.1f", ms * 1e6 / q / n }'
}

for rules in 10 1000; do
  requests=$((rules == 10 ? most : most / 100))
  awk -v n="$rules" 'BEGIN { for (i = 1; i <= n; i++) printf "p, user, /data/:id, ^act%05d$\n", i }' >"$work/calls.csv"
  awk -v n="$rules" 'BEGIN { for (i = 1; i <= n; i++) printf "p, user, /data/7, act%05d\n", i }' >"$work/equal.csv"
  awk -v n="$rules" -v q="$requests" 'BEGIN {
    for (i = 0; i < q; i++) print "user, /data/7, " (i % 2 ? "none" : sprintf("act%05d", n))
  }' >"$work/input"
  equal="$(measure equal.conf equal.csv)"
  calls="$(measure calls.conf calls.csv)"
  awk -v n="$rules" -v q="$requests" -v calls="$calls" -v equal="$equal" 'BEGIN {
    printf "%5d rules  %6d requests  %9.0f requests/s  %10.1f ns a row  ratio to equalities %.0f\n", n, q, 1e9 / (calls * n), calls, calls / (equal > 0 ? equal : 1)
  }'
done
