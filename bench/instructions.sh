#!/usr/bin/env bash
# Prints how many instructions a request of `enforce` takes, by function, as callgrind counts them, for a model of three equalities
# and one with roles over 10 rules, where every request is allowed and where every other one is denied. What is done once is taken
# out: the counts are those of more requests less those of fewer. They are the same however busy the machine is. It needs valgrind.
# Usage: bench/instructions.sh [MOST], the number of functions that are told.
source "$(dirname "${BASH_SOURCE[0]}")/timing.sh"
most="${1:-25}"
build "$root"
program="${program:-$root/crates/casbin_cli/out/casbin_cli}"
few=2000
many=12000

model "$equalities" >"$work/basic.conf"
model 'g(r.sub, p.sub) && r.obj == p.obj && r.act == p.act' '' $'[role_definition]\ng = _, _\n' >"$work/roles.conf"
awk 'BEGIN { for (i = 1; i <= 10; i++) printf "p, user%05d, data%05d, read\n", i, i }' >"$work/basic.csv"
awk 'BEGIN { for (i = 1; i <= 10; i++) printf "p, role%05d, data%05d, read\ng, user%05d, role%05d\n", i % 5, i, i, i % 5 }' >"$work/roles.csv"

# Writes so many requests, each of them allowed, or every other one.
requests() {
  awk -v n="$1" -v denied="$2" 'BEGIN {
    for (i = 0; i < n; i++) printf "user%05d, data%05d, %s\n", i % 10 + 1, i % 10 + 1, denied && i % 2 ? "write" : "read" }' >"$work/input"
}

# The instructions of each function in a run over so many requests.
count() {
  requests "$2" "$3"
  valgrind --tool=callgrind --callgrind-out-file="$work/counts" "$program" enforce "$work/$1.conf" "$work/$1.csv" \
    <"$work/input" >"$work/answers" 2>"$work/errors"
  callgrind_annotate --threshold=100 --auto=no "$work/counts" |
    sed -nE 's/^ *([0-9,]+) \([^)]*\)  [^:]*:(.*)$/\1 \2/p' | sed -E 's/ \[[^]]*\]$//' | awk '{ gsub(",", "", $1); print }'
}

for kind in basic roles; do
  for denied in 0 1; do
    count "$kind" "$few" "$denied" >"$work/few"
    count "$kind" "$many" "$denied" >"$work/many"
    [ "$denied" -eq 1 ] && what="every other one denied" || what="all allowed"
    echo "$kind, $what:"
    awk -v n="$((many - few))" -v most="$most" '
      { name = $2; for (i = 3; i <= NF; i++) name = name " " $i }
      FNR == NR { before[name] += $1; next }
      { after[name] += $1 }
      END {
        for (name in after) { each[name] = (after[name] - before[name]) / n; all += each[name] }
        printf "%8.0f in all\n", all
        while (most-- > 0) {
          best = ""
          for (name in each) if (best == "" || each[name] > each[best]) best = name
          if (best == "" || each[best] < 1) break
          printf "%8.0f  %s\n", each[best], best
          delete each[best]
        } }' "$work/few" "$work/many"
  done
done
