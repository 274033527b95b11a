#!/usr/bin/env bash
# Prints what a request over 1,000 rules costs whose condition of ten comparisons stands in a column that the matcher reads by `eval`,
# beside the same ten comparisons in the matcher, as ratios of one run: where all rules have one text; where they have 200 texts, which
# are all kept; and where each has a text of its own, so that none is still kept when it is read again. The first nine comparisons are
# true and the last is false, so all ten are made for each rule, no rule ends the request, and no index leaves one out. Each time is the
# least of three runs, and that of a run without input is taken out. PROGRAM is a program that is built elsewhere.
# Usage: [PROGRAM=PATH] bench/rules.sh [REQUESTS], how many; over texts that are not kept a twentieth of them.
source "$(dirname "${BASH_SOURCE[0]}")/timing.sh"
[ -n "${PROGRAM:-}" ] || build "$root"
program="$(realpath "${PROGRAM:-$root/crates/casbin_cli/out/casbin_cli}")"
most="${1:-2000}"
rules=1000

# The ten comparisons; by the number in the second one a text is told from another.
condition="r.sub != p.name && r.obj != 'other%04d' && r.obj != 'b' && r.obj != 'c' && r.obj != 'd'"
condition+=" && r.act != 'e' && r.act != 'f' && r.act != 'g' && r.act != 'h' && r.act == 'none'"

# The text of a model with this matcher.
ruled() {
  printf '[request_definition]\nr = sub, obj, act\n[policy_definition]\np = name, rule\n'
  printf '[policy_effect]\ne = some(where (p.eft == allow))\n[matchers]\nm = %s\n' "$1"
}

# The microseconds of a request by a model over a policy, of so many requests, each of which has to be denied.
cost() {
  local idle whole command=("$program" enforce "$work/$1" "$work/$2")
  awk -v q="$3" 'BEGIN { for (i = 0; i < q; i++) print "alice, data, read" }' >"$work/input"
  idle="$(took "$work/empty" "${command[@]}")"
  whole="$(took "$work/input" "${command[@]}")"
  [ "$(grep -c ' deny @0 -$' "$work/answers")" -eq "$3" ] || { echo "$1 over $2: some request is not denied" >&2; exit 1; }
  awk -v ms="$((whole - idle))" -v q="$3" 'BEGIN { printf "%.2f", (ms > 0 ? ms : 1) * 1000 / q }'
}

ruled "$(printf "$condition" 0)" >"$work/written.conf"
ruled 'eval(p.rule)' >"$work/held.conf"
for texts in 1 200 1000; do
  awk -v n="$rules" -v texts="$texts" -v rule="$condition" 'BEGIN { for (i = 0; i < n; i++) printf "p, user%04d, " rule "\n", i, i % texts }' >"$work/$texts.csv"
done
written="$(cost written.conf 1.csv "$most")"
for texts in 1 200 1000; do
  requests=$((texts > 256 ? (most + 19) / 20 : most))
  held="$(cost held.conf "$texts.csv" "$requests")"
  awk -v texts="$texts" -v n="$rules" -v held="$held" -v written="$written" 'BEGIN {
    printf "%4d texts%s: a row %.0f ns, with the condition in the matcher %.0f ns, ratio %.1f\n", texts, (texts > 256 ? ", none of them kept" : ""), held * 1000 / n, written * 1000 / n, held / written
  }'
done
