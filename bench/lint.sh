#!/usr/bin/env bash
# Prints what `lint` takes in processor time beside `check` of the same files, each as a ratio of one run: over 200,000 rules of three
# fields, over as many that are ranked, with effects, and over as many links of g. Usage: bench/lint.sh [RULES]
source "$(dirname "${BASH_SOURCE[0]}")/timing.sh"
build "$root"
program="$root/crates/casbin_cli/out/casbin_cli"
count="${1:-200000}"

model "$equalities" >"$work/basic.conf"
model "$equalities" | sed -e 's/^p = .*/p = priority, sub, obj, act, eft/' -e 's/^e = .*/e = priority(p.eft) || deny/' >"$work/ranked.conf"
model 'g(r.sub, p.sub) && r.obj == p.obj && r.act == p.act' '' $'[role_definition]\ng = _, _\n' >"$work/roles.conf"

# The policy of so many rules.
policy() {
  awk -v kind="$1" -v n="$count" 'BEGIN {
    for (i = 1; i <= n; i++) {
      if (kind == "basic") printf "p, user%06d, data%06d, read\n", i, i
      if (kind == "ranked") printf "p, %d, user%06d, data%06d, read, %s\n", n - i, i, i, i % 2 ? "allow" : "deny"
      if (kind == "roles") printf "g, user%06d, role%06d\n", i, i % (n / 10)
    } }' >"$work/policy.csv"
}

for kind in basic ranked roles; do
  policy "$kind"
  check="$(took "$work/empty" "$program" check "$work/$kind.conf" "$work/policy.csv")"
  lint="$(took "$work/empty" "$program" lint "$work/$kind.conf" "$work/policy.csv")"
  [ "$(cat "$work/answers")" = "0 errors, 0 warnings" ] || { echo "$kind: $(head -n 3 "$work/answers")" >&2; exit 1; }
  awk -v k="$kind" -v n="$count" -v c="$check" -v l="$lint" 'BEGIN { printf "%d rules, %s: lint %d ms, check %d ms, ratio %.2f\n", n, k, l, c, l / c }'
done
