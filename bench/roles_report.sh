#!/usr/bin/env bash
# Prints what `report`, and `implicit` for one name, cost over 200,000 rows of roles of 10,000 users and 1,000 roles, each as a
# ratio to loading them by `enforce` without requests: once where no role is below another, and once where each role from the
# tenth on is below one of a tenth of its number. Each is a ratio of one run. Usage: bench/roles_report.sh [USERS [ROLES [ROWS]]].
source "$(dirname "${BASH_SOURCE[0]}")/timing.sh"
users="${1:-10000}"
roles="${2:-1000}"
rows="${3:-200000}"
runs=5
build "$root"
program="$root/crates/casbin_cli/out/casbin_cli"
model 'g(r.sub, p.sub) && r.obj == p.obj && r.act == p.act' '' $'[role_definition]\ng = _, _\n' >"$work/roles.conf"

# So many rows: those of roles from the first that has one above on, and then those of users, to each as many as to another.
policy() {
  awk -v users="$users" -v roles="$roles" -v rows="$rows" -v first="$1" 'BEGIN {
    for (i = first; i < roles; i++) { printf "g, role%04d, role%04d\n", i, int(i / 10); rows-- }
    for (i = 0; i < rows; i++) printf "g, user%05d, role%04d\n", i % users, (int(i / users) * 47 + i % users) % roles }' >"$work/policy.csv"
}

# The line of what a command takes beside loading.
beside_loading() {
  local name="$1" ms
  shift
  ms="$(took "$work/empty" "$program" "$@")"
  awk -v name="$name" -v ms="$ms" -v load="$load" -v bytes="$(wc -c <"$work/answers")" 'BEGIN {
    printf "  %-28s %6d ms, %8d bytes, ratio to loading %.2f\n", name, ms, bytes, ms / (load > 0 ? load : 1) }'
}

for first in "$roles" 10; do
  policy "$first"
  load="$(took "$work/empty" "$program" enforce "$work/roles.conf" "$work/policy.csv")"
  echo "$(wc -l <"$work/policy.csv") rows of roles, $((roles - first)) of them of roles below roles, load in $load ms"
  beside_loading 'check' check "$work/roles.conf" "$work/policy.csv"
  beside_loading 'report' report "$work/roles.conf" "$work/policy.csv"
  beside_loading 'implicit of a user' implicit "$work/roles.conf" "$work/policy.csv" user00007
  beside_loading 'implicit of a role' implicit "$work/roles.conf" "$work/policy.csv" role0003
done
