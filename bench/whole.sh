#!/usr/bin/env bash
# Prints how many requests a processor second `enforce` answers over 10, 1,000 and 10,000 rules, for a model of three
# equalities, one with roles, of which there are a tenth as many as rules, one with roles in domains, of which there are as
# many as rules, and one of a REST service (`keyMatch2` and `regexMatch` for a role, which has 20 resources and 4 methods for
# each), the time to load model, policy and program taken out, each as a ratio to the smallest policy: once where ten
# subjects of the policy are asked for by turns, so that only what is done grows, and once where all are, so that what is
# touched lies in farther caches too; what a session of 100,000 edits, each published, takes beside reading its script;
# what reading 200,000 rules takes beside cutting their bytes into fields; and the seconds and the memory of `demo 100000` on one
# thread and with four workers. Usage: bench/whole.sh [REQUESTS]
source "$(dirname "${BASH_SOURCE[0]}")/timing.sh"
most="${1:-300000}"
runs=7
build "$root"
program="$root/crates/casbin_cli/out/casbin_cli"

model "$equalities" >"$work/basic.conf"
model 'g(r.sub, p.sub) && r.obj == p.obj && r.act == p.act' '' $'[role_definition]\ng = _, _\n' >"$work/roles.conf"
model 'g(r.sub, p.sub, r.dom) && r.dom == p.dom && r.obj == p.obj && r.act == p.act' \
  'sub, dom, obj, act' $'[role_definition]\ng = _, _, _\n' >"$work/domains.conf"
model 'g(r.sub, p.sub) && keyMatch2(r.obj, p.obj) && regexMatch(r.act, p.act)' '' $'[role_definition]\ng = _, _\n' >"$work/rest.conf"

# What awk knows of a rule of the REST service with this number.
rest='function role(i) { return int((i - 1) / 80) }
function path(i, id) { return sprintf("/team%05d/resource%02d/%s", role(i), int((i - 1) / 4) % 20, id) }
function method(i) { return substr("GET   POST  PUT   DELETE", (i - 1) % 4 * 6 + 1, 6) }
function word(text) { gsub(" ", "", text); return text }'

# The policy of so many rules.
policy() {
  awk -v kind="$1" -v n="$2" "$rest"' BEGIN {
    for (i = 1; i <= n; i++) {
      if (kind == "rest") printf "p, role%05d, %s, ^%s$\n", role(i), path(i, ":id"), word(method(i))
      if (kind == "rest" && i % 80 == 1) printf "g, user%05d, role%05d\n", role(i), role(i)
      if (kind == "basic") printf "p, user%05d, data%05d, read\n", i, i
      if (kind == "roles") printf "p, role%05d, data%05d, read\ng, user%05d, role%05d\n", i % (n / 10), i, i, i % (n / 10)
      if (kind == "domains") printf "p, role%05d, dom%05d, data%05d, read\ng, user%05d, role%05d, dom%05d\n", i, i, i, i, i, i
    } }' >"$work/policy.csv"
}

# Requests that the last rule allows or none by turns; those that none allows ask for so many subjects, evenly spread.
requests() {
  awk -v kind="$1" -v n="$2" -v subjects="$3" -v q="$most" "$rest"' BEGIN {
    for (i = 0; i < q; i++) {
      act = i % 2 ? "write" : "read"
      at = i % 2 ? ((int(i / 2) * 7919) % subjects + 1) * (n / subjects) : n
      if (kind == "rest") printf "user%05d, %s, %s\n", role(at), path(at, i), i % 2 ? "HEAD" : word(method(at))
      else if (kind == "domains") printf "user%05d, dom%05d, data%05d, %s\n", at, at, at, act
      else printf "user%05d, data%05d, %s\n", at, at, act
    } }' >"$work/input"
}

# The nanoseconds of a request by a model over so many rules, of which so many subjects are asked for.
each() {
  local whole
  requests "$1" "$2" "$3"
  whole="$(took "$work/input" "$program" enforce "$work/$1.conf" "$work/policy.csv")"
  check_answers "$most" "$2"
  echo "$(((whole - load) * 1000000 / most))"
}

for kind in basic roles domains rest; do
  for rules in 10 1000 10000; do
    policy "$kind" "$rules"
    load="$(took "$work/empty" "$program" enforce "$work/$kind.conf" "$work/policy.csv")"
    few="$(each "$kind" "$rules" 10)"
    all="$(each "$kind" "$rules" "$rules")"
    [ "$rules" -gt 10 ] || least="$few"
    awk -v kind="$kind" -v n="$rules" -v few="$few" -v all="$all" -v load="$load" -v least="$least" 'BEGIN {
      least = least > 0 ? least : 1
      printf "%-8s %6d rules  a request %d ns, as a ratio to 10 rules %.2f; with all subjects asked for %d ns, %.2f; loaded in %d ms\n", kind, n, few, few / least, all, all / least, load
    }'
  done
done

: >"$work/policy.csv"
awk 'BEGIN { for (i = 1; i <= 100000; i++) printf "add p, user%05d, data%05d, read\npublish\n", i, i }' >"$work/edits"
awk 'BEGIN { for (i = 1; i <= 100000; i++) printf "sync\nsync\n" }' >"$work/items"
edits="$(took "$work/edits" "$program" session "$work/basic.conf" "$work/policy.csv")"
items="$(took "$work/items" "$program" session "$work/basic.conf" "$work/policy.csv")"
echo "100000 edits, each published: $edits ms, as many items that do nothing: $items ms, ratio $((edits / (items > 0 ? items : 1)))"

awk 'BEGIN { for (i = 1; i <= 200000; i++) printf "p, user%06d, data%06d, read\n", i, i }' >"$work/policy.csv"
load="$(took "$work/empty" "$program" enforce "$work/basic.conf" "$work/policy.csv")"
TIMEFORMAT='%U'
cut="$({ time awk -F', ' '{ n += NF } END { exit n == 0 }' "$work/policy.csv"; } 2>&1 | awk '{ printf "%d", $1 * 1000 }')"
echo "200000 rules loaded in $load ms, cut into fields by awk in $cut ms, ratio $(awk -v load="$load" -v cut="$cut" 'BEGIN { printf "%.1f", load / (cut > 0 ? cut : 1) }')"

python3 - "$program" <<'PYTHON'
import resource, subprocess, sys, time

# The most memory of a child so far is told, so the run that takes less comes first.
wanted = "demo 100000: items 270004, allow 199999, deny 33334, fault 0, true 33334, false 0, version 33334\n"
for workers in (0, 4):
    start = time.monotonic()
    told = subprocess.run([sys.argv[1], "demo", "100000", "--workers", str(workers)], stdout=subprocess.PIPE, text=True, check=True).stdout
    took = time.monotonic() - start
    if told != wanted:
        sys.exit(f"demo 100000 with {workers} workers: {told}")
    most = resource.getrusage(resource.RUSAGE_CHILDREN).ru_maxrss
    print(f"demo 100000 with {workers} workers: {took:.2f} s, at most {most / 1024:.0f} MB", flush=True)
PYTHON
