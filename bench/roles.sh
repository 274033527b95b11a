#!/usr/bin/env bash
# Prints what a question to a role relation costs in a domain of 10 roles, in one of 1,000, whose distances are kept, and in one
# of 1,100, which is walked; what adding and removing a user's row costs with 10 roles and with 1,000 standing; what the roles of a
# user cost among 1,000 rows and 200,000, and the users of a role, behind the first question; what a request costs over one rule and
# over 140 that ask about a name with 1,260 roles; and what 200,000 rows of roles take in 1, 100 and 10,000 domains, in time to load
# and in memory, beside as many rules without roles, loaded by turns. Each is a ratio of one run. Usage: bench/roles.sh [QUESTIONS [EDITS]].
source "$(dirname "${BASH_SOURCE[0]}")/timing.sh"
questions="${1:-200000}"
edits="${2:-20000}"
build "$root"
program="$root/crates/casbin_cli/out/casbin_cli"

# The milliseconds of processor time of a command over an input, the least of three runs, and the most memory that it took, in
# KiB.
measure() {
  python3 - "$program" "$@" <<'PYTHON'
import resource, subprocess, sys
program, given, *words = sys.argv[1:]
least = None
for _ in range(3):
    before = resource.getrusage(resource.RUSAGE_CHILDREN)
    with open(given, "rb") as f:
        run = subprocess.run([program, *words], stdin=f, stdout=subprocess.DEVNULL)
    if run.returncode:
        sys.exit(run.returncode)
    after = resource.getrusage(resource.RUSAGE_CHILDREN)
    took = after.ru_utime + after.ru_stime - before.ru_utime - before.ru_stime
    least = took if least is None else min(least, took)
print(int(least * 1000), after.ru_maxrss)
PYTHON
}

# The milliseconds alone, those without input taken out.
only() {
  local input="$1" load whole
  shift
  read -r load _ <<<"$(measure "$work/empty" "$@")"
  read -r whole _ <<<"$(measure "$input" "$@")"
  echo $((whole > load ? whole - load : 1))
}

# The rows of so many roles in one domain, each from the tenth on below another, and of a user of each; `user` has the last one.
tree() {
  awk -v n="$1" 'BEGIN {
    for (i = 10; i < n; i++) printf "g, role%d, role%d, here\n", i, int(i / 10)
    for (i = 0; i < n - 1; i++) printf "g, user%d, role%d, here\n", i, i
    printf "g, user, role%d, here\n", n - 1 }'
}

# Models whose matchers ask one question and no rule.
relation=$'[role_definition]\ng = _, _, _\n'
model 'g(r.sub, "role9", r.dom)' 'sub, dom' "$relation" >"$work/asked.conf"
model 'r.sub == "role1"' 'sub, dom' "$relation" >"$work/compared.conf"
awk -v n="$questions" 'BEGIN { for (i = 0; i < n; i++) print "user, here" }' >"$work/input"

first=""
for roles in 10 1000 1100; do
  tree "$roles" >"$work/policy.csv"
  compared="$(only "$work/input" enforce "$work/compared.conf" "$work/policy.csv")"
  asked="$(only "$work/input" enforce "$work/asked.conf" "$work/policy.csv")"
  took=$((asked > compared ? asked - compared : 1))
  first="${first:-$took}"
  awk -v roles="$roles" -v ms="$took" -v first="$first" -v n="$questions" 'BEGIN {
    printf "a question among %4d roles %7.0f ns  ratio %.2f\n", roles, ms * 1e6 / n, ms / first }'
done

awk -v n="$edits" 'BEGIN { for (i = 0; i < n; i++) print "add g, guest, role3, here\npublish\nremove g, guest, role3, here\npublish" }' >"$work/edits"
first=""
for roles in 10 1000; do
  tree "$roles" >"$work/policy.csv"
  took="$(only "$work/edits" session "$work/asked.conf" "$work/policy.csv")"
  first="${first:-$took}"
  awk -v roles="$roles" -v ms="$took" -v first="$first" -v n="$edits" 'BEGIN {
    printf "a row added and removed among %4d roles, each published %7.1f us  ratio %.2f\n", roles, ms * 1e3 / n, ms / first }'
done

awk -v n="$edits" 'BEGIN { for (i = 0; i < n; i++) print "roles g, user7, here" }' >"$work/queries"
first=""
for rows in 1000 200000; do
  awk -v n="$rows" 'BEGIN { for (i = 0; i < n; i++) printf "g, user%d, role%d, here\n", i, i % 1000 }' >"$work/policy.csv"
  took="$(only "$work/queries" session "$work/asked.conf" "$work/policy.csv")"
  first="${first:-$took}"
  awk -v rows="$rows" -v ms="$took" -v first="$first" -v n="$edits" 'BEGIN {
    printf "the roles of a user among %6d rows %7.0f ns  ratio %.2f\n", rows, ms * 1e6 / n, ms / first }'
done

awk -v n="$edits" 'BEGIN { for (i = 0; i < n; i++) print "users g, role7, here" }' >"$work/queries"
head -n 1 "$work/queries" >"$work/once"
first=""
for rows in 1000 200000; do
  awk -v n="$rows" 'BEGIN { for (i = 0; i < n; i++) printf "g, user%d, role%d, here\n", i, i % (n / 2) }' >"$work/policy.csv"
  read -r once _ <<<"$(measure "$work/once" session "$work/asked.conf" "$work/policy.csv")"
  read -r all _ <<<"$(measure "$work/queries" session "$work/asked.conf" "$work/policy.csv")"
  took=$((all > once ? all - once : 1))
  first="${first:-$took}"
  awk -v rows="$rows" -v ms="$took" -v first="$first" -v n="$edits" 'BEGIN {
    printf "the users of a role among %6d rows %7.0f ns  ratio %.2f\n", rows, ms * 1e6 / n, ms / first }'
done

# Rules that all ask about one name, which reaches nine layers of 140 roles and none of theirs.
model 'g(r.sub, p.sub, r.dom) && r.dom == p.dom' 'sub, dom' "$relation" >"$work/rules.conf"
awk 'BEGIN { for (i = 0; i < 200; i++) print "user, here" }' >"$work/input"
first=""
for rules in 1 140; do
  awk -v n="$rules" 'BEGIN {
    for (i = 0; i < n; i++) printf "p, lost%d, here\n", i
    for (i = 0; i < 140; i++) printf "g, user, role0.%d, here\n", i
    for (l = 0; l < 8; l++) for (i = 0; i < 140; i++) for (j = 0; j < 140; j++) printf "g, role%d.%d, role%d.%d, here\n", l, i, l + 1, j }' >"$work/policy.csv"
  took="$(only "$work/input" enforce "$work/rules.conf" "$work/policy.csv")"
  first="${first:-$took}"
  awk -v rules="$rules" -v ms="$took" -v first="$first" 'BEGIN {
    printf "a request over %3d rules that ask about one name %7.0f us  ratio %.2f\n", rules, ms * 1e3 / 200, ms / first }'
done

# Loads one policy and another by turns: the milliseconds and the KiB of the other, and how many times those of the first, the medians
# of eleven turns, so that a host whose speed changes slows both.
by_turns() {
  python3 - "$program" "$work/asked.conf" "$@" <<'PYTHON'
import resource, statistics, subprocess, sys
program, model, *policies = sys.argv[1:]


# The seconds of processor time that a policy takes to load.
def seconds(policy):
    before = resource.getrusage(resource.RUSAGE_CHILDREN)
    subprocess.run([program, "enforce", model, policy], stdin=subprocess.DEVNULL, stdout=subprocess.DEVNULL, check=True)
    after = resource.getrusage(resource.RUSAGE_CHILDREN)
    return after.ru_utime + after.ru_stime - before.ru_utime - before.ru_stime


# The most memory that any policy loaded so far took, in KiB: the smaller one goes first.
def kib():
    return resource.getrusage(resource.RUSAGE_CHILDREN).ru_maxrss


first, other = policies
seconds(first)
first_kib = kib()
seconds(other)
other_kib = kib()
turns = [(seconds(first), seconds(other)) for _ in range(11)]
took = statistics.median(turn[1] for turn in turns)
ratio = statistics.median(turn[1] / turn[0] for turn in turns)
print(int(took * 1000), other_kib, f"{ratio:.2f} {other_kib / first_kib:.2f}")
PYTHON
}

awk 'BEGIN { for (i = 0; i < 200000; i++) printf "p, user%d, dom%d\n", i, i % 100 }' >"$work/plain.csv"
read -r plain_ms plain_kib <<<"$(measure "$work/empty" enforce "$work/asked.conf" "$work/plain.csv")"
echo "200000 rules without roles load in $plain_ms ms and $((plain_kib / 1024)) MiB"
for domains in 1 100 10000; do
  awk -v d="$domains" 'BEGIN { for (i = 0; i < 200000; i++) printf "g, user%d, role%d, dom%d\n", i, int(i / d) % 1000, i % d }' >"$work/policy.csv"
  read -r ms kib ratio more <<<"$(by_turns "$work/plain.csv" "$work/policy.csv")"
  printf '200000 rows of roles in %5d domains load in %6d ms and %5d MiB, ratios %s and %s, by turns\n' "$domains" "$ms" "$((kib / 1024))" "$ratio" "$more"
done
