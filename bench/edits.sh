#!/usr/bin/env bash
# Prints what an edit with its publish costs in a session over 1,000 rows and over 200,000, each as a ratio of one run: rules of p
# that are removed and added again, plain and ranked, found by equalities or by key patterns, or all under one key; rules that are
# updated; role rows that are removed and added again among users and roles that stand, in one domain and in as many as there are
# roles, and links among roles that are all linked, whose number grows with the rows, or stays and stands in more domains; calls that take five rows out, by a name, by a filter of one or two columns and
# as a batch, behind the first of their kind, which goes over the rows; and what a row costs of a batch that removes 100 rows and of
# one that removes 10,000, by a filter and as those of one user. With the word `instructions` it counts these in place of time, as
# callgrind does: they are the same however busy the machine is, and tell nothing of how far away memory is. That needs valgrind,
# and takes a quarter of an hour. Usage: bench/edits.sh [EDITS [instructions]].
source "$(dirname "${BASH_SOURCE[0]}")/timing.sh"
build "$root"
python3 - "$root/crates/casbin_cli/out/casbin_cli" "$work" "${1:-2000}" "${2:-}" <<'PYTHON'
import math, re, resource, subprocess, sys

program, work, most, counted = sys.argv[1], sys.argv[2], int(sys.argv[3]), sys.argv[4] == "instructions"
FEW, MANY = 1_000, 200_000
# The links among 45 roles that are all linked.
ISLAND = 990
EQUAL = "r.sub == p.sub && r.obj == p.obj && r.act == p.act"
PLAIN = "e = some(where (p.eft == allow))"


def model(name, matcher, columns="sub, obj, act", policy=None, roles="", effect=PLAIN):
    with open(f"{work}/{name}.conf", "w") as file:
        file.write(f"[request_definition]\nr = {columns}\n[policy_definition]\np = {policy or columns}\n{roles}")
        file.write(f"[policy_effect]\n{effect}\n[matchers]\nm = {matcher}\n")


model("plain", EQUAL)
model("ranked", EQUAL, policy="priority, sub, obj, act, eft", effect="e = priority(p.eft) || deny")
model("keys", "r.sub == p.sub && keyMatch2(r.obj, p.obj) && r.act == p.act")
model("one", "r.act == p.act")
model("linked", "g(r.sub, p.sub) && r.obj == p.obj && r.act == p.act", roles="[role_definition]\ng = _, _\n")
model("roles", "g(r.sub, p.sub) && r.obj == p.obj && r.act == p.act", roles="[role_definition]\ng = _, _\n")
model("islands", "g(r.sub, p.sub, r.dom) && r.dom == p.dom && r.obj == p.obj && r.act == p.act", "sub, dom, obj, act", roles="[role_definition]\ng = _, _, _\n")
model("domains", "g(r.sub, p.sub, r.dom) && r.dom == p.dom && r.obj == p.obj && r.act == p.act", "sub, dom, obj, act", roles="[role_definition]\ng = _, _, _\n")


# The row with this number of so many.
def row(kind, i, n):
    if kind == "ranked":
        return f"p, {i // 10}, user{i:06d}, data{i:06d}, read, allow"
    if kind == "keys":
        return f"p, user{i:06d}, /data{i:06d}/:id, read"
    if kind == "roles":
        return f"g, user{i:06d}, role{i % (n // 100)}"
    if kind == "linked":
        below = (1 + math.isqrt(1 + 8 * i)) // 2
        return f"g, role{below:03d}, role{i - below * (below - 1) // 2:03d}"
    if kind == "domains":
        return f"g, user{i:06d}, role{i % (n // 100)}, dom{i % (n // 100)}"
    if kind == "islands":
        below = (1 + math.isqrt(1 + 8 * (i % ISLAND))) // 2
        return f"g, role{below:03d}, role{i % ISLAND - below * (below - 1) // 2:03d}, dom{i // ISLAND}"
    return f"p, user{i:06d}, data{i:06d}, read"


def policy(kind, n):
    with open(f"{work}/policy.csv", "w") as file:
        file.writelines(row(kind, i, n) + "\n" for i in range(n))


# The millions of instructions of a session over the policy and these lines.
def instructions(kind):
    command = ["valgrind", "--tool=callgrind", f"--callgrind-out-file={work}/counts", program]
    with open(f"{work}/script") as script, open(f"{work}/answers", "w") as answers, open(f"{work}/errors", "w") as errors:
        subprocess.run([*command, "session", f"{work}/{kind}.conf", f"{work}/policy.csv"], stdin=script, stdout=answers, stderr=errors, check=True)
    with open(f"{work}/counts") as counts:
        return int(re.search(r"^(?:summary|totals): (\d+)", counts.read(), re.M).group(1)) / 1e6


# The least seconds of processor time of three sessions over the policy and these lines.
def seconds(kind):
    least = None
    for _ in range(3):
        before = resource.getrusage(resource.RUSAGE_CHILDREN)
        with open(f"{work}/script") as script, open(f"{work}/answers", "w") as answers:
            subprocess.run([program, "session", f"{work}/{kind}.conf", f"{work}/policy.csv"], stdin=script, stdout=answers, check=True)
        after = resource.getrusage(resource.RUSAGE_CHILDREN)
        spent = after.ru_utime + after.ru_stime - before.ru_utime - before.ru_stime
        least = spent if least is None else min(least, spent)
    return least


# What a session over the policy and these lines takes; none of them is refused.
def took(kind, lines):
    with open(f"{work}/script", "w") as file:
        file.writelines(line + "\n" for line in lines)
    spent = instructions(kind) if counted else seconds(kind)
    with open(f"{work}/answers") as answers:
        for answer in answers:
            if "refused" in answer or " false" in answer:
                sys.exit(f"{kind}: {answer}")
    return spent


# A cost as it is printed.
def told(cost):
    return f"{cost * 1e6:.0f} instructions" if counted else f"{cost * 1e6:.1f} us"


# What one of so many edits takes, each published.
def edit_cost(kind, way, n):
    policy(kind, n)
    lines = []
    for k in range(most):
        i = (k * 7919) % n
        if way == "update":
            lines += ["begin update", row(kind, i, n), row(kind, i, n).replace("read", f"write{k}"), "end", "publish"]
            lines += ["begin update", row(kind, i, n).replace("read", f"write{k}"), row(kind, i, n), "end", "publish"]
        else:
            lines += ["remove " + row(kind, i, n), "publish", "add " + row(kind, i, n), "publish"]
    return max(took(kind, lines) - took(kind, []), 1e-9) / (2 * most)


for kind, way, what in [
    ("plain", "remove", "a rule of p removed or added"),
    ("plain", "update", "a rule of p updated"),
    ("ranked", "remove", "a rule of a ranked p removed or added"),
    ("keys", "remove", "a rule found by a key pattern removed or added"),
    ("one", "remove", "a rule of p removed or added where all have one key"),
    ("roles", "remove", "a role row removed or added"),
    ("linked", "remove", "a link among roles that are all linked removed or added"),
    ("domains", "remove", "a role row in one of many domains removed or added"),
    ("islands", "remove", "a link among 45 roles that are all linked, in one of many such domains, removed or added"),
]:
    few, many = edit_cost(kind, way, FEW), edit_cost(kind, way, MANY)
    print(f"{what}, with its publish: over {FEW} rows {told(few)}, over {MANY} {told(many)}, ratio {many / few:.2f}", flush=True)


# The rows of a name, of which there are so many, and each has five.
FIVE = 5


def rows_of_name(kind, name, names):
    if kind == "roles":
        return [f"g, user{name:06d}, role{(name * FIVE + i) % (names // 10)}" for i in range(FIVE)]
    return [f"p, user{name:06d}, data{i}, read" for i in range(FIVE)]


# What a call takes that takes the rows of a name out, with the call that adds them again, each published. The first call of the
# session, which makes what finds rows, is not counted.
def call_cost(kind, call, n):
    names = n // FIVE
    with open(f"{work}/policy.csv", "w") as file:
        file.writelines(row + "\n" for name in range(names) for row in rows_of_name(kind, name, names))

    def lines(name):
        rows = rows_of_name(kind, name, names)
        removal = ["begin remove-all", *rows, "end"] if call == "remove-all" else [call.format(f"user{name:06d}")]
        return [*removal, "publish", "begin add-all", *rows, "end", "publish"]

    first, others = lines(0), [line for k in range(most) for line in lines((k * 7919) % names)]
    return max(took(kind, first + others) - took(kind, first), 1e-9) / most


for kind, call, what in [
    ("roles", "delete-user {}", "a user of five role rows deleted"),
    ("roles", "remove-filtered g, 0, {}", "five role rows removed by a filter"),
    ("plain", "remove-filtered p, 0, {}", "five rules removed by a filter"),
    ("plain", "remove-filtered p, 0, {}, , read", "five rules removed by a filter of two columns"),
    ("plain", "remove-all", "five rules removed as a batch"),
]:
    few, many = call_cost(kind, call, FEW), call_cost(kind, call, MANY)
    print(f"{what} and added again, published: over {FEW} rows {told(few)}, over {MANY} {told(many)}, ratio {many / few:.2f}", flush=True)


# What one of the rows takes that one call removes of 200,000, of which so many are its own.
def batch_cost(call, count):
    kind = "roles" if call.startswith("delete-user") else "plain"
    with open(f"{work}/policy.csv", "w") as file:
        for i in range(MANY):
            mine = i % (MANY // count) == 0
            if kind == "roles":
                file.write(f"g, {'user' if mine else f'user{i}'}, role{i}\n" if mine else f"g, user{i}, role{i % 100}\n")
            else:
                file.write(f"p, {'user' if mine else f'user{i}'}, data{i}, read\n")
    return max(took(kind, [call, "publish"]) - took(kind, ["publish"]), 1e-9) / count


for call, what in [("remove-filtered p, 0, user", "a row that a filter removes"), ("delete-user user", "a role row of a user that is deleted")]:
    few, many = batch_cost(call, 100), batch_cost(call, 10_000)
    print(f"{what} of {MANY}: of 100 {told(few)}, of 10000 {told(many)}, ratio {many / few:.2f}", flush=True)
PYTHON
