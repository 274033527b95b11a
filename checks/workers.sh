#!/usr/bin/env bash
# Runs sessions with workers over scripts made at random, for ten minutes, and checks each line against what docs/SCRIPTS.md allows,
# by a program of its own: a verdict is that of the rules of a version that was published whole and is one of its round, with the rule
# that decided; within a worker's share versions do not fall; all other lines are those of one thread. Each script has another seed, and
# rounds of another length. It also says how many verdicts show a version that was published beside them: these
# tell that workers and the administrator ran side by side. Outside the gate. CASBIN_CLI names another program than the repository's.
# Usage: checks/workers.sh [MINUTES [WORKERS]]
set -euo pipefail
cd "$(dirname "${BASH_SOURCE[0]}")/.."
work="$(mktemp -d)"
trap 'rm -rf "$work"' EXIT
[ -n "${CASBIN_CLI:-}" ] || ./casbin_cli prove
python3 - "${CASBIN_CLI:-crates/casbin_cli/out/casbin_cli}" "$work" "${1:-10}" "${2:-8}" <<'PYTHON'
import random, subprocess, sys, time

program, work, minutes, workers = sys.argv[1], sys.argv[2], float(sys.argv[3]), int(sys.argv[4])
ITEMS = 20_000
MODEL = """[request_definition]
r = sub, obj, act
[policy_definition]
p = sub, obj, act
[role_definition]
g = _, _
[policy_effect]
e = some(where (p.eft == allow))
[matchers]
m = g(r.sub, p.sub) && r.obj == p.obj && r.act == p.act
"""


# A script: users ask, and rules for users or roles, and the roles of users, come and go.
def script(dice, round_length):
    def rule():
        subject = f"user{dice.randrange(6)}" if dice.random() < 0.5 else f"role{dice.randrange(3)}"
        return f"{subject}, data{dice.randrange(3)}, read"

    def member():
        return f"user{dice.randrange(6)}, role{dice.randrange(3)}"

    def ask():
        if dice.random() < 0.01:
            return "ask user1, data1"
        return f"ask user{dice.randrange(6)}, data{dice.randrange(3)}, read"

    kinds = [
        (0.60, ask),
        (0.10, lambda: f"add p, {rule()}"),
        (0.07, lambda: f"remove p, {rule()}"),
        (0.04, lambda: f"add g, {member()}"),
        (0.04, lambda: f"remove g, {member()}"),
        (0.02, lambda: f"remove-filtered p, 1, data{dice.randrange(3)}"),
        (0.02, lambda: f"has p, {rule()}"),
        (0.01, lambda: "rows p"),
        (0.10, lambda: "publish"),
    ]
    makers, shares = [make for _, make in kinds], [share for share, _ in kinds]
    return ["sync" if dice.random() < 1 / round_length else dice.choices(makers, shares)[0]() for _ in range(ITEMS)]


# The rows of both tables after each edit, and the verdicts over them.
class Versions:
    def __init__(self):
        self.tables = {"p": (), "g": ()}
        self.edits = [self.tables]

    # Whether a table changed.
    def put(self, table, rows):
        changed = rows != self.tables[table]
        if changed:
            self.tables = {**self.tables, table: rows}
            self.edits.append(self.tables)
        return changed

    def verdict(self, version, request):
        tables = self.edits[version]
        user, thing, act = request.split(", ")
        for place, row in enumerate(tables["p"], 1):
            subject, held, done = row.split(", ")
            if (held, done) == (thing, act) and (subject == user or f"{user}, {subject}" in tables["g"]):
                return f"allow @{version} p#{place} {row}"
        return f"deny @{version} -"


# What a call, a query or a publish is answered.
def reply(versions, out, item):
    word, _, rest = item.partition(" ")
    table, _, rule = rest.partition(", ")
    if word in ("add", "remove"):
        rows = versions.tables[table]
        stands = rule in rows
        if stands == (word == "add"):
            return "false"
        versions.put(table, rows + (rule,) if word == "add" else tuple(row for row in rows if row != rule))
        return "true"
    if word == "remove-filtered":
        thing = rule.split(", ")[1]
        kept = tuple(row for row in versions.tables["p"] if row.split(", ")[1] != thing)
        return "true" if versions.put("p", kept) else "false"
    published = versions.edits[out][table]
    if word == "has":
        return f"has @{out} {'true' if rule in published else 'false'}"
    return f"rows @{out} {len(published)}:" + "".join(f"\n  p, {row}" for row in published)


class Wrong(Exception):
    pass


# Checks the requests of a round, and counts the verdicts at a version that was published within it.
def check_round(versions, asks, start, cuts):
    beside, at = 0, 0
    for worker in range(workers):
        size = (len(asks) - at + workers - worker - 1) // (workers - worker)
        least = 0
        for number, request, line in asks[at : at + size]:
            if request is None:
                if line != f"{number} refused: 2 fields, 3 wanted":
                    raise Wrong(f"item {number}: {line}")
                continue
            version = int(line.split(" ")[2].removeprefix("@"))
            if version not in cuts:
                raise Wrong(f"item {number} shows a version that is none of its round: {line}")
            if version < least:
                raise Wrong(f"item {number} shows a version behind {least}: {line}")
            wanted = f"{number} {versions.verdict(version, request)}"
            if line != wanted:
                raise Wrong(f"wanted {wanted}, got {line}")
            least = version
            beside += version != start
        at += size
    return beside


# Checks the lines of a script, and counts verdicts and those at a version that was published within their round.
def check(items, text):
    lines = text.split("\n")
    versions, out, start, cuts, asks = Versions(), 0, 0, {0}, []
    judged = beside = at = 0
    for number, item in enumerate(items, 1):
        if item.startswith("ask "):
            request = item.removeprefix("ask ")
            asks.append((number, request if request.count(",") == 2 else None, lines[at]))
            at += 1
            continue
        if item == "publish":
            out = len(versions.edits) - 1
            cuts.add(out)
            wanted = f"{number} published @{out}"
        elif item == "sync":
            wanted = f"{number} synced @{out}"
        else:
            wanted = f"{number} {reply(versions, out, item)}"
        for line in wanted.split("\n"):
            if lines[at] != line:
                raise Wrong(f"item {number}: wanted {line}, got {lines[at]}")
            at += 1
        if item == "sync":
            judged += len(asks)
            beside += check_round(versions, asks, start, cuts)
            start, cuts, asks = out, {out}, []
    judged += len(asks)
    beside += check_round(versions, asks, start, cuts)
    if lines[at:] != [""]:
        raise Wrong(f"{len(lines) - at - 1} lines too many")
    return judged, beside


with open(f"{work}/model.conf", "w") as file:
    file.write(MODEL)
open(f"{work}/policy.csv", "w").close()
ends = time.monotonic() + minutes * 60
sessions = judged = beside = 0
while sessions == 0 or time.monotonic() < ends:
    sessions += 1
    dice = random.Random(sessions)
    items = script(dice, (20, 200, 2000, 20000)[sessions % 4])
    words = [program, "session", f"{work}/model.conf", f"{work}/policy.csv", "--workers", str(workers)]
    run = subprocess.run(words, input="\n".join(items) + "\n", capture_output=True, text=True)
    try:
        if run.returncode != 0:
            raise Wrong(f"status {run.returncode}, {run.stderr}")
        more, others = check(items, run.stdout)
    except (Wrong, IndexError, ValueError) as wrong:
        sys.exit(f"seed {sessions}: {wrong}")
    judged, beside = judged + more, beside + others
print(f"{sessions} sessions of {ITEMS} items with {workers} workers: all {judged} requests and all other lines are answered as is allowed,")
print(f"{beside} requests at a version that was published within their round")
PYTHON
