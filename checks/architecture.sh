#!/usr/bin/env bash
# Compares docs/ARCHITECTURE.md with crates.txt: the groups and their crates in their order, what each crate stands on, and the arrows of the
# two pictures, which are those of crates.txt without the ones that follow from others. Usage: checks/architecture.sh
set -u
cd "$(dirname "${BASH_SOURCE[0]}")/.." || exit 1
exec python3 - crates.txt docs/ARCHITECTURE.md <<'PYTHON'
import re, sys

OUTSIDE_PICTURE = ("cases", "tests")  # groups whose crates are no part of the program
wrong = []


def differ(what, page, wanted):
    for item in [item for item in wanted if item not in page]:
        wrong.append(f"{what}: {item} lacks")
    for item in [item for item in page if item not in wanted]:
        wrong.append(f"{what}: {item} does not belong")
    if sorted(page) == sorted(wanted) and page != wanted:
        wrong.append(f"{what}: another order")


# The groups with their crates, and what each crate stands on.
def read_crates(path):
    groups, below = {}, {}
    for line in open(path).read().splitlines():
        if line.startswith("#"):
            group = groups.setdefault(line[1:].strip(), [])
        elif line:
            name, _, others = line.partition(":")
            name = name.split()[0]
            group.append(name)
            below[name] = others.split()
    return groups, below


# All that is reached from each.
def reached(edges):
    known = {}

    def behind(name):
        if name not in known:
            known[name] = set(edges[name]).union(*(behind(other) for other in edges[name]))
        return known[name]

    return {name: behind(name) for name in edges}


# The arrows that follow from no others.
def arrows(edges):
    far = reached(edges)
    return {
        (name, other)
        for name in edges
        for other in edges[name]
        if not any(other in far[between] for between in edges[name])
    }


groups, below = read_crates(sys.argv[1])
page = open(sys.argv[2]).read()
tables = re.findall(r"^### .*\n\n\| Crate \|.*\n\|.*\n((?:\|.*\n)+)", page, re.M)
rows = [[[cell.strip() for cell in row.strip("|").split(" | ")] for row in table.splitlines()] for table in tables]

if len(rows) != len(groups):
    wrong.append(f"{len(rows)} tables for {len(groups)} groups")
for (group, names), table in zip(groups.items(), rows):
    differ(group, [row[0].strip("`") for row in table], names)
for row in (row for table in rows for row in table):
    name = row[0].strip("`")
    stands = [other for other in re.findall(r"`(\w+)`", row[-1]) if other != "std"]
    differ(name, stands, below.get(name, []))

own = {name: [other for other in others if other in below] for name, others in below.items()}
group_of = {name: group for group, names in groups.items() for name in names}
between = {group: [] for group in groups}
for name, others in own.items():
    between[group_of[name]] += {group_of[other] for other in others} - {group_of[name]}
drawn = {name: others for name, others in own.items() if group_of[name] not in OUTSIDE_PICTURE}
flat = [picture for picture in re.findall(r"```mermaid\nflowchart \w+\n(.*?)```", page, re.S)]
for picture, edges in ((flat[0], between), (flat[-1], drawn)):
    found = re.findall(r"^  (\w+) --> (\w+)$", picture, re.M)
    differ("a picture", sorted(found), sorted(arrows(edges)))

for line in wrong:
    print(line, file=sys.stderr)
if wrong:
    sys.exit("docs/ARCHITECTURE.md and crates.txt are not the same")
print(f"{len(below)} crates in {len(groups)} groups stand in docs/ARCHITECTURE.md as in crates.txt")
PYTHON
