"""Runs the built program at those limits whose answers are too long for a case of the gate: at the number, and one above.

- `explain` tells 1,000 rules below a line at most,
- `enforce --cache 10000` keeps 10,000 verdicts, and one more costs the one that was asked longest ago,
- `lint` tells 1,000 errors of a model at most,
- `demo` makes 100,000 users; one more is no command, which is a case of the gate.

What each run has to come to is worked out here from docs/SCRIPTS.md. What differs is told with its first line that does. Outside the
gate; a second or two. PROGRAM is a program that is built elsewhere.

Usage: [PROGRAM=PATH] python3 checks/limits.py
"""

import os
import sys
import tempfile

# What is imported leaves no files beside its source.
sys.dont_write_bytecode = True

import running
from running import read, write

MODEL = """\
[request_definition]
r = sub, obj, act
[policy_definition]
p = sub, obj, act
[policy_effect]
e = some(where (p.eft == allow))
[matchers]
m = r.sub == p.sub && r.obj == p.obj && r.act == p.act
"""

MISSES, VERDICTS, ERRORS, USERS = 1_000, 10_000, 1_000, 100_000


class Run:
    """A run, and what it has to come to: the status, and what `out` and `err` take."""

    def __init__(self, name, words, model=MODEL, policy="", source="", status=0, out="", err=""):
        self.name, self.words, self.wanted = name, words, (status, out, err)
        self.files = {"m.conf": model, "p.csv": policy, "input": source}

    def differs(self, program):
        """How it differs from that, if it does. It runs in the folder where it is called."""
        for name, text in self.files.items():
            write(name, text.encode())
        status = running.run(program, self.words, {}, "input", "out", "err")
        came = status, read("out").decode(errors="replace"), read("err").decode(errors="replace")
        for what, got, wanted in zip(("status", "out", "err"), came, self.wanted):
            if got != wanted:
                return f"{self.name}: {what}: {first_difference(str(got), str(wanted))}"
        return None


def first_difference(got, wanted):
    pairs = zip([*got.split("\n"), None], [*wanted.split("\n"), None])
    number, (line, other) = next((number, pair) for number, pair in enumerate(pairs, 1) if pair[0] != pair[1])
    return f"line {number} is {line!r}, and not {other!r}"


def lines(texts):
    return "".join(text + "\n" for text in texts)


def explained(rules):
    """A request of which so many rules lack the object alone."""
    numbers = range(1, rules + 1)
    told = [f"  p#{at} alice, data{at}, read lacks r.obj == p.obj" for at in numbers]
    return Run(
        f"{rules} rules that nearly fit",
        ["explain", "--most", str(MISSES), "m.conf", "p.csv"],
        policy=lines(f"p, alice, data{at}, read" for at in numbers),
        source="alice, nothing, read\n",
        out=lines(["1 deny @0 -", *told[:MISSES]]),
    )


def cached(requests, hits):
    """So many requests, which are asked twice in one order."""
    asked = lines(f"user{at}, data1, read" for at in range(requests))
    return Run(
        f"{requests} requests twice",
        ["enforce", "--cache", str(VERDICTS), "m.conf", "p.csv"],
        policy="p, alice, data1, read\n",
        source=asked * 2,
        out=lines(f"{number} deny @0 -" for number in range(1, 2 * requests + 1)),
        err=f"cache: hits {hits}\n",
    )


def linted(errors):
    """A model that so many comments of another language follow."""
    first = MODEL.count("\n") + 1
    told = [f"m.conf:{first + at}:1: error: a comment begins with `#`" for at in range(min(errors, ERRORS))]
    return Run(
        f"{errors} lines at fault",
        ["lint", "m.conf", "p.csv"],
        model=MODEL + "// x\n" * errors,
        status=3,
        out=lines([*told, f"{len(told)} errors, 0 warnings"]),
    )


def demonstrated(users, workers):
    """Each user asks; each third one's rule is removed, and each user behind one of those asks beside it; each user asks again."""
    removed = range(0, users, 3)
    published = range(0, users, 30)
    beside = range(1, users, 3)
    items = users + 1 + len(removed) + len(published) + len(beside) + 2 + users
    allowed = users + len(beside) + users - len(removed)
    counts = f"items {items}, allow {allowed}, deny {len(removed)}, fault 0, true {len(removed)}, false 0, version {len(removed)}"
    return Run(f"{users} users, {workers} workers", ["demo", str(users), "--workers", str(workers)], out=f"demo {users}: {counts}\n")


RUNS = [
    explained(MISSES),
    explained(MISSES + 1),
    cached(VERDICTS, VERDICTS),
    cached(VERDICTS + 1, 0),
    linted(ERRORS),
    linted(ERRORS + 1),
    demonstrated(USERS, 0),
    demonstrated(USERS, 8),
]


def main():
    program = running.built()
    with tempfile.TemporaryDirectory() as work:
        os.chdir(work)
        wrong = [found for run in RUNS if (found := run.differs(program))]
    print(*wrong, sep="\n", end="\n" if wrong else "")
    print(f"{len(RUNS)} runs, {len(wrong)} wrong")
    sys.exit(1 if wrong else 0)


if __name__ == "__main__":
    main()
