"""Refuses each allocation of a run in turn where a publish that is refused is made once more: the tests that publish at a desk, and
of a pair beside a seat.

Usage: again.py OBJECT WORK, OBJECT being built of refuse.c

Each run has to end as the one in which nothing is refused, or for want of memory of its own: the test's `error: NoMemory`. What
is published twice, or not at all, fails the test.
"""

import collections
import os
import subprocess
import sys

ROOT = os.path.dirname(os.path.dirname(os.path.abspath(__file__)))
TESTS = f"{ROOT}/crates/live_tests/out/live_tests_tests"

PATIENCE = 60


def build():
    """Builds the tests, where they are not built."""
    if not os.path.exists(TESTS):
        folder = os.path.dirname(os.path.dirname(TESTS))
        subprocess.run(["rt", "test"], cwd=folder, stdin=subprocess.DEVNULL, stdout=subprocess.DEVNULL, check=False)


def run(words, shim, **refused):
    environment = {"LD_PRELOAD": shim} | {f"REFUSE_{key.upper()}": str(value) for key, value in refused.items()}
    try:
        ran = subprocess.run(words, env=environment, stdin=subprocess.DEVNULL, capture_output=True, timeout=PATIENCE)
    except subprocess.TimeoutExpired:
        return "it hangs", b"", b""
    return ran.returncode, ran.stdout, ran.stderr


def refuse_each(name, words, shim, work):
    """Refuses each allocation in turn, prints how the runs ended, and says whether one went wrong."""
    log = f"{work}/again.log"
    plain = run(words, shim, log=log)
    if plain[0] != 0:
        print(f"{name}: the plain run ended with {plain[0]}: {plain[2].decode(errors='replace')}")
        return True
    with open(log, "rb") as file:
        count = int(file.read().split()[-1])
    ended, faults = collections.Counter(), 0
    for at in range(1, count + 1):
        status, out, err = run(words, shim, call="alloc", at=at, how="fail")
        if (status, out) == plain[:2]:
            ended["the same"] += 1
        elif b"error: NoMemory" in err and plain[1].startswith(out):
            ended["out of memory of its own"] += 1
        else:
            faults += 1
            print(f"{name}: allocation {at} refused: {status}, {out[-200:]}, {err[-500:]}")
    print(f"{name}: {count} runs: " + ", ".join(f"{many} {how}" for how, many in ended.items()) + f"; {faults} wrong")
    return faults > 0 or ended["the same"] == 0


def tests_of(program):
    listed = subprocess.run([program, "--list"], capture_output=True, text=True, check=True).stdout
    return [line.rsplit(": ", 1)[0] for line in listed.splitlines() if "refused_publish" in line]


def main():
    shim, work = sys.argv[1:]
    build()
    tests = tests_of(TESTS)
    failed = not tests
    for test in tests:
        failed |= refuse_each(test, [TESTS, test], shim, work)
    sys.exit(1 if failed else 0)


if __name__ == "__main__":
    main()
