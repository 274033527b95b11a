"""Runs the program over texts that are mutated at random, and looks for a run that ends as none may.

Usage: random_texts.py PROGRAM WORK SEED FIRST COUNT

The runs are numbered, and each depends on the seed and its number alone, so that one is made again by itself. A run takes the
files of an example, one of its inputs or another's, a command, options, and changes up to eight places of these texts: bytes
that go, come, stand twice or in another place, words of the formats, and parts of other texts. None may end by a signal, run
for ten seconds, print with a status above 0 but what `lint` finds, say that a file, the output or memory failed, end with another
status, or tell another line than its status has.
"""

import collections
import os
import random
import re
import sys

import running
from running import read, write

ROOT = os.path.dirname(os.path.dirname(os.path.abspath(__file__)))

# Words that texts of the formats are made of.
WORDS = [
    b"[request_definition]\n", b"[policy_definition]\n", b"[role_definition]\n", b"[policy_effect]\n", b"[matchers]\n",
    b"r = ", b"p = ", b"g = _, _\n", b"g2 = _, _, _\n", b"e = ", b"m = ", b"priority", b"eft", b"dom",
    b"some(where (p.eft == allow))", b"!some(where (p.eft == deny))", b"priority(p.eft) || deny", b"subjectPriority(p.eft) || deny",
    b"g(r.sub, p.sub)", b"eval(p.sub)", b"keyMatch2(r.obj, p.obj)", b"regexMatch(r.act, p.act)", b"ipMatch(r.sub, p.sub)",
    b"keyGet2(r.obj, p.obj, 'id')", b"globMatch(r.obj, p.obj)", b" in (1, 'a', r.sub)", b" && ", b" || ", b"!", b"-", b"==", b"/",
    b"r.sub.Age", b"9223372036854775807", b"0", b"'", b'"', b'""', b",", b", ", b"#", b"\\\n", b"\r\n", b"\n", b"\r", b"\0", b"\xff",
    b"p, ", b"g, ", b"g2, ", b"*", b"/*", b":id", b"{id}", b"[a-z]", b"(", b")", b"(a*)*", b"\xc3\xa9",
    b"ask ", b"add p, ", b"remove p, ", b"remove-filtered p, 0, ", b"delete-user ", b"delete-role ", b"publish\n", b"sync\n",
    b"begin add-all\n", b"begin add-ex\n", b"begin remove-all\n", b"begin update\n", b"begin update-filtered p, 1, ", b"end\n",
    b"rows p\n", b"has p, ", b"roles g, ", b"users g, ", b"keep 1\n", b"keep 0\n", b"history 1\n",
    b"edit 1\n", b"edit 2\n", b".\n", b"+ p, ", b"- p, ", b"< p, ", b"> p, ", b"[", b"]", b"{", b"}", b'{"a": 1}', b"null", b"1.5",
]

# What the line on `err` begins with, by status; with status 0 it is the line of a cache, or of a stream that is served, or there is
# none. No file, stream or allocation fails here, so that no run has the statuses that say so.
LINES = {2: b"usage: ", 3: b"model: ", 4: b"policy: ", 5: b"script: ", 8: b"too long: "}

FITS = ["keyMatch", "keyMatch2", "keyMatch3", "globMatch"]

# The commands by the inputs of examples.
COMMANDS = {
    "requests.csv": ["enforce", "enforce", "explain"],
    "requests.json": ["enforce", "enforce", "explain"],
    "script.txt": ["session", "session", "ship", "serve"],
    "packets.txt": ["follow", "serve --follow"],
    "none": ["check", "format", "implicit", "report", "lint"],
}


def read_examples():
    """The texts of the examples that have a model: of each this, its policy, and its inputs with their names."""
    examples = []
    for folder in sorted(os.listdir(f"{ROOT}/examples")):
        files = f"{ROOT}/examples/{folder}"
        if os.path.exists(f"{files}/model.conf"):
            inputs = [(name, read(f"{files}/{name}")) for name in sorted(COMMANDS) if os.path.exists(f"{files}/{name}")]
            examples.append((read(f"{files}/model.conf"), read(f"{files}/policy.csv"), inputs or [("none", b"")]))
    return examples


def mutated(chance, text, others):
    """The text with some places changed."""
    for _ in range(chance.randrange(5)):
        at = chance.randrange(len(text) + 1)
        until = min(len(text), at + chance.choice((0, 1, 1, 3, 10, 50)))
        other = chance.choice(others)
        begin = chance.randrange(len(other) + 1)
        part = chance.choice((
            b"",
            text[at:until] * 2,
            bytes([chance.randrange(256)]),
            chance.choice(WORDS),
            chance.choice(WORDS) * chance.choice((2, 40, 300)),
            other[begin : begin + chance.randrange(80)],
            text[:until],
        ))
        text = text[:at] + part + text[until:]
    return text[: chance.randrange(len(text) + 1)] if chance.random() < 0.1 else text


def words_of(chance, name):
    """A command with options, of three runs two with one that reads inputs of this name."""
    command = chance.choice(COMMANDS[name] if chance.random() < 0.67 else sum(COMMANDS.values(), []))
    words = [*command.split(" "), "model.conf", "policy.csv"]
    if command == "implicit":
        words += [chance.choice(("alice", "admin", "", "bob"))] + chance.choice(([], ["acme"]))
    if command not in ("check", "format"):
        words += roles_words(chance)
    if words[0] in ("enforce", "explain", "session", "serve") and chance.random() < (0.8 if name == "requests.json" else 0.1):
        words.append("--json")
    if command == "enforce" and chance.random() < 0.3:
        words += ["--cache", str(chance.choice((1, 2, 10000)))]
    if command == "explain" and chance.random() < 0.3:
        words += ["--most", str(chance.choice((1, 3, 1000)))]
    if command == "session" and chance.random() < 0.3:
        words += ["--workers", str(chance.choice((1, 2, 8)))]
    return words


def roles_words(chance):
    """Options on roles."""
    words = []
    if chance.random() < 0.3:
        words += ["--limit", str(chance.choice((1, 2, 10, 250, 251)))]
    for option in ("--match", "--domain-match"):
        if chance.random() < 0.2:
            words += [option, f"g={chance.choice(FITS)}"]
    return words


def is_linted(status, out):
    """Whether the last line of a lint counts what its status says."""
    counts = re.search(rb"(?:\A|\n)([0-9]+) errors, [0-9]+ warnings\n\Z", out)
    return counts is not None and status in ((0,) if counts[1] == b"0" else (3, 4))


def what_is_wrong(command, status, out, err):
    if status < 0:
        return f"signal {-status}, or no end"
    if command == "lint" and not err:
        return None if is_linted(status, out) else "another text of a lint"
    if status == 0:
        told = rb"serving model\.conf: [0-9]+ rules\n" if command == "serve" else rb"(cache: hits [0-9]+\n)?"
        return None if re.fullmatch(told, err) else "another line on err with status 0"
    if status not in LINES:
        return "another status"
    if not err.startswith(LINES[status]) or err.count(b"\n") != 1 or not err.endswith(b"\n"):
        return "another line on err"
    return "out is not empty" if out else None


def try_some(program, work, seed, numbers):
    """How often the runs of these numbers ended with each status, and those that went wrong."""
    folder = f"{work}/{numbers.start}"
    os.makedirs(folder, exist_ok=True)
    os.chdir(folder)
    examples, statuses, faults = read_examples(), collections.Counter(), []
    others = [text for model, policy, inputs in examples for text in (model, policy, *(text for _, text in inputs))]
    for number in numbers:
        chance = random.Random(f"{seed} {number}")
        model, policy, inputs = chance.choice(examples)
        if chance.random() < 0.2:
            _, _, inputs = chance.choice(examples)
        name, input_text = chance.choice(inputs)
        texts = [model, policy, input_text]
        for at in chance.sample(range(3), chance.choice((1, 1, 2, 3))):
            texts[at] = mutated(chance, texts[at], others)
        for file, text in zip(("model.conf", "policy.csv", "input"), texts):
            write(file, text)
        words = words_of(chance, name)
        status = running.run(program, words, {}, "input", "out", "err")
        statuses[status] += 1
        wrong = what_is_wrong(words[0], status, read("out"), read("err"))
        if wrong:
            faults.append(f"run {number} of seed {seed}: {wrong}: {words}")
    return statuses, faults


def main():
    program, work, seed, first, count = sys.argv[1], sys.argv[2], *map(int, sys.argv[3:6])
    share = max(1, min(1000, count // 8))
    statuses, faults = collections.Counter(), []
    ends = [(at, min(at + share, first + count)) for at in range(first, first + count, share)]
    for found, wrong in running.each((try_some, program, work, seed, range(at, end)) for at, end in ends):
        statuses += found
        faults += wrong
    print(*faults, sep="\n")
    ended = ", ".join(f"{many} with status {status}" for status, many in sorted(statuses.items()))
    print(f"seed {seed}: {sum(statuses.values())} runs: {ended}; {len(faults)} wrong")
    sys.exit(1 if faults else 0)


if __name__ == "__main__":
    main()
