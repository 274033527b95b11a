"""Runs the built program over each front of a policy, of two scripts, of a model, of an edit and of packets, from the empty one to the
whole text, and compares what it comes to with a plain reading of its own, which goes line by line and is made for these texts alone.

Usage: [PROGRAM=PATH] [JOBS=N] python3 checks/fronts.py

Each front of the policy is printed (`format`), each of a script is done (`session`), and each of the model is shown (`check`). Each
of packets is followed (`follow`), and so is each of an edit, as a packet: its last line is ended, and the line `.` put behind it,
where they are not there. What differs is told with its number of bytes. Outside the gate. PROGRAM is a program that is built
elsewhere, and JOBS how many runs are made at once.
"""

import os
import re
import sys
import tempfile

# What is imported leaves no files beside its source.
sys.dont_write_bytecode = True

import running
from running import read, write

HEAD = "[request_definition]\nr = {r}\n\n[policy_definition]\np = {p}\n\n{g}[policy_effect]\ne = some(where (p.eft == allow))\n\n[matchers]\nm = {m}\n"

TENANTS = HEAD.format(
    r="sub, dom, obj, act",
    p="sub, dom, obj, act",
    g="[role_definition]\ng = _, _, _\n\n",
    m="g(r.sub, p.sub, r.dom) && r.dom == p.dom && keyMatch2(r.obj, p.obj) && regexMatch(r.act, p.act)",
)

TENANTS_POLICY = """\
# rules
p, admin, shop, /*, GET|POST|DELETE
p, editor, shop, /articles/:id, GET|POST
p, viewer, shop, /articles/:id, GET
p, admin, bank, /*, GET|POST|DELETE
p, teller, bank, /accounts/:id, GET|POST
p, viewer, bank, /accounts/:id, GET

# roles, then users
g, admin, editor, shop
g, editor, viewer, shop
g, teller, viewer, bank
g, alice, admin, shop
g, alice, viewer, bank
g, bob, editor, shop
g, carol, viewer, shop
g, dave, admin, bank
g, erin, teller, bank
g, frank, viewer, bank
""" + "".join(f"g, u{number:02}, viewer, shop\n" for number in range(7, 21))

# A session over no rules, whose batch is refused since one of its rules stands.
EQUAL = HEAD.format(r="sub, obj, act", p="sub, obj, act", g="", m="r.sub == p.sub && r.obj == p.obj && r.act == p.act")

BATCH = """\
add p, alice, data1, read
publish
begin add-all
p, alice, data1, read
p, bob, data1, read
end
publish
ask bob, data1, read
"""

# A session over one rule of one column, which is put in the place of another.
NAMES = HEAD.format(r="sub", p="sub", g="", m="r.sub == p.sub")

UPDATE = """\
begin update
p, a
p, b c
end
ask "x"
 # y
sync
"""

MODEL = """\
# every section, with a comment
[request_definition]
r = a

[policy_definition]
p = b

[role_definition]
g = _, _
g2 = _, _, _

[policy_effect]
e = some(where (p.eft == allow))

[matchers]
m = r.a == p.b && g(r.a, 'x') || !(1 + 2 in (3, 4))
"""

# An edit of each change, over the two rules of one column that go and are replaced.
GIVEN = "p, b c\np, d\n"

EDIT = """\
+ p, a
- p, b c
< p, d
> p, e
.
"""

PACKETS = """\
edit 1
+ p, a
.
edit 2
< p, d
> p, e
.
"""

WORDS = ["begin", "add", "ask", "publish", "sync"]


class Fault(Exception):
    """With which status the program ends, and what the line on `err` says; of an edit, 0 and what its answer says."""


def lines_of(text):
    """The lines of a text that count, with their numbers."""
    for number, line in enumerate(text.split("\n"), 1):
        if line.strip(" ") and not line.lstrip(" ").startswith("#"):
            yield number, line


def parts_of(text):
    """The fields of a line without quotes."""
    return [field.strip(" ") for field in text.split(",")]


def printed(fields):
    """Fields without commas and quotes, as a rule of them is printed."""
    return ", ".join(field or '""' for field in fields)


# ---- policies


def plain_policy(text):
    """What is printed of a policy without quotes, in which no rule comes twice."""
    columns, rules = {"p": 4, "g": 3}, {"p": [], "g": []}
    for number, line in lines_of(text):
        table, *fields = parts_of(line)
        if table not in columns:
            raise Fault(4, f"policy: line {number}: unknown table")
        if len(fields) != columns[table]:
            raise Fault(4, f"policy: line {number}: columns")
        rules[table].append(printed([table, *fields]) + "\n")
    return "".join(rules["p"] + rules["g"])


# ---- scripts


class PlainDesk:
    """Does items one after the other over rules of p alone, and keeps the lines that answer them."""

    def __init__(self, columns, rules):
        self.columns, self.drafts, self.rules = columns, rules, rules
        self.version, self.edits, self.lines = 0, 0, []

    def answer(self, text):
        self.lines.append(f"{len(self.lines) + 1} {text}\n")

    def edit(self, rules, may, drafts):
        """Puts drafts in the place of those that stand, if a call may; the rules that it names come first."""
        others = [rule for rule in rules if len(rule) != self.columns]
        if others:
            return self.answer(f"refused: {len(others[0])} columns, {self.columns} wanted")
        if may:
            self.drafts, self.edits = drafts, self.edits + 1
        return self.answer("true" if may else "false")

    def add(self, rules):
        may = rules and all(rule not in self.drafts and rules.count(rule) == 1 for rule in rules)
        self.edit(rules, may, self.drafts + rules)

    def update(self, rules):
        olds, news = rules[::2], rules[1::2]
        may = rules and all(old in self.drafts for old in olds) and all(new not in self.drafts for new in news)
        places = dict(zip(map(tuple, olds), news))
        self.edit(rules, may, [places.get(tuple(rule), rule) for rule in self.drafts])

    def publish(self):
        self.rules, self.version, self.edits = self.drafts, self.version + self.edits, 0
        self.answer(f"published @{self.version}")

    def ask(self, text):
        if text.startswith('"') and not re.fullmatch('"[^"]*"', text):
            return self.answer("refused: quote at 1")
        fields = [field.strip('"') for field in parts_of(text)]
        if len(fields) != self.columns:
            return self.answer(f"refused: {len(fields)} fields, {self.columns} wanted")
        if fields in self.rules:
            return self.answer(f"allow @{self.version} p#{self.rules.index(fields) + 1} {printed(fields)}")
        return self.answer(f"deny @{self.version} -")


def rule_of(number, text):
    table, *fields = parts_of(text)
    if not fields:
        raise Fault(5, f"script: line {number}: fields")
    if table != "p":
        raise Fault(5, f"script: line {number}: table")
    return fields


def items_of(text):
    """The items of a script: each its word, and its arguments or the rules of its block."""
    items, lines = [], list(lines_of(text))
    while lines:
        number, line = lines.pop(0)
        word, _, rest = line.partition(" ")
        rest = rest.strip(" ")
        if word not in WORDS or word == "begin" and rest not in ("add-all", "update"):
            raise Fault(5, f"script: line {number}: word")
        if word in ("publish", "sync") and rest:
            raise Fault(5, f"script: line {number}: fields")
        if word == "add":
            items.append(("add-all", [rule_of(number, rest)]))
        elif word == "begin":
            inside = [at for at, (_, line) in enumerate(lines) if line.rstrip(" ") == "end"]
            if not inside:
                raise Fault(5, f"script: line {number}: open batch")
            items.append((rest, [rule_of(*found) for found in lines[: inside[0]]]))
            lines = lines[inside[0] + 1 :]
        else:
            items.append((word, rest))
    return items


def plain_script(text, columns, rules):
    """What a session over these rules writes; a script that is none is told before any of it is done."""
    desk = PlainDesk(columns, rules)
    for word, rest in items_of(text):
        if word == "add-all":
            desk.add(rest)
        elif word == "update":
            desk.update(rest)
        elif word == "publish":
            desk.publish()
        elif word == "ask":
            desk.ask(rest)
        else:
            desk.answer(f"synced @{desk.version}")
    return "".join(desk.lines)


# ---- models


class Matcher:
    """Reads a matcher that asks for `r.a` and `p.b` and calls `g` alone, from the left, up to its first fault."""

    SIGNS = re.compile(r"[A-Za-z_]\w*(?:\.[A-Za-z_]\w*)*|[0-9]+|'[^']*'?|\|\||&&|==|[+!(),]")

    def __init__(self, text):
        self.text, self.at = text, 0

    def next(self):
        """The token that comes next, or none at the end and before a byte that begins none."""
        while self.text[self.at : self.at + 1] == " ":
            self.at += 1
        found = self.SIGNS.match(self.text, self.at)
        return found[0] if found else ""

    def takes(self, *signs):
        """Whether one of these comes next, which is gone past then."""
        token = self.next()
        if token not in signs:
            return False
        self.at += len(token)
        return True

    def want(self, sign):
        if not self.takes(sign):
            self.fail("unexpected")

    def fail(self, what):
        raise Fault(3, f"model: matcher at {self.at + 1}: {what}")

    def whole(self):
        self.either()
        if self.next() or self.at < len(self.text):
            self.fail("unexpected")

    def either(self):
        self.both()
        while self.takes("||"):
            self.both()

    def both(self):
        self.compared()
        while self.takes("&&"):
            self.compared()

    def compared(self):
        self.sum()
        if self.takes("=="):
            self.sum()
        elif self.takes("in"):
            self.want("(")
            self.list()

    def sum(self):
        self.operand()
        while self.takes("+"):
            self.operand()

    def list(self):
        self.either()
        while self.takes(","):
            self.either()
        self.want(")")

    def operand(self):
        token = self.next()
        if token.startswith("'"):
            if not re.fullmatch("'[^']*'", token):
                self.fail("open text")
            self.at += len(token)
        elif token in ("r.a", "p.b") or token.isdigit():
            self.at += len(token)
        elif self.takes("!"):
            self.operand()
        elif self.takes("("):
            self.either()
            self.want(")")
        elif token == "g" and self.text[self.at + 1 :].lstrip(" ").startswith("("):
            self.at += 1
            self.want("(")
            self.list()
        else:
            self.fail("unexpected")


def plain_model(text):
    """What is shown of a model whose keys have sound values but for the matcher's, which stands last, over no rules."""
    values = {}
    for number, line in lines_of(text):
        if line.startswith("[") and line.endswith("]"):
            continue
        key, sign, value = line.partition("=")
        if not sign:
            raise Fault(3, f"model: line {number}: not a line of a model")
        values[key.strip(" ")] = value.strip(" ")
    for key in "rpem":
        if key not in values:
            raise Fault(3, f"model: missing {key}")
    Matcher(values["m"]).whole()
    shown = HEAD.format(r="a", p="b", g="[role_definition]\ng = _, _\ng2 = _, _, _\n\n", m=values["m"])
    return shown + "\np 0\ng 0\ng2 0\n"


# ---- edits


class Misfit(Exception):
    """A change that the rules do not admit."""


def closed(front):
    """A front of an edit as an edit: its last line is ended, and the line `.` stands behind it."""
    text = front if front.endswith("\n") or not front else front + "\n"
    return text if text.endswith(".\n") else text + ".\n"


def changes_of(lines):
    """The changes of an edit of rules of one column, each the rule that goes and the one that comes; a line that belongs to none is told."""
    changes, old = [], None
    for number, line in enumerate(lines, 1):
        found = re.fullmatch(r"([+<>-]) p, ([a-z]+(?: [a-z]+)*)", line)
        sign, rule = found.groups() if found else ("", "")
        if not found or (sign == ">") != (old is not None):
            raise Fault(0, f"malformed, line {number}")
        if sign == "<":
            old = rule
        elif sign == "-":
            changes.append((rule, None))
        else:
            changes.append((old, rule))
            old = None
    if old is not None:
        raise Fault(0, f"malformed, line {len(lines) + 1}")
    return changes


def changed(rules, changes):
    """The rules behind changes."""
    rules = list(rules)
    for old, new in changes:
        if old is not None and old not in rules or new in rules:
            raise Misfit
        if old is None:
            rules.append(new)
        elif new is None:
            rules.remove(old)
        else:
            rules[rules.index(old)] = new
    return rules


def cut(text):
    """The lines of a text; what stands behind the last LF is one, unless that is nothing."""
    lines = text.split("\n")
    return lines if lines[-1] else lines[:-1]


def packets_of(text):
    """The lines of each packet, of which the numbers rise from 1; the first line that is in the way is told."""
    packets, inside, lines = [], None, cut(text)
    for number, line in enumerate(lines, 1):
        if inside is None and line != f"edit {len(packets) + 1}":
            raise Fault(5, f"script: line {number}: packet")
        if inside is None:
            inside = []
        elif line == ".":
            packets.append(inside)
            inside = None
        else:
            inside.append(line)
    if inside is not None or text and not text.endswith("\n"):
        raise Fault(5, f"script: line {len(lines) + 1}: packet")
    return packets


def plain_packets(text):
    """What a follower of the rules that are given tells of packets that come in their order, and its policy."""
    rules, version, told = [rule.removeprefix("p, ") for rule in GIVEN.splitlines()], 0, []
    for number, lines in enumerate(packets_of(text), 1):
        try:
            rules = changed(rules, changes_of(lines))
            version += 1
            told.append(f"{number} applied @{version}\n")
        except Misfit:
            told.append(f"{number} refused: misfit\n")
        except Fault as fault:
            told.append(f"{number} refused: {fault.args[1]}\n")
    return "".join([*told, f"policy @{version}\n", *(f"p, {rule}\n" for rule in rules)])


# ---- runs

# Of each text: the command, the model and the policy where they are not the text, and its plain reading.
TEXTS = {
    "policy": (TENANTS_POLICY, "format", TENANTS, "", plain_policy),
    "script with a batch": (BATCH, "session", EQUAL, "", lambda text: plain_script(text, 3, [])),
    "script with an update": (UPDATE, "session", NAMES, "p, a\n", lambda text: plain_script(text, 1, [["a"]])),
    "model": (MODEL, "check", "", "", plain_model),
    "edit": (EDIT, "follow", NAMES, GIVEN, plain_packets),
    "packets": (PACKETS, "follow", NAMES, GIVEN, plain_packets),
}


def plain(reading, front):
    """The status, and what `out` and `err` take, by a plain reading."""
    try:
        return 0, reading(front), ""
    except Fault as fault:
        status, line = fault.args
        return status, "", line + "\n"


def differs(program, name, length):
    """How the run of a front differs from its plain reading, if it does. The folder is the run's own."""
    text, command, model, policy, reading = TEXTS[name]
    front = text[:length]
    if name == "edit":
        front = "edit 1\n" + closed(front)
    write("model.conf", (front if command == "check" else model).encode())
    write("policy.csv", (front if command == "format" else policy).encode())
    write("input", (front if command in ("session", "follow") else "").encode())
    status = running.run(program, [command, "model.conf", "policy.csv"], {}, "input", "out", "err")
    came = status, read("out").decode(errors="replace"), read("err").decode(errors="replace")
    wanted = plain(reading, front)
    return None if came == wanted else f"{name}, {length} bytes: {came}\nplainly: {wanted}"


def try_some(program, work, name, lengths):
    """The fronts of these lengths that differ."""
    folder = f"{work}/{name.replace(' ', '-')}-{lengths.start}"
    os.makedirs(folder)
    os.chdir(folder)
    return [found for length in lengths if (found := differs(program, name, length))]


def jobs_of(program, work):
    """All fronts, a hundred a job."""
    for name, (text, *_) in TEXTS.items():
        for first in range(0, len(text) + 1, 100):
            yield try_some, program, work, name, range(first, min(first + 100, len(text) + 1))


def main():
    program = running.built()
    # In memory where there is such a folder: on a disk, rewriting a file may wait for it.
    place = "/dev/shm" if os.path.isdir("/dev/shm") else None
    with tempfile.TemporaryDirectory(dir=place) as work:
        wrong = sum(running.each(jobs_of(program, work)), [])
    print(*wrong, sep="\n", end="\n" if wrong else "")
    print(*(f"{name}: {len(text) + 1} fronts" for name, (text, *_) in TEXTS.items()), f"{len(wrong)} wrong", sep="; ")
    sys.exit(1 if wrong else 0)


if __name__ == "__main__":
    main()
