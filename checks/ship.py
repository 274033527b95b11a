"""Sends the packets of a leader's random history to followers, lost, repeated and in any order, and compares their policies with its own.

A script of calls, batches and publishes made at random is done by `session`, which tells the leader's rules behind some publishes, and by
`ship`, which writes its edits as packets. These make the leader's rules of each version here, line by line. Of the packets those that are on
their way come in any order, one of eight is lost, and others come again; the same packets go to `serve --follow`, which tells its rules now
and then, and to `follow`. It fails where the rules of a version are not the leader's, in their order, where a packet is answered otherwise
than docs/FOLLOWERS.md says, and where `follow` writes another policy than `format` of the leader's. Outside the gate. The program must be
built: it runs ./casbin_cli prove; PROGRAM is a program that is built elsewhere.

Usage: [PROGRAM=PATH] python3 checks/ship.py [CALLS [SEED]]
"""

import os
import random
import re
import subprocess
import sys
import tempfile

ROOT = os.path.dirname(os.path.dirname(os.path.abspath(__file__)))
MODEL = "examples/followers/model.conf"
POLICY = "examples/followers/policy.csv"

# How many packets are on their way at once, and by how much a number may be above a follower's version.
ON_THE_WAY, MOST_AHEAD = 64, 1024
# After how many packets a follower tells its rules.
TOLD = 100


def run(program, words, text=""):
    """What a run of the program prints."""
    ran = subprocess.run([program, *words], input=text, capture_output=True, text=True)
    if ran.returncode != 0:
        sys.exit(f"{words}: status {ran.returncode}, {ran.stderr}")
    return ran.stdout


def compare(what, got, wanted):
    """Ends where two texts differ, with their first lines that do."""
    if got == wanted:
        return
    lines = zip([*got.split("\n"), None], [*wanted.split("\n"), None])
    number, (other, line) = next((number, pair) for number, pair in enumerate(lines, 1) if pair[0] != pair[1])
    sys.exit(f"{what}, line {number}: {other!r}, and not {line!r}")


def random_rules(chance, count):
    """Rules of p or of g, with their table."""
    if chance.random() < 0.25:
        return [f"g, user{chance.randrange(12)}, role{chance.randrange(6)}\n" for _ in range(count)]
    return [f'p, user{chance.randrange(12)}, "data, {chance.randrange(10)}", read\n' for _ in range(count)]


def random_item(chance):
    """A call or a batch, of which not each changes something."""
    kind = chance.random()
    if kind < 0.8:
        return chance.choice(("add ", "remove ")) + random_rules(chance, 1)[0]
    if kind < 0.82:
        return f"delete-user user{chance.randrange(12)}\n"
    batch = chance.choice(("add-all", "add-ex", "remove-all", "update"))
    return f"begin {batch}\n{''.join(random_rules(chance, 2))}end\n"


def random_script(chance, calls):
    """The items of a leader, at the end a publish."""
    items = []
    for _ in range(calls):
        items.append(random_item(chance))
        if chance.random() < 0.2:
            items.append("publish\n")
    return [*items, "publish\n"]


def told(lines):
    """Rules as a query tells them."""
    return "".join(f"  {line}\n" for line in lines)


def changed(tables, packet):
    """The rules of p and of g behind a packet."""
    tables = {table: list(lines) for table, lines in tables.items()}
    place = 0
    for line in packet.splitlines()[1:-1]:
        sign, rule = line[0], line[2:]
        lines = tables[rule[0]]
        if sign == "+":
            lines.append(rule)
        elif sign == "-":
            lines.remove(rule)
        elif sign == "<":
            place = lines.index(rule)
        else:
            lines[place] = rule
    return tables


def lead(program, chance, calls):
    """The packets of a leader, and its rules of each version, which are those that it tells."""
    items = random_script(chance, calls)
    shipped = run(program, ["ship", MODEL, POLICY], "".join(items))
    packets = re.findall(r"edit .*\n(?:[-+<>] .*\n)*\.\n", shipped)
    compare("packets", "".join(packets), shipped)
    lines = run(program, ["format", MODEL, POLICY]).splitlines()
    versions = [{table: [line for line in lines if line[0] == table] for table in ("p", "g")}]
    for number, packet in enumerate(packets, 1):
        compare(f"packet {number}", packet.split("\n")[0], f"edit {number}")
        versions.append(changed(versions[-1], packet))
    asking = [item + "rows p\nrows g\n" if item == "publish\n" and chance.random() < 0.1 else item for item in items[:-1]]
    text = run(program, ["session", MODEL, POLICY], "".join([*asking, items[-1], "rows p\nrows g\n"]))
    answers = re.findall(r"^\d+ rows @(\d+) \d+:\n((?:  .*\n)*)", text, re.MULTILINE)
    for table, version, rows in zip("pg" * len(answers), *zip(*answers)):
        compare(f"{table} of the leader at {version}", rows, told(versions[int(version)][table]))
    compare("the leader's last version", answers[-1][0], str(len(packets)))
    return packets, versions


class Follower:
    """What docs/FOLLOWERS.md says of the versions of a follower, whose packets are all the leader's."""

    def __init__(self):
        self.version, self.waiting = 0, set()

    def take(self, number):
        """The answer to a packet."""
        if number <= self.version or number in self.waiting:
            return "repeated"
        if number > self.version + MOST_AHEAD:
            return f"refused: too far, version {self.version}"
        self.waiting.add(number)
        if number > self.version + 1:
            return "waiting"
        while self.version + 1 in self.waiting:
            self.version += 1
            self.waiting.remove(self.version)
        return f"applied @{self.version}"


class Way:
    """The packets that are sent and did not come yet."""

    def __init__(self, chance, last):
        self.chance, self.last = chance, last
        self.numbers, self.next = [], 1

    def came(self, version):
        """The number of the packet that comes, or none where it is lost: of eight one that the follower lacks, one that it may have, and
        six of those on the way; now and then one from far ahead."""
        kind = self.chance.randrange(8)
        if self.chance.random() < 0.01:
            number = version + self.chance.randrange(MOST_AHEAD - 5, MOST_AHEAD + 5)
        elif kind == 0:
            number = version + 1
        elif kind == 1:
            number = self.chance.randrange(version + 1)
        else:
            while len(self.numbers) < ON_THE_WAY:
                self.numbers.append(self.next)
                self.next += 1
            number = self.numbers.pop(self.chance.randrange(ON_THE_WAY))
            if self.chance.randrange(8) == 0:
                return None
        return min(max(number, 1), self.last)


def send(chance, packets, versions):
    """The packets that come until the last edit is applied, the answer to each, and a stream of them with the rules now and then, and what it is
    answered."""
    follower, way = Follower(), Way(chance, len(packets))
    sent, answers, stream, lines = [], [], [], []
    while follower.version < len(packets):
        number = way.came(follower.version)
        if number is None:
            continue
        sent.append(packets[number - 1])
        answers.append(follower.take(number))
        stream.append(sent[-1])
        lines.append(answers[-1] + "\n")
        if len(sent) % TOLD == 0:
            for table, rules in versions[follower.version].items():
                stream.append(f"rows {table}\n")
                lines.append(f"rows @{follower.version} {len(rules)}:\n{told(rules)}")
    return sent, answers, stream, lines


def numbered(lines):
    """Lines with their numbers in front."""
    return "".join(f"{number} {line}" for number, line in enumerate(lines, 1))


def main():
    calls = int(sys.argv[1]) if len(sys.argv) > 1 else 50_000
    seed = int(sys.argv[2]) if len(sys.argv) > 2 else 1
    program = os.path.abspath(os.environ.get("PROGRAM", f"{ROOT}/crates/casbin_cli/out/casbin_cli"))
    os.chdir(ROOT)
    if "PROGRAM" not in os.environ:
        run("./casbin_cli", ["prove"])
    chance = random.Random(seed)
    packets, versions = lead(program, chance, calls)
    sent, answers, stream, lines = send(chance, packets, versions)
    compare("serve --follow", run(program, ["serve", "--follow", MODEL, POLICY], "".join(stream)), numbered(lines))
    policy = "".join(f"{line}\n" for rules in versions[-1].values() for line in rules)
    wanted = numbered(f"{answer}\n" for answer in answers) + f"policy @{len(packets)}\n{policy}"
    compare("follow", run(program, ["follow", MODEL, POLICY], "".join(sent)), wanted)
    with tempfile.NamedTemporaryFile("w") as file:
        file.write(policy)
        file.flush()
        compare("format", run(program, ["format", MODEL, file.name]), policy)
    kinds = {word: sum(answer.startswith(word) for answer in answers) for word in ("applied", "waiting", "repeated", "refused")}
    print(f"{len(packets)} edits, {len(sent)} packets: " + ", ".join(f"{many} {word}" for word, many in kinds.items()) + "; all as the leader's")


if __name__ == "__main__":
    main()
