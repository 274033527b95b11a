"""Which texts a session with workers may print, as docs/SCRIPTS.md says it.

A request shows a version that was out at its round's beginning, or that is published within the round, and is answered by the rules
of that version; within a worker's share versions do not fall; all other lines are those of the session without workers. What a
request is answered at each such version is taken from a session without workers, which asks each request of a round at the round's
beginning and behind each publish in it.
"""

import collections
import re

OPTION = b"--workers"


def workers_of(words):
    """How many workers a session has."""
    if words[:1] != [b"session"]:
        return 0
    for word, behind in zip(words, [*words[1:], b"0"]):
        if word == OPTION:
            return int(behind)
        if word.startswith(OPTION + b"="):
            return int(word.partition(b"=")[2])
    return 0


def words_alone(words):
    """The words of the same session without workers."""
    at = next(at for at, word in enumerate(words) if word.startswith(OPTION))
    return words[:at] + words[at + (2 if words[at] == OPTION else 1) :]


def items_of(script):
    """The items of a script, each with its word and its text."""
    items, block = [], b""
    for line in script.removesuffix(b"\n").split(b"\n"):
        word = line.partition(b" ")[0].strip()
        if not block and (not line.strip(b" \t\r") or line.lstrip(b" \t").startswith(b"#")):
            continue
        block += line + b"\n"
        if not block.startswith(b"begin ") or line.rstrip() == b"end":
            items.append((word, block))
            block = b""
    return items


def rounds_of(items):
    """The rounds of a script: the numbers of their items with their words and texts."""
    rounds = [[]]
    for number, (word, text) in enumerate(items, 1):
        rounds[-1].append((number, word, text))
        if word == b"sync":
            rounds.append([])
    return rounds


def asking_everywhere(rounds):
    """The script of the session without workers, and of which items its items are."""
    script, numbers = [], []
    for items in rounds:
        asks = [(number, text) for number, word, text in items if word == b"ask"]
        placed = list(asks)
        for number, word, text in items:
            if word != b"ask":
                placed.append((number, text))
            if word == b"publish":
                placed += asks
        numbers += [number for number, _ in placed]
        script += [text for _, text in placed]
    return b"".join(script), numbers


def bodies_of(text):
    """What the items of a session's text say behind their numbers."""
    return [item.partition(b" ")[2] for item in re.findall(rb"[0-9]+ .*\n(?:  .*\n)*", text)]


def shares_of(rounds, workers):
    """Of each request the round and the worker whose share it is of."""
    shares = {}
    for which, items in enumerate(rounds):
        asks = [number for number, word, _ in items if word == b"ask"]
        for worker in range(workers):
            size = -(-len(asks) // (workers - worker))
            shares |= {number: (which, worker) for number in asks[:size]}
            asks = asks[size:]
    return shares


def version_of(body):
    """The version that a line shows, if it does."""
    found = re.match(rb"[a-z]+ @([0-9]+)", body)
    return int(found[1]) if found else None


class RoundTexts:
    """The texts of a session with so many workers, by what the session without them printed, whose items are those of these numbers."""

    def __init__(self, rounds, workers, numbers, printed):
        lines = collections.defaultdict(list)
        for number, body in zip(numbers, bodies_of(printed), strict=True):
            lines[number].append((version_of(body), b"%d %b" % (number, body)))
        shares = shares_of(rounds, workers)
        self.items = [(shares.get(number), lines[number]) for number in sorted(lines)]

    def walk(self, out):
        """How many items a text tells as one may, what is left of it, and what may stand there."""
        least = collections.defaultdict(int)
        for told, (share, lines) in enumerate(self.items):
            may_stand = [(version, line) for version, line in lines if share is None or version is None or version >= least[share]]
            found = [(version, line) for version, line in may_stand if out.startswith(line)]
            if not found:
                return told, out, [line for _, line in may_stand]
            version, line = found[0]
            least[share] = max(least[share], version or 0)
            out = out[len(line) :]
        return len(self.items), out, []

    def is_whole(self, out):
        told, rest, _ = self.walk(out)
        return told == len(self.items) and not rest

    def is_of_items(self, out):
        return not self.walk(out)[1]

    def is_written(self, out, _count):
        _, rest, lines = self.walk(out)
        return not rest or any(line.startswith(rest) for line in lines)


def texts_of(script, workers, print_alone):
    """The texts of a session with workers; the call prints what a script's session without them does."""
    rounds = rounds_of(items_of(script))
    alone, numbers = asking_everywhere(rounds)
    return RoundTexts(rounds, workers, numbers, print_alone(alone))
