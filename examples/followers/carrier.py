"""Carries a leader's edits to followers over a stream of Redis, and a whole policy for a follower that begins.

An entry of the stream has the number of its edit, so a follower reads on behind its version, whatever it had read before.
"""
import pathlib
import sys
import tempfile
import threading

sys.path.insert(0, str(pathlib.Path(__file__).resolve().parent.parent / "client"))
from casbin_client import Client

STREAM, BASE = "edits", "base"
TABLES = ["p", "g"]
# How many edits the stream holds.
KEPT = 1000


class TooFarBehind(Exception):
    """The next edit is gone from the stream: the follower has to be opened anew."""


def number_of(entry):
    return int(entry[0].split(b"-")[0])


class Leader(Client):
    """Where the policy is administered."""

    def __init__(self, program, model, policy, store):
        super().__init__(program, model, policy)
        self.store, self.version, self.based = store, 0, None
        self.keep(KEPT)
        self.publish()

    def publish(self):
        self.version = super().publish()
        self.tell()
        return self.version

    def tell(self):
        """Puts into the store what it lacks: edits behind the last that it has, and a policy to begin with."""
        if not self.store.exists(BASE) or self.version - self.based > KEPT // 2:
            policy = "".join(rule + "\n" for table in TABLES for rule in self.rows(table))
            self.store.hset(BASE, mapping={"version": self.version, "policy": policy})
            self.based = self.version
        last = self.store.xrevrange(STREAM, count=1)
        first = max(self.version - KEPT, number_of(last[0]) if last else 0) + 1
        for number in range(first, self.version + 1):
            packet = {"lines": "\n".join(self.edit(number))}
            self.store.xadd(STREAM, packet, id=f"{number}-0", maxlen=KEPT, approximate=False)

    def edit(self, number):
        """The lines of an edit. They are as many as come before the next answer."""
        self.send(f"history {number}", "sync")
        self.process.stdin.flush()
        self.answer()
        lines = []
        while (line := self.process.stdout.readline().decode()).startswith("  "):
            lines.append(line[2:-1])
        return lines


class Follower(Client):
    """A copy of the leader's policy, which answers requests."""

    def __init__(self, program, model, store):
        base = store.hgetall(BASE)
        self.store, self.base, self.lock = store, int(base[b"version"]), threading.Lock()
        with tempfile.NamedTemporaryFile() as policy:
            policy.write(base[b"policy"])
            policy.flush()
            super().__init__(program, model, policy.name, "--follow")
            self.version()

    def ask(self, *lines):
        with self.lock:
            return super().ask(*lines)

    def version(self):
        """The leader's version that it has."""
        return self.base + int(self.ask("sync").removeprefix("synced @"))

    def catch_up(self, wait=None):
        """Takes the edits behind its version; where there is none, it waits so many milliseconds for one, if any are told."""
        version = self.version()
        for _, entries in self.store.xread({STREAM: f"{version}-0"}, count=KEPT, block=wait):
            if number_of(entries[0]) > version + 1:
                raise TooFarBehind()
            for entry in self.carried(entries):
                self.ask(f"edit {number_of(entry) - self.base}", entry[1][b"lines"].decode(), ".")

    def carried(self, entries):
        """What comes of what was sent."""
        return entries
