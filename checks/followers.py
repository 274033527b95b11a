"""What checks/followers.sh runs."""
import os
import random
import subprocess
import sys
import tempfile
import time

# The programs say on standard error what they serve; of that only what goes wrong here is wanted.
sys.stderr = os.fdopen(os.dup(2), "w")
os.dup2(os.open(os.devnull, os.O_WRONLY), 2)

sys.path.insert(0, "examples/followers")
import redis
from carrier import KEPT, TABLES, Follower, Leader, TooFarBehind

MODEL = "examples/followers/model.conf"
POLICY = "examples/followers/policy.csv"
# Within so many seconds an edit has to be everywhere.
LONGEST = 1.0

program, count, seed = sys.argv[1], int(sys.argv[2]), int(sys.argv[3])
chance = random.Random(seed)


class Lossy(Follower):
    """A follower whose packets are lost, come twice, and come in another order."""

    def carried(self, entries):
        sent = [entry for entry in entries for _ in range(chance.choice([0, 1, 1, 2]))]
        for at in range(len(sent) - 1):
            if chance.random() < 0.3:
                other = min(at + chance.randrange(20), len(sent) - 1)
                sent[at], sent[other] = sent[other], sent[at]
        return sent


class Store:
    """A Redis of its own, which keeps nothing when it ends."""

    def __init__(self, folder):
        self.folder, self.path = folder, os.path.join(folder, "socket")
        self.start()

    def start(self):
        words = ["redis-server", "--port", "0", "--unixsocket", self.path, "--save", "", "--appendonly", "no", "--dir", self.folder]
        self.process = subprocess.Popen(words, stdout=subprocess.DEVNULL)
        self.client = redis.Redis(unix_socket_path=self.path)
        for _ in range(200):
            try:
                if self.client.ping():
                    return
            except redis.ConnectionError:
                time.sleep(0.05)
        sys.exit("no Redis")

    def kill(self):
        self.process.kill()
        self.process.wait()


def check(what, got, wanted):
    if got != wanted:
        sys.exit(f"{what}: {got!r}, and not {wanted!r}")


class Run:
    def __init__(self, store):
        self.store = store
        self.leader = Leader(program, MODEL, POLICY, store.client)
        with open(POLICY) as policy:
            self.rules = set(policy.read().splitlines())
        # The rules of each version that is published, and of those that are pending.
        self.versions = [frozenset(self.rules)]
        self.followers = [Lossy(program, MODEL, store.client) for _ in range(3)]
        self.anew = 0

    def edit(self):
        """An edit of the leader's, and now and then a publish."""
        name, role, thing = f"user{chance.randrange(20)}", f"role{chance.randrange(5)}", f"data{chance.randrange(5)}"
        rule = ["g", name, role] if chance.random() < 0.5 else ["p", role, thing, "read"]
        line = ", ".join(rule)
        if line in self.rules:
            check(f"remove {line}", self.leader.remove(*rule), True)
            self.rules.remove(line)
        else:
            check(f"add {line}", self.leader.add(*rule), True)
            self.rules.add(line)
        self.versions.append(frozenset(self.rules))
        if chance.random() < 0.2:
            check("a version", self.leader.publish(), len(self.versions) - 1)

    def open(self, at):
        self.followers[at].process.kill()
        self.followers[at].close()
        self.followers[at] = Lossy(program, MODEL, self.store.client)

    def carry(self, at):
        try:
            self.followers[at].catch_up()
        except TooFarBehind:
            self.anew += 1
            self.open(at)

    def compare(self, at):
        """A follower has the leader's rules of its version, and answers by them."""
        follower = self.followers[at]
        rules = self.versions[follower.version()]
        check(f"rules of follower {at + 1}", {rule for table in TABLES for rule in follower.rows(table)}, rules)
        name, thing = f"user{chance.randrange(20)}", f"data{chance.randrange(5)}"
        allowed = any(f"g, {name}, role{role}" in rules and f"p, role{role}, {thing}, read" in rules for role in range(5))
        check(f"a request at follower {at + 1}", follower.enforce(name, thing, "read"), allowed)

    def step(self, number):
        self.edit()
        # In the middle of the run the last follower gets nothing.
        lively = 2 if count < 3 * number < 2 * count else 3
        self.carry(chance.randrange(lively))
        if number % 10 == 0:
            self.compare(chance.randrange(3))
        if number % max(count // 7, 1) == 0:
            self.open(chance.randrange(3))
        if number == count // 5:
            self.store.kill()
            self.store.start()
            self.leader.store = self.store.client
            for follower in self.followers:
                follower.store = self.store.client
            self.leader.tell()

    def end(self):
        """All have the leader's policy, within a second of its publish."""
        version, begin = self.leader.publish(), time.perf_counter()
        while any(follower.version() < version for follower in self.followers):
            for at in range(3):
                self.carry(at)
        late = time.perf_counter() - begin
        check("the leader's rules", {rule for table in TABLES for rule in self.leader.rows(table)}, self.rules)
        for at in range(3):
            check("a version", self.followers[at].version(), version)
            self.compare(at)
        for client in [self.leader, *self.followers]:
            check("status", client.close(), 0)
        return version, late


with tempfile.TemporaryDirectory() as folder:
    store = Store(folder)
    try:
        run = Run(store)
        for number in range(1, count + 1):
            run.step(number)
        version, late = run.end()
    finally:
        store.kill()
    if run.anew == 0 and count > 6 * KEPT:
        sys.exit("no follower was ever too far behind")
print(f"{version} edits; {run.anew} times a follower was opened anew; all had the last one after {late:.3f} seconds")
if late > LONGEST:
    sys.exit("too late")
