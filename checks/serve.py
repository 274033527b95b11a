"""What checks/serve.sh runs."""
import os
import signal
import subprocess
import sys
import time

sys.path.insert(0, "examples/client")
from casbin_client import Client, Refused

MODEL = "examples/basic/model.conf"
POLICY = "examples/basic/policy.csv"
# The fewest answers a second where client and program share a processor, so that no wake-up of another is part of it, or, on a
# machine that is too slow for them, the least part of the lines that `cat` hands back there; and by how many KiB memory may grow
# between a tenth of the requests and all.
LEAST = 100_000
LEAST_PART = 0.5
MOST_GROWTH = 1024

program, count = sys.argv[1], int(sys.argv[2])


def held(client):
    """How many KiB of memory the program holds."""
    with open(f"/proc/{client.process.pid}/status") as status:
        for line in status:
            if line.startswith("VmRSS:"):
                return int(line.split()[1])
    raise RuntimeError("no VmRSS")


def runs(process):
    """Whether a process runs; one that has ended may still wait for whoever asks its status."""
    try:
        with open(f"/proc/{process}/stat") as stat:
            return stat.read().rsplit(") ", 1)[1][0] != "Z"
    except FileNotFoundError:
        return False


def check(what, got, wanted):
    if got != wanted:
        sys.exit(f"{what}: {got!r}, and not {wanted!r}")


def open_client():
    return Client(program, MODEL, POLICY)


def one_at_a_time(place):
    """Whether requests are fast and memory stands still, where each is asked once the one before is answered."""
    with open_client() as client:
        write, read = client.process.stdin.raw.write, client.process.stdout.readline
        asked = [b"ask alice, data1, read\n", b"ask alice, data2, write\n"]
        wanted = [b"allow @0 p#1 alice, data1, read\n", b"deny @0 -\n"]
        begin, early = time.perf_counter(), 0
        for number in range(1, count + 1):
            write(asked[number & 1])
            if read().split(b" ", 1)[1] != wanted[number & 1]:
                sys.exit(f"request {number}: another answer")
            if number == count // 10:
                early = held(client)
        rate = count / (time.perf_counter() - begin)
        late = held(client)
        check("status", client.close(), 0)
    print(f"one at a time, {place}: {rate:.0f} requests a second; {early} KiB after a tenth, {late} KiB after all")
    return rate, late <= early + MOST_GROWTH


def handed_back():
    """How many lines a second `cat` hands back to a client that waits for each."""
    with subprocess.Popen(["cat"], stdin=subprocess.PIPE, stdout=subprocess.PIPE) as echo:
        write, read = echo.stdin.raw.write, echo.stdout.readline
        line, lines = b"ask alice, data1, read\n", max(count // 4, 1)
        begin = time.perf_counter()
        for _ in range(lines):
            write(line)
            if read() != line:
                sys.exit("cat hands back another line")
        rate = lines / (time.perf_counter() - begin)
        echo.stdin.close()
    return rate


def on_one_processor():
    """The same with client and program on one processor, as they never run at once."""
    processors = os.sched_getaffinity(0)
    os.sched_setaffinity(0, {min(processors)})
    try:
        rate, still = one_at_a_time("on one processor")
        most = handed_back()
        print(f"there `cat` hands back {most:.0f} lines a second, and {rate / most:.2f} times as many requests are answered")
        return rate >= min(LEAST, LEAST_PART * most), still
    finally:
        os.sched_setaffinity(0, processors)


def many_at_once():
    """Requests in batches of 100, and an edit that is published behind each."""
    with open_client() as client:
        client.keep(10)
        for batch in range(count // 1000):
            for _ in range(100):
                client.send("ask alice, data1, read")
            name = f"user{batch % 50}"
            client.send(f"add p, {name}, data9, read", "publish", f"ask {name}, data9, read", f"remove p, {name}, data9, read")
            client.process.stdin.flush()
            for _ in range(100):
                check("a request of a batch", client.answer().split(" ")[0], "allow")
            check("an edit", client.answer(), "true")
            check("a publish", client.answer().split(" ")[0], "published")
            check("the request behind it", client.answer().split(" ")[0], "allow")
            check("the edit back", client.answer(), "true")
    print("many at once: right")


def faults():
    """Faults between good items."""
    with open_client() as client:
        for line, cause in [("frobnicate", "word"), ("end", "word"), ("keep many", "number"), ("publish now", "fields")]:
            try:
                client.ask(line)
                sys.exit(f"{line} is answered")
            except Refused as refused:
                check(line, str(refused), f"refused: script {cause}")
            check("the request behind it", client.enforce("alice", "data1", "read"), True)
        try:
            client.ask("ask " + "a" * 100_000)
            sys.exit("a long line is answered")
        except Refused as refused:
            check("a long line", str(refused), "refused: script too long")
        check("a batch", client.add_all("p", [("a", "b", "c"), ("d", "e", "f")]), True)
        check("a version", client.publish(), 1)
        check("rows", len(client.rows("p")), 5)
    print("faults: right")


def full_pipe():
    """Requests that are all written before an answer is read: the program waits, and loses none."""
    reader = subprocess.Popen([program, "serve", MODEL, POLICY], stdin=subprocess.PIPE, stdout=subprocess.PIPE)
    lines = 200_000
    if os.fork() == 0:
        reader.stdin.write(b"sync\n" * lines)
        reader.stdin.flush()
        os._exit(0)
    reader.stdin.close()
    time.sleep(1)
    answers = reader.stdout.read().splitlines()
    check("answers behind a full pipe", (len(answers), answers[-1]), (lines, b"%d synced @0" % lines))
    check("status", reader.wait(), 0)
    print("a full pipe: right")


def killed_client():
    """A client that is killed: the program ends, with what it had to write lost or not."""
    read_end, write_end = os.pipe()
    child = os.fork()
    if child == 0:
        os.close(read_end)
        client = open_client()
        os.write(write_end, b"%d\n" % client.process.pid)
        while True:
            client.enforce("alice", "data1", "read")
    os.close(write_end)
    server = int(os.read(read_end, 32))
    time.sleep(0.5)
    os.kill(child, signal.SIGKILL)
    os.waitpid(child, 0)
    for _ in range(50):
        if not runs(server):
            print("a client that is killed: the program ended")
            return
        time.sleep(0.1)
    sys.exit("the program outlives its client")


_, still = one_at_a_time("where the system places them")
fast, also_still = on_one_processor()
many_at_once()
faults()
full_pipe()
killed_client()
if not (fast and still and also_still):
    sys.exit("too slow, or memory grew")
