"""Lets one call after the other fail in runs of a program, and looks at what each run then comes to.

Usage: refusals.py PROGRAM OBJECT WORK alloc|on|io [WORD]

OBJECT is built of refuse.c. The runs are the cases of crates/cases_runs that are small, need no failing sink or finder and are no
lint, and those of checks/runs. WORD leaves those alone whose names have it. In the folder WORK each run has a folder of its own.

What a run may come to, where the plain run of the same words, files and input ends with a status and took a text on `out`:

- an allocation is refused (`alloc`), or it and all behind it (`on`): the same, or status 9, `no memory`, and on `out` the whole
  lines of the first so many items;
- a file cannot be opened, or a read of it or of the input fails: status 6, the line that names it, and nothing on `out`, but the
  answers of the sections that had ended where a stream is served;
- a write to `out` fails, or takes nothing: status 7, `cannot write`, and on `out` just what was written before;
- a write to `err` fails: the same, but that `err` has just what was written before;
- an open, a read or a write is cut off by a signal (EINTR): the same, or what it comes to where it fails;
- a read or a write takes one byte, or each takes 1, 2, 3 or 7 at most: the same.

Where a stream is served, the line that tells so stands on `err` before that of a stop, as soon as it was written.

A session with workers may print several texts, so that the same is any of those that round_texts.py tells; and since its threads
take memory in another order each time, each number is refused three times, up to some above those of a plain run.
"""

import collections
import os
import re
import sys

import round_texts
import running
from case_lists import read_cases, read_reports, report
from running import read, write

ROOT = os.path.dirname(os.path.dirname(os.path.abspath(__file__)))

# A case with more bytes is left to the gate.
LARGEST = 1 << 13

# For a quick look: of the allocations only the first of so many is refused.
EACH = int(os.environ.get("EACH", 1))

# A run with more allocations is left to smaller ones like it: a demonstration with many users.
MOST = 10_000

# How often each allocation is refused where threads take memory, and how many numbers above those of a plain run.
AGAIN, ABOVE = 3, 8

# The runner of the gate has sinks of so many bytes.
ROOM = 1 << 16

# The commands that print the lines of their items as they come; the others print their text once it is whole.
BY_ITEMS = (b"enforce", b"explain", b"session", b"serve")

# What an item is answered: a line, and those below it, which begin with two blanks.
ANSWER = rb"[0-9]+ .*\n(?:  .*\n)*"

NO_MEMORY, CANNOT_READ, CANNOT_WRITE = 9, 6, 7

Outcome = collections.namedtuple("Outcome", "status out err")


class Runner:
    """Runs the program in the folder of a case."""

    def __init__(self, program, shim, case, folder):
        self.program, self.shim, self.case = program, shim, case
        os.makedirs(folder, exist_ok=True)
        os.chdir(folder)
        for name, text in case.files.items():
            os.makedirs(os.path.dirname(name) or b".", exist_ok=True)
            write(name, text)
        write(b".input", case.input)

    def run(self, **refused):
        """What a run comes to with these words for refuse.c; a signal that ends it is a negative status."""
        return self.run_over(self.case.words, ".input", refused)

    def run_over(self, words, source, refused):
        environment = {"LD_PRELOAD": self.shim} | {f"REFUSE_{key.upper()}": str(value) for key, value in refused.items()}
        status = running.run(self.program, words, environment, source, ".out", ".err")
        return Outcome(status, read(".out"), read(".err"))

    def run_alone(self, script):
        """What the session of this script prints without workers."""
        write(".alone", script)
        return self.run_over(round_texts.words_alone(self.case.words), ".alone", {}).out

    def texts(self, plain):
        """The texts that a run may print which ends as the plain one."""
        workers = round_texts.workers_of(self.case.words)
        if workers and plain.status == 0:
            return round_texts.texts_of(self.case.input, workers, self.run_alone)
        return OneText(self.case, plain.out)

    def calls(self):
        """The opens, reads and writes of a plain run, each with its descriptor and what it gave, and the number of allocations."""
        self.run(log=".log")
        entries = [line.split() for line in read(".log").splitlines()]
        calls = [(call.decode(), int(descriptor), int(given)) for call, descriptor, given in entries[:-1]]
        return calls, int(entries[-1][2])


class OneText:
    """The text of a run that may print no other."""

    def __init__(self, case, text):
        self.text, self.ends = text, fronts(case, text)

    def is_whole(self, out):
        return out == self.text

    def is_of_items(self, out):
        """Whether this is the text of the first so many items."""
        return self.text.startswith(out) and len(out) in self.ends

    def is_written(self, out, count):
        """Whether this is what was written before a write failed, of which there were so many bytes in a plain run."""
        return out == self.text[:count]


def is_small_run(case):
    """Whether a case is run here; what `lint` comes to where a call fails, stands among its cases."""
    return not case.keys and case.words and case.words[0] != b"lint" and case.size() <= LARGEST


def has_threads(case):
    return any(word.startswith(round_texts.OPTION) for word in case.words)


def fronts(case, text):
    """The lengths of the texts of the first so many items."""
    ends = {0, len(text)}
    if case.words[:1] and case.words[0] in BY_ITEMS:
        ends |= {found.start() + 1 for found in re.finditer(rb"\n(?!  )", text)}
    return ends


def serving_line(case, plain):
    """What a run that serves a stream tells before it reads it; nothing of any other run."""
    return plain.err if case.words[:1] == [b"serve"] and plain.status == 0 else b""


def kind_of(line, follow):
    """Whether a line of a stream is passed over, begins a section of several lines, and ends one; in a follower's there are packets."""
    try:
        line.decode()
    except UnicodeDecodeError:
        return False, False, False
    line = line.removesuffix(b"\r")
    bare = line.strip(b" \t")
    begins = re.split(rb"[ \t]", line)[0] == b"begin" or follow and line.startswith(b"edit ")
    ends = line.rstrip(b" \t") == b"end" or follow and line == b"."
    return not bare or bare.startswith(b"#"), begins, ends


def whole_sections(text, follow):
    """How many sections of a stream have ended in a text."""
    ended, is_open = 0, False
    for line in text.split(b"\n")[:-1]:
        passed, begins, ends = kind_of(line, follow)
        if not passed:
            is_open = not ends if is_open else begins
            ended += not is_open
    return ended


def answered(case, plain, count):
    """The answers of the sections that have ended in the first so many bytes of a stream."""
    ended = whole_sections(case.input[:count], b"--follow" in case.words)
    return b"".join(re.findall(ANSWER, plain.out)[:ended])


def without_hits(err):
    """The line of a cache that had no room for a verdict tells fewer hits."""
    return re.sub(rb"^cache: hits [0-9]+\n$", b"cache\n", err)


def is_same(plain, texts):
    """Whether a run comes to what the plain one does."""
    return lambda got: got.status == plain.status and texts.is_whole(got.out) and without_hits(got.err) == without_hits(plain.err)


def after_refusal(plain, texts, serving):
    """Says what is wrong with what a run comes to where memory is refused."""
    same = is_same(plain, texts)

    def wrong(got):
        if same(got):
            return None
        if got.status != NO_MEMORY:
            return "neither the same nor status 9"
        if got.err not in (b"no memory\n", serving + b"no memory\n"):
            return "another line on err"
        if got.out and not got.err.startswith(serving):
            return "answers before it was told what is served"
        if not texts.is_of_items(got.out):
            return "out has not the lines of the first so many items"
        return None

    return wrong


def is_one_of(wanted, *tests):
    """Says what is wrong where none of these tests holds."""
    return lambda got: None if any(holds(got) for holds in tests) else f"wanted {wanted}"


def refused_calls(calls):
    """The calls that are refused in turn: what refuse.c is told, and what the call and those before it were."""
    numbers = collections.Counter()
    for at, (call, descriptor, _) in enumerate(calls):
        numbers[call] += 1
        yield call, numbers[call], descriptor, calls[:at]


def of_input(descriptor, before, call):
    """What a read or an open is of: the input, or the file that was opened last; the model's is opened first."""
    opened = sum(1 for name, *_ in before if name == "o") + (call == "o")
    files = {1: "model", 2: "policy"}
    return "input" if call == "r" and descriptor == 0 else files.get(opened, "a file that no command has")


def written(before, descriptor):
    return sum(given for call, to, given in before if call == "w" and to == descriptor)


def taken(before, descriptor):
    return sum(given for call, of, given in before if call == "r" and of == descriptor)


def outside_refusals(case, plain, texts, calls):
    """For each open, read and write that fails: what refuse.c is told, and what the run has to come to."""
    names = {"o": "open", "r": "read", "w": "write"}
    same = is_same(plain, texts)
    serving = serving_line(case, plain)
    for call, at, descriptor, before in refused_calls(calls):
        told = plain.err[: written(before, 2)]
        if call != "w":
            part = of_input(descriptor, before, call)
            out = answered(case, plain, taken(before, 0)) if serving and part == "input" else b""
            wanted, hows = Outcome(CANNOT_READ, out, told + f"cannot read: {part}\n".encode()), ["fail"]
        elif descriptor == 1:
            wanted, hows = Outcome(CANNOT_WRITE, plain.out[: written(before, 1)], told + b"cannot write\n"), ["fail", "none"]
        else:
            wanted, hows = plain._replace(err=told), ["fail", "none"]
        fails = fails_so(wanted, texts)
        for how in hows:
            yield {"call": names[call], "at": at, "how": how}, is_one_of(wanted, fails)
        yield {"call": names[call], "at": at, "how": "signal"}, is_one_of(wanted, fails, same)
        if call != "o":
            yield {"call": names[call], "at": at, "how": "short"}, is_one_of(plain, same)
    for most in (1, 2, 3, 7):
        yield {"most": most}, is_one_of(plain, same)


def fails_so(wanted, texts):
    """Whether a run with a failed call comes to this."""

    def holds(got):
        if (got.status, got.err) != (wanted.status, wanted.err):
            return False
        if wanted.status == CANNOT_READ:
            return got.out == wanted.out
        return texts.is_whole(got.out) if wanted.status == 0 else texts.is_written(got.out, len(wanted.out))

    return holds


def memory_refusals(case, plain, texts, count, how):
    wrong = after_refusal(plain, texts, serving_line(case, plain))
    times, last = (AGAIN, count + ABOVE) if has_threads(case) else (1, count)
    for at in range(1, last + 1, EACH):
        for _ in range(times):
            yield {"call": "alloc", "at": at, "how": how}, wrong


def try_case(program, shim, case, folder, kind, wanted):
    """How many runs of a case there were, by their status, which went wrong, and why the case is left out, if it is."""
    statuses, faults = collections.Counter(), []
    try:
        runner = Runner(program, shim, case, folder)
    except OSError as error:
        return statuses, faults, [f"{case.name}: left out, {error.strerror}"]
    plain = runner.run()
    if wanted and len(plain.out) <= ROOM and report(case, *plain) != wanted:
        faults.append(f"{case.name}: the plain run is not the case of the gate: {plain}")
    texts = runner.texts(plain)
    if not texts.is_whole(plain.out):
        faults.append(f"{case.name}: the plain run tells another text than it may: {plain}")
    calls, count = runner.calls()
    if kind != "io" and count > MOST:
        return statuses, faults, [f"{case.name}: left out, {count} allocations"]
    if kind == "io":
        refusals = outside_refusals(case, plain, texts, calls)
    else:
        refusals = memory_refusals(case, plain, texts, count, {"alloc": "fail"}.get(kind, kind))
    for refused, wrong in refusals:
        got = runner.run(**refused)
        is_as_plain = (got.status, got.err) == (plain.status, plain.err) and texts.is_whole(got.out)
        statuses["the same" if is_as_plain else got.status] += 1
        why = wrong(got)
        if why:
            faults.append(f"{case.name}: {refused}: {why}: {got}")
    return statuses, faults, []


def main():
    program, shim, work, kind, *word = sys.argv[1:]
    reports = read_reports(f"{ROOT}/crates/cases_runs/stdout")
    cases = [it for it in read_cases(f"{ROOT}/crates/cases_runs/stdin") if is_small_run(it)]
    cases = [(it, reports.get(it.name)) for it in cases] + [(it, None) for it in read_cases(f"{ROOT}/checks/runs")]
    cases = [(case, wanted) for case, wanted in cases if not word or word[0] in case.name]
    statuses, faults, left_out = collections.Counter(), [], []
    jobs = [(try_case, program, shim, case, f"{work}/{at}", kind, wanted) for at, (case, wanted) in enumerate(cases)]
    for found, wrong, left in running.each(jobs):
        statuses += found
        faults += wrong
        left_out += left
    print(*left_out, *faults, sep="\n")
    ended = ", ".join(f"{count} {status if status == 'the same' else f'with status {status}'}" for status, count in statuses.most_common())
    print(f"{kind}: {sum(statuses.values())} runs of {len(cases)}: {ended}; {len(faults)} wrong")
    sys.exit(1 if faults or not statuses else 0)


if __name__ == "__main__":
    main()
