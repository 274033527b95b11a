"""Lists of cases as crates/cases_runs reads them, and what a run of the program comes to as it tells it."""

import re

# A line of more bytes than the first is long, and of it so many are shown in front and at the end.
LONG, SHOWN, SHOWN_AT_END = 300, 80, 40


class Field:
    """A field of a case: its key, what stands behind it, and the text below."""

    def __init__(self, line):
        key, _, self.rest = line.partition(b" ")
        self.key = key.removesuffix(b"%").decode()
        self.text = unescaped(self.rest) if key.endswith(b"%") else b""

    def add(self, line, shared):
        """Adds what a line below says; whether it says text."""
        word, _, rest = line.partition(b" ")
        if line.startswith(b"  "):
            self.text += line[2:] + b"\n"
        elif line.startswith(b"%"):
            self.text += unescaped(line[1:])
        elif word == b"copy":
            self.text += shared[rest]
        elif word == b"fill":
            self.text += b"\n" * (int(rest) - len(self.text))
        elif word == b"repeat":
            times, _, piece = rest.partition(b" ")
            self.text += unescaped(piece) * int(times)
        elif word == b"count":
            times, _, piece = rest.partition(b" ")
            self.text += b"".join(piece.replace(b"#", b"%d" % at, 1) + b"\n" for at in range(1, int(times) + 1))
        else:
            return False
        return True


def unescaped(text):
    return re.sub(rb"%([0-9A-Fa-f]{2})", lambda found: bytes([int(found[1], 16)]), text)


class Case:
    """A run: its words, its files by name, its input, and the other keys that its case has."""

    def __init__(self, name, fields):
        self.name = name.decode()
        self.words, self.files, self.input, self.keys = [], {}, b"", set()
        for field in fields:
            if field.key == "words":
                self.words += field.rest.split()
            elif field.key == "file":
                self.files[field.rest] = field.text
            elif field.key == "input":
                self.input += field.text
            else:
                self.keys.add(field.key)

    def size(self):
        return len(self.input) + sum(map(len, self.files.values()))


def read_cases(path):
    """The cases of a list."""
    cases, shared, block = [], {}, []
    with open(path, "rb") as file:
        lines = file.read().split(b"\n")
    for line in lines:
        if not line and block:
            first, *fields = block
            if first.key == "text":
                shared[first.rest] = first.text
            else:
                cases.append(Case(first.rest, fields))
            block = []
        elif line and not line.startswith(b"#") and not (block and block[-1].add(line, shared)):
            block.append(Field(line))
    return cases


def read_reports(path):
    """What the cases of a list come to, by their names; of a name that comes twice the first is told."""
    reports = {}
    with open(path, "rb") as file:
        for block in re.split(rb"(?m)^case ", file.read())[1:]:
            name = block.split(b"\n", 1)[0].rsplit(b": status ", 1)[0].decode()
            reports.setdefault(name, b"case " + block)
    return reports


def report(case, status, out, err):
    """What a run of the case comes to, as the runner writes it."""
    lines = [f"case {case.name}: status {status}\n".encode()]
    for sink, took in ((b"out", out), (b"err", err)):
        for line in re.findall(rb"[^\n]*\n|[^\n]+", took):
            tag = sink if line.endswith(b"\n") else sink + b"-front"
            lines.append(b"  " + tag + b" " + shortened(line.removesuffix(b"\n")) + b"\n")
    return b"".join(lines)


def shortened(line):
    if len(line) <= LONG:
        return line
    return b"%b .. %d bytes .. %b" % (line[:SHOWN], len(line), line[-SHOWN_AT_END:])
