"""A client of `casbin_cli serve`, over a pair of pipes.

    with Client("./casbin_cli", "model.conf", "policy.csv") as client:
        client.enforce("alice", "data1", "read")
        client.add("p", "bob", "data1", "read")
        client.publish()
"""
import subprocess


class Refused(Exception):
    """What was asked is refused, or its evaluation failed; the answer says why."""


class Stopped(Exception):
    """The program has ended."""


def field(text):
    """A text as a field, in quotes."""
    if "\n" in text or "\r" in text:
        raise ValueError("a field holds no end of line")
    return '"' + text.replace('"', '""') + '"'


class Client:
    def __init__(self, program, model, policy, *options):
        words = [program, "serve", model, policy, *options]
        self.process = subprocess.Popen(words, stdin=subprocess.PIPE, stdout=subprocess.PIPE)

    def __enter__(self):
        return self

    def __exit__(self, *_):
        self.close()

    def send(self, *lines):
        """Sends lines, and does not wait."""
        self.process.stdin.write("".join(line + "\n" for line in lines).encode())

    def answer(self):
        """The next answer, without its number; it waits for it."""
        line = self.process.stdout.readline().decode()
        if not line.endswith("\n"):
            raise Stopped()
        return line[:-1].split(" ", 1)[1]

    def ask(self, *lines):
        """Sends the lines of one item, and waits for its answer."""
        self.send(*lines)
        self.process.stdin.flush()
        answer = self.answer()
        if answer.startswith(("refused: ", "fault ")):
            raise Refused(answer)
        return answer

    def enforce(self, *values):
        """Whether a request is allowed by the policy that is published."""
        return self.ask("ask " + ", ".join(map(field, values))).startswith("allow ")

    def add(self, table, *values):
        """Adds a rule to what is pending; whether that changes anything."""
        return self.ask(f"add {table}, " + ", ".join(map(field, values))) == "true"

    def remove(self, table, *values):
        """Takes a rule out of what is pending; whether that changes anything."""
        return self.ask(f"remove {table}, " + ", ".join(map(field, values))) == "true"

    def add_all(self, table, rules):
        """Adds rules, all or none of them."""
        lines = [f"{table}, " + ", ".join(map(field, rule)) for rule in rules]
        return self.ask("begin add-all", *lines, "end") == "true"

    def publish(self):
        """Publishes what is pending, and gives the version."""
        return int(self.ask("publish").removeprefix("published @"))

    def keep(self, count):
        """Keeps so many edits from the next publish on."""
        self.ask(f"keep {count}")

    def rows(self, table):
        """The rules of a table that are published, as they are printed."""
        count = int(self.ask(f"rows {table}").split(" ")[2].rstrip(":"))
        return [self.process.stdout.readline().decode().strip() for _ in range(count)]

    def close(self):
        """Ends the stream, and gives the program's status."""
        self.process.stdin.close()
        self.process.stdout.close()
        return self.process.wait()
