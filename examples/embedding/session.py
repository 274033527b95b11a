"""Answers a script of requests and edits as `casbin_cli session` does, through the library.

Usage: session.py MODEL POLICY SCRIPT
"""

import sys

from casbin import ALLOW, FAULT, NONE, Enforcer


def items(script):
    """The items of a script: lines, and blocks up to their `end`."""
    item = []
    for line in script.split("\n"):
        if item or (line.strip() and not line.lstrip().startswith("#")):
            item.append(line)
        if item and (not item[0].startswith("begin ") or line.rstrip() == "end"):
            yield "\n".join(item)
            item = []
    if item:
        yield "\n".join(item)


def asked(enforcer, fields):
    """The line of the answer to a request, without its number."""
    told = enforcer.enforce(*(field.strip() for field in fields.split(",")))
    if told.kind == NONE:
        return f"refused: cause {told.cause} at {told.at}"
    if told.kind == FAULT:
        return f"fault @{told.version} cause {told.cause} at {told.at}"
    rule = f"p#{told.row} {enforcer.rule(told.row)}" if told.row else "-"
    return f"{'allow' if told.kind == ALLOW else 'deny'} @{told.version} {rule}"


def main(model, policy, script):
    texts = [open(name, encoding="utf-8").read() for name in (model, policy, script)]
    with Enforcer(*texts[:2]) as enforcer:
        for number, item in enumerate(items(texts[2]), 1):
            if item.startswith("ask "):
                print(number, asked(enforcer, item[4:]))
            else:
                print(number, enforcer.call(item))


if __name__ == "__main__":
    main(*sys.argv[1:])
