#!/usr/bin/env bash
# Prints what `follow` spends on a packet beside what `session` spends on the same edit with its publish, as ratios of times of one run,
# over 1,000 rules and over 190,000: packets in their order, and packets of which 1,000 wait, each thousand in falling order. The time
# of a run without input is taken out. Usage: bench/ship.sh [EDITS].
source "$(dirname "${BASH_SOURCE[0]}")/timing.sh"
build "$root"
python3 - "$root/crates/casbin_cli/out/casbin_cli" "$work" "${1:-80000}" <<'PYTHON'
import resource, subprocess, sys

program, work, most = sys.argv[1], sys.argv[2], int(sys.argv[3])
with open(f"{work}/model.conf", "w") as file:
    file.write("[request_definition]\nr = sub, obj, act\n[policy_definition]\np = sub, obj, act\n[policy_effect]\ne = some(where (p.eft == allow))\n")
    file.write("[matchers]\nm = r.sub == p.sub && r.obj == p.obj && r.act == p.act\n")


# The least seconds of processor time of three runs of a command over an input.
def took(command, text):
    with open(f"{work}/input", "w") as file:
        file.write(text)
    least = None
    for _ in range(3):
        before = resource.getrusage(resource.RUSAGE_CHILDREN)
        with open(f"{work}/input") as given, open(f"{work}/answers", "w") as answers:
            subprocess.run([program, command, f"{work}/model.conf", f"{work}/policy.csv"], stdin=given, stdout=answers, check=True)
        after = resource.getrusage(resource.RUSAGE_CHILDREN)
        spent = after.ru_utime + after.ru_stime - before.ru_utime - before.ru_stime
        least = spent if least is None else min(least, spent)
    with open(f"{work}/answers") as answers:
        for answer in answers:
            if "refused" in answer or " false" in answer:
                sys.exit(answer)
    return least


# Edits that add rules and remove every other of them again.
edits = [("+", i) if i % 2 == 0 else ("-", i - 1) for i in range(most)]


def packet(number):
    sign, i = edits[number - 1]
    return f"edit {number}\n{sign} p, new{i}, data, read\n.\n"


script = "".join(f"{'add' if sign == '+' else 'remove'} p, new{i}, data, read\npublish\n" for sign, i in edits)
rising = "".join(packet(number) for number in range(1, most + 1))
falling = "".join(packet(number) for first in range(1, most + 1, 1000) for number in range(min(first + 999, most), first - 1, -1))
for rules in (1_000, 190_000):
    with open(f"{work}/policy.csv", "w") as file:
        file.writelines(f"p, user{i:06d}, data{i:06d}, read\n" for i in range(rules))
    published = max(took("session", script) - took("session", ""), 1e-9) / most
    idle = took("follow", "")
    for packets, what in ((rising, "in order"), (falling, "where 1000 wait")):
        taken = max(took("follow", packets) - idle, 1e-9) / most
        print(f"over {rules} rules: an edit published {published * 1e6:.1f} us, a packet taken {what} {taken * 1e6:.1f} us, ratio {taken / published:.2f}", flush=True)
PYTHON
