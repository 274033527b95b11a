#!/usr/bin/env bash
# Prints what a request costs with `enforce --cache`, where it stands in the cache, beside the same request judged anew, as ratios of
# one run: for a matcher of three equalities over 1,000 rules, where a cache may be no gain; for `regexMatch` over 100 rules that do not
# match; and for roles above 1,024 of them: a name that has the role over two links, and one that lacks it among 1,200 names of three
# roles each. The time of a run without input is taken out; reading the line and printing the answer stay in, so a hit costs less than
# is told. Usage: bench/cache.sh [REQUESTS].
source "$(dirname "${BASH_SOURCE[0]}")/timing.sh"
build "$root"
python3 - "$root/crates/casbin_cli/out/casbin_cli" "$work" "${1:-100000}" <<'PYTHON'
import resource, subprocess, sys

program, work, most = sys.argv[1], sys.argv[2], int(sys.argv[3])


def files(name, matcher, rows, roles=""):
    with open(f"{work}/{name}.conf", "w") as file:
        file.write(f"[request_definition]\nr = sub, obj, act\n[policy_definition]\np = sub, obj, act\n{roles}")
        file.write(f"[policy_effect]\ne = some(where (p.eft == allow))\n[matchers]\nm = {matcher}\n")
    with open(f"{work}/{name}.csv", "w") as file:
        file.writelines(row + "\n" for row in rows)


# The least seconds of processor time of three runs over so many equal requests, and the line of the hits.
def spent(name, request, count, options):
    with open(f"{work}/input", "w") as file:
        file.write((request + "\n") * count)
    least = None
    for _ in range(3):
        before = resource.getrusage(resource.RUSAGE_CHILDREN)
        with open(f"{work}/input") as given:
            run = subprocess.run([program, "enforce", *options, f"{work}/{name}.conf", f"{work}/{name}.csv"], stdin=given, stdout=subprocess.DEVNULL, stderr=subprocess.PIPE, check=True)
        after = resource.getrusage(resource.RUSAGE_CHILDREN)
        took = after.ru_utime + after.ru_stime - before.ru_utime - before.ru_stime
        least = took if least is None else min(least, took)
    return least, run.stderr.decode().strip()


def compare(what, name, request, count):
    costs = []
    for options in ([], ["--cache", "100"]):
        idle, _ = spent(name, request, 0, options)
        whole, told = spent(name, request, count, options)
        costs.append(max(whole - idle, 1e-6) / count)
    if told != f"cache: hits {count - 1}":
        sys.exit(f"{what}: {told}")
    print(f"{what}: judged {costs[0] * 1e6:.2f} us, from the cache {costs[1] * 1e6:.2f} us, ratio {costs[0] / costs[1]:.1f}", flush=True)


EQUAL = "r.sub == p.sub && r.obj == p.obj && r.act == p.act"
files("equal", EQUAL, (f"p, user{i}, data{i}, read" for i in range(1000)))
compare("three equalities over 1000 rules", "equal", "user500, data500, read", most)
files("pattern", "r.sub == p.sub && regexMatch(r.obj, p.obj) && r.act == p.act", (f"p, alice, ^/data{i}/[a-z]+/item[0-9]*$, read" for i in range(100)))
compare("regexMatch over 100 rules", "pattern", "alice, /other/things/of/another/kind, read", max(most // 10, 1))
relation = "[role_definition]\ng = _, _\n"
near = [f"g, role{i}, top" for i in range(1100)] + ["g, alice, role7", "p, top, data, read"]
files("near", f"g(r.sub, p.sub) && r.obj == p.obj && r.act == p.act", near, relation)
compare("a role over two links among 1100 roles", "near", "alice, data, read", most)
wide = [f"g, name{i}, name{(i * 3 + k) % 1200}" for i in range(1200) for k in (1, 2, 3)] + ["p, lacked, data, read", "g, other, lacked"]
files("wide", f"g(r.sub, p.sub) && r.obj == p.obj && r.act == p.act", wide, relation)
compare("a role that a name lacks among 1200 names of three roles each", "wide", "name1, data, read", max(most // 10, 1))
PYTHON
