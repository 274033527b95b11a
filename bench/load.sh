#!/usr/bin/env bash
# Prints what loading 200,000 rules takes in processor time and memory beside a plain program that cuts the same lines into fields and
# keeps them as an ordered set, each as a ratio of one run: rules of p, and of a ranked p whose ranks fall. Then what a session takes
# that opens a live pair over these rules, for one request of one worker, beside `enforce` without requests, which makes one state.
# Wants rustc. Usage: bench/load.sh [RULES].
source "$(dirname "${BASH_SOURCE[0]}")/timing.sh"
build "$root"
cat >"$work/plain.rs" <<'RUST'
// Rules as an ordered set without repeats: cut at the commas, blanks trimmed, behind each other as they stand in the file.
use std::collections::hash_map::{DefaultHasher, Entry};
use std::collections::HashMap;
use std::hash::{Hash, Hasher};

fn main() {
    let path = std::env::args().nth(1).expect("a policy");
    let text = std::fs::read_to_string(path).expect("a text");
    let mut rules: Vec<Vec<String>> = Vec::new();
    let mut places: HashMap<u64, u32> = HashMap::new();
    for line in text.lines() {
        let rule: Vec<String> = line.split(',').map(|field| field.trim().to_owned()).collect();
        let mut hasher = DefaultHasher::new();
        rule.hash(&mut hasher);
        match places.entry(hasher.finish()) {
            Entry::Occupied(found) if rules[*found.get() as usize] == rule => {}
            Entry::Occupied(_) => rules.push(rule),
            Entry::Vacant(free) => {
                free.insert(rules.len() as u32);
                rules.push(rule);
            }
        }
    }
    println!("{}", rules.len());
}
RUST
rustc -O -o "$work/plain" "$work/plain.rs"
python3 - "$root/crates/casbin_cli/out/casbin_cli" "$work" "${1:-200000}" <<'PYTHON'
import os, subprocess, sys, time

program, work, count = sys.argv[1], sys.argv[2], int(sys.argv[3])
HEAD = "[request_definition]\nr = sub, obj, act\n[policy_definition]\np = {}\n[policy_effect]\n{}\n[matchers]\nm = r.sub == p.sub && r.obj == p.obj && r.act == p.act\n"
with open(f"{work}/plain.conf", "w") as file:
    file.write(HEAD.format("sub, obj, act", "e = some(where (p.eft == allow))"))
with open(f"{work}/ranked.conf", "w") as file:
    file.write(HEAD.format("priority, sub, obj, act, eft", "e = priority(p.eft) || deny"))


# The seconds of processor time and the most KiB of memory of a run over an input.
def measured(words, given="/dev/null"):
    seconds, memory = None, 0
    for _ in range(5):
        with open(given) as input:
            process = subprocess.Popen(words, stdin=input, stdout=subprocess.DEVNULL)
        _, status, used = os.wait4(process.pid, 0)
        if status:
            sys.exit(f"{words}: status {status}")
        spent = used.ru_utime + used.ru_stime
        seconds = spent if seconds is None else min(seconds, spent)
        memory = max(memory, used.ru_maxrss)
    return seconds, memory


for kind, what in [("plain", "rules of p"), ("ranked", "rules of a ranked p whose ranks fall")]:
    with open(f"{work}/policy.csv", "w") as file:
        for i in range(count):
            rank = f"{count - i}, " if kind == "ranked" else ""
            file.write(f"p, {rank}user{i:06d}, data{i:06d}, read{', allow' if kind == 'ranked' else ''}\n")
    own = measured([program, "enforce", f"{work}/{kind}.conf", f"{work}/policy.csv"])
    plain = measured([f"{work}/plain", f"{work}/policy.csv"])
    print(f"{count} {what}: {own[0] * 1000:.0f} ms beside {plain[0] * 1000:.0f} ms, ratio {own[0] / plain[0]:.2f}; {own[1] // 1024} MB beside {plain[1] // 1024} MB, ratio {own[1] / plain[1]:.2f}")
    if kind == "plain":
        with open(f"{work}/script", "w") as file:
            file.write("ask user000000, data000000, read\n")
        pair = measured([program, "session", f"{work}/plain.conf", f"{work}/policy.csv", "--workers", "1"], f"{work}/script")
        print(f"a live pair over them: {pair[0] * 1000:.0f} ms beside {own[0] * 1000:.0f} ms, ratio {pair[0] / own[0]:.2f}; {pair[1] // 1024} MB beside {own[1] // 1024} MB, ratio {pair[1] / own[1]:.2f}")
PYTHON
