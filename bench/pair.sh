#!/usr/bin/env bash
# Prints what reading a policy costs while it is edited, in two parts.
# `requests`: how many requests a second a session answers with one, two and four workers beside an administrator who publishes all the
# time, as a ratio of one run to what one worker answers, and what a request costs there as a ratio of one run to a request of `enforce`,
# with the reading and writing of its line, which one thread does for all workers, and without them:
# for requests whose rules an index finds among 1,000, by equalities and by the front of a key pattern, and for a matcher without an
# index, which looks at each of 1,000 rules. Each session is one round, with so many publishes that the last requests show one of the
# last versions: it says which.
# `entries`: what entering a seat of a pair and leaving it costs, with one thread of a seat and with two and four beside each other,
# each without an administrator and with one who publishes an edit all the time in a thread of its own: the nanoseconds of an
# entry, how many entries a second all threads make together, and the time of an entry as a ratio of one run to that of one
# thread without an administrator. Each thread makes 1,000,000 entries. Builds a program over copies of the crates, in a folder of
# its own, which takes some four minutes where the crates are proved, and an hour where they are not.
# The threads share the processors, of which it first says how many there are: more threads than those wait for one another.
# Usage: bench/pair.sh [requests|entries [REQUESTS]], both parts where none is told.
source "$(dirname "${BASH_SOURCE[0]}")/timing.sh"
source "$(dirname "${BASH_SOURCE[0]}")/program.sh"
part="${1:-both}"
echo "$(nproc) processors"

requests() {
  build "$root"
  python3 - "$root/crates/casbin_cli/out/casbin_cli" "$work" "$1" <<'PYTHON'
import subprocess, sys, time

program, work, most = sys.argv[1], sys.argv[2], int(sys.argv[3])
RULES = 1_000
PLAIN = "e = some(where (p.eft == allow))"


def files(name, matcher, rows):
    with open(f"{work}/{name}.conf", "w") as file:
        file.write("[request_definition]\nr = sub, obj, act\n[policy_definition]\np = sub, obj, act\n")
        file.write(f"[policy_effect]\n{PLAIN}\n[matchers]\nm = {matcher}\n")
    with open(f"{work}/{name}.csv", "w") as file:
        file.writelines(row + "\n" for row in rows)


# The seconds of a run over these lines, and what it answered.
def once(name, command, options, lines):
    with open(f"{work}/input", "w") as file:
        file.writelines(line + "\n" for line in lines)
    start = time.monotonic()
    with open(f"{work}/input") as given, open(f"{work}/answers", "w") as answers:
        subprocess.run([program, command, f"{work}/{name}.conf", f"{work}/{name}.csv", *options], stdin=given, stdout=answers, check=True)
    spent = time.monotonic() - start
    with open(f"{work}/answers") as answers:
        return spent, answers.read().split("\n")


# The least seconds of ten runs over these lines, and what the last one answered.
def took(name, command, options, lines):
    runs = [once(name, command, options, lines) for _ in range(10)]
    return min(seconds for seconds, _ in runs), runs[-1][1]


# A round of these requests beside so many edits, each published. The log keeps none, so that each publish costs the same.
def script(requests, publishes):
    lines = ["keep 0"] + [f"ask {request}" for request in requests]
    for number in range(publishes):
        lines += [("remove" if number % 2 else "add") + " p, other, /other, read", "publish"]
    return lines


# Rounds with so many workers: of each its seconds, its publishes, the greatest version that a request shows, and the seconds of a run of
# `enforce` right behind it, since a machine that is shared is now faster and now slower. A round counts where this version is near the
# last one, so that the administrator published as long as the workers read, and not much longer: what is published behind the last
# request is counted into the time of the requests. Where too few rounds come near it, those that came nearest count.
def beside(name, requests, workers):
    publishes, rounds = len(requests) // 10, []
    for _ in range(60):
        seconds, answers = once(name, "session", ["--workers", str(workers)], script(requests, publishes))
        asked = answers[1 : len(requests) + 1]
        if not all(line.split(" ")[1] in ("allow", "deny") for line in asked):
            sys.exit(f"{name}: a request is not judged")
        shown = max(int(line.split(" ")[2].removeprefix("@")) for line in asked)
        if shown < publishes:
            rounds.append((seconds, publishes, shown, once(name, "enforce", [], requests)[0]))
        if shown >= publishes:
            publishes = publishes * 10 // 9 + 1
        elif shown < publishes * 0.9:
            publishes = max(shown * 106 // 100 + 1, 10)
        if sum(shown >= publishes * 0.9 for _, publishes, shown, _ in rounds) == 9:
            break
    if not rounds:
        sys.exit(f"{name}: in each round the publishes end before the requests")
    return sorted(rounds, key=lambda round: round[2] / round[1])[-9:]


# The seconds in which so many lines of as many bytes are read, handed to workers, refused for their fields, and answered.
def passed_on(name, requests, workers):
    idle, _ = took(name, "session", [], [])
    seconds, answers = took(name, "session", ["--workers", str(workers)], [f"ask {request.replace(', ', '. ')}" for request in requests])
    if not all("refused" in line for line in answers[: len(requests)]):
        sys.exit(f"{name}: a line is not refused")
    return seconds - idle


# What is printed is of the round whose ratio to `enforce` is the median of all. The time to load the policy is taken out, and of the
# round also the time to read as many other lines and to print theirs.
def compare(what, name, requests):
    idle, _ = took(name, "enforce", [], [])
    _, answers = took(name, "enforce", [], requests)
    if sum(" allow " in line for line in answers) != len(requests) // 2:
        sys.exit(f"{what}: not every other request is allowed")
    one = None
    for workers in (1, 2, 4):
        rounds = beside(name, requests, workers)
        others, _ = took(name, "session", [], ["sync"] * (2 * max(publishes for _, publishes, _, _ in rounds)))
        compared = sorted(((seconds - others) / (whole - idle), seconds, publishes, shown, whole) for seconds, publishes, shown, whole in rounds)
        _, seconds, publishes, shown, whole = compared[len(compared) // 2]
        each = (seconds - others) / len(requests)
        alone = (whole - idle) / len(requests)
        decided = (seconds - others - passed_on(name, requests, workers)) / len(requests)
        one = one or each
        print(f"{what}, {workers} workers: {1 / each:.0f} requests a second, as a ratio to one worker {one / each:.2f}, beside {publishes} publishes, version {shown} is shown; a request of a worker {workers * each * 1e6:.2f} us, of enforce {alone * 1e6:.2f} us, ratio {workers * each / alone:.2f}, the median of {len(rounds)} from {workers * compared[0][0]:.2f} to {workers * compared[-1][0]:.2f}; without the reading and writing of its line that one thread does {workers * decided * 1e6:.2f} us, ratio {workers * decided / alone:.2f}", flush=True)


files("equal", "r.sub == p.sub && r.obj == p.obj && r.act == p.act", (f"p, user{i}, data{i}, read" for i in range(RULES)))
compare("found by equalities", "equal", [f"user{i % RULES}, data{i % RULES}, {'write' if i % 2 else 'read'}" for i in range(most)])
files("paths", "keyMatch2(r.obj, p.obj) && r.act == p.act", (f"p, user, /data{i}/:id, read" for i in range(RULES)))
compare("found by the front of a pattern", "paths", [f"user, /data{RULES - 1}/7, {'write' if i % 2 else 'read'}" for i in range(most)])
# Each of these looks at all rules, so there are fewer of them.
files("each", "!(r.obj != p.obj) && !(r.act != p.act)", (f"p, user, /data{i}, read" for i in range(RULES)))
compare("1000 rules looked at", "each", [f"user, /data{RULES - 1}, {'write' if i % 2 else 'read'}" for i in range(most // 20)])
PYTHON
}

[ "$part" = entries ] || requests "${2:-120000}"
[ "$part" != requests ] || exit 0

make_program pair_costs edit_calls live_pair outside perm_base policy_desk policy_index policy_state policy_table
mkdir -p "$program/proofs/pairs/measured"
cat > "$program/src/main.rt" <<'RATTLE'
//! Prints what entering a seat and leaving it costs, as ratios of times of one run.
#![tactic(auto)]

mod desks;
mod edits;
mod entries;
mod pairs;

use anyhow::Result;
use entries::ENTRIES;
use pairs::{Took, measured};

fn main(rt: HostRuntime) -> Result<()> {
    let alloc = rt.alloc();
    let one = measured(&rt, alloc, 1, false)?;
    say(&rt, 1, &one, &one)?;
    say(&rt, 1, &measured(&rt, alloc, 1, true)?, &one)?;
    say(&rt, 2, &measured(&rt, alloc, 2, false)?, &one)?;
    say(&rt, 2, &measured(&rt, alloc, 2, true)?, &one)?;
    say(&rt, 4, &measured(&rt, alloc, 4, false)?, &one)?;
    say(&rt, 4, &measured(&rt, alloc, 4, true)?, &one)
}

fn say(rt: &HostRuntime, threads: u8, took: &Took, one: &Took) -> Result<()> {
    let entries = u128::from(ENTRIES);
    let all = entries.saturating_mul(u128::from(threads));
    println!(rt;
        "threads {threads}, publishes beside them {}: {} ns an entry, {} entries a second of all, ratio {} in a hundred",
        took.publishes,
        took.nanos / entries,
        all.saturating_mul(1_000_000_000) / took.nanos.max(1),
        took.nanos.saturating_mul(100) / one.nanos.max(1)
    )?;
    Ok(())
}
RATTLE
cat > "$program/src/desks.rt" <<'RATTLE'
//! A desk without rules.
ghost use Rattle.std.specs.Prelude.{◌≡◌, [], IfOk, false};
ghost use Rattle.policy_state.specs.States.{StandsFor};
ghost use Rattle.policy_table.specs.Tables.{without_rules};

use outside::NoMemory;
use perm_base::{RoleShapes, Shapes};
use policy_desk::{Desk, open_desk};
use policy_index::RowKey;
use policy_state::make_state;
use policy_table::no_tables;
use std::alloc::Global;

/// A desk over a policy without rules, whose p has a subject, an object and an action.
pub fn desk(alloc: Global) -> Result<Desk, NoMemory>
    ensures stands { IfOk result (λ desk. StandsFor desk.state (without_rules false) []) }
    ensures pending { IfOk result (λ desk. desk.pending ≡ []) }
{
    let shapes = Shapes {
        columns: 3,
        effect_column: None,
        subject_column: 0,
        roles: RoleShapes::from_vec(Vec::new(alloc)),
        limit: 10,
        ranked: false,
    };
    let key = RowKey::of_column(alloc, 0)?;
    open_desk(
        alloc,
        make_state(alloc, shapes, Some(key), no_tables(alloc))?,
    )
}
RATTLE
cat > "$program/src/pairs.rt" <<'RATTLE'
//! Pairs whose seats are entered.
ghost use Rattle.std.specs.Prelude.{◌≡◌, ◌<◌, ◌≤◌, []};
ghost use Rattle.policy_state.specs.States.{StandsFor};

use crate::desks::desk;
use crate::edits::edits_until;
use crate::entries::{ENTRIES, all_enter};
use anyhow::{Result, bail};
use live_pair::{Admin, Naming, OpenedBook, PairPlaces, Seat, open_pair};
use policy_desk::Desk;
use std::alloc::Global;
use std::marker::Brand;
use std::sync::{Mutex, Wait};
use std::thread::{Threads, join};
use std::time::{Clock, Instant};

/// The nanoseconds in which all threads made their entries, and the publishes beside them.
#[derive(Drop)]
pub struct Took {
    pub nanos: u128,
    pub publishes: u64,
}

/// What the entries of so many threads take, where the policy is edited beside them or is not.
pub fn measured<R: Clock + Threads + Wait + Sync>(
    rt: &R,
    alloc: Global,
    threads: u8,
    is_edited: bool,
) -> Result<Took>
    requires some { 0 < threads }
    requires few { threads ≤ 8 }
{
    let Ok(desk) = desk(alloc) else {
        bail!("no memory");
    };
    match measured_over::<Brand, R>(rt, alloc, OpenedBook::new(), desk, threads, is_edited) {
        Some(took) => Ok(took),
        None => bail!("a seat is missing, an entry or an edit is refused, or there is no memory or clock"),
    }
}

fn measured_over<J: Naming + Send + Sync, R: Clock + Threads + Wait + Sync>(
    rt: &R,
    alloc: Global,
    opened: OpenedBook,
    desk: Desk,
    threads: u8,
    is_edited: bool,
) -> Option<Took>
    requires book { opened ≡ J.book }
    requires shapes { desk.state.shapes ≡ J.shapes }
    requires stands { StandsFor desk.state J.opening J.first }
    requires pending { desk.pending ≡ [] }
    requires some { 0 < threads }
    requires few { threads ≤ 8 }
{
    let mut places = PairPlaces::new();
    let pair = open_pair::<J, R, PairPlaces>(rt, alloc, opened, desk, threads, &mut places);
    let Ok((mut admin, seats)) = pair else {
        return None;
    };
    let is_whole = seats.len() == threads as usize;
    let took = if is_edited {
        run_edited(rt, alloc, &mut admin, seats)
    } else {
        run(rt, seats)
    };
    drop(admin.close(rt));
    if is_whole { took } else { None }
}

// The entries with no edit beside them.
fn run<J: Naming + Send + Sync, R: Clock + Threads + Sync>(
    rt: &R,
    seats: Vec<Seat<J>>,
) -> Option<Took> {
    let nanos = timed(rt, seats)?;
    Some(Took {
        nanos,
        publishes: 0,
    })
}

// The entries beside an administrator who publishes until they are made.
fn run_edited<J: Naming + Send + Sync, R: Clock + Threads + Wait + Sync>(
    rt: &R,
    alloc: Global,
    admin: &mut Admin<J>,
    seats: Vec<Seat<J>>,
) -> Option<Took> {
    let done = Mutex::new(false);
    let (nanos, publishes) = join(
        rt,
        || timed_until(rt, seats, &done),
        || edits_until(rt, alloc, admin, &done),
    );
    Some(Took {
        nanos: nanos?,
        publishes: publishes?,
    })
}

fn timed_until<J: Naming + Send + Sync, R: Clock + Threads + Wait + Sync>(
    rt: &R,
    seats: Vec<Seat<J>>,
    done: &Mutex<bool>,
) -> Option<u128> {
    let nanos = timed(rt, seats);
    *done.lock(rt) = true;
    nanos
}

// The nanoseconds until the last of the seats has made its entries.
fn timed<J: Naming + Send + Sync, R: Clock + Threads + Sync>(
    rt: &R,
    seats: Vec<Seat<J>>,
) -> Option<u128> {
    let wanted = ENTRIES.saturating_mul(seats.len() as u64);
    let Ok(start) = Instant::now(rt) else {
        return None;
    };
    let entries = all_enter(rt, seats);
    let Ok(took) = start.elapsed(rt) else {
        return None;
    };
    if entries == wanted {
        Some(took.as_nanos())
    } else {
        None
    }
}
RATTLE
cat > "$program/src/entries.rt" <<'RATTLE'
//! Seats that enter and leave.

use live_pair::{Naming, Seat};
use std::thread::{Threads, join};

/// How often each seat enters.
pub const ENTRIES: u64 = 1_000_000;

/// Lets one, two or four seats enter, each in a thread of its own, and counts the entries of all.
pub fn all_enter<J: Naming + Send + Sync, R: Threads + Sync>(rt: &R, seats: Vec<Seat<J>>) -> u64 {
    let mut seats = seats;
    let Some(first) = seats.pop() else {
        return 0;
    };
    let Some(second) = seats.pop() else {
        return enters(first);
    };
    let Some(third) = seats.pop() else {
        return two_enter(rt, first, second);
    };
    let Some(fourth) = seats.pop() else {
        return 0;
    };
    let (front, back) = join(
        rt,
        || two_enter(rt, first, second),
        || two_enter(rt, third, fourth),
    );
    front.saturating_add(back)
}

fn two_enter<J: Naming + Send + Sync, R: Threads>(rt: &R, first: Seat<J>, second: Seat<J>) -> u64 {
    let (one, other) = join(rt, || enters(first), || enters(second));
    one.saturating_add(other)
}

// Enters and leaves again and again, and counts the entries.
fn enters<J: Naming>(seat: Seat<J>) -> u64 {
    let mut seat = seat;
    for _ in 0..ENTRIES {
        seat = once(seat);
    }
    seat.entries()
}

fn once<J: Naming>(seat: Seat<J>) -> Seat<J> {
    match seat.enter() {
        Ok(entered) => entered.leave(),
        Err(shut) => shut.seat,
    }
}
RATTLE
cat > "$program/src/edits.rt" <<'RATTLE'
//! An administrator who publishes all the time.

use edit_calls::Call;
use live_pair::{Admin, Naming};
use outside::{NoMemory, Text};
use perm_base::{Rule, TableId};
use std::alloc::Global;
use std::sync::{Mutex, Wait};

/// Adds a rule and removes it again, each published by itself, until the seats are done, and counts the publishes. The log keeps
/// no edit, so that a publish costs the same however many there were.
pub fn edits_until<J: Naming, R: Wait>(
    rt: &R,
    alloc: Global,
    admin: &mut Admin<J>,
    done: &Mutex<bool>,
) -> Option<u64> {
    let table = TableId::P;
    let Ok((added, removed)) = two_rules(alloc) else {
        return None;
    };
    let add = Call::Add { table, rule: added };
    let remove = Call::Remove {
        table,
        rule: removed,
    };
    admin.keep(0);
    let mut publishes = 0u64;
    for number in 0..u64::MAX {
        if *done.lock(rt) {
            break;
        }
        let call = if number % 2 == 0 { &add } else { &remove };
        if !is_called(alloc, admin, call) || !is_published(rt, alloc, admin) {
            return None;
        }
        publishes = publishes.saturating_add(1);
    }
    Some(publishes)
}

// The same rule twice.
fn two_rules(alloc: Global) -> Result<(Rule, Rule), NoMemory> {
    Ok((reading(alloc)?, reading(alloc)?))
}

// The rule that alice may read data1.
fn reading(alloc: Global) -> Result<Rule, NoMemory> {
    let fields = vec![in alloc;
        Text::from_str(alloc, "alice")?,
        Text::from_str(alloc, "data1")?,
        Text::from_str(alloc, "read")?,
    ]?;
    let Ok(rule) = Rule::from_fields(fields) else {
        return Err(NoMemory);
    };
    Ok(rule)
}

// One call with a great contract a function.
fn is_called<J: Naming>(alloc: Global, admin: &mut Admin<J>, call: &Call) -> bool {
    matches!(admin.call(alloc, call), Ok(true))
}

fn is_published<J: Naming, R: Wait>(rt: &R, alloc: Global, admin: &mut Admin<J>) -> bool {
    admin.publish(rt, alloc).is_ok()
}
RATTLE
cat > "$program/proofs/pairs/measured/Invariants.antt" <<'ANTT'
use Rattle.std.proofs.Common.{false, []}
use Rattle.policy_table.specs.Tables.{without_rules}
use Rattle.pair_costs.proofs.pairs.measured.Given as goal

-- the pair of the book that was just opened, over a policy without rules
abbrev pub ghosts-measured_over : goal.ghosts-measured_over
ghosts-measured_over g a = record { book = a.opened; shapes = a.desk.state.shapes; opening = without_rules false; first = [] }
ANTT
run_program
