#!/usr/bin/env bash
# Prints what one search costs, as a ratio to a plain comparison of the bytes of the same text: for a small pattern, for one
# of 200 bytes, for a text of 4,096 bytes, and for ten patterns in turn over a text of 20 bytes; each with the finder that builds
# the pattern at each call, and with the one that keeps it. At most 20 is wanted of the last ratio. Builds a program over
# copies of the crates, in a folder of its own: the first time takes some minutes.
source "$(dirname "${BASH_SOURCE[0]}")/program.sh"
make_program regex_cost outside regex_gate regex_keep
mkdir -p "$program/proofs/count"
cat > "$program/proofs/count/Answers.antt" <<'ANTT'
use denote.Param.Send.{sendable}
use Rattle.regex_keep.proofs.CallerLemmas.{keeping_finder_send}
use Rattle.regex_cost.proofs.count.Goals as goal

pub count_found-requires-in-keep-send-F : goal.count_found-requires-in-keep-send-F
count_found-requires-in-keep-send-F c κs = search (sendable, keeping_finder_send)
ANTT
cat > "$program/src/main.rt" <<'RATTLE'
// Searches a text many times, or compares it as often, so that the time of each can be taken from outside.
#![tactic(auto)]

mod sample;
mod work;

use outside::NoMemory;
use regex_gate::RegexFinder;
use regex_keep::KeepingFinder;
use sample::Sample;
use std::alloc::Global;
use std::{env, io};
use work::{count_equal, count_found};

// The words are `build`, `keep` or `compare`, the name of a sample, and how often.
fn main(rt: HostRuntime) -> io::Result<()> {
    let alloc = rt.alloc();
    let mut words = env::args(&rt)?.skip(1);
    let (Some(work), Some(name), Some(times)) = (words.next(), words.next(), words.next()) else {
        return println!(rt; "words: build|keep|compare small|long|text|ten TIMES");
    };
    let Ok(times) = times.as_str().parse::<u32>() else {
        return println!(rt; "no number");
    };
    let Some(sample) = Sample::named(alloc, name.as_str())? else {
        return println!(rt; "no such sample");
    };
    let Ok(count) = count(alloc, work.as_str(), &sample, times) else {
        return println!(rt; "no memory");
    };
    println!(rt; "{count}")
}

// How often a pattern was found, or texts were equal, in so many rounds.
fn count(alloc: Global, work: &str, sample: &Sample, times: u32) -> Result<u32, NoMemory> {
    match work {
        "build" => Ok(count_found(&mut RegexFinder::new(alloc), sample, times)),
        "keep" => Ok(count_found(&mut KeepingFinder::new(alloc)?, sample, times)),
        _ => Ok(count_equal(alloc, sample, times)?),
    }
}
RATTLE
cat > "$program/src/sample.rt" <<'RATTLE'
use std::alloc::{AllocError, Global};

// A pattern of 200 bytes, which is found in itself.
const LONG: &str =
    "/tenants/alice/projects/engine/policies/0123456789/rules/abcdefghijklmnopqrstuvwxyz/versions/0123456789/entries/abcdefghijklmnopqrstuvwxyz/fields/0123456789/values/abcdefghijklmnopqrstuvwxyz/subjects/";

// Ten patterns, each on a line, that are found in one text.
const TEN: &str =
    "GET|POST\nPOST\ntenants\nalicia\n^POST\n/[a-z]+$\n(GET|POST) /\n^(GET|POST) /tenants/\nali\n/tenants/[a-z]+";

/// Patterns, and a text in which they are found.
#[derive(Drop)]
pub(crate) struct Sample {
    pub(crate) patterns: Vec<Vec<u8>>,
    pub(crate) text: Vec<u8>,
}

impl Sample {
    /// The sample of a name: a small pattern, one of 200 bytes, a text of 4,096 bytes, or ten patterns.
    pub(crate) fn named(alloc: Global, name: &str) -> Result<Option<Sample>, AllocError> {
        match name {
            "small" => Sample::of(alloc, "GET|POST", 0, "POST"),
            "long" => Sample::of(alloc, LONG, 0, LONG),
            "text" => Sample::of(alloc, "GET|POST", 4092, "POST"),
            "ten" => Sample::of(alloc, TEN, 0, "POST /tenants/alicia"),
            _ => Ok(None),
        }
    }

    fn of(
        alloc: Global,
        lines: &str,
        before: usize,
        end: &str,
    ) -> Result<Option<Sample>, AllocError> {
        let mut patterns = Vec::new(alloc);
        for line in lines.split('\n') {
            patterns.push(Vec::from_slice(alloc, line.as_bytes())?)?;
        }
        let mut text = Vec::new(alloc);
        text.resize(before, b'x')?;
        text.extend_from_slice(end.as_bytes())?;
        Ok(Some(Sample { patterns, text }))
    }
}
RATTLE
cat > "$program/src/work.rt" <<'RATTLE'
use crate::sample::Sample;
use regex_gate::Finder;
use std::alloc::{AllocError, Global};

/// How many searches find a pattern of a sample, of so many rounds over its patterns.
pub(crate) fn count_found<F: Finder>(finder: &mut F, sample: &Sample, rounds: u32) -> u32 {
    let mut count: u32 = 0;
    for _ in 0..rounds {
        count = count.saturating_add(count_round(finder, sample));
    }
    count
}

fn count_round<F: Finder>(finder: &mut F, sample: &Sample) -> u32 {
    let mut count: u32 = 0;
    for pattern in &sample.patterns {
        if finder.find(pattern, &sample.text) == Ok(true) {
            count = count.saturating_add(1);
        }
    }
    count
}

/// How many of so many comparisons find the text of a sample equal to a copy. A byte of both changes each time, so
/// that no comparison can be left out.
pub(crate) fn count_equal(alloc: Global, sample: &Sample, times: u32) -> Result<u32, AllocError> {
    let mut text = Vec::from_slice(alloc, &sample.text)?;
    let mut copy = Vec::from_slice(alloc, &sample.text)?;
    let mut count: u32 = 0;
    for turn in 0..times {
        set_last(&mut text, (turn & 0xff) as u8);
        set_last(&mut copy, (turn & 0xff) as u8);
        if text.as_slice() == copy.as_slice() {
            count = count.saturating_add(1);
        }
    }
    Ok(count)
}

fn set_last(bytes: &mut [u8], byte: u8) {
    if let Some(last) = bytes.last_mut() {
        *last = byte;
    }
}
RATTLE
cd "$program"
log="$(rt run -- build small 1 2>&1)" || { echo "$log"; exit 1; }

# The nanoseconds of a run of the program.
run() {
  local before after
  before="$(date +%s%N)"
  out/regex_cost "$1" "$2" "$3" >/dev/null
  after="$(date +%s%N)"
  echo $((after - before))
}

# The picoseconds of a round of searches, or of one comparison: those of so many, without those of a run that makes none.
cost() {
  local idle busy
  idle="$(run "$1" "$2" 0)"
  busy="$(run "$1" "$2" "$3")"
  echo $(((busy - idle) * 1000 / $3))
}

# A name, a sample, how many patterns it has, and how many rounds to build, to keep and to compare.
report() {
  local build keep compare
  build="$(($(cost build "$2" "$4") / $3))"
  keep="$(($(cost keep "$2" "$5") / $3))"
  compare="$(cost compare "$2" "$6")"
  awk -v name="$1" -v build="$build" -v keep="$keep" -v compare="$compare" 'BEGIN {
    printf "%-22s built %9.1f us   kept %8.1f ns   comparison %7.1f ns   ratios %7.0f %6.1f\n", name, build / 1e6, keep / 1e3, compare / 1e3, build / compare, keep / compare
  }'
}

report "pattern GET|POST" small 1 5000 5000000 50000000
report "pattern of 200 bytes" long 1 500 2000000 20000000
report "text of 4,096 bytes" text 1 5000 500000 5000000
report "ten patterns in turn" ten 10 500 500000 50000000
