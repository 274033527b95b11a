#!/usr/bin/env bash
# Prints how long hard calls of key_match take, beside an easy call of the same size: a text of 4,096 equal bytes
# against itself. Builds a program over a copy of the crate, in a folder of its own.
set -euo pipefail
crate="$(cd "$(dirname "${BASH_SOURCE[0]}")/../crates/key_match" && pwd)"
work="$(mktemp -d)"
trap 'rm -rf "$work"' EXIT
mkdir -p "$work/crates/hard_cases/src"
mkdir "$work/crates/key_match"
cp -r "$crate/src" "$crate/specs" "$crate/proofs" "$work/crates/key_match"
printf 'key_match:\nhard_cases: key_match anyhow\n' > "$work/crates.txt"
cat > "$work/crates/hard_cases/src/main.rt" <<'RATTLE'
//! Prints how long hard calls of `key_match` take, beside an easy call of the same size.
#![tactic(auto)]

use anyhow::Result;
use key_match::{
    glob_match, key_get, key_get2, key_get3, key_match as match_to_star, key_match2, key_match3, key_match4, key_match5,
};
use std::alloc::{AllocError, Global};
use std::time::Instant;

#[derive(Clone, Copy)]
enum Call {
    Match,
    Match2,
    Match3,
    Match4,
    Match5,
    Glob,
    Get,
    Get2,
    Get3,
}

/// A text that repeats a unit and then ends in some bytes.
#[derive(Clone, Copy)]
struct Repeated<'a> {
    unit: &'a [u8],
    count: usize,
    last: &'a [u8],
}

fn text_of(alloc: Global, repeated: Repeated) -> Result<Vec<u8>, AllocError> {
    let mut text = Vec::new(alloc);
    for _ in 0..repeated.count {
        text.extend_from_slice(repeated.unit)?;
    }
    text.extend_from_slice(repeated.last)?;
    Ok(text)
}

fn fits(call: Call, key: &[u8], pattern: &[u8]) -> bool {
    match call {
        Call::Match => match_to_star(key, pattern),
        Call::Match2 => key_match2(key, pattern),
        Call::Match3 => key_match3(key, pattern),
        Call::Match4 => key_match4(key, pattern),
        Call::Match5 => key_match5(key, pattern),
        Call::Glob => glob_match(key, pattern),
        Call::Get => !key_get(key, pattern).is_empty(),
        Call::Get2 => !key_get2(key, pattern, b"z").is_empty(),
        Call::Get3 => !key_get3(key, pattern, b"z").is_empty(),
    }
}

fn nanos(rt: &HostRuntime, call: Call, key: &[u8], pattern: &[u8]) -> Result<u64> {
    let start = Instant::now(rt)?;
    let fits = fits(call, key, pattern);
    let took = start.elapsed(rt)?.as_nanos();
    if fits {
        print!(rt; "")?;
    }
    Ok(u64::try_from(took).unwrap_or(u64::MAX))
}

fn report(
    rt: &HostRuntime,
    name: &str,
    call: Call,
    pattern: Repeated,
    key: Repeated,
) -> Result<()> {
    let alloc = rt.alloc();
    let easy_text = text_of(alloc, Repeated { unit: b"a", count: 4096, last: b"" })?;
    let easy = nanos(rt, call, &easy_text, &easy_text)?;
    let pattern = text_of(alloc, pattern)?;
    let key = text_of(alloc, key)?;
    let hard = nanos(rt, call, &key, &pattern)?;
    let times = hard / easy.max(1);
    println!(rt; "{name}: {times} times the easy call ({} us)", hard / 1000)?;
    Ok(())
}

fn main(rt: HostRuntime) -> Result<()> {
    let slashes = Repeated { unit: b"/", count: 4095, last: b"b" };
    let letters = Repeated { unit: b"a", count: 4095, last: b"/" };
    let parts = Repeated { unit: b"/a", count: 2047, last: b"b" };
    let rests = Repeated { unit: b"/*", count: 2046, last: b"/c" };
    report(&rt, "key_match, one star", Call::Match, Repeated { unit: b"a", count: 4094, last: b"b*" }, letters)?;
    report(&rt, "key_get, one star", Call::Get, Repeated { unit: b"a", count: 4095, last: b"*" }, letters)?;
    report(&rt, "key_match2, /* over and over", Call::Match2, rests, slashes)?;
    report(&rt, "key_match2, /:a over and over", Call::Match2, Repeated { unit: b"/:a", count: 1364, last: b"/c" }, parts)?;
    report(&rt, "key_match3, /* over and over", Call::Match3, rests, parts)?;
    report(&rt, "key_match3, {a} over and over", Call::Match3, Repeated { unit: b"{a}", count: 1364, last: b"c" }, letters)?;
    report(&rt, "key_match3, {a}a over and over", Call::Match3, Repeated { unit: b"{a}a", count: 1000, last: b"c" }, letters)?;
    report(&rt, "key_match3, /*{a} over and over", Call::Match3, Repeated { unit: b"/*{a}", count: 800, last: b"c" }, parts)?;
    report(&rt, "key_match3, a rest, a segment, many bytes", Call::Match3, Repeated { unit: b"a", count: 0, last: b"/*{a}aaaaaaaaaaaaaaaaaaaaaaaaaaaaaaaaaaaaaaaaaaaaaaaaaaaaaaaaaaaaaaaaaaaab" }, Repeated { unit: b"/aaaaaaaaaaaaaaa", count: 256, last: b"" })?;
    report(&rt, "key_match4, no name twice", Call::Match4, Repeated { unit: b"/*", count: 2040, last: b"/{a}/{b}/c" }, slashes)?;
    report(&rt, "key_match4, two equal names", Call::Match4, Repeated { unit: b"/*", count: 1, last: b"/{a}/*/{a}/c" }, Repeated { unit: b"/a", count: 100, last: b"/d" })?;
    report(&rt, "key_match5, /* over and over", Call::Match5, rests, slashes)?;
    report(&rt, "glob_match, * over and over", Call::Glob, Repeated { unit: b"*", count: 4095, last: b"b" }, letters)?;
    report(&rt, "glob_match, *a over and over", Call::Glob, Repeated { unit: b"*a", count: 1024, last: b"b" }, letters)?;
    report(&rt, "glob_match, a star and many bytes", Call::Glob, Repeated { unit: b"a", count: 0, last: b"*aaaaaaaaaaaaaaaaaaaaaaaaaaaaaaaaaaaaaaaaaaaaaaaaaaaaaaaaaaaaaaaaab" }, letters)?;
    report(&rt, "glob_match, [ over and over", Call::Glob, Repeated { unit: b"[", count: 4095, last: b"*" }, Repeated { unit: b"[", count: 4095, last: b"/" })?;
    report(&rt, "key_get2, /* over and over", Call::Get2, Repeated { unit: b"/*", count: 100, last: b"/:z" }, Repeated { unit: b"/a", count: 2048, last: b"" })?;
    report(&rt, "key_get3, {a} over and over", Call::Get3, Repeated { unit: b"{a}", count: 1000, last: b"{z}" }, Repeated { unit: b"a", count: 4096, last: b"" })?;
    Ok(())
}
RATTLE
cd "$work"
git init -q .
(cd crates/key_match && rt lib > /dev/null)
cd crates/hard_cases
rt run 2>&1 | grep -E 'times the easy call|: error|no proof'
