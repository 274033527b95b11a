#!/usr/bin/env bash
# Prints what one request of `enforce` costs over 10 rules, for a model of three equalities, beside a plain loop of the same
# language that cuts the same line into three fields and prints an answer of the same length: both as whole processes over the
# same input, as a ratio of one run. Builds the loop in a folder of its own, in a minute. Usage: bench/request.sh [REQUESTS]
source "$(dirname "${BASH_SOURCE[0]}")/timing.sh"
source "$(dirname "${BASH_SOURCE[0]}")/program.sh"
requests="${1:-400000}"
runs=15
build "$root"
make_program plain_lines itoa
cat > "$program/src/main.rt" <<'RATTLE'
//! Cuts each line of standard input into three fields, and prints an answer of them.
#![tactic(auto)]

use anyhow::Result;
use itoa::Buffer;
use std::alloc::Global;
use std::io::{Read, Write};

fn main(rt: HostRuntime) -> Result<()> {
    let alloc: Global = rt.alloc();
    let mut bytes = Vec::new(alloc);
    rt.stdin().read_to_end(&mut bytes)?;
    let Ok(input) = str::from_utf8(&bytes) else {
        return Ok(());
    };
    let mut out = rt.stdout();
    let mut text = String::new(alloc);
    let mut number: u32 = 0;
    for line in input.lines() {
        number = number.saturating_add(1);
        push_answer(&mut text, number, line)?;
        if text.len() >= 16_384 {
            out.write_all(text.as_bytes())?;
            text.clear();
        }
    }
    out.write_all(text.as_bytes())?;
    Ok(())
}

fn push_answer(text: &mut String, number: u32, line: &str) -> Result<()> {
    let mut digits = Buffer::new();
    text.push_str(digits.format(number))?;
    let Some((subject, rest)) = line.split_once(',') else {
        return Ok(());
    };
    let Some((object, action)) = rest.split_once(',') else {
        return Ok(());
    };
    text.push_str(" allow @0 p#1 ")?;
    text.push_str(subject.trim())?;
    text.push_str(", ")?;
    text.push_str(object.trim())?;
    text.push_str(", ")?;
    text.push_str(action.trim())?;
    text.push_str("\n")?;
    Ok(())
}
RATTLE
# Without input it only shows that it is built; one of its lines is looked at below.
run_program || true
plain="$program/out/plain_lines"
[ -x "$plain" ] || { echo "the loop was not built" >&2; exit 1; }

model "$equalities" >"$work/model.conf"
awk 'BEGIN { for (i = 1; i <= 10; i++) printf "p, user%05d, data%05d, read\n", i, i }' >"$work/policy.csv"
awk -v q="$requests" 'BEGIN { for (i = 0; i < q; i++) printf "user%05d, data%05d, read\n", i % 10 + 1, i % 10 + 1 }' >"$work/input"

enforce=("$root/crates/casbin_cli/out/casbin_cli" enforce "$work/model.conf" "$work/policy.csv")
load="$(took "$work/empty" "${enforce[@]}")"
whole="$(took "$work/input" "${enforce[@]}")"
[ "$(grep -c ' allow @0 p#' "$work/answers")" -eq "$requests" ] || { echo "some request is not allowed" >&2; exit 1; }
size="$(wc -c <"$work/answers")"
plain_load="$(took "$work/empty" "$plain")"
plain_whole="$(took "$work/input" "$plain")"
plain_size="$(wc -c <"$work/answers")"
awk -v ms="$((whole - load))" -v plain="$((plain_whole - plain_load))" -v q="$requests" -v size="$size" -v ps="$plain_size" 'BEGIN {
  plain = plain > 0 ? plain : 1
  printf "a request %.0f ns, cut and printed by a plain loop %.0f ns, ratio %.1f (%d and %d bytes printed)\n", ms * 1e6 / q, plain * 1e6 / q, ms / plain, size, ps }'
