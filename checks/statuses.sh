#!/usr/bin/env bash
# Runs the built program once to each status that words, files and streams bring about, and compares the status and what standard
# output and standard error get with docs/SCRIPTS.md. The gate runs it to status 0 alone, and to the others over files in memory; want
# of memory, status 9, is what checks/fail_alloc.sh brings about. Outside the gate. PROGRAM is a program that is built elsewhere.
# Usage: [PROGRAM=PATH] checks/statuses.sh
set -u
root="$(cd "$(dirname "${BASH_SOURCE[0]}")/.." && pwd)"
program="$(realpath -m "${PROGRAM:-$root/crates/casbin_cli/out/casbin_cli}")"
basic="$root/examples/basic"
[ -n "${PROGRAM:-}" ] || "$root/casbin_cli" prove || exit 1
[ -x "$program" ] || { echo "the program is not built" >&2; exit 1; }
work="$(mktemp -d)"
trap 'rm -rf "$work"' EXIT
cd "$work" || exit 1

cp "$basic"/* .
echo 'no section' >none.conf
head -c 65537 /dev/zero | tr '\0' '#' >long.conf
printf 'p, alice, data1, read\np, "bob, data2, write\n' >quote.csv
echo 'nothing alice' >script.txt
: >empty
runs=0 failed=0

# Runs the program with WORDS over INPUT: it has to end with STATUS, write LINE to standard error, and to standard output what OUT has.
# Usage: ends STATUS LINE OUT INPUT [WORD]..
ends() {
  local status="$1" line="$2" out="$3" input="$4" came
  shift 4
  "$program" "$@" <"$input" >out 2>err
  came="$?"
  runs=$((runs + 1))
  if [ "$came" != "$status" ] || [ "$(cat err)" != "$line" ] || ! cmp -s out "$out"; then
    echo "$*: status $came, and not $status with '$line'; standard error is '$(cat err)'" >&2
    failed=1
  fi
}

ends 0 '' answers.txt requests.csv enforce model.conf policy.csv
ends 2 'usage: casbin_cli COMMAND [OPTION]... [WORD]...' empty empty nothing
ends 3 'model: line 1: not a line of a model' empty requests.csv enforce none.conf policy.csv
ends 4 'policy: line 2, column 4: quote' empty requests.csv enforce model.conf quote.csv
ends 5 'script: line 1: word' empty script.txt session model.conf policy.csv
ends 6 'cannot read: policy' empty requests.csv enforce model.conf absent.csv
ends 8 'too long: model, limit 65536' empty requests.csv enforce long.conf policy.csv

# Standard output is full.
"$program" enforce model.conf policy.csv <requests.csv >/dev/full 2>err
came="$?"
runs=$((runs + 1))
if [ "$came" != 7 ] || [ "$(cat err)" != 'cannot write' ]; then
  echo "a full output: status $came; standard error is '$(cat err)'" >&2
  failed=1
fi

[ "$failed" -eq 0 ] && echo "$runs runs ended with their statuses"
exit "$failed"
