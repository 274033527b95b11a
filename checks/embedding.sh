#!/usr/bin/env bash
# Builds the library for C, compares its header with its exports, and runs the examples that call it: in C, plain and under the
# sanitizers for addresses and for threads, in Python and in Go. Each answers the session of examples/session as its answers say.
# It stands beside the gate, which runs the library's own tests, and wants Debian's gcc, python3 and golang-go.
# Usage: checks/embedding.sh
set -euo pipefail
cd "$(dirname "${BASH_SOURCE[0]}")/.."
work="$(mktemp -d)"
trap 'rm -rf "$work"' EXIT
export PYTHONDONTWRITEBYTECODE=1
session=(examples/session/model.conf examples/session/policy.csv examples/session/script.txt)
source=examples/embedding
flags=(-std=c11 -D_POSIX_C_SOURCE=200809L -O2 -g -Wall -Wextra -Werror -Iinclude)

./casbin_c_library

# The names that the header declares, and those that the library has.
grep -o 'casbin_[a-z_]*(' include/casbin.h | tr -d '(' | sort -u >"$work/declared"
nm -g --defined-only crates/casbin_c/out/libcasbin_c.a | awk '$2 == "T" && $3 ~ /^casbin_[a-z_]*$/ { print $3 }' | sort -u >"$work/exported"
nm -D --defined-only out/libcasbin.so | awk '$2 == "T" { print $3 }' | sort -u >"$work/shared"
diff "$work/declared" "$work/exported" || { echo "include/casbin.h and the exports differ" >&2; exit 1; }
diff "$work/declared" "$work/shared" || { echo "libcasbin.so hands out other names" >&2; exit 1; }
echo "the header declares the $(wc -l <"$work/exported") exports"

# The numbers that the exports answer, and those that the header gives their names.
sed -n 's/^pub const \([A-Z_]*\): u32 = \([0-9]*\);$/CASBIN_\1 = \2/p' crates/casbin_c/src/codes.rt | sort >"$work/codes"
grep -o 'CASBIN_[A-Z_]* = [0-9]*' include/casbin.h | sort -u >"$work/numbers"
other="$(comm -23 "$work/codes" "$work/numbers")"
[ -z "$other" ] || { echo "include/casbin.h has other numbers than: $other" >&2; exit 1; }
echo "the header has the $(wc -l <"$work/codes") numbers that calls answer"

# Compares what a command prints with the answers of the session.
answers() {
  local what="$1"
  shift
  "$@" "${session[@]}" >"$work/answers"
  diff examples/session/answers.txt "$work/answers" || { echo "$what answers otherwise" >&2; exit 1; }
  echo "$what answers the session"
}

# Builds an example in C with further flags.
compile() {
  local name="$1"
  shift
  gcc "${flags[@]}" "$@" -o "$work/$name" "$source/$name.c" out/libcasbin.a -pthread
}

compile session
answers "C" "$work/session"
compile session -fsanitize=address,undefined
answers "C under the sanitizer for addresses" "$work/session"
compile threads
"$work/threads" 1000
compile threads -fsanitize=address,undefined
"$work/threads" 100
compile threads -fsanitize=thread
"$work/threads" 100

answers "Python" python3 "$source/session.py"

GO111MODULE=off GOFLAGS= GOCACHE="$work/go" go build -o "$work/session_go" "$source/session.go"
answers "Go" "$work/session_go"
