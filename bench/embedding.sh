#!/usr/bin/env bash
# Prints what a request costs through the library for C, called from C, from Go and from Python, beside what one costs in
# `enforce`, for a model of three equalities over 10, 1,000 and 10,000 rules; the time to load model and policy taken out. Each
# request matches the last rule or none by turns. Where Casbin for Go is installed (Debian's golang-github-casbin-casbin-dev) its
# `Enforce` stands beside them, for a hundredth of the requests. From C a request is to cost at most 1.3 times one of `enforce`.
# Usage: bench/embedding.sh [REQUESTS], how many requests are asked, 1,000,000 unless it is told.
source "$(dirname "${BASH_SOURCE[0]}")/timing.sh"
requests="${1:-1000000}"
sources="$root/bench/embedding"
# Debian has Casbin's second version under a path without its number.
gopath=/usr/share/gocode
installed="$gopath/src/github.com/casbin/casbin"

"$root/casbin_c_library" >/dev/null
build "$root"
gcc -std=c11 -D_POSIX_C_SOURCE=200809L -O2 -I"$root/include" -o "$work/request_c" "$sources/request.c" "$root/out/libcasbin.a"
export GO111MODULE=off GOCACHE="$work/go" PYTHONDONTWRITEBYTECODE=1
[ -z "$(command -v go)" ] || go build -o "$work/request_go" "$sources/request.go"
if [ -n "$(command -v go)" ] && grep -q '^module github.com/casbin/casbin/v2$' "$installed/go.mod" 2>/dev/null; then
  mkdir -p "$work/gopath/src/github.com/casbin/casbin"
  ln -s "$installed" "$work/gopath/src/github.com/casbin/casbin/v2"
  GOPATH="$work/gopath:$gopath" go build -o "$work/casbin_go" "$sources/casbin_go.go"
fi

# The nanoseconds of a request that a command prints, the least of three runs, or that it is not there.
least() {
  local number="$1" least=""
  shift
  [ -x "$(command -v "$1")" ] || { echo -; return; }
  for _ in 1 2 3; do
    printed="$("$@" "$work/model.conf" "$work/policy.csv" "$last" "$number")"
    least="$(awk -v a="${least:-$printed}" -v b="$printed" 'BEGIN { print a < b ? a : b }')"
  done
  echo "$least"
}

model "$equalities" >"$work/model.conf"
for rules in 10 1000 10000; do
  last="$(printf %05d "$rules")"
  awk -v n="$rules" 'BEGIN { for (i = 1; i <= n; i++) printf "p, user%05d, data%05d, read\n", i, i }' >"$work/policy.csv"
  # An input has 16 MiB at most, so that its requests may be fewer.
  asked="$((requests < 500000 ? requests : 500000))"
  awk -v q="$asked" -v n="$last" 'BEGIN { for (i = 0; i < q; i++) printf "user%s, data%s, %s\n", n, n, i % 2 ? "write" : "read" }' >"$work/input"
  load="$(run model.conf policy.csv empty)"
  whole="$(run model.conf policy.csv input)"
  check_answers "$asked" "$rules"
  own="$(awk -v ms="$((whole - load))" -v q="$asked" 'BEGIN { printf "%.1f", ms * 1e6 / q }')"
  c="$(least "$requests" "$work/request_c")"
  go="$(least "$requests" "$work/request_go")"
  python="$(PYTHONPATH="$root/examples/embedding" least "$((requests / 10))" python3 "$sources/request.py")"
  casbin="$(least "$((requests / 100))" "$work/casbin_go")"
  awk -v n="$rules" -v own="$own" -v c="$c" -v go="$go" -v python="$python" -v casbin="$casbin" 'BEGIN {
    printf "%6d rules  enforce %8s ns  C %8s ns, ratio %.2f  Go %8s ns  Python %8s ns  Casbin for Go %10s ns\n", n, own, c, c / own, go, python, casbin
  }'
done
