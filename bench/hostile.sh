#!/usr/bin/env bash
# Prints what the built program spends on texts that are made to cost much, beside what it spends on harmless texts of the same
# size and kind, and marks each ratio above 20; docs/RELIABILITY.md has the reasons of those that stay so. Each line names the
# text, the milliseconds of processor time and the MiB of both, the ratio of the times, and the status of the hostile run: -9 where
# it was ended after 100 seconds. With a WORD only the parts whose names have it: `one byte`, `JSON`, `matcher`, `pattern`, `key`,
# `rules`, `explain`, `lint`, `roles`, `hash`, `script`, `packets`, `workers`, `limits`. The last one runs texts as large as they may be
# beside a tenth of each, so that a ratio of ten says that what they cost grows as they do. It needs python3; PROGRAM is a program that
# is built elsewhere.
# Usage: [PROGRAM=PATH] bench/hostile.sh [WORD]
source "$(dirname "${BASH_SOURCE[0]}")/timing.sh"
word="${1:-}"
most=20
runs=3
[ -n "${PROGRAM:-}" ] || build "$root"
program="$(realpath "${PROGRAM:-$root/crates/casbin_cli/out/casbin_cli}")"
above=0
mebibytes16=16777216

# What a run of these words over a model, a policy and an input of these names spends, as measure.py prints it.
spent() {
  local names="$1" command="$2"
  shift 2
  python3 "$root/bench/measure.py" "$runs" "$work/$names.in" "$program" "$command" "$@" "$work/$names.conf" "$work/$names.csv" "${behind[@]}"
}

# Words behind the files.
behind=()

# Compares the run of these words over h.conf, h.csv and h.in with that over p.conf, p.csv and p.in.
compare() {
  local name="$1" hostile plain mark="" memory plain_memory status
  shift
  read -r plain plain_memory status <<<"$(spent p "$@")"
  read -r hostile memory status <<<"$(spent h "$@")"
  [ "$plain" -gt 0 ] || plain=1
  if [ "$hostile" -gt $((plain * most)) ]; then
    mark="  ABOVE $most"
    above=$((above + 1))
  fi
  NAME="$name" awk -v h="$hostile" -v p="$plain" -v m="$memory" -v n="$plain_memory" -v s="$status" -v mark="$mark" 'BEGIN {
    printf "%-66s %7d ms %5d MiB, harmless %6d ms %5d MiB, ratio %6.1f, status %d%s\n", ENVIRON["NAME"], h, m, p, n, h / p, s, mark }'
}

# Whether a part is wanted.
wanted() {
  case "$1" in *"$word"*) return 0 ;; *) return 1 ;; esac
}

# A byte so many times: its printf form, and the number.
filled() {
  head -c "$2" /dev/zero | tr '\0' "$1"
}

# A text so many times.
repeated() {
  TEXT="$1" awk -v n="$2" 'BEGIN { for (i = 0; i < n; i++) printf "%s", ENVIRON["TEXT"] }'
}

# Lines by a format of printf with numbers from 1, as many as fill so many bytes but are at most so many.
lines() {
  awk -v format="$1" -v bytes="$2" -v most="${3:-100000000}" 'BEGIN {
    for (i = 1; i <= most; i++) {
      line = sprintf(format, i, i)
      size += length(line) + 1
      if (size > bytes) exit
      print line
    } }'
}

# The files of both runs: the model of three equalities, a rule, and no input.
reset() {
  model "$equalities" >"$work/h.conf"
  echo 'p, alice, data1, read' >"$work/h.csv"
  : >"$work/h.in"
  cp "$work/h.conf" "$work/p.conf"
  cp "$work/h.csv" "$work/p.csv"
  cp "$work/h.in" "$work/p.in"
}

# Model, policy, requests, JSON, script and packets of one byte each.
if wanted "one byte"; then
  runs=1
  for byte in ' ' '\t' '\n' '\r' '"' ',' '#' '[' '{' '\\' 'a' '\377'; do
    reset
    filled "$byte" "$mebibytes16" >"$work/bytes"
    cp "$work/bytes" "$work/h.conf"
    lines '# comment %09d' "$mebibytes16" >"$work/p.conf"
    compare "one byte, $byte, as a model" check
    reset
    cp "$work/bytes" "$work/h.csv"
    lines 'p, user%09d, data%09d, read, a field that is as long as a line of a hundred bytes wants it, 0123' "$mebibytes16" 160000 >"$work/p.csv"
    model "$equalities" 'sub, obj, act, note' >"$work/p.conf"
    compare "one byte, $byte, as a policy" check
    reset
    cp "$work/bytes" "$work/h.in"
    lines 'user%09d, data%09d, read' "$mebibytes16" >"$work/p.in"
    compare "one byte, $byte, as requests" enforce
    compare "one byte, $byte, as requests that are explained" explain
    lines '["user%09d", "data%09d", "read"]' "$mebibytes16" >"$work/p.in"
    compare "one byte, $byte, as requests in JSON" enforce --json
    lines 'has p, user%09d, data%09d, read' "$mebibytes16" >"$work/p.in"
    compare "one byte, $byte, as a script" session
    compare "one byte, $byte, as a stream" serve
    awk 'BEGIN { for (i = 1; i <= 400000; i++) printf "edit %d\n+ p, user%06d, data1, read\n.\n", i, i }' >"$work/p.in"
    compare "one byte, $byte, as packets" follow
  done
  runs=3
fi

if wanted "JSON"; then
  reset
  { repeated '[' 200000; echo; } >"$work/h.in"
  lines '["user%09d", "data%09d", "read"]' 200000 >"$work/p.in"
  compare "JSON, 200,000 brackets that open" enforce --json
  { repeated '[' 200000; repeated ']' 200000; echo; } >"$work/h.in"
  compare "JSON, 200,000 brackets that open and close" enforce --json
  { repeated '{"a":' 200000; echo; } >"$work/h.in"
  compare "JSON, 200,000 objects that open" enforce --json
  { printf '["'; repeated '\u00e9' 170000; echo '", "data1", "read"]'; } >"$work/h.in"
  lines '["user%09d", "data%09d", "read"]' 1000000 >"$work/p.in"
  compare "JSON, 170,000 escapes" enforce --json
  { printf '['; repeated '1,' 1000000; echo '1]'; } >"$work/h.in"
  lines '["user%09d", "data%09d", "read"]' 2000000 >"$work/p.in"
  compare "JSON, 1,000,000 members" enforce --json
  { printf '[['; repeated '1,' 1000000; echo '1], "data1", "read"]'; } >"$work/h.in"
  compare "JSON, a list of 1,000,000" enforce --json
  awk 'BEGIN { printf "[{"; for (i = 0; i < 1000000; i++) printf "\"a%07d\":1,", i; print "\"b\":1}, \"data1\", \"read\"]" }' >"$work/h.in"
  lines '["user%09d", "data%09d", "read"]' 13000000 >"$work/p.in"
  compare "JSON, an object of 1,000,000 names" enforce --json
  awk 'BEGIN { printf "[{"; for (i = 0; i < 1000000; i++) printf "\"a\":%07d,", i; print "\"b\":1}, \"data1\", \"read\"]" }' | sed 's/:0*\([0-9]\)/:\1/g' >"$work/h.in"
  compare "JSON, an object of one name 1,000,000 times" enforce --json
fi

if wanted "matcher"; then
  reset
  awk 'BEGIN { printf "r.sub == \"a\""; for (i = 0; i < 250; i++) printf " || r.sub == \"user%05d\"", i }' >"$work/text"
  model "$(cat "$work/text")" >"$work/p.conf"
  echo 'bob, data1, read' | tee "$work/h.in" >"$work/p.in"
  for sign in '!' '-' '(' '[' '"' "'" '1+' '1,' '&&' 'g(' '1 in (' 'keyMatch('; do
    model "$(repeated "$sign" $((8000 / ${#sign})))" >"$work/h.conf"
    compare "matcher of 8,000 bytes of $sign" enforce
  done
  model "$(repeated '(' 64)true$(repeated ')' 64)" >"$work/h.conf"
  compare "matcher of 64 levels" enforce
  model "true$(repeated ' || 1 == 2' 255)" >"$work/h.conf"
  compare "matcher of 1,021 nodes" enforce
fi

# A policy of one rule whose subject is a pattern, and requests of one name.
searched() {
  local name="$1" matcher="$2" pattern="$3" text="$4" times="$5" size
  size="${#pattern}"
  reset
  model "$matcher" | tee "$work/h.conf" >"$work/p.conf"
  printf 'p, "%s", data1, read\n' "$pattern" >"$work/h.csv"
  printf 'p, "%s", data1, read\n' "$(repeated x "$size")" >"$work/p.csv"
  repeated "$text, data1, read
" "$times" | tee "$work/h.in" >"$work/p.in"
  compare "$name" enforce
}

if wanted "pattern"; then
  long="$(repeated a 100000)"
  search='regexMatch(r.sub, p.sub)'
  searched "pattern (a*)*b over 100,000 bytes, ten times" "$search" '(a*)*b' "$long" 10
  searched "pattern (a|aa)+c over 100,000 bytes, ten times" "$search" '(a|aa)+c' "$long" 10
  searched "pattern (a{1,30}){1,30}b over 100,000 bytes, ten times" "$search" '(a{1,30}){1,30}b' "$long" 10
  searched "pattern ((a{0,9}){0,9}){0,9}b over 100,000 bytes, ten times" "$search" '((a{0,9}){0,9}){0,9}b' "$long" 10
  searched "pattern of 100 open classes over 100,000 bytes, ten times" "$search" "$(repeated '[a-z]*' 100)b" "$long" 10
  searched "pattern (.*)(.*)(.*)x over 100,000 bytes, ten times" "$search" '(.*)(.*)(.*)x' "$long" 10
  searched "pattern of 1,000 brackets" "$search" "$(repeated '(' 1000)a$(repeated ')' 1000)" aaa 10
  searched "pattern of 2,000 classes, which is refused" "$search" "$(repeated '\w' 2000)" aaa 10
  reset
  model "$search" | tee "$work/h.conf" >"$work/p.conf"
  # Each pattern has a number of its own, so that no two are one.
  many() {
    REST="$1" awk 'BEGIN { for (i = 1; i <= 20; i++) printf "p, %03d%s, data1, read\n", i, ENVIRON["REST"] }'
  }
  many "$(repeated '\w' 400)" >"$work/h.csv"
  many "$(repeated a 800)" >"$work/p.csv"
  echo 'bob, data1, read' | tee "$work/h.in" >"$work/p.in"
  compare "pattern of 400 classes, 20 of them, asked once" enforce
fi

if wanted "key"; then
  many="$(repeated a 4000)"
  searched "key pattern, keyMatch of 4,000 stars" 'keyMatch(r.sub, p.sub)' "$(repeated '*' 4000)" "$many" 100
  searched "key pattern, glob of 1,000 stars" 'globMatch(r.sub, p.sub)' "$(repeated '*a' 1000)b" "$many" 10
  searched "key pattern, glob of 500 classes" 'globMatch(r.sub, p.sub)' "$(repeated '*[a-z]' 500)b" "$many" 10
  searched "key pattern, glob of 4,000 brackets that open" 'globMatch(r.sub, p.sub)' "$(repeated '[' 4000)" "$(repeated '[' 4000)" 10
  searched "key pattern, keyMatch2 of 1,000 rests" 'keyMatch2(r.sub, p.sub)' "$(repeated '/*' 1000)b" "$(repeated '/a' 4000)" 10
  searched "key pattern, keyMatch2 of 1,000 segments" 'keyMatch2(r.sub, p.sub)' "$(repeated '/:a' 1000)" "$(repeated '/a' 1000)b/" 10
  searched "key pattern, keyMatch3 of 1,000 segments in a row" 'keyMatch3(r.sub, p.sub)' "$(repeated '{a}' 1000)/" "$many" 10
  searched "key pattern, keyMatch4 of two names six times, 61 bytes" 'keyMatch4(r.sub, p.sub)' "$(repeated '{a}{b}' 6)" "$(repeated a 61)" 1
  searched "key pattern, keyMatch4 of four names twice, 61 bytes" 'keyMatch4(r.sub, p.sub)' "$(repeated '{a}{b}{c}{d}' 2)" "$(repeated a 61)" 1
  searched "key pattern, keyMatch4 of six names twice, 41 bytes" 'keyMatch4(r.sub, p.sub)' "$(repeated '{a}{b}{c}{d}{e}{f}' 2)" "$(repeated a 41)" 1
  searched "key pattern, keyMatch4 of one name 400 times" 'keyMatch4(r.sub, p.sub)' "$(repeated '/{a}' 400)" "$(repeated /a 399)/b" 10
  searched "key pattern, keyGet2 of 1,000 rests" "keyGet2(r.sub, p.sub, 'id') == 'x'" "$(repeated '/*' 1000)/:id" "$(repeated '/a' 4000)" 1
  searched "key pattern, keyGet3 of 1,000 segments" "keyGet3(r.sub, p.sub, 'a') == 'x'" "$(repeated '{b}' 999){a}" "$many" 1
fi

if wanted "rules"; then
  reset
  model 'r.obj == p.obj && eval(p.sub)' >"$work/h.conf"
  lines 'p, r.sub == ""user%06d"", data1, read' 100000000 50000 | sed 's/, \(r\.[^,]*\),/, "\1",/' >"$work/h.csv"
  model 'r.obj == p.obj && r.sub == p.sub' >"$work/p.conf"
  lines 'p, user%06d and so many bytes, data1, read' 100000000 50000 >"$work/p.csv"
  echo 'bob, data1, read' | tee "$work/h.in" >"$work/p.in"
  compare "rules, 50,000 different in a column" enforce
  reset
  model 'r.obj == p.obj && regexMatch(r.sub, p.sub)' | tee "$work/h.conf" >"$work/p.conf"
  lines 'p, ^user%06d[a-z]+$, data1, read' 100000000 1000 >"$work/h.csv"
  awk 'BEGIN { for (i = 1; i <= 1000; i++) printf "p, ^user%06d[a-z]+$, data1, act%d\n", i % 200, i }' >"$work/p.csv"
  repeated 'bob, data1, read
' 20 | tee "$work/h.in" >"$work/p.in"
  compare "rules, 1,000 patterns in turn, twenty times" enforce
  reset
  lines 'p, user%06d, data%06d, read' 100000000 200000 >"$work/h.csv"
  awk 'BEGIN { srand(1); for (i = 1; i <= 200000; i++) printf "p, %010d, %010d, read\n", int(rand() * 4294967296), int(rand() * 4294967296) }' >"$work/p.csv"
  awk -F', ' 'NR % 2 { print $2 ", " $3 ", read" }' "$work/h.csv" >"$work/h.in"
  awk -F', ' 'NR % 2 { print $2 ", " $3 ", read" }' "$work/p.csv" >"$work/p.in"
  compare "rules, 200,000 with names that are near each other" enforce
  reset
  lines 'p, user, data%06d, read' 100000000 200000 >"$work/h.csv"
  lines 'p, user%06d, data%06d, read' 100000000 200000 >"$work/p.csv"
  model 'r.sub == p.sub && r.obj != p.obj && r.act != p.act' | tee "$work/h.conf" >"$work/p.conf"
  repeated 'user, data1, read
' 100 | tee "$work/h.in" >"$work/p.in"
  compare "rules, 200,000 of one subject, asked 100 times" enforce
  reset
  model "$equalities" | sed 's/^p = /p = priority, /; s/^e = .*/e = priority(p.eft) || deny/' | tee "$work/h.conf" >"$work/p.conf"
  awk 'BEGIN { for (i = 1; i <= 200000; i++) printf "p, %06d, user%06d, data1, read\n", i, i }' >"$work/p.csv"
  awk 'BEGIN { for (i = 200000; i > 0; i--) printf "p, %06d, user%06d, data1, read\n", i, i }' >"$work/h.csv"
  compare "rules, 200,000 ranks that fall" check
fi

if wanted "explain"; then
  reset
  lines 'p, user%06d, data%06d, read' 100000000 200000 | tee "$work/h.csv" >"$work/p.csv"
  repeated 'nobody, nothing, write
' 100 >"$work/h.in"
  repeated 'user000001, data000001, write
' 100 >"$work/p.in"
  compare "explain, 100 requests that none of 200,000 rules nearly allows" explain --most 1
  reset
  model "r.sub == p.sub && r.obj == p.obj$(repeated ' && r.sub == r.sub' 200)" >"$work/h.conf"
  lines 'p, alice, data%06d, read' 100000000 10000 | tee "$work/h.csv" >"$work/p.csv"
  repeated 'alice, data1, write
' 100 | tee "$work/h.in" >"$work/p.in"
  compare "explain, a matcher of 202 parts over 10,000 rules, 100 requests" explain --most 1000
fi

if wanted "lint"; then
  reset
  repeated $'x\n' 32000 >>"$work/h.conf"
  repeated $'# a comment\n' 5333 >>"$work/p.conf"
  compare "lint, a model of 32,000 lines that are none" lint
  reset
  repeated $'q\n' 1000000 >"$work/h.csv"
  lines 'p, %d, d, r' 2000000 >"$work/p.csv"
  compare "lint, 1,000,000 lines of a table that is none" lint
  repeated $'p, a, b, c\n' 180000 >"$work/h.csv"
  compare "lint, a rule that stands 180,000 times" lint
fi

if wanted "roles"; then
  reset
  model 'g(r.sub, p.sub) && r.obj == p.obj && r.act == p.act' '' $'[role_definition]\ng = _, _\n' | tee "$work/h.conf" >"$work/p.conf"
  echo 'p, last, data1, read' >"$work/rule"
  awk 'BEGIN { for (i = 1; i <= 199999; i++) printf "g, user%06d, role%06d\n", i, i }' | cat "$work/rule" - >"$work/p.csv"
  repeated 'user000001, data1, read
' 1000 | tee "$work/h.in" >"$work/p.in"
  awk 'BEGIN { for (i = 1; i <= 199999; i++) printf "g, user%06d, user%06d\n", i, i + 1 }' | cat "$work/rule" - >"$work/h.csv"
  compare "roles, a chain of 199,999 links, asked 1,000 times" enforce --limit 250
  awk 'BEGIN { for (i = 1; i <= 447; i++) for (k = 1; k <= 447; k++) printf "g, user%06d, user%06d\n", i, k }' | cat "$work/rule" - >"$work/h.csv"
  compare "roles, 447 names each linked to each, asked 1,000 times" enforce --limit 250
  awk 'BEGIN { for (i = 0; i < 1100; i++) for (k = 1; k <= 180; k++) printf "g, user%06d, user%06d\n", i, (i + 5 * k) % 1100 }' | cat "$work/rule" - >"$work/h.csv"
  compare "roles, 1,100 names each linked to 180, asked 1,000 times" enforce --limit 250
  compare "roles, 1,100 names each linked to 180, reported" report --limit 250
  behind=(user000001)
  compare "roles, 1,100 names each linked to 180, implied" implicit --limit 250
  behind=()
  awk 'BEGIN {
    for (layer = 0; layer < 4; layer++) for (i = 0; i < 220; i++) for (k = 0; k < 220; k++) printf "g, n%04d, n%04d\n", layer * 220 + i, layer * 220 + 220 + k
    for (i = 0; i < 200; i++) printf "g, u%03d, r%03d\n", i, i }' | cat "$work/rule" - >"$work/h.csv"
  compare "roles, five layers of 220 names each linked to all of the next, reported" report
  awk 'BEGIN { for (i = 1; i < 1024; i++) printf "g, user%06d, user%06d\n", i + 1, i; for (i = 1; i <= 100000; i++) printf "g, u%06d, user001024\n", i }' | cat "$work/rule" - >"$work/h.csv"
  compare "roles, 1,024 in a chain that is built from its end" enforce --limit 250
  compare "roles, all of them reported" report --limit 1
  awk 'BEGIN { for (i = 1; i <= 2000; i++) printf "remove g, user000500, user000499\npublish\nadd g, user000500, user000499\npublish\n" }' >"$work/h.in"
  awk 'BEGIN { for (i = 1; i <= 2000; i++) printf "remove g, user000500, role000500\npublish\nadd g, user000500, role000500\npublish\n" }' >"$work/p.in"
  compare "roles, a link in the middle of 1,024 that goes and comes" session --limit 250
  lines 'g, user%06d, last' 100000000 199999 | cat "$work/rule" - >"$work/p.csv"
  lines 'g, /user%06d/*, last' 100000000 199999 | cat "$work/rule" - >"$work/h.csv"
  repeated '/user199999/a, data1, read
' 100 | tee "$work/h.in" >"$work/p.in"
  compare "roles, 199,999 patterns of names, asked 100 times" enforce --match g=keyMatch
  model 'g(r.sub, p.sub) && r.obj == p.obj && r.act == p.act' '' $'[role_definition]\ng = _, _\n' |
    sed 's/^e = .*/e = subjectPriority(p.eft) || deny/' | tee "$work/h.conf" >"$work/p.conf"
  lines 'p, user%06d, data1, read' 100000000 1000 >"$work/rules"
  lines 'g, user%06d, base' 100000000 100000 | cat "$work/rules" - >"$work/p.csv"
  awk 'BEGIN { for (i = 1; i < 1000; i++) printf "g, user%06d, user%06d\n", i, i + 1; for (i = 1; i <= 99001; i++) printf "g, u%06d, user000001\n", i }' | cat "$work/rules" - >"$work/h.csv"
  echo 'user000001, data1, read' | tee "$work/h.in" >"$work/p.in"
  compare "roles, the deepest of 1,000 subjects in a chain" enforce --limit 250
  model 'g(r.sub, p.sub, r.dom) && r.dom == p.dom' 'sub, dom' $'[role_definition]\ng = _, _, _\n' | tee "$work/h.conf" >"$work/p.conf"
  echo 'p, last, home' >"$work/rule"
  awk 'BEGIN { for (d = 1; d <= 195; d++) for (i = 1; i < 1024; i++) printf "g, user%06d, role%06d, d%03d\n", i, i, d }' | cat "$work/rule" - >"$work/p.csv"
  awk 'BEGIN { for (d = 1; d <= 195; d++) for (i = 1; i < 1024; i++) printf "g, role%06d, role%06d, d%03d\n", i + 1, i, d }' | cat "$work/rule" - >"$work/h.csv"
  echo 'user000001, home' | tee "$work/h.in" >"$work/p.in"
  compare "roles, 195 domains of 1,024 in a chain that is built from its end" enforce --limit 250
fi

if wanted "hash"; then
  # Names that are as long as those that meet.
  apart='%08d/aaaaaadr/service/text/text/a/text/be/is'
  reset
  python3 "$root/bench/colliding.py" rules 20000 3 >"$work/h.csv"
  lines "p, $apart, data1, read" 100000000 20000 >"$work/p.csv"
  compare "hash, 20,000 rules of one" check
  sed 's/^/add /' "$work/h.csv" >"$work/h.in"
  sed 's/^/add /' "$work/p.csv" >"$work/p.in"
  : | tee "$work/h.csv" >"$work/p.csv"
  compare "hash, 20,000 rules of one that are added" session
  python3 "$root/bench/colliding.py" requests 20000 >"$work/h.in"
  lines "$apart, data1, read" 100000000 20000 >"$work/p.in"
  compare "hash, 20,000 requests of one from a cache" enforce --cache 10000
  model 'g(r.sub, p.sub) && r.obj == p.obj && r.act == p.act' '' $'[role_definition]\ng = _, _\n' | tee "$work/h.conf" >"$work/p.conf"
  : | tee "$work/h.in" >"$work/p.in"
  python3 "$root/bench/colliding.py" rules 20000 2 | sed 's/^p/g/' >"$work/h.csv"
  lines "g, $apart, data1" 100000000 20000 >"$work/p.csv"
  compare "hash, 20,000 rows of roles of one" check
  python3 "$root/bench/colliding.py" names 20000 | tee "$work/names" | sed 's/^/g, /; s/$/, role/' >"$work/h.csv"
  lines "g, $apart, role" 100000000 20000 >"$work/p.csv"
  behind=(role)
  compare "hash, 20,000 users of one that are implied" implicit
  sed 's/^/g, user, /' "$work/names" >"$work/h.csv"
  lines "g, user, $apart" 100000000 20000 >"$work/p.csv"
  behind=(user)
  compare "hash, 20,000 roles of one that are implied" implicit
  behind=()
  model 'g(r.sub, p.sub, r.dom) && r.dom == p.dom' 'sub, dom' $'[role_definition]\ng = _, _, _\n' | tee "$work/h.conf" >"$work/p.conf"
  head -n 16000 "$work/names" | sed 's/^/g, user, role, /' >"$work/h.csv"
  lines "g, user, role, $apart" 100000000 16000 >"$work/p.csv"
  compare "hash, 16,000 domains of one" check
fi

if wanted "script"; then
  reset
  lines 'publish' "$mebibytes16" 2000000 >"$work/h.in"
  lines 'sync' "$mebibytes16" 2000000 >"$work/p.in"
  compare "script of 2,000,000 publishes of nothing" session
  awk 'BEGIN { print "keep 100000"; for (i = 1; i <= 100000; i++) print "add p, user, data1, read\npublish\nremove p, user, data1, read\npublish" }' >"$work/h.in"
  { echo 'keep 1'; tail -n +2 "$work/h.in"; } >"$work/p.in"
  compare "script of 200,000 publishes of which 100,000 are kept" session
  awk 'BEGIN { print "begin add-all"; for (i = 1; i <= 190000; i++) printf "p, user%06d, data1, read\n", i; print "end\npublish" }' >"$work/h.in"
  awk 'BEGIN { for (i = 1; i <= 190000; i++) printf "add p, user%06d, data1, read\n", i; print "publish" }' >"$work/p.in"
  compare "script of one block of 190,000 rules" session
  awk 'BEGIN { for (i = 1; i <= 190000; i++) printf "add p, user%06d, data1, read\n", i; for (i = 190000; i > 0; i--) printf "remove p, user%06d, data1, read\n", 190001 - i; print "publish" }' >"$work/h.in"
  awk 'BEGIN { for (i = 1; i <= 190000; i++) printf "add p, user%06d, data1, read\n", i; for (i = 190000; i > 0; i--) printf "remove p, user%06d, data1, read\n", i; print "publish" }' >"$work/p.in"
  compare "script of 190,000 rules that go from the front" session
  # To delete a user wants a relation g.
  model 'r.sub == p.sub && r.obj != p.obj' '' $'[role_definition]\ng = _, _\n' | tee "$work/h.conf" >"$work/p.conf"
  lines 'p, user, data%06d, read' 100000000 190000 >"$work/h.csv"
  lines 'p, user%06d, data%06d, read' 100000000 190000 >"$work/p.csv"
  printf 'delete-user user\npublish\n' >"$work/h.in"
  printf 'remove-filtered p, 2, read\npublish\n' >"$work/p.in"
  compare "script that deletes a user with 190,000 rules" session
  # A script that removes the rules of a policy in one block.
  at_once() {
    echo 'begin remove-all'
    cat "$1"
    printf 'end\npublish\n'
  }
  # A script whose removals go through the rules of a policy from its last on.
  backward() {
    awk '{ line[NR] = "remove " $0 } END { for (i = NR; i > 0; i--) print line[i]; print "publish" }' "$1"
  }
  backward "$work/h.csv" >"$work/h.in"
  backward "$work/p.csv" >"$work/p.in"
  compare "script of 190,000 rules of one subject that go from the end" session
  model 'g(r.sub, p.sub) && r.obj == p.obj && r.act == p.act' '' $'[role_definition]\ng = _, _\n' | tee "$work/h.conf" >"$work/p.conf"
  lines 'g, user%06d, role%06d' 100000000 190000 >"$work/p.csv"
  backward "$work/p.csv" >"$work/p.in"
  lines 'g, user, role%06d' 100000000 190000 >"$work/h.csv"
  backward "$work/h.csv" >"$work/h.in"
  compare "script of 190,000 roles of one user that go from the end" session
  lines 'g, user%06d, role' 100000000 190000 >"$work/h.csv"
  backward "$work/h.csv" >"$work/h.in"
  compare "script of 190,000 users of one role that go from the end" session
  printf 'delete-role role\npublish\n' >"$work/h.in"
  at_once "$work/p.csv" >"$work/p.in"
  compare "script that deletes a role of 190,000 users" session
  # A script that removes the rules of a policy and publishes behind each.
  one_by_one() {
    awk '{ print "remove " $0; print "publish" }' "$1"
  }
  lines 'g, user, role%06d' 100000000 20000 >"$work/h.csv"
  lines 'g, user%06d, role%06d' 100000000 20000 >"$work/p.csv"
  one_by_one "$work/h.csv" >"$work/h.in"
  one_by_one "$work/p.csv" >"$work/p.in"
  compare "script of 20,000 publishes, each of one role less of one user" session
  awk 'BEGIN { for (i = 1; i <= 20000; i++) printf "g, one, role%06d\ng, two, role%06d\n", i, i }' >"$work/h.csv"
  lines 'g, user%06d, role%06d' 100000000 40000 >"$work/p.csv"
  at_once "$work/h.csv" >"$work/h.in"
  at_once "$work/p.csv" >"$work/p.in"
  compare "script of one block that takes 20,000 roles each of two users by turns" session
  reset
  lines 'p, user%06d, data1, read' 100000000 100000 | tee "$work/h.csv" >"$work/p.csv"
  repeated 'rows p
' 100 >"$work/h.in"
  repeated 'rows p, 0, user000007
' 100 >"$work/p.in"
  compare "script of 100 queries for 100,000 rules each" session
fi

if wanted "packets"; then
  reset
  packets() {
    awk -v first="$1" -v last="$2" 'BEGIN { for (i = first; i <= last; i++) printf "edit %d\n+ p, user%06d, data1, read\n.\n", i, i }'
  }
  packets 1 199680 >"$work/p.in"
  awk 'BEGIN { for (k = 0; k < 195; k++) for (i = 1024; i > 0; i--) printf "edit %d\n+ p, user%06d, data1, read\n.\n", k * 1024 + i, k * 1024 + i }' >"$work/h.in"
  compare "packets, 199,680 of which each 1,024 come from the last on" follow
  repeated $'edit 1\n- p, a, b, c\n.\n' 500000 >"$work/p.in"
  { packets 2 1024; cat "$work/p.in"; } >"$work/h.in"
  compare "packets, 500,000 that do not fit, and 1,023 that wait for them" follow
  packets 1 190000 >"$work/p.in"
  awk 'BEGIN { print "edit 1"; for (i = 1; i <= 190000; i++) printf "+ p, user%06d, data1, read\n", i; print "." }' >"$work/h.in"
  compare "packets, one of 190,000 rules" follow
fi

if wanted "workers"; then
  reset
  repeated 'sync
' 20000 >"$work/h.in"
  repeated 'has p, alice, data1, read
' 20000 >"$work/p.in"
  compare "workers, 20,000 rounds without requests" session --workers 8
  repeated 'ask alice, data1, read
sync
' 20000 >"$work/h.in"
  repeated 'ask alice, data1, read
has p, alice, data1, read
' 20000 >"$work/p.in"
  compare "workers, 20,000 rounds of one request" session --workers 8
  repeated 'ask alice, data1, read
add p, bob, data1, read
publish
remove p, bob, data1, read
publish
' 20000 >"$work/h.in"
  repeated 'ask alice, data1, read
add p, bob, data1, read
sync
remove p, bob, data1, read
sync
' 20000 | sed 's/^sync/has p, bob, data1, read/' >"$work/p.in"
  compare "workers, 40,000 publishes beside 20,000 requests" session --workers 8
fi

if wanted "limits"; then
  # A text of lines by a format, as many as there may be, and a tenth of them.
  both() {
    lines "$2" "$mebibytes16" "$3" >"$work/h.$1"
    lines "$2" "$mebibytes16" "$(($3 / 10))" >"$work/p.$1"
  }
  reset
  both in 'user%09d, data%09d, read' 470000
  compare "limits, requests of 16 MiB" enforce
  compare "limits, requests of 16 MiB, and a cache of 10,000" enforce --cache 10000
  both in '["user%09d", "data%09d", "read"]' 390000
  compare "limits, requests of 16 MiB in JSON" enforce --json
  both in 'add p, user%06d, data%06d, read' 199999
  compare "limits, a script of 199,999 edits" session
  both in 'has p, user%09d, data%09d, read' 399000
  compare "limits, a script of 16 MiB of queries" session
  compare "limits, a stream of 16 MiB of queries" serve
  for count in 199999 19999; do
    awk -v n="$count" 'BEGIN { for (i = 1; i <= n; i++) printf "edit %d\n+ p, user%06d, data%06d, read\n.\n", i, i, i }' >"$work/$count"
  done
  mv "$work/199999" "$work/h.in"
  mv "$work/19999" "$work/p.in"
  compare "limits, 199,999 packets" follow
  compare "limits, a stream of 199,999 packets" serve --follow
  reset
  both csv 'p, user%06d, data%06d, read' 200000
  compare "limits, a policy of 200,000 rules" check
  both csv 'p, alice, data%06d, read' 200000
  echo 'alice, nothing, read' | tee "$work/h.in" >"$work/p.in"
  compare "limits, a request explained by 1,000 of 200,000 rules" explain --most 1000
  model "true == false && r.sub == p.sub$(repeated ' || 1 == 2' 254)" | tee "$work/h.conf" >"$work/p.conf"
  compare "limits, a request over 200,000 rules, by a matcher of 1,023 nodes" enforce
  reset
  model 'g(r.sub, p.sub) && r.obj == p.obj && r.act == p.act' '' $'[role_definition]\ng = _, _\n' | tee "$work/h.conf" >"$work/p.conf"
  both csv 'g, user%06d, role%06d' 200000
  compare "limits, 200,000 rules of roles" check
  compare "limits, 200,000 rules of roles, reported" report
  model 'g(r.sub, p.sub, r.dom) && r.dom == p.dom' 'sub, dom' $'[role_definition]\ng = _, _, _\n' | tee "$work/h.conf" >"$work/p.conf"
  both csv 'g, user%06d, role, dom%06d' 16380
  for names in h p; do
    awk 'BEGIN { for (i = 0; i < 64; i++) printf "g, user%02d, role%02d, dom*\n", i, i }' >>"$work/$names.csv"
  done
  compare "limits, 64 rules that count in each of 16,380 domains" enforce --domain-match g=keyMatch
  for domains in 195 19; do
    awk -v n="$domains" 'BEGIN { for (d = 1; d <= n; d++) for (i = 1024; i > 1; i--) printf "g, role%04d, role%04d, d%03d\n", i, i - 1, d }' >"$work/$domains"
  done
  mv "$work/195" "$work/h.csv"
  mv "$work/19" "$work/p.csv"
  compare "limits, the distances of 195 domains of 1,023 roles" enforce --limit 250
fi

echo "$above above $most"
[ "$above" -eq 0 ]
