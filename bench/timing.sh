# What the scripts that time the program share; it is read by `source`. `root` is the repository, `work` a folder that goes
# with the script.
set -euo pipefail
root="$(cd "$(dirname "${BASH_SOURCE[0]}")/.." && pwd)"
work="$(mktemp -d)"
trap 'rm -rf "$work"' EXIT
: >"$work/empty"

# The checkout whose program is timed.
checkout="$root"

# How often `took` runs a command.
runs=3

# The matcher of three equalities.
equalities='r.sub == p.sub && r.obj == p.obj && r.act == p.act'

# The text of a model with this matcher, and with these columns and relations where they are told.
model() {
  local columns="${2:-sub, obj, act}"
  printf '[request_definition]\nr = %s\n[policy_definition]\np = %s\n%s' "$columns" "$columns" "${3:-}"
  printf '[policy_effect]\ne = some(where (p.eft == allow))\n[matchers]\nm = %s\n' "$1"
}

# Proves and builds the program of a checkout where it is not built yet.
build() {
  "$1/casbin_cli" prove
}

# The milliseconds of a run by a model over a policy and an input, all of them files in `work`: the least of three runs, or
# of one that takes five seconds.
run() {
  local before took least=""
  for _ in 1 2 3; do
    before="$(date +%s%N)"
    "$checkout/crates/casbin_cli/out/casbin_cli" enforce "$work/$1" "$work/$2" <"$work/$3" >"$work/answers"
    took="$((($(date +%s%N) - before) / 1000000))"
    [ -n "$least" ] && [ "$least" -le "$took" ] || least="$took"
    [ "$took" -lt 5000 ] || break
  done
  echo "$least"
}

# The milliseconds of processor time of a command over an input: the least of its runs.
took() {
  local input="$1" least="" times user system now
  shift
  for ((at = 0; at < runs; at++)); do
    TIMEFORMAT='%U %S'
    times="$({ time "$@" <"$input" >"$work/answers"; } 2>&1)"
    read -r user system <<<"$times"
    now="$(awk -v u="$user" -v s="$system" 'BEGIN { printf "%d", (u + s) * 1000 }')"
    [ -n "$least" ] && [ "$least" -le "$now" ] || least="$now"
  done
  echo "$least"
}

# Ends the script unless every other of so many requests was allowed by the last of so many rules.
check_answers() {
  local allowed
  allowed="$(grep -c " allow @0 p#$2 " "$work/answers" || true)"
  [ "$allowed" -eq $((($1 + 1) / 2)) ] || { echo "$2 rules: $allowed of $1 allowed" >&2; exit 1; }
}
