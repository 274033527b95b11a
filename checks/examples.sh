#!/usr/bin/env bash
# Compares the examples with their copies among the cases of crates/cases_runs, which the gate runs: each model, policy and
# list of requests with the text below its name in `stdin`, and the answers with the lines of its case in `stdout`. The README of a
# folder has no copy.
# Usage: checks/examples.sh
set -u
cd "$(dirname "${BASH_SOURCE[0]}")/.." || exit 1
cases=crates/cases_runs/stdin
answers=crates/cases_runs/stdout
differing=0

# The text below a field of this name, without the two blanks before each line.
text_below() {
  awk -v name="$1" '
    inside && !/^  / { inside = 0 }
    inside { print substr($0, 3) }
    $1 ~ /^(file|input)$/ && $2 == name { inside = 1 }' "$cases"
}

# What `out` took in the case of this name, where it ended with status 0.
answers_of() {
  awk -v head="case $1: status 0" '
    inside && !/^  out / { inside = 0 }
    inside { print substr($0, 7) }
    $0 == head { inside = 1 }' "$answers"
}

compared=0
for file in examples/*/*; do
  [ "${file##*/}" = README.md ] && continue
  case "$file" in *.py | *__pycache__) continue ;; esac
  folder="${file%/*}"
  # Programs that call the library for C, which checks/embedding.sh runs.
  [ "$folder" != examples/embedding ] || continue
  if [ "${file##*/}" = answers.txt ]; then
    copy="$(answers_of "$folder"; echo .)"
  else
    copy="$(text_below "$file"; echo .)"
  fi
  if [ "$copy" = . ]; then
    echo "$file has no copy in crates/cases_runs" >&2
    differing=1
  elif ! diff "$file" <(printf %s "${copy%.}") >&2; then
    echo "$file differs from its copy in crates/cases_runs" >&2
    differing=1
  fi
  compared=$((compared + 1))
done
if [ "$differing" -ne 0 ] || [ "$compared" -eq 0 ]; then
  echo "the examples and their copies are not the same" >&2
  exit 1
fi
echo "$compared files of the examples have the same copy"
