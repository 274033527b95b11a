#!/usr/bin/env bash
# Drives `casbin_cli serve` by a client in Python over pipes: requests one at a time and many at once, edits between them, faults,
# a full pipe, a client that is killed. Prints how many requests a second are answered one at a time, where the system places client
# and program and where both share a processor, and how much memory the program holds after a tenth of the requests and after all. It
# fails where an answer is wrong, where memory grows, or where fewer than 100,000 a second are answered on one processor, and fewer
# than half as many as lines that `cat` hands back there. The program must be built: it runs ./casbin_cli prove.
# Usage: checks/serve.sh [REQUESTS]
set -u
cd "$(dirname "${BASH_SOURCE[0]}")/.." || exit 1
export PYTHONDONTWRITEBYTECODE=1
./casbin_cli prove || exit 1
exec python3 checks/serve.py crates/casbin_cli/out/casbin_cli "${1:-1000000}"
