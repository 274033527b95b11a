#!/usr/bin/env bash
# Drives a leader and three followers, which are `casbin_cli serve` and `casbin_cli serve --follow`, over a Redis of its own by
# the carrier of examples/followers, with packets that are lost, come twice, and come in another order. It kills followers and the
# Redis, and holds one follower back until it has to be opened anew. It fails where a follower has other rules than the leader had
# at its version, or answers otherwise, and where the last edit is not everywhere within a second. The program must be built: it
# runs ./casbin_cli prove. It wants `redis-server` and the module `redis` of Python (on Debian `redis-server` and `python3-redis`, whose
# Python is /usr/bin/python3). Usage: [PYTHON=PATH] checks/followers.sh [EDITS [SEED]]
set -u
cd "$(dirname "${BASH_SOURCE[0]}")/.." || exit 1
export PYTHONDONTWRITEBYTECODE=1
./casbin_cli prove || exit 1
exec "${PYTHON:-python3}" checks/followers.py crates/casbin_cli/out/casbin_cli "${1:-10000}" "${2:-1}"
