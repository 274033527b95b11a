"""Prints the nanoseconds of a request through `casbin.py`. Usage: request.py MODEL POLICY USER REQUESTS"""

import sys
import time

from casbin import Enforcer

model, policy, user, requests = sys.argv[1:]
with Enforcer(open(model).read(), open(policy).read()) as enforcer:
    asked = [("user" + user, "data" + user, act) for act in ("read", "write")]
    begin, allowed = time.perf_counter_ns(), 0
    for number in range(int(requests)):
        allowed += bool(enforcer.enforce(*asked[number % 2]))
    took = time.perf_counter_ns() - begin
    assert allowed == (int(requests) + 1) // 2
    print(f"{took / int(requests):.1f}")
