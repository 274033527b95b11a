"""A leader and three followers on one machine. It wants a Redis: `redis-server --save ""`, and then

    python3 examples/followers/deployment.py ./casbin_cli
"""
import pathlib
import sys
import threading
import time

import redis
from carrier import BASE, STREAM, Follower, Leader

FOLDER = pathlib.Path(__file__).resolve().parent
MODEL, POLICY = FOLDER / "model.conf", FOLDER / "policy.csv"

program = sys.argv[1]
store = redis.Redis()
store.delete(BASE, STREAM)
leader = Leader(program, MODEL, POLICY, store)
followers = [Follower(program, MODEL, store) for _ in range(3)]
done = threading.Event()


def carry(follower):
    while not done.is_set():
        follower.catch_up(100)


carriers = [threading.Thread(target=carry, args=(follower,)) for follower in followers]
for carrier in carriers:
    carrier.start()

leader.add("g", "bob", "admin")
version, begin = leader.publish(), time.perf_counter()
# A reader who has to see this edit waits for its version.
while any(follower.version() < version for follower in followers):
    time.sleep(0.001)
print(f"version {version} is everywhere after {time.perf_counter() - begin:.3f} seconds")
for number, follower in enumerate(followers, 1):
    print(f"follower {number}: bob may read data1: {follower.enforce('bob', 'data1', 'read')}")

done.set()
for carrier in carriers:
    carrier.join()
for client in [leader, *followers]:
    client.close()
