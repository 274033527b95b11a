"""Runs a command over an input and throws its output away.

Usage: measure.py RUNS INPUT COMMAND..

Prints the milliseconds of processor time of the quickest of so many runs, the most MiB of memory that one of them had, and the
status of the last. A run that takes 100 seconds of a processor is ended, which is status -9, and one that takes more than five is
the last.
"""

import os
import resource
import sys

MOST, LONG = 100, 5


def run(source, command):
    actions = [
        (os.POSIX_SPAWN_OPEN, 0, source, os.O_RDONLY, 0),
        (os.POSIX_SPAWN_OPEN, 1, "/dev/null", os.O_WRONLY, 0),
        (os.POSIX_SPAWN_OPEN, 2, "/dev/null", os.O_WRONLY, 0),
    ]
    child = os.posix_spawn(command[0], command, {}, file_actions=actions)
    _, status, used = os.wait4(child, 0)
    return used.ru_utime + used.ru_stime, used.ru_maxrss, os.waitstatus_to_exitcode(status)


def main():
    runs, source, *command = sys.argv[1:]
    resource.setrlimit(resource.RLIMIT_CPU, (MOST, MOST))
    seconds, memory = [], []
    for _ in range(int(runs)):
        took, had, status = run(source, command)
        seconds.append(took)
        memory.append(had)
        if took > LONG:
            break
    print(round(min(seconds) * 1000), max(memory) >> 10, status)


if __name__ == "__main__":
    main()
