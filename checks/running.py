"""What the scripts that run the built program over many texts share."""

import concurrent.futures
import os
import signal
import subprocess
import sys

# A run that takes so many seconds of a processor, or so many on the clock, does not end. A machine that is busy may make it wait.
PATIENCE, PATIENCE_ON_THE_CLOCK = 10, 100

ROOT = os.path.dirname(os.path.dirname(os.path.abspath(__file__)))


def built():
    """The program that PROGRAM names, or else the repository's, which is proved and built where it is not yet."""
    program = os.path.realpath(os.environ.get("PROGRAM", f"{ROOT}/crates/casbin_cli/out/casbin_cli"))
    if "PROGRAM" not in os.environ:
        subprocess.run([f"{ROOT}/casbin_cli", "prove"], stdin=subprocess.DEVNULL, check=True)
    if not os.access(program, os.X_OK):
        sys.exit("the program is not built")
    return program


def run(program, words, environment, input_name, out_name, err_name):
    """Runs a program over files of the folder. Its status; a negative one is the signal that ended it."""
    flags = os.O_WRONLY | os.O_CREAT | os.O_TRUNC
    actions = [
        (os.POSIX_SPAWN_OPEN, 0, input_name, os.O_RDONLY, 0),
        (os.POSIX_SPAWN_OPEN, 1, out_name, flags, 0o600),
        (os.POSIX_SPAWN_OPEN, 2, err_name, flags, 0o600),
    ]
    child = os.posix_spawn(program, [program, *words], environment, file_actions=actions)
    signal.signal(signal.SIGALRM, lambda *_: os.kill(child, signal.SIGKILL))
    signal.alarm(PATIENCE_ON_THE_CLOCK)
    _, status, used = os.wait4(child, 0)
    signal.alarm(0)
    if used.ru_utime + used.ru_stime > PATIENCE:
        return -signal.SIGKILL
    return os.waitstatus_to_exitcode(status)


def write(name, text):
    with open(name, "wb") as file:
        file.write(text)


def read(name):
    with open(name, "rb") as file:
        return file.read()


def each(jobs):
    """What each of these calls gives, in their order; as many are made at once as JOBS says, or as there are processors."""
    with concurrent.futures.ProcessPoolExecutor(int(os.environ.get("JOBS", 0)) or None) as pool:
        for job in [pool.submit(*job) for job in jobs]:
            yield job.result()
