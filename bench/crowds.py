#!/usr/bin/env python3
"""Lets threads make calls of one shared world, and judges what they leave: prints a line a crowd.

usage: bench/crowds.py [THREADS CALLS [JUDGED]]
       bench/crowds.py speed [CALLS]
(`rt test` in crates/am_thread_tests, or the gate, has built the test. CALLS are those of each
thread, and JUDGED says how much of the trace is judged. Without words: 8 threads with 100,000 calls
in all, and 32 with 1,000,000. `speed` has 1, 2, 4, 8 and 32 threads make so many calls in all, 96,000
if nothing else is said, and tells how many events a second that is: the median of five runs, in which nothing
is replayed or judged. Another run of each tells how long the replay takes.)
"""

import os
import resource
import subprocess
import sys
import time

PROGRAM = os.path.dirname(os.path.abspath(__file__)) + (
    "/../crates/am_thread_tests/out/am_thread_tests_tests"
)
TEST = "tests::crowds::a_crowd"
CROWDS = [(8, 12_500, 600), (32, 31_250, 2_000)]
THREADS = (1, 2, 4, 8, 32)
ALL = 96_000
TIMES = 5


def plays(crowd):
    """Runs a crowd, and returns its seconds on the clock, those of the processors, and its megabytes."""
    names = ("CROWD_THREADS", "CROWD_CALLS", "CROWD_JUDGED", "CROWD_REPLAYED")
    words = {name: str(number) for name, number in zip(names, crowd)}
    before = resource.getrusage(resource.RUSAGE_CHILDREN)
    start = time.monotonic()
    how = {"stdout": subprocess.PIPE, "stderr": subprocess.STDOUT, "errors": "replace"}
    ran = subprocess.run([PROGRAM, TEST], env={**os.environ, **words}, check=False, **how)
    clock = time.monotonic() - start
    after = resource.getrusage(resource.RUSAGE_CHILDREN)
    if ran.returncode:
        sys.exit(f"{ran.stdout}crowds: {crowd} failed with status {ran.returncode}")
    taken = after.ru_utime + after.ru_stime - before.ru_utime - before.ru_stime
    # The most of all crowds so far: each is greater than the one before.
    return clock, taken, after.ru_maxrss / 1024


def missing():
    """Nothing where the test is built, and else the status with which this ends."""
    if os.access(PROGRAM, os.X_OK):
        return 0
    print("crowds: build the test first: rt test in crates/am_thread_tests", file=sys.stderr)
    return 2


def speed(calls):
    """Prints how many events a second so many threads make, and how long it takes to replay them."""
    print("| threads | events | events a second | clock s | cpu s | replay s |")
    print("| ---: | ---: | ---: | ---: | ---: | ---: |")
    for threads in THREADS:
        each = calls // threads
        runs = sorted(plays((threads, each, 0, 0)) for _ in range(TIMES))
        clock, taken, _ = runs[TIMES // 2]
        replay = plays((threads, each, 0, 1))[0] - clock
        made = threads * each
        print(f"| {threads} | {made} | {made / clock:,.0f} | {clock:.2f} | {taken:.2f} | {replay:.2f} |", flush=True)


def main(words):
    if words[1:2] == ["speed"] and len(words) < 4 and all(it.isdecimal() for it in words[2:]):
        return missing() or speed(int(words[2]) if words[2:] else ALL) or 0
    if len(words) not in (1, 3, 4) or not all(it.isdecimal() for it in words[1:]):
        print("crowds: expected numbers, as in bench/crowds.py [THREADS CALLS [JUDGED]] or bench/crowds.py speed [CALLS]", file=sys.stderr)
        return 2
    if missing():
        return 2
    numbers = [int(it) for it in words[1:]]
    crowds = [(*numbers, 600)[:3]] if numbers else CROWDS
    print("| threads | calls | judged | clock s | cpu s | MB |")
    print("| ---: | ---: | ---: | ---: | ---: | ---: |")
    for crowd in crowds:
        threads, calls, judged = crowd
        clock, taken, memory = plays(crowd)
        print(
            f"| {threads} | {threads * calls} | {judged} | {clock:.1f} | {taken:.1f} | {memory:.0f} |",
            flush=True,
        )
    return 0


if __name__ == "__main__":
    sys.exit(main(sys.argv))
