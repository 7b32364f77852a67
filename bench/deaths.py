#!/usr/bin/env python3
"""Lets the daemon die, again and again, under threads, and judges what they leave: prints a line.

usage: bench/deaths.py [RUNS [WALKERS WORKERS ROUNDS BREAKS]]
(`rt test` in crates/am_thread_tests, or the gate, has built the test. ROUNDS are those of each
walker, and BREAKS says how often the daemon dies and attaches again. Without words: 50 runs of 16
walkers and 16 workers, with 1,000 rounds and 1,000 breaks.)
"""

import os
import subprocess
import sys
import time

PROGRAM = os.path.dirname(os.path.abspath(__file__)) + (
    "/../crates/am_thread_tests/out/am_thread_tests_tests"
)
TEST = "tests::deaths::daemon_dies"
NAMES = ("DEATHS_WALKERS", "DEATHS_WORKERS", "DEATHS_ROUNDS", "DEATHS_BREAKS")
SIZE = ("16", "16", "1000", "1000")
RUNS = 50

# A run that takes longer hangs.
LONGEST = 600


def plays(run, size):
    """Makes one run, and returns its seconds."""
    start = time.monotonic()
    how = {"stdout": subprocess.PIPE, "stderr": subprocess.STDOUT, "errors": "replace"}
    environment = {**os.environ, **dict(zip(NAMES, size))}
    try:
        ran = subprocess.run([PROGRAM, TEST], env=environment, check=False, timeout=LONGEST, **how)
    except subprocess.TimeoutExpired:
        sys.exit(f"deaths: run {run} hangs")
    if ran.returncode:
        sys.exit(f"{ran.stdout}deaths: run {run} failed with status {ran.returncode}")
    return time.monotonic() - start


def main(words):
    if len(words) not in (1, 2, 6) or not all(it.isdecimal() and int(it) for it in words[1:]):
        print("deaths: expected numbers from 1 on, as in bench/deaths.py [RUNS [WALKERS WORKERS ROUNDS BREAKS]]", file=sys.stderr)
        return 2
    if not os.access(PROGRAM, os.X_OK):
        print("deaths: build the test first: rt test in crates/am_thread_tests", file=sys.stderr)
        return 2
    runs = int(words[1]) if len(words) > 1 else RUNS
    size = tuple(words[2:]) or SIZE
    taken = [plays(run, size) for run in range(1, runs + 1)]
    print("| walkers | workers | rounds | breaks | runs | least s | most s |")
    print("| ---: | ---: | ---: | ---: | ---: | ---: | ---: |")
    print(f"| {' | '.join(size)} | {runs} | {min(taken):.1f} | {max(taken):.1f} |")
    return 0


if __name__ == "__main__":
    sys.exit(main(sys.argv))
