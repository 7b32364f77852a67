#!/usr/bin/env python3
"""Tells how much memory a list of 100,000 walks takes, and one of them.

usage: bench/memory.py      (`rt test` in crates/am_thread_tests, or the gate, has built what makes it)
"""

import os
import resource
import subprocess
import sys

PROGRAM = os.path.dirname(os.path.abspath(__file__)) + "/../crates/am_thread_tests/out/am_thread_tests_tests"
MANY = 100_000


def greatest(word):
    """Returns the most memory that a test takes, in kilobytes."""
    before = resource.getrusage(resource.RUSAGE_CHILDREN).ru_maxrss
    ran = subprocess.run([PROGRAM, f"tests::events::{word}"], stdout=subprocess.DEVNULL, stderr=subprocess.DEVNULL)
    after = resource.getrusage(resource.RUSAGE_CHILDREN).ru_maxrss
    if ran.returncode or after <= before:
        sys.exit(f"memory: {word} failed, or takes too little to be told")
    return after


def main(words):
    if len(words) > 1:
        print("memory: expected no words", file=sys.stderr)
        return 2
    if not os.access(PROGRAM, os.X_OK):
        print("memory: expected tests that are built: rt test in crates/am_thread_tests", file=sys.stderr)
        return 2
    few = greatest("events_are_small")
    many = greatest("a_long_list_of_walks")
    print(f"{MANY} walks along /srv/data: {(many - few) / 1024:.1f} MB, {(many - few) * 1024 / MANY:.0f} bytes each")
    return 0


if __name__ == "__main__":
    sys.exit(main(sys.argv))
