#!/usr/bin/env python3
"""Has threads make their rounds over and over, with all that they need and with less.

usage: bench/threads.py [RUNS]
       bench/threads.py processors [RUNS]
(`make build` has built the program. RUNS is 200, if nothing else is said, and 20 for `processors`.)

Each run of 16 walkers and 16 workers must end in 20 seconds and write its rounds. With little
memory, or few threads, it must end in 20 seconds too, by its rounds or by `fault: NoMemory`.
`processors` makes such runs of 50 rounds on 1, 2 and 4 processors, and prints of each number the median of its
milliseconds on the clock, of those of processor time, and of how often a thread gave its processor up or lost
it. Threads that wait sleep, so four processors may take 1.3 times the processor time of one, and no more.
"""

import os
import resource
import statistics
import subprocess
import sys
import time

PROGRAM = os.path.dirname(os.path.abspath(__file__)) + (
    "/../crates/automount_cli/out/automount_cli"
)
SECONDS = 20
NOBODY = 65534
# The status with which the loader ends where it can't load what the program needs.
NOT_LOADED = 127
COUNTS = (1, 2, 4)
MOST = 1.3


def run(rounds, before=None):
    """Runs 16 walkers and 16 workers, and returns status, output and what is told."""
    words = [PROGRAM, "threads", "--walkers", "16", "--workers", "16", "--rounds", str(rounds)]
    try:
        ran = subprocess.run(
            words, capture_output=True, text=True, timeout=SECONDS, check=False, preexec_fn=before
        )
    except subprocess.TimeoutExpired:
        sys.exit(f"threads: {' '.join(words[1:])} hangs")
    return ran.returncode, ran.stdout, ran.stderr


def all_made(rounds):
    return (0, f"rounds {16 * rounds}\n", "")


def must(met, found):
    if not met:
        sys.exit(f"threads: a run ended with {found}")


def less_memory(kilobytes):
    return lambda: resource.setrlimit(resource.RLIMIT_AS, (kilobytes * 1024,) * 2)


def fewer_threads(count):
    def limit():
        resource.setrlimit(resource.RLIMIT_NPROC, (count, count))
        # The limit is none for root.
        if os.getuid() == 0:
            os.setgroups([])
            os.setgid(NOBODY)
            os.setuid(NOBODY)

    return limit


def ends_anyway(what, number, before):
    found = run(50, before)
    if found[0] == NOT_LOADED and "loading shared libraries" in found[2]:
        print(f"{number} {what}: too few for the loader of the C library")
        return
    must(found in (all_made(50), (1, "", "fault: NoMemory\n")), found)
    print(f"{number} {what}: {(found[1] or found[2]).strip()}")


def on(processors):
    return lambda: os.sched_setaffinity(0, processors)


def measured(processors):
    """The clock, the processor time, and the switches of a run on these processors."""
    before = resource.getrusage(resource.RUSAGE_CHILDREN)
    start = time.monotonic()
    found = run(50, on(processors))
    clock = time.monotonic() - start
    must(found == all_made(50), found)
    after = resource.getrusage(resource.RUSAGE_CHILDREN)
    return (
        clock,
        after.ru_utime + after.ru_stime - before.ru_utime - before.ru_stime,
        after.ru_nvcsw - before.ru_nvcsw,
        after.ru_nivcsw - before.ru_nivcsw,
    )


def on_processors(runs):
    there = sorted(os.sched_getaffinity(0))
    if len(there) < max(COUNTS):
        sys.exit(f"threads: expected {max(COUNTS)} processors, and there are {len(there)}")
    print("| processors | clock ms | cpu ms | gave up | lost |")
    print("| ---: | ---: | ---: | ---: | ---: |")
    taken = {}
    for count in COUNTS:
        made = [measured(there[:count]) for _ in range(runs)]
        clock, cpu, gave_up, lost = (statistics.median(column) for column in zip(*made))
        taken[count] = cpu
        print(f"| {count} | {1000 * clock:.1f} | {1000 * cpu:.1f} | {gave_up:.0f} | {lost:.0f} |", flush=True)
    ratio = taken[max(COUNTS)] / taken[1]
    print(f"{ratio:.2f} times the processor time of one on {max(COUNTS)}, of {MOST} at most")
    return 0 if ratio <= MOST else 1


def main(words):
    if words[1:2] == ["processors"] and len(words) < 4 and all(it.isdecimal() for it in words[2:]):
        if not os.access(PROGRAM, os.X_OK):
            print("threads: expected a program that is built: make build", file=sys.stderr)
            return 2
        return on_processors(int(words[2]) if words[2:] else 20)
    if len(words) > 2 or not all(it.isdecimal() for it in words[1:]):
        print("threads: expected a number of runs at most, behind processors or alone", file=sys.stderr)
        return 2
    if not os.access(PROGRAM, os.X_OK):
        print("threads: expected a program that is built: make build", file=sys.stderr)
        return 2
    runs = int(words[1]) if len(words) == 2 else 200
    for _ in range(runs):
        found = run(50)
        must(found == all_made(50), found)
    print(f"{runs} runs of 50 rounds: each made all")
    before = time.monotonic()
    found = run(1000)
    must(found == all_made(1000), found)
    taken = time.monotonic() - before
    memory = resource.getrusage(resource.RUSAGE_CHILDREN).ru_maxrss / 1024
    print(f"1,000 rounds: {taken:.2f} s on the clock, {memory:.0f} MB")
    for kilobytes in (3_000, 10_000, 100_000, 300_000, 400_000, 1_000_000):
        ends_anyway("KB of address space", kilobytes, less_memory(kilobytes))
    for count in (1, 2, 10, 20, 30, 33):
        ends_anyway("threads", count, fewer_threads(count))
    return 0


if __name__ == "__main__":
    sys.exit(main(sys.argv))
