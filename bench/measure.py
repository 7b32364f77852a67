#!/usr/bin/env python3
"""Measures a built program and prints four tables.

usage: measure.py PROGRAM [RUNS [KEYS..]]

The second table, of long heads, the third, of mounts with copies, and the fourth, of worlds that have
much in them or last, have the same sizes each time.

Each run's answers are compared with those that the script must get. Where one line differs,
nothing is printed for it, and the exit status is 1.
"""

import os
import statistics
import subprocess
import sys
import tempfile
import time

import generate

RUNS = 15
KEYS = (10, 100, 1000, 10000)
LINES = {"map": (500, 5000, 50000), "master": (10, 100, 1000)}
COPIES = (10, 100, 1000)
LIVES = (100, 1000, 10000)
# Short runs are repeated so many times more often.
SHORT = 10
# Of more copies than that there is a single run, with none before it, and so of the fourth table.
MANY = 100


def run(program, script, wrote):
    """Seconds of processor time and seconds on the clock of one run."""
    with open(script, "rb") as source, open(wrote, "wb") as sink:
        start = time.perf_counter()
        child = subprocess.Popen([program, "script"], stdin=source, stdout=sink, stderr=subprocess.PIPE)
        _, status, usage = os.wait4(child.pid, 0)
        clock = time.perf_counter() - start
        child.returncode = os.waitstatus_to_exitcode(status)
        said = child.stderr.read()
        child.stderr.close()
    if child.returncode != 0 or said:
        sys.exit(f"bench: wrong run: status {child.returncode}, it said {said!r}")
    return usage.ru_utime + usage.ru_stime, clock


def check(wrote, wanted):
    with open(wrote, "rb") as source:
        got = source.read()
    if got == wanted:
        return
    got, wanted = got.splitlines(), wanted.splitlines()
    for number, (one, other) in enumerate(zip(got, wanted), 1):
        if one != other:
            sys.exit(f"bench: wrong run: answer {number} is {one!r} and must be {other!r}")
    sys.exit(f"bench: wrong run: {len(got)} answers, and there must be {len(wanted)}")


def medians(program, room, script, wanted, runs, uncounted=1):
    source, wrote = os.path.join(room, "script"), os.path.join(room, "wrote")
    with open(source, "wb") as sink:
        sink.write(script)
    times = []
    # Each run is checked; the first ones are not counted.
    for at in range(uncounted + runs):
        took = run(program, source, wrote)
        check(wrote, wanted)
        if at >= uncounted:
            times.append(took)
    processor, clock = zip(*times)
    return statistics.median(processor), statistics.median(clock)


def row(*cells):
    print("| " + " | ".join(cells) + " |", flush=True)


def ms(seconds):
    return f"{seconds * 1e3:.2f}"


def main(words):
    if not words or not os.access(words[0], os.X_OK) \
            or not all(word.isdigit() and int(word) > 0 for word in words[1:]):
        print("measure: expected a program, and then numbers from 1 on", file=sys.stderr)
        sys.exit(2)
    program = words[0]
    runs = int(words[1]) if len(words) > 1 else RUNS
    sizes = [int(word) for word in words[2:]] or KEYS
    with tempfile.TemporaryDirectory() as room:
        top("shape", "keys")
        cpu, clock = medians(program, room, b"", b"", runs * SHORT)
        row("empty", "0", "0", str(runs * SHORT), ms(clock), ms(cpu), "", "", "", "")
        shapes(program, room, runs, generate.SHAPES, sizes)
        heads(program, room, runs, cpu)
        print()
        top("copies", "N")
        shapes(program, room, runs, generate.COPIES, COPIES)
        print()
        top("worlds", "N")
        shapes(program, room, runs, generate.LIVES, LIVES)


def top(shape, size):
    row(shape, size, "events", "runs", "clock ms", "cpu ms", "head ms", "µs/event", "events/s", "growth")
    row("---", *["---:"] * 9)


def shapes(program, room, runs, names, sizes):
    for shape in names:
        before = None
        for size in sizes:
            again, uncounted = runs * SHORT if size <= 100 else runs, 1
            if shape in generate.COPIES + generate.LIVES:
                again, uncounted = (runs, 1) if size <= MANY else (1, 0)
            script = generate.text(generate.script(shape, size))
            wanted = generate.text(generate.answers(shape, size))
            first = list(generate.first_events(shape, size))
            begun = generate.text(generate.script_of(shape, size, first))
            answers = generate.text(generate.answers_of(first))
            head, _ = medians(program, room, begun, answers, again)
            cpu, clock = medians(program, room, script, wanted, again, uncounted)
            count = wanted.count(b"\n") - len(first)
            each = (cpu - head) / count
            # A run that isn't told from its head has no time of its own.
            known = each > 0
            row(shape, str(size), str(count), str(again), ms(clock), ms(cpu), ms(head),
                f"{each * 1e6:.2f}" if known else "?",
                f"{1 / each:.0f}" if known else "?",
                f"{each / before:.1f}" if known and before else "")
            before = each if known else None


def heads(program, room, runs, start_up):
    print()
    row("head", "lines", "bytes", "runs", "clock ms", "cpu ms", "ns/byte", "growth")
    row("---", *["---:"] * 7)
    for shape in generate.HEADS:
        before = None
        for lines in LINES[shape]:
            script = generate.text(generate.script(shape, lines))
            wanted = generate.text(generate.answers(shape, lines))
            cpu, clock = medians(program, room, script, wanted, runs)
            each = (cpu - start_up) / len(script)
            known = each > 0
            row(shape, str(lines), str(len(script)), str(runs), ms(clock), ms(cpu),
                f"{each * 1e9:.1f}" if known else "?",
                f"{each / before:.1f}" if known and before else "")
            before = each if known else None


if __name__ == "__main__":
    main(sys.argv[1:])
