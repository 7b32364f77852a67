#!/usr/bin/env python3
"""Measures events that a Python program asks one by one: of `World.ask`, and of the program at the other end of two
pipes.

usage: asks.py [RUNS [EVENTS]]

The module is that of out/library, and the program that of `tools/program.sh`; with BENCH_PROGRAM=PATH it is the one at
that path. The two take turns. Each answer is compared: a wrong one stops the run with status 1.
"""

import os
import statistics
import subprocess
import sys
import time

import generate

RUNS = 3
EVENTS = 1_000_000
SHAPE = "lives"
TOP = os.path.dirname(os.path.dirname(os.path.abspath(__file__)))


def program_path():
    given = os.environ.get("BENCH_PROGRAM")
    if given:
        return os.path.realpath(given)
    return subprocess.run([os.path.join(TOP, "tools/program.sh")], check=True,
                          stdout=subprocess.PIPE, text=True).stdout.strip()


def events_and_answers(count):
    """So many events or a few more of one key that lives over and over."""
    per = len(generate.text(generate.answers(SHAPE, 2)).split(b"\n")) - len(generate.text(generate.answers(SHAPE, 1)).split(b"\n"))
    lives = -(-count // per)
    head, _, events = generate.text(generate.script(SHAPE, lives)).decode().partition("\nevents\n")
    answers = generate.text(generate.answers(SHAPE, lives)).decode().splitlines()
    return head, events.splitlines(), answers


def by_module(dalvicna, head, events, answers):
    """Seconds of the clock, and of the processor."""
    lines = head.split("\n")
    end = lines.index("end")
    master, rest = "\n".join(lines[1:end]), lines[end + 1:]
    with dalvicna.World(master=master, maps={rest[0].split()[1]: "\n".join(rest[1:-1])}) as world:
        ask, begun, used = world.ask, time.perf_counter(), time.process_time()
        for event, answer in zip(events, answers):
            if ask(event) != answer:
                sys.exit(f"asks: wrong answer of the module to {event!r}")
        return time.perf_counter() - begun, time.process_time() - used


def by_pipes(program, head, events, answers):
    pipe = subprocess.PIPE
    with subprocess.Popen([program, "script"], stdin=pipe, stdout=pipe, text=True, bufsize=1) as play:
        play.stdin.write(head + "\nevents\n")
        begun, used = time.perf_counter(), time.process_time()
        for event, answer in zip(events, answers):
            play.stdin.write(event + "\n")
            if play.stdout.readline() != answer + "\n":
                sys.exit(f"asks: wrong answer of the program to {event!r}")
        took = time.perf_counter() - begun, time.process_time() - used
        play.stdin.close()
        return took


def main(words):
    if not all(word.isdigit() and word[0] != "0" for word in words) or len(words) > 2:
        print("asks: expected numbers from 1 on, as in asks.py [RUNS [EVENTS]]", file=sys.stderr)
        sys.exit(2)
    runs, count = ([int(word) for word in words] + [RUNS, EVENTS][len(words):])[:2]
    sys.path.insert(0, os.path.join(TOP, "out", "library"))
    import dalvicna
    program = program_path()
    head, events, answers = events_and_answers(count)
    ways = (("World.ask", lambda: by_module(dalvicna, head, events, answers)),
            ("two pipes", lambda: by_pipes(program, head, events, answers)))
    took = {way: [] for way, _ in ways}
    for _ in range(runs):
        for way, run in ways:
            took[way].append(run())
    print(f"| way | events | s | of them Python's | µs an event |\n| --- | ---: | ---: | ---: | ---: |")
    for way, _ in ways:
        seconds, used = (statistics.median(it[at] for it in took[way]) for at in (0, 1))
        print(f"| {way} | {len(events):,} | {seconds:.2f} | {used:.2f} | {seconds / len(events) * 1e6:.1f} |")


if __name__ == "__main__":
    main(sys.argv[1:])
