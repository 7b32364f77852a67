#!/usr/bin/env python3
"""Tells what a program that goes on for long takes: events of one key's lives, as many as are asked for.

usage: bench/longlived.py [EVENTS..]
       bench/longlived.py library [EVENTS..]
(`make build` has built the program, and `make library` the library. EVENTS is 100000 1000000 10000000, if nothing else
is said.)

The events come through a pipe, as from a program that drives `automount_cli script`, and the answers go to a
pipe that is read and compared with those that must come. Each row tells the processor time of the program, the
events in a second of it, and the most memory that it held; where that is more than 40 MB it ends with status 1. With `library` the events are asked one by one of a
`World` of the Python module, in a process of its own each time, whose memory is told.
"""

import os
import resource
import subprocess
import sys
import threading
import time

HERE = os.path.dirname(os.path.abspath(__file__))
sys.path.insert(0, HERE)
import generate  # noqa: E402

PROGRAM = os.environ.get("BENCH_PROGRAM", HERE + "/../crates/automount_cli/out/automount_cli")
LIBRARY = HERE + "/../out/library"
COUNTS = (100_000, 1_000_000, 10_000_000)
# How much memory the program may take, in MB, however many events there are.
MOST = 40
# So many lives are written at once.
BLOCK = 1_000


def lives(count):
    """The lines of so many lives and their answers, a block at a time."""
    lines, answers = [], []
    for event, answer in generate.played("lives", count):
        lines.append(event)
        answers.append(answer)
        if len(lines) >= BLOCK * 16:
            yield lines, answers
            lines, answers = [], []
    yield lines, answers


def per_life():
    return sum(1 for _ in generate.played("lives", 2)) - sum(1 for _ in generate.played("lives", 1))


def feed(program, count, wanted):
    """Writes the script, and hands on the answers that are to come."""
    with program.stdin as stream:
        stream.write("".join(it + "\n" for it in generate.head("lives", count)).encode())
        for lines, answers in lives(count):
            wanted.append("".join(it + "\n" for it in answers).encode())
            stream.write("".join(it + "\n" for it in lines).encode())


def measured(events):
    count = max(1, events // per_life())
    wanted = []
    with subprocess.Popen([PROGRAM, "script"], stdin=subprocess.PIPE, stdout=subprocess.PIPE) as program:
        writer = threading.Thread(target=feed, args=(program, count, wanted))
        writer.start()
        played, at, rest = 0, 0, b""
        while True:
            piece = os.read(program.stdout.fileno(), 1 << 20)
            played += piece.count(b"\n")
            rest += piece
            while at < len(wanted) and len(rest) >= len(wanted[at]):
                if not rest.startswith(wanted[at]):
                    sys.exit("longlived: an answer isn't as it must be")
                rest = rest[len(wanted[at]) :]
                wanted[at] = b""
                at += 1
            if not piece:
                break
        writer.join()
        _, status, used = os.wait4(program.pid, 0)
        program.returncode = os.waitstatus_to_exitcode(status)
    if program.returncode or rest or at < len(wanted):
        sys.exit("longlived: the program didn't answer all")
    return played, used.ru_utime + used.ru_stime, used.ru_maxrss / 1024


def ask_all(events):
    """Asks so many events of a world, and writes the row of them."""
    sys.path.insert(0, LIBRARY)
    import dalvicna

    lines = list(generate.head("lives", 1))
    end = lines.index("end")
    master, rest = "\n".join(lines[1:end]), lines[end + 1 :]
    begin, asked = time.process_time(), 0
    with dalvicna.World(master=master, maps={rest[0].split()[1]: "\n".join(rest[1:-2])}) as world:
        for event, answer in generate.played("lives", max(1, events // per_life())):
            if world.ask(event) != answer:
                sys.exit("longlived: an answer isn't as it must be")
            asked += 1
    row(asked, time.process_time() - begin, resource.getrusage(resource.RUSAGE_SELF).ru_maxrss / 1024)


def row(played, seconds, memory):
    print(f"| {played} | {seconds:.2f} | {played / max(seconds, 0.001):.0f} | {memory:.1f} |", flush=True)


def main(words):
    of_library = words[1:2] == ["library"]
    counts = words[2:] if of_library else words[1:]
    if not all(it.isdecimal() for it in counts):
        print("longlived: expected numbers of events", file=sys.stderr)
        return 2
    if not of_library and not os.access(PROGRAM, os.X_OK):
        print("longlived: expected a program that is built: make build", file=sys.stderr)
        return 2
    if of_library and not os.path.exists(LIBRARY + "/dalvicna.py"):
        print("longlived: expected a library that is built: make library", file=sys.stderr)
        return 2
    print("| events | cpu s | events/s | MB at most |")
    print("| ---: | ---: | ---: | ---: |")
    for events in [int(it) for it in counts] or COUNTS:
        if not of_library:
            found = measured(events)
            row(*found)
            if found[2] > MOST:
                print(f"longlived: it took more than {MOST} MB", file=sys.stderr)
                return 1
        elif os.fork() == 0:
            ask_all(events)
            os._exit(0)
        elif os.wait()[1]:
            return 1
    return 0


if __name__ == "__main__":
    sys.exit(main(sys.argv))
