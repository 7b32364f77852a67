#!/usr/bin/env python3
"""Measures what the views of a long script cost: its trace, its picture and its world, beside its answers.

usage: views.py [RUNS [LINES]]

The program is that of `tools/program.sh`; with BENCH_PROGRAM=PATH it is the one at that path. Each view is
compared with the answers: a wrong run stops with status 1, and so does a trace that takes more than three
times the time of the answers.
"""

import os
import statistics
import subprocess
import sys
import tempfile

import generate

RUNS = 5
LINES = 100_000
SHAPES = ("lives", "mounts", "one-by-one", "crowd")
VIEWS = ("script", "trace", "draw", "world")
MOST = 3.0


def program_path():
    given = os.environ.get("BENCH_PROGRAM")
    if given:
        return os.path.realpath(given)
    top = os.path.dirname(os.path.dirname(os.path.abspath(__file__)))
    return subprocess.run([os.path.join(top, "tools/program.sh")], check=True,
                          stdout=subprocess.PIPE, text=True).stdout.strip()


def script_of(shape, lines):
    """A script of this shape of so many lines or a few more."""
    least, more = (len(list(generate.script(shape, size))) for size in (100, 200))
    size = 100 + -(-(lines - least) * 100 // (more - least))
    return generate.text(generate.script(shape, max(size, 1)))


def run(program, view, source, wrote):
    """Seconds of processor time and megabytes at most of one run."""
    with open(source, "rb") as script, open(wrote, "wb") as sink:
        child = subprocess.Popen([program, view], stdin=script, stdout=sink, stderr=subprocess.PIPE)
        _, status, usage = os.wait4(child.pid, 0)
        said = child.stderr.read()
        child.stderr.close()
        child.returncode = os.waitstatus_to_exitcode(status)
    if child.returncode != 0 or said:
        sys.exit(f"views: wrong run of {view}: status {child.returncode}, it said {said!r}")
    return usage.ru_utime + usage.ru_stime, usage.ru_maxrss / 1024


def answers_in(view, output):
    """The answers that a view tells, or None where it tells none."""
    if view == "script":
        return output
    if view == "trace":
        told = (line for line in output.splitlines() if line.startswith(b"= "))
        return b"".join(line[2:].rpartition(b" : ")[0] + b"\n" for line in told)
    return None


def check(view, wrote, answers):
    with open(wrote, "rb") as source:
        output = source.read()
    told = answers_in(view, output)
    count = answers.count(b"\n")
    if told is not None and told != answers:
        sys.exit(f"views: wrong run: the answers that {view} tells aren't those of script")
    if view == "draw" and output.count(b"<g transform='translate(0 ") != count:
        sys.exit(f"views: wrong run: the picture hasn't {count} rows")
    if view == "world" and not output.startswith(b"# namespace 0\n"):
        sys.exit("views: wrong run: the world doesn't begin with namespace 0")
    return len(output)


def row(*cells):
    print("| " + " | ".join(cells) + " |", flush=True)


def measure(program, room, shape, lines, runs):
    source, wrote = os.path.join(room, "script"), os.path.join(room, "wrote")
    script = script_of(shape, lines)
    with open(source, "wb") as sink:
        sink.write(script)
    run(program, "script", source, wrote)
    with open(wrote, "rb") as answered:
        answers = answered.read()
    times = {view: [] for view in VIEWS}
    most = {view: 0 for view in VIEWS}
    sizes = {}
    # The views take turns, so that what runs beside them falls on all.
    for _ in range(runs):
        for view in VIEWS:
            took, megabytes = run(program, view, source, wrote)
            sizes[view] = check(view, wrote, answers)
            times[view].append(took)
            most[view] = max(most[view], megabytes)
    base = statistics.median(times["script"])
    for view in VIEWS:
        cpu = statistics.median(times[view])
        row(shape, str(script.count(b"\n")), view, f"{cpu:.2f}", f"{cpu / base:.2f}",
            f"{sizes[view] / 1e6:.1f}", f"{most[view]:.0f}")
    return statistics.median(times["trace"]) / base


def main(words):
    if not all(word.isdigit() and int(word) > 0 for word in words) or len(words) > 2:
        print("views: expected numbers from 1 on, as in bench/views.py [RUNS [LINES]]", file=sys.stderr)
        sys.exit(2)
    runs = int(words[0]) if words else RUNS
    lines = int(words[1]) if len(words) > 1 else LINES
    program = program_path()
    row("shape", "lines", "view", "cpu s", "times script", "MB written", "MB taken")
    row("---", "---:", "---", *["---:"] * 4)
    with tempfile.TemporaryDirectory() as room:
        worst = max(measure(program, room, shape, lines, runs) for shape in SHAPES)
    if worst > MOST:
        sys.exit(f"views: a trace takes {worst:.1f} times the time of script, and may take {MOST:.0f}")


if __name__ == "__main__":
    main(sys.argv[1:])
