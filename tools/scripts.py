#!/usr/bin/env python3
"""Plays the files of `tests`, and compares what comes of them, each by what its name ends in.

usage: tools/scripts.py                    plays all of them; the last line counts
       tools/scripts.py FILE..             plays these alone
       tools/scripts.py --refuse SCRIPT    plays NAME.script or NAME.twice with each allocation refused in turn

- `NAME.script` is a script, with the answer lines of `NAME.out`, and the fault of `NAME.fault` where it ends in one;
  where there is a `NAME.world`, it leaves that world, and where there is a `NAME.svg`, that is its picture
  (`tools/examples.sh` compares each `NAME.trace`).
- `.cases` has many scripts, and `.broken` those of a reader that fails behind them. What stands before the first mark
  `>>>` stands before the text of each case. Behind the rest of its mark's line comes a case's text, then a line of
  `---` and the words of the fault in which it ends, none where it ends well, and then what it writes. In a text `{0d}`
  is the byte of this number, `{20*607}` so many of them, and `{}` before a line feed takes that away. Of a case named
  `each line` each line is played by itself.
- `.cuts` has a script in pieces, which is cut at every byte. A piece's name is the fault of the script where it is cut
  in the midst of the piece: where there is none, it comes to what it came to before the piece. Behind the piece, with
  its line feed or without, it comes to the piece's own fault, and the piece's answers stand behind those before.
- `.short` is such a file too: standard output takes only some of the answers, and the script fails at the line of the
  first that wasn't written to its end.
- `.faults` has faulty lines of a section, each between all texts that may stand around it: the cases that are named
  `before` and `behind`; all end in the case `end`. The fault is told at the first line behind the text before it.
- `.digits` has a packet as digits, on the first line of a case: with another digit in place of each, it goes as it
  says.
- `.twice` is a script that says each event twice, with the answers of `NAME.out`.
- `.events` has lines of events: in the trace each is the event that is spelled so.
- `.traces` has short traces, each lawful or not (tools/laws.py); `.lines` is tools/judge.py's.

Each script is played whole, from a reader that gives 1, 7, 4,095 or 4,096 bytes at a time, and whole by `trace`, of
which the answers are the same and the laws hold. Long scripts and long lines are played besides.

What is loaded before the program is loaded only before the proved one: a reader or a writer that is interrupted, a
writer that takes a few bytes at once, and an allocation that is refused. Of what is long, another program plays less.
"""

import concurrent.futures
import functools
import glob
import os
import re
import resource
import socket
import subprocess
import sys
import tempfile
from typing import NamedTuple

sys.dont_write_bytecode = True

import laws
import places
from commands import Program

FOLDER = "tests"
#: How long a play may take, in seconds.
PATIENCE = 300
#: How many bytes a reader gives at a time: a few, and about as many as it is asked for.
SIZES = (1, 7, 4095, 4096)
READ = 4096
#: The most that a writer takes at once.
MOST = (1, 7, 8192)
#: How a writer fails behind what it takes, by the number of errno; with 0 it takes none, and doesn't fail.
ENOSPC, EINTR = 28, 4
WRITER_FAULTS = (0, ENOSPC, EINTR)
#: The events of a long script.
MANY = 100_000
#: How much less of what is long is played where the program isn't the proved one, which is slow.
SLOW = 61


class Wrong(Exception):
    """Something isn't as expected: what was played, and what differed."""


class Example(NamedTuple):
    """A script, the words of its fault, none where it ends well, and what it writes."""

    script: bytes
    fault: str
    answers: bytes


@functools.cache
def program():
    return Program(ROOM, PATIENCE)


@functools.cache
def loaded(name):
    return program().built(name)


ROOM = None


# ---- Ways to play

def compared(how, example, status, wrote, said):
    """Compares what came of an example with what it says."""
    expected = (1 if example.fault else 0, example.answers, told_of(example))
    wrong = places.problem(example.script, said)
    if (status, wrote, places.first(said)) != expected or wrong:
        found = [difference(example.answers, wrote)] if wrote != example.answers else []
        found += [f"it told {said!r}, not {expected[2]!r}"] if places.first(said) != expected[2] else []
        found += [f"it told {said!r}: {wrong}"] if wrong else []
        found += [f"its status is {status}, not {expected[0]}"] if status != expected[0] else []
        raise Wrong(f"{how}: {'; '.join(found)}; the script is {shortened(example.script)}")


def told_of(example):
    """What is told of the fault of an example, first."""
    return f"fault: {example.fault}\n".encode() if example.fault else b""


def shortened(text):
    return repr(text) if len(text) < 400 else f"{text[:120]!r}..{text[-280:]!r}, of {len(text)} bytes"


def difference(expected, found):
    """The first answer that isn't as expected."""
    ours, theirs = expected.split(b"\n"), found.split(b"\n")
    at = next((at for at, pair in enumerate(zip(ours, theirs)) if pair[0] != pair[1]), min(len(ours), len(theirs)))
    line = [b"nothing" if at >= len(it) else it[at] for it in (ours, theirs)]
    return f"answer {at + 1} is {line[1].decode(errors='replace')!r}, not {line[0].decode(errors='replace')!r}"


def plays_whole(example):
    """From a file, of which as much is read at once as is asked for."""
    with tempfile.TemporaryFile() as script:
        script.write(example.script)
        script.seek(0)
        done = subprocess.run([program().path, "script"], stdin=script, capture_output=True, timeout=PATIENCE,
                              check=False)
    compared("played whole", example, done.returncode, done.stdout, done.stderr)


def plays_by_trace(example):
    """The answers stand in the trace, and the laws hold of it."""
    status, wrote, said = program().run(["trace"], example.script)
    lines = wrote.split(b"\n")
    answers = b"".join(it[2:].rpartition(b" : ")[0] + b"\n" for it in lines if it.startswith(b"= "))
    compared("by its trace", example, status, answers, said)
    found = laws.breaches(laws.observations(wrote.decode("utf-8", "surrogateescape")))
    if found:
        raise Wrong(f"its trace is unlawful: {found[0]}; the script is {shortened(example.script)}")


def send(script, size, ours, descriptor):
    """Sends a script in pieces. One that has a descriptor beside it isn't read together with the next (unix(7))."""
    try:
        for at in range(0, len(script), size):
            socket.send_fds(ours, [script[at:at + size]], [descriptor])
    except (BrokenPipeError, ConnectionResetError):
        pass  # The script has ended before.
    ours.close()


def plays_in_pieces(example, size, fails=False):
    """From a reader that gives so many bytes at a time, and then fails, if it does, once."""
    ours, theirs = socket.socketpair(socket.AF_UNIX, socket.SOCK_STREAM)
    with tempfile.TemporaryFile() as wrote, tempfile.TemporaryFile() as said:
        if fails:
            # What is left unread at its other end makes a socket fail when that is closed, behind all that was sent.
            theirs.send(b"unread")
        child = subprocess.Popen([program().path, "script"], stdin=theirs, stdout=wrote, stderr=said)
        theirs.close()
        send(example.script, size, ours, wrote.fileno())
        status = child.wait(PATIENCE)
        wrote.seek(0)
        said.seek(0)
        compared(f"read {size} bytes at a time", example, status, wrote.read(), said.read())


def plays_interrupted(example, size):
    """From a reader that is interrupted at its end; it isn't asked again."""
    more = {"READS": size, "READ_FAULT": EINTR}
    compared(f"read {size} bytes at a time, and interrupted", example,
             *program().run(["script"], example.script, loaded("little"), **more))


def plays(example):
    """In every way."""
    plays_whole(example)
    for size in SIZES:
        plays_in_pieces(example, size)
    plays_by_trace(example)


def plays_broken(example):
    """In every way of a reader that fails behind it."""
    for size in SIZES:
        plays_in_pieces(example, size, fails=True)
        if program().is_proved:
            plays_interrupted(example, size)


def with_room(room):
    """Called in the process of a program: what it writes beyond so many bytes of a file fails."""
    resource.setrlimit(resource.RLIMIT_FSIZE, (room, room))


def plays_into_file(example, room):
    """Into a file that takes so many bytes."""
    with tempfile.TemporaryFile() as wrote:
        done = subprocess.run([program().path, "script"], input=example.script, stdout=wrote, stderr=subprocess.PIPE,
                              timeout=PATIENCE, check=False, preexec_fn=lambda: with_room(room), restore_signals=False)
        wrote.seek(0)
        compared(f"into a file of {room} bytes", example, done.returncode, wrote.read(), done.stderr)


def plays_short(example, room):
    """With standard output that takes so many bytes."""
    plays_into_file(example, room)
    if program().is_proved:
        for most in MOST:
            for fault in WRITER_FAULTS:
                more = {"MOST": most, "ROOM": room, "FAULT": fault}
                compared(f"written {most} bytes at once, {room} in all, fault {fault}", example,
                         *program().run(["script"], example.script, loaded("little"), **more))


# ---- Files of cases

class Case(NamedTuple):
    name: str
    text: str
    fault: str
    answers: str


class Cases:
    """The cases of a file, and the text that stands before that of each."""

    def __init__(self, path):
        with open(path, encoding="utf-8", newline="") as file:
            self.head, *parts = file.read().split(">>>")
        self.cases = [self.case(it) for it in parts]

    @staticmethod
    def case(part):
        name, _, rest = part.partition("\n")
        text, _, rest = rest.partition("---")
        fault, _, answers = rest.partition("\n")
        return Case(name.removeprefix(" "), text, fault.removeprefix(" "), answers)

    def named(self, name):
        return [it for it in self.cases if it.name == name]


def decoded(text):
    """The bytes of a text."""
    def piece(found):
        number, _, count = found[1].decode().partition("*")
        return bytes.fromhex(number) * int(count or 1) + found[2] if number else b""

    return re.sub(rb"\{([^{}]*)\}(\n?)", piece, text.encode())


def example_of(file, case):
    return Example(decoded(file.head) + decoded(case.text), case.fault, decoded(case.answers))


def is_case(file, case):
    if case.name != "each line":
        plays(example_of(file, case))
        return
    for line in case.text.split("\n"):
        if line:
            plays(Example(decoded(file.head) + decoded(line), case.fault, decoded(case.answers)))


def is_broken_case(file, case):
    plays_broken(example_of(file, case))


def before(file, number):
    """What the pieces before one come to: their text, and the answers to their lines."""
    script, answers = decoded(file.head), b""
    for piece in file.cases[:number]:
        script += decoded(piece.text)
        if script.endswith(b"\n"):
            answers += decoded(piece.answers)
    return script, answers


def is_piece(file, case):
    """Cut anywhere in this piece."""
    number = file.cases.index(case)
    script, answers = before(file, number)
    last = file.cases[number - 1].answers if not case.name and number else ""
    text = decoded(case.text)
    whole = len(text.removesuffix(b"\n"))
    for end in range(1, len(text) + 1):
        fault, more = (case.name, last) if end < whole else (case.fault, case.answers)
        plays(Example(script + text[:end], fault, answers + decoded(more)))


def is_short_piece(file, case):
    """Where standard output doesn't take all of the answers to this piece."""
    number = file.cases.index(case)
    (start, answers), (_, more) = before(file, number), before(file, number + 1)
    whole, every = before(file, len(file.cases))
    line = start.count(b"\n") + 1
    for room in range(len(answers), len(more)):
        plays_short(Example(whole, f"line {line}: WriteFailed", every[:room]), room)
    if case is file.cases[-1]:
        plays_short(Example(whole, "", every), len(every))


def has_fault(file, case):
    """A faulty line has its fault between all texts that may stand around it."""
    if case.name in ("before", "behind", "end"):
        return
    line = decoded(case.text).removesuffix(b"\n")
    end = b"".join(decoded(it.text) for it in file.named("end"))
    for first in file.named("before"):
        start = decoded(file.head) + decoded(first.text)
        number = start.count(b"\n") + 1
        for last in file.named("behind"):
            plays(Example(start + line + decoded(last.text) + end, f"line {number}: {case.fault}", b""))


def is_case_with_each(file, case):
    """With another digit in place of each on the first line."""
    first, example = len(decoded(file.head)), example_of(file, case)
    for at in range(first, example.script.index(b"\n", first)):
        other = b"8" if example.script[at:at + 1] == b"0" else b"0"
        plays_whole(example._replace(script=example.script[:at] + other + example.script[at + 1:]))


# ---- Files of lines, and scripts

def bytes_of(path):
    with open(path, "rb") as file:
        return file.read()


def bytes_or_none(path):
    return bytes_of(path) if os.path.exists(path) else b""


def script_at(path):
    start = path.rpartition(".")[0]
    fault = bytes_or_none(f"{start}.fault").decode().removesuffix("\n")
    return Example(bytes_of(path), fault, bytes_or_none(f"{start}.out"))


def is_script(path):
    example = script_at(path)
    plays(example)
    for command, ending, name in (("world", "world", "its world"), ("draw", "svg", "its picture")):
        kept = f"{path.rpartition('.')[0]}.{ending}"
        if os.path.exists(kept):
            compared(name, example._replace(answers=bytes_of(kept)), *program().run([command], example.script))


def is_event(line):
    """In a trace the event is spelled so, a blank between its words, and `die` alone is the daemon's death."""
    status, wrote, said = program().run(["trace"], b"events\n" + line.encode() + b"\n")
    first, *rest = wrote.decode().split("\n")
    if (status, said, first) != (0, b"", "2: " + " ".join(line.split())):
        raise Wrong(f"the event {line!r} is {first!r}, and it told {said!r}")
    if ("  died" in rest) != (line == "die"):
        raise Wrong(f"the event {line!r} is taken for another: {rest}")


def is_judged(line):
    if not laws.is_judged_well(line):
        raise Wrong(f"it isn't judged as it says: {line}")


def lines_of(path):
    with open(path, encoding="utf-8") as file:
        return [it for it in file.read().split("\n") if it and not it.startswith("#")]


# ---- Long scripts, and long lines

def is_long_script_played(size):
    """It is read in hundreds of pieces, or byte by byte."""
    count = MANY if program().is_proved else MANY // SLOW
    plays_in_pieces(Example(b"events\n" + b"kind 0 /\n" * count, "", b"kind private\n" * count), size)


def are_long_lines_played(length):
    """Comments of so many bytes, with an event behind each: one begins at each place of what is read at once."""
    event = b"kind 0 /\n" if length % 2 else b"kind 0 / \n"
    # From one comment to the next it is an odd number of bytes, so that READ of them begin at READ places.
    count = READ if program().is_proved else READ // SLOW
    plays_whole(Example(b"events\n" + (b"#" * length + b"\n" + event) * count, "", b"kind private\n" * count))


def is_too_long_line_told(length):
    """A comment that is too long, wherever it begins in what is read at once."""
    script = b" " * READ + b"\nevents\n" + b"#" * length + b"\nkind 0 /\n"
    for place in range(0, READ, 1 if program().is_proved else SLOW):
        plays_whole(Example(script[place:], "line 3: LongLine", b""))


LONG = [("a long script", is_long_script_played, it) for it in SIZES]
LONG += [("long lines", are_long_lines_played, it) for it in (8191, 8192)]
LONG += [("a line that is too long", is_too_long_line_told, 8193)]


# ---- All allocations refused in turn

def without(script, number):
    """A script without the event of this number, from 0: a blank line stands there."""
    lines = script.split(b"\n")
    events = next(at for at, line in enumerate(lines) if line.split() == [b"events"])
    places = [at for at, line in enumerate(lines) if at > events and line.split() and line.split()[0][:1] != b"#"]
    lines[places[number]] = b""
    return b"\n".join(lines)


def is_refused_well(example, status, wrote, said):
    """Either all is as ever. Or there was no memory for the script itself, and what was written is a beginning. Or one
    event found none: it has changed nothing, so that the others are answered as where it isn't there."""
    # What stands below a fault may find no memory.
    if (status, wrote, places.first(said)) == (1 if example.fault else 0, example.answers, told_of(example)):
        return said == places.first(said) or places.problem(example.script, said) is None
    if re.fullmatch(rb"fault: (line \d+: )?NoMemory\n", said):
        return status == 1 and example.answers.startswith(wrote)
    ours, theirs = example.answers.split(b"\n"), wrote.split(b"\n")
    number = next((at for at, pair in enumerate(zip(ours, theirs)) if pair[0] != pair[1]), None)
    if number is None or theirs[number] != b"err 10":
        return False
    others = theirs[:number] + theirs[number + 1:]
    without_it = program().run(["script"], without(example.script, number))
    return (status, b"\n".join(others), places.first(said)) == (*without_it[:2], places.first(without_it[2]))


def refuse_each(name):
    """Plays a script with each of its allocations refused in turn, and tells how many that were."""
    path = next((it for it in (f"{FOLDER}/{name}.script", f"{FOLDER}/{name}.twice") if os.path.exists(it)), None)
    if not path:
        stop(f"expected a script, and there is no {FOLDER}/{name}.script and no {name}.twice")
    if not program().is_proved:
        stop("expected the proved program: nothing can be loaded before another (make build)")
    example, count, failed = script_at(path), 0, 0
    while True:
        status, wrote, said = program().run(["script"], example.script, loaded("refuse"), REFUSE=count + 1)
        rest, _, counts = said.rpartition(b"calls=")
        if not counts.endswith(b"refused=1\n"):
            break
        count += 1
        if not is_refused_well(example, status, wrote, rest):
            failed += 1
            print(f"allocation {count} refused: {difference(example.answers, wrote)}; it told {rest!r}")
    print(f"{name}: {count} allocations refused in turn, {failed} failed")
    if not count:
        stop("expected a program that allocates, and nothing was refused")
    return not failed


# ---- All of it

CASES = {"cases": is_case, "broken": is_broken_case, "cuts": is_piece, "short": is_short_piece, "faults": has_fault,
         "digits": is_case_with_each}
LINES = {"events": is_event, "traces": is_judged}
SCRIPTS = ("script", "twice")
#: What stands beside a script, and what tools/judge.py reads.
BESIDE = ("out", "fault", "trace", "world", "svg", "lines")


def parts_of(path):
    """What is played of a file, a number each."""
    ending = path.rpartition(".")[2]
    if ending in SCRIPTS:
        return range(1)
    if ending in CASES:
        return range(len(Cases(path).cases))
    return range(len(lines_of(path))) if ending in LINES else range(0)


def play(task):
    """Plays a part of a file; returns what isn't as expected of it."""
    path, number = task
    ending = path.rpartition(".")[2]
    try:
        if path == "":
            LONG[number][1](LONG[number][2])
        elif ending in SCRIPTS:
            is_script(path)
        elif ending in CASES:
            file = Cases(path)
            CASES[ending](file, file.cases[number])
        else:
            LINES[ending](lines_of(path)[number])
    except Wrong as wrong:
        return str(wrong)
    except subprocess.TimeoutExpired:
        return f"it isn't done within {PATIENCE} seconds"
    return None


def name_of(task):
    path, number = task
    if path == "":
        return f"{LONG[number][0]} ({LONG[number][2]})"
    return path if path.rpartition(".")[2] in SCRIPTS else f"{path}, number {number + 1}"


def play_all(paths):
    for path in paths or sorted(it for it in glob.glob(f"{FOLDER}/*") if os.path.isfile(it)):
        if path.rpartition(".")[2] not in (*SCRIPTS, *CASES, *LINES, *BESIDE):
            stop(f"expected a file that is played by what its name ends in, not {path}")
    long = [] if paths else [("", at) for at in range(len(LONG))]
    tasks = long + [(path, at) for path in paths or sorted(glob.glob(f"{FOLDER}/*.*")) for at in parts_of(path)]
    if not tasks:
        stop("expected files to play")
    passed = failed = 0
    with concurrent.futures.ProcessPoolExecutor(len(os.sched_getaffinity(0))) as pool:
        for task, wrong in zip(tasks, pool.map(play, tasks, chunksize=1)):
            passed, failed = passed + (not wrong), failed + bool(wrong)
            if wrong:
                print(f"failed: {name_of(task)}: {wrong}", flush=True)
    print(f"{passed} passed, {failed} failed")
    return not failed


def stop(text):
    print(f"scripts: {text}", file=sys.stderr)
    sys.exit(2)


def main(words):
    global ROOM
    if words[:1] in (["--help"], ["-h"]):
        print(__doc__.strip())
        return True
    os.chdir(os.path.dirname(os.path.abspath(__file__)) + "/..")
    with tempfile.TemporaryDirectory() as ROOM:
        if program().is_proved:
            loaded("little")
        else:
            print("scripts: what is loaded before a program is left out, as this one isn't proved", file=sys.stderr)
        if words[:1] == ["--refuse"]:
            if len(words) != 2:
                stop("expected the name of one script")
            return refuse_each(words[1])
        for path in words:
            if not os.path.isfile(path):
                stop(f"expected files of {FOLDER}, and there is no file {path}")
        return play_all(words)


if __name__ == "__main__":
    sys.exit(0 if main(sys.argv[1:]) else 1)
