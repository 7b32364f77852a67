#!/usr/bin/env python3
"""Plays scripts that nobody would write: made of a seed each, with odd words, numbers at and past
each bound, zero bytes, long lines, broken sections, and heads and events of all kinds.

usage: bench/hostile.py FIRST COUNT     plays the scripts of these seeds
       bench/hostile.py SEED            writes the script of a seed
       bench/hostile.py --serve [FIRST] COUNT   serves the scripts of so many seeds, from 1, and asks behind each line
       bench/hostile.py long            plays scripts of 64 MiB, and tells the memory that they take
       bench/hostile.py digits          changes each of the 608 digits of a packet that is delivered

With --scheduler ADDRESS behind a COUNT the scripts are played on the workers of dask at that address (tools/spread.py),
a hundred by each command: a worker needs this repository and the program at the same paths.

PROGRAM in the environment is the path of the program; else it is the one that tools/program.sh
prints. Each run must end in 20 seconds of processor time with status 0 and nothing on standard error, or with status 1
and one line there that tells a fault and its line; each event before that line must have an answer,
which is one of the lines that answers may be, and nothing else may be written. In a session each line must have its
reply, behind a fault and a line that is skipped the world and what was seen last must be as before, and the answers and
the first fault must be those of the script.
"""

import os
import random
import re
import resource
import signal
import struct
import subprocess
import sys
import tempfile
import time
from concurrent.futures import ThreadPoolExecutor

HERE = os.path.dirname(os.path.abspath(__file__))
sys.path.insert(0, HERE + "/../tools")
import spread  # pylint: disable=wrong-import-position

# Of processor time, and then on the clock: other programs may want the processors too.
SECONDS = 20
PATIENCE = 600
LONGEST = 8192
MANY = 64 << 20
# How many scripts one command plays on a worker, and what it counts at its end.
CHUNK = 100
PLAYED = re.compile(r"\d+ scripts .*?: (?:(\d+) played to their end, )?(\d+) faults told.*\n")

FAULT = re.compile(
    rb"fault: line ([1-9][0-9]*): (BadSection|BadLimits|BadPoint|NoMap|BadType|BadTimeout|Twice|BadKey"
    rb"|BadOption|NoLocation|BadLocation|NoSuchMap|BadEvent|LongLine|NoMemory)\n"
)
N = rb"(0|[1-9][0-9]*)"
ANSWER = re.compile(
    rb"fs N attach N mount N|mount N|gone( N)+|ok|kind (shared|slave|shared-slave|private|unbindable)"
    rb"|ns N|at N (/|(/[^/\0\n]{1,255})+)|wait N|expired|job N|did (mkdir|mount N|umount|rmdir|record|reply)"
    rb"|failed (mount|umount)|attach N|record (none|mounting N|mounted N|unmounting N N)"
    rb"|err ([1-9]|1[0-2])|fail N".replace(b"N", N)
)

NAMES = [b"home", b"work", b"k0", b"k1", b"a", b"b", b"-", b"*", b"...", b"\xff\xfe", b"<&>\"'", b"x" * 255]
KEYS = [it for it in NAMES if b'"' not in it]
NO_NAMES = [b".", b"..", b"x" * 256, b"a\0b", b""]
POINTS = [b"/auto", b"/srv/data", b"/m", b"/auto/sub", b"/" + b"d" * 255]
KINDS = [b"shared", b"slave", b"private", b"unbindable", b"shared-slave", b"Shared", b""]
BLANKS = [b" ", b"  ", b"\t", b" \t "]


def bounds(bits):
    top = 1 << bits
    return [0, 1, 2, 3, 7, top // 2, top - 2, top - 1, top, top + 1, top * 10]


class Script:
    """A script as it is made, line by line."""

    def __init__(self, seed):
        self.by = random.Random(seed)
        self.rude = self.by.choice([0, 0, 0.002, 0.02, 0.2])
        self.tokens = 0

    def rudely(self):
        return self.by.random() < self.rude

    def number(self, bits=32):
        if self.rudely():
            return self.by.choice([b"-1", b"+1", b"01", b"0x1", b"", b"1e3", b"\xd9\xa1", b"9" * 400])
        if self.rudely():
            return str(self.by.choice(bounds(bits))).encode()
        return str(self.by.choice([0, 1, 1, 1, 2, 2, 2, 3, 4, 5, 6, 7, 8, 9])).encode()

    def moment(self):
        if self.by.random() < 0.05:
            return str(self.by.choice(bounds(64)[:8])).encode()
        return str(self.by.choice([0, 1, 100, 299, 300, 301, 600, 1000, 5000])).encode()

    def token(self):
        """A token that may be one of the last."""
        if self.by.random() < 0.2:
            return self.number()
        return str(self.by.randrange(max(1, self.tokens - 1), self.tokens + 2)).encode()

    def name(self):
        if self.rudely():
            return self.by.choice(NO_NAMES)
        return self.by.choice(NAMES)

    def path(self):
        if self.rudely():
            return self.by.choice([b"", b"auto", b"/\0", b"/" + b"y" * 4095, b"/." , b"/../a", b"//"])
        if self.rudely():
            return b"/" + b"/".join([b"n"] * 2047)
        front = self.by.choice([b"", b"/auto", b"/auto", b"/auto", b"/srv/data", b"/m", b"/n"])
        parts = [self.name() for _ in range(self.by.choice([0, 1, 1, 1, 2, 3]))]
        path = front + b"".join(self.by.choice([b"/", b"/", b"/", b"//"]) + it for it in parts)
        return path or b"/"

    def pipe(self):
        if self.rudely():
            return self.by.choice([b"Room", b"", b"half"])
        return self.by.choice([b"room"] * 8 + [b"full", b"gone"])

    def packet(self):
        token = self.by.choice([0, 1, 1, 2, 3, 1 << 31])
        name = self.by.choice([b"home", b"k0", b"k1", b"", b"a/b", b"n" * 255])
        fields = [5, self.by.choice([3, 3, 3, 4, 5, 6, 7]), token, self.by.choice([1, 2, 2, 3])]
        body = b"".join(it.to_bytes(4, "little") for it in fields)
        body += (1).to_bytes(8, "little") + bytes(8)
        body += (7).to_bytes(4, "little") * 2 + len(name).to_bytes(4, "little")
        body = bytearray((body + name).ljust(304, b"\0"))
        if self.by.random() < 0.3:
            body[self.by.randrange(304)] ^= 1 << self.by.randrange(8)
        digits = bytes(body).hex()
        digits = "".join(it.upper() if self.by.random() < 0.2 else it for it in digits)
        if self.rudely():
            digits = self.by.choice([digits[:-1], digits + "0", digits[:600], "g" * 608, digits[:-8]])
        return digits.encode()

    def failure(self):
        """The number of a failure."""
        if self.rudely():
            return self.by.choice([b"0", b"10", b"01", b"255", b"256", b"257", b"-1", b"+1", b"x", b""])
        return str(self.by.randrange(1, 10)).encode()

    def negative(self):
        """How long failures last."""
        if self.rudely():
            return b"negative " + self.number(64)
        return b"negative " + self.by.choice([b"0", b"1", b"5", b"300", b"18446744073709551615"])

    def event(self):
        word = self.by.choice(
            [b"walk"] * 6 + [b"deliver"] * 6 + [b"act"] * 12 + [b"resume"] * 5 + [b"leave"] * 3
            + [b"expire"] * 4 + [b"mount", b"bind", b"umount", b"change", b"kind", b"nscopy", b"nsdrop"]
            + [b"attach", b"repeat", b"catatonic", b"admincat", b"timeout", b"die", b"reattach", b"record"]
        )
        ns, small = self.by.choice([b"0", b"0", b"0", self.number()]), self.number()
        verdict = self.by.choice([[b"ok"], [b"ok"], [b"ok"], [b"fail"], [b"fail", self.failure()]])
        how = self.by.choice([b"immediate", b"idle"])
        words = {
            b"walk": [small, ns, self.path(), self.moment(), self.pipe()],
            b"deliver": [self.token()] + [self.packet()] * (self.by.random() < 0.2),
            b"act": [self.token(), *verdict],
            b"resume": [small, self.moment(), self.pipe()],
            b"leave": [small],
            b"expire": [small, self.by.choice([b"2", self.number()]), self.moment(), how, self.pipe()],
            b"mount": [ns, self.path()],
            b"bind": [ns, self.path(), self.path()],
            b"umount": [ns, self.path()],
            b"change": [ns, self.path(), self.by.choice(KINDS if self.rudely() else KINDS[:4])],
            b"kind": [ns, self.path()],
            b"nscopy": [ns],
            b"nsdrop": [ns],
            b"attach": [self.by.choice(POINTS)],
            b"repeat": [small, self.number(), self.by.choice([b"ready", b"fail"])],
            b"catatonic": [small, self.number()],
            b"admincat": [small],
            b"timeout": [small, self.number(), self.number()],
            b"die": [],
            b"reattach": [small],
            b"record": [small, self.name()],
        }[word]
        return self.join([word] + words)

    def join(self, words):
        if self.rudely():
            words = words[: self.by.randrange(len(words) + 1)] + [self.name()] * self.by.randrange(3)
        if self.rudely():
            self.by.shuffle(words)
        if self.rudely():
            return self.by.choice(BLANKS) + self.by.choice(BLANKS).join(words) + b" "
        return b" ".join(words)

    def odd(self):
        """A line that says nothing, or that nobody expects."""
        long = self.by.choice([LONGEST - 1, LONGEST, LONGEST + 1])
        return self.by.choice(
            [b"", b"   ", b"# comment", b"#" * long, b" " * long, b"\r", b"end", b"events", b"master", b"map x"]
            + [b"\\", b"walk\\", bytes(self.by.randrange(256) for _ in range(40)).replace(b"\n", b"")]
        )

    def section(self, lines):
        lines = [it for it in lines if not self.rudely()]
        if self.rudely():
            lines.insert(self.by.randrange(len(lines) + 1), self.odd())
        if not self.rudely():
            lines.append(b"end")
        return lines

    def master(self):
        points = [POINTS[0]] + self.by.sample(POINTS[1:], self.by.randrange(3))
        points += [b"/-"] * self.by.randrange(2)
        if self.rudely():
            points.append(self.by.choice([b"/", b"auto", b"/-/", points[0], b"/a\0"]))
        rest = [b"", b"--timeout=1", b"-t 600", b"--timeout 0", b"-t 4294967295", b"rw -n"]
        if self.rudely():
            rest = [b"-t", b"--timeout=4294967296", b"-t x", b"--timeout="]
        maps = [b"m%d" % self.by.randrange(3) for _ in points]
        kinds = [b"", b"", b"file:", b"file,sun:"] + [b"yp:"] * self.rudely()
        lines = [
            b" ".join([point, self.by.choice(kinds) + it, self.by.choice(rest)]).strip()
            for point, it in zip(points, maps)
        ]
        sorts = {it: {point == b"/-" for point, other in zip(points, maps) if other == it} for it in maps}
        return [b"master"] + self.section(lines), sorts

    def map(self, name, sorts):
        lines = []
        # A map that is both direct and indirect can have no lines.
        is_direct = True in sorts
        for _ in range(self.by.randrange(6) if len(sorts) == 1 or self.rudely() else 0):
            key = self.by.choice([b"/d", b"/srv/data/x"]) if is_direct else self.by.choice(KEYS)
            if self.rudely():
                key = self.by.choice(NO_NAMES + [b"+x", b"a\"b"])
            host = self.by.choice([b"srv:/&", b"nas:/vol/&/&", b":/dev/sda1", b"srv:/x"])
            if self.rudely():
                host = self.by.choice([b"", b"srv", b"a/b:/x", b"srv:x", b"$h:/x", b"srv:/x srv:/y"])
            options = self.by.choice([b"", b"-rw", b"-fstype=nfs,ro"] + [b"-"] * self.rudely())
            lines.append(b" ".join([key, options, host]))
        if sorts == {False} and self.by.random() < 0.5:
            lines.append(b"* srv:/any/&")
        return [b"map " + name] + self.section(lines)

    def head(self):
        lines = []
        if self.by.random() < 0.2:
            limits = [self.by.choice([b"1", b"5", b"1000"]) for _ in range(3)]
            if self.rudely():
                limits[self.by.randrange(3)] = self.by.choice([b"0", b"65537", b"4294967296", b"x"])
            lines.append(b"limits " + b" ".join(limits))
        if self.by.random() < 0.5:
            lines.append(self.negative())
        if not self.rudely():
            master, maps = self.master()
            lines += master
            for name, sorts in maps.items():
                if not self.rudely():
                    lines += self.map(name, sorts)
        if self.rudely():
            self.by.shuffle(lines)
        if not self.rudely():
            lines.append(b"events")
        return lines

    def served(self):
        """A key that is served as it should be."""
        key, w = self.by.choice(NAMES[:5]), self.number()
        token = self.token()
        self.tokens += 1
        asks = b"walk " + w + b" 0 /auto/" + key + b" 0 room"
        if self.by.random() < 0.3:
            asks = b"expire " + w + b" 2 9000 " + self.by.choice([b"idle", b"immediate"]) + b" room"
        leaves = [b"leave " + w] * (self.by.random() < 0.6)
        acts = [b"act " + token + b" ok"] * self.by.choice([4, 4, 4, 5, 2])
        return [asks, b"deliver " + token, *acts, b"resume " + w + b" 0 room", *leaves]

    def bytes(self):
        lines = self.head()
        if self.by.random() < 0.9:
            lines.append(b"attach /auto")
        count = self.by.choice([0, 3, 20, 60, 200])
        while count > 0:
            new = self.served() if self.by.random() < 0.2 else [self.event()]
            if self.rudely():
                new.append(self.odd())
            lines += new
            count -= len(new)
        text = b"\n".join(lines) + b"\n"
        if self.rudely():
            text = text[: self.by.randrange(len(text) + 1)]
        if self.rudely() and text:
            text = bytearray(text)
            for _ in range(3):
                text[self.by.randrange(len(text))] = self.by.randrange(256)
        return bytes(text)


def events_before(text, line):
    """How many lines behind the head, before a line, say something."""
    lines = text.split(b"\n")[: line - 1]
    section = False
    for index, it in enumerate(lines):
        words = re.split(rb"[ \t]+", it.strip(b" \t"))
        if section:
            section = it != b"end"
        elif words[0] in (b"master", b"map"):
            section = True
        elif words == [b"events"]:
            said = [it.strip(b" \t") for it in lines[index + 1 :]]
            return sum(1 for it in said if it and not it.startswith(b"#"))
    return 0


def problem(text, status, wrote, said):
    """What is wrong with a run, if anything is."""
    if status not in (0, 1):
        return f"status {status}"
    line = text.count(b"\n") + 2
    if status == 0 and said:
        return f"status 0, and {said!r}"
    if status == 1:
        told = FAULT.match(said)
        if told is None:
            return f"status 1, and {said!r}"
        if int(told[1]) > line:
            return f"a fault at line {int(told[1])}"
        line = int(told[1])
    if wrote and not wrote.endswith(b"\n"):
        return "an answer that doesn't end"
    answers = wrote.split(b"\n")[:-1]
    for answer in answers:
        if ANSWER.fullmatch(answer) is None:
            return f"an answer {answer!r}"
    if len(answers) != events_before(text, line):
        return f"{len(answers)} answers for {events_before(text, line)} events"
    return None


def ran(program, text):
    """The status of a run on a script, and what it wrote to each of its two outputs."""
    pipes = {"stdin": subprocess.PIPE, "stdout": subprocess.PIPE, "stderr": subprocess.PIPE}
    with subprocess.Popen([program, "script"], **pipes) as run:
        resource.prlimit(run.pid, resource.RLIMIT_CPU, (SECONDS, SECONDS))
        try:
            wrote, said = run.communicate(text, timeout=PATIENCE)
        except subprocess.TimeoutExpired:
            run.kill()
            wrote, said = run.communicate()
    return run.returncode, wrote, said


def play(program, seed):
    text = Script(seed).bytes()
    status, wrote, said = ran(program, text)
    if status in (-signal.SIGXCPU, -signal.SIGKILL):
        return seed, 0, "it hangs"
    wrong = problem(text, status, wrote, said)
    return seed, status, wrong and wrong[:300]


def play_all(program, first, count):
    faults = 0
    with ThreadPoolExecutor(os.cpu_count()) as pool:
        for seed, status, wrong in pool.map(lambda it: play(program, it), range(first, first + count)):
            if wrong:
                print(f"hostile: seed {seed}: {wrong}", file=sys.stderr)
                return 1
            faults += status
    tell_played(first, count, faults)
    return 0


REPLY_FAULT = re.compile(rb"fault ([1-9][0-9]*)(:[1-9][0-9]*)? ([A-Za-z]+)( expected .+)?\n")


class Session:
    """A session, line by line."""

    def __init__(self, program):
        pipes = {"stdin": subprocess.PIPE, "stdout": subprocess.PIPE, "stderr": subprocess.PIPE}
        self.child = subprocess.Popen([program, "serve"], **pipes)
        resource.prlimit(self.child.pid, resource.RLIMIT_CPU, (SECONDS * 3, SECONDS * 3))

    def ask(self, line):
        self.child.stdin.write(line + b"\n")
        self.child.stdin.flush()
        return b"".join(iter(self.child.stdout.readline, b".\n"))

    def end(self):
        """Its status, and what is left of its outputs."""
        wrote, said = self.child.communicate(timeout=PATIENCE)
        return self.child.returncode, wrote + said


def words_of(line):
    return [it for it in re.split(rb"[ \t]+", line) if it]


# What is asked of a session, well and badly, that changes nothing; nothing was saved.
ASKED = (b"?", b"??", b"?x", b"?trace", b"?trace 1", b"?world 0", b"?world 7", b"?world x", b"?world 0 0", b"?next", b"?next 0", b"?next 1",
         b"?next 4294967296", b"?waiting", b"?waiting x", b"?waiting 7", b"?lawful", b"?lawful 1", b"?kind", b"?kind 0", b"?kind 0 /",
         b"?kind 9 /", b"?kind 0 a", b"?kind 0 /a/../b", b"?kind 4294967296 /", b"?kind 0 /" + b"x" * 256, b"?kind 0 /" + b"/x" * 5000,
         b"!", b"!!", b"!x", b"!back", b"!back 1", b"!reset 1", b"!save 1", b"?\0", b"?world\r")


class Served:
    """What a session makes of the lines of a script, and what is wrong with it."""

    def __init__(self, session):
        self.session, self.section, self.playing = session, False, False
        self.answers, self.fault, self.faults, self.is_odd = b"", None, 0, False

    def follow(self, line, reply):
        """Where the session stands behind a line of a head."""
        words = words_of(line)
        if len(line) > LONGEST:
            self.is_odd = True
        elif self.section:
            self.section = line != b"end"
        elif words == [b"events"]:
            self.playing = reply == b""
        else:
            self.is_odd |= words[:1] != [] and words[0][:1] in (b"?", b"!")
            self.section = words == [b"master"] or len(words) == 2 and words[0] == b"map"

    def asked(self):
        return self.session.ask(b"?world"), self.session.ask(b"?trace")

    def ask(self, line):
        """Asks something that changes nothing; returns what is wrong, if anything is."""
        before = self.asked()
        reply = self.session.ask(line)
        if reply.startswith(b"fault ") and not REPLY_FAULT.fullmatch(reply):
            return f"a reply {reply!r} to {line[:80]!r}"
        return None if self.asked() == before else f"another world behind {line[:80]!r}"

    def take(self, line):
        """Takes a line; returns what is wrong, if anything is."""
        was_playing = self.playing
        # A session takes it for a question or a command, and a script for an event.
        self.is_odd |= was_playing and words_of(line)[:1] != [] and words_of(line)[0][:1] in (b"?", b"!")
        before = self.asked() if was_playing else None
        reply = self.session.ask(line)
        told = REPLY_FAULT.fullmatch(reply)
        if told:
            self.faults += 1
            self.fault = self.fault or (int(told[1]), told[3])
        elif reply and not ANSWER.fullmatch(reply[:-1]):
            return f"a reply {reply!r}"
        elif not self.fault:
            self.answers += reply
        if was_playing and (told or not reply) and self.asked() != before:
            return f"another world behind {line[:80]!r}"
        if not was_playing:
            self.follow(line, reply)
        return None


def serve(program, seed):
    """What is wrong with a session of a script's lines, if anything is, and how many faults it told."""
    text = Script(seed).bytes()
    lines = text.split(b"\n")
    session = Session(program)
    served = Served(session)
    by = random.Random(seed)
    for line in lines if lines[-1] else lines[:-1]:
        wrong = served.take(line)
        if not wrong and served.playing and by.random() < 0.1:
            wrong = served.ask(by.choice(ASKED))
        if wrong:
            session.child.kill()
            return seed, served.faults, wrong[:300]
    status, rest = session.end()
    if status or rest:
        return seed, served.faults, f"status {status}, and {rest[:200]!r}"
    played, wrote, said = ran(program, text)
    told = FAULT.match(said)
    if served.is_odd or not served.playing and not served.fault:
        return seed, served.faults, None
    if served.answers != wrote or served.fault != (told and (int(told[1]), told[2])) or (played == 1) != bool(told):
        return seed, served.faults, f"{served.fault} and {len(served.answers)} bytes, where the script has {said[:80]!r} and {len(wrote)}"
    return seed, served.faults, None


def serve_all(program, first, count):
    faults = 0
    with ThreadPoolExecutor(os.cpu_count()) as pool:
        for seed, told, wrong in pool.map(lambda it: serve(program, it), range(first, first + count)):
            if wrong:
                print(f"hostile: seed {seed}: {wrong}", file=sys.stderr)
                return 1
            faults += told
    tell_served(count, faults)
    return 0


def tell_played(first, count, faults):
    print(f"{count} scripts from seed {first}: {count - faults} played to their end, {faults} faults told")


def tell_served(count, faults):
    print(f"{count} scripts are served: {faults} faults told, behind each of which all is as before")


def spread_all(program, scheduler, words, first, count):
    """Has commands play so many scripts on workers; tells what is wrong with the first that comes out otherwise."""
    begin = ["env", f"PROGRAM={program}", "python3", os.path.abspath(__file__), *words]
    chunks = [(it, min(CHUNK, first + count - it)) for it in range(first, first + count, CHUNK)]
    commands = [(it, [*begin, str(it), str(size)], b"") for it, size in chunks]
    came, bar = {}, spread.Bar()
    try:
        for at, done in spread.run(commands, spread.place_of(scheduler)):
            came[at] = done
            bar.show(len(came), len(chunks), f" times {CHUNK} scripts")
    finally:
        bar.end()
    for _, done in sorted(came.items()):
        if done.returncode or not PLAYED.fullmatch(done.stdout.decode()):
            said = done.stderr.decode(errors="replace")
            sys.stderr.write(said or f"hostile: a command ends with status {done.returncode}\n")
            return 1
    faults = sum(int(PLAYED.fullmatch(it.stdout.decode())[2]) for it in came.values())
    tell_served(count, faults) if words else tell_played(first, count, faults)
    return 0


def long_scripts():
    """Scripts of 64 MiB, in pieces, and what each must come to."""
    piece = 1 << 20
    pieces = MANY // piece
    yield "blank lines", [b"\n" * piece] * pieces, (0, b"")
    yield "blank events", [b"events\n"] + [b"\n" * piece] * pieces, (0, b"")
    yield "one line", [b"x" * piece] * pieces, (1, b"fault: line 1: LongLine\n")
    yield "one event", [b"events\n"] + [b"x" * piece] * pieces, (1, b"fault: line 2: LongLine\n")
    comments = (b"#" * 63 + b"\n") * (piece // 64)
    yield "a head without end", [b"master\n"] + [comments] * pieces, (1, b"fault: line 1: BadSection\n")


def play_long(program):
    print("| script of 64 MiB | clock s | MB |")
    print("| --- | ---: | ---: |")
    for name, pieces, wanted in long_scripts():
        with tempfile.TemporaryFile() as said:
            before = time.monotonic()
            run = subprocess.Popen(
                [program, "script"], stdin=subprocess.PIPE, stdout=subprocess.DEVNULL, stderr=said
            )
            try:
                for piece in pieces:
                    run.stdin.write(piece)
                run.stdin.close()
            except BrokenPipeError:
                pass
            _, status, used = os.wait4(run.pid, 0)
            run.returncode = os.waitstatus_to_exitcode(status)
            taken = time.monotonic() - before
            said.seek(0)
            found = (run.returncode, said.readline())
        if found != wanted:
            print(f"hostile: {name}: {found}", file=sys.stderr)
            return 1
        print(f"| {name} | {taken:.2f} | {used.ru_maxrss / 1024:.0f} |", flush=True)
    return 0


def play_digits(program):
    """No packet with another digit is taken up, and then the packet itself is."""
    head = b"master\n/auto m\nend\nmap m\nhome srv:/home\nend\nevents\nattach /auto\nwalk 7 0 /auto/home 5 room\n"
    numbers = struct.pack("<IIIIQIIIII", 5, 3, 1, 2, 1, 0, 0, 7, 7, 4)
    digits = (numbers + b"home").ljust(304, b"\0").hex()
    script, wanted = head, b"fs 2 attach 1 mount 2\nwait 1\n"
    for at in range(len(digits)):
        other = "0" if digits[at] != "0" else "1"
        script += f"deliver 1 {digits[:at]}{other}{digits[at + 1:]}\n".encode()
        wanted += b"err 12\n"
    script += f"deliver 1 {digits}\n".encode()
    wanted += b"job 1\n"
    if ran(program, script) != (0, wanted, b""):
        print("hostile: a packet with another digit is taken up, or the packet isn't", file=sys.stderr)
        return 1
    print(f"{len(digits)} packets with another digit are refused, and the packet is taken up")
    return 0


def program_of():
    if "PROGRAM" in os.environ:
        return os.path.abspath(os.environ["PROGRAM"])
    found = subprocess.run([HERE + "/../tools/program.sh"], stdout=subprocess.PIPE, text=True, check=False)
    return found.stdout.strip()


def main(words):
    found = re.fullmatch(r"(?:(--serve) )?(?:(\d+) )?(\d+)(?: --scheduler (\S+))?", " ".join(words[1:]))
    serves, first, count, scheduler = found.groups() if found else (None, None, None, None)
    alone = {"long": play_long, "digits": play_digits}.get(" ".join(words[1:]))
    if not alone and not found or scheduler and not first and not serves:
        print("hostile: expected a first seed and a count, one seed, --serve and a count, long, or digits", file=sys.stderr)
        return 2
    if found and not first and not serves:
        sys.stdout.buffer.write(Script(int(count)).bytes())
        return 0
    program = program_of()
    if not scheduler and not os.access(program, os.X_OK):
        print("hostile: expected a program that is built: make build", file=sys.stderr)
        return 2
    if alone:
        return alone(program)
    seeds = int(first or 1), int(count)
    if not scheduler:
        return serve_all(program, *seeds) if serves else play_all(program, *seeds)
    try:
        return spread_all(program, scheduler, [serves] if serves else [], *seeds)
    except spread.Trouble as trouble:
        print(f"hostile: {trouble}", file=sys.stderr)
        return 2


if __name__ == "__main__":
    sys.exit(main(sys.argv))
