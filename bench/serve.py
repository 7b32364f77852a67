#!/usr/bin/env python3
"""Loads `automount_cli serve`, by local processes and pipes alone, and tells what that takes.

usage: bench/serve.py [small] [PART..]

PART is one of these; all are run where none is named:

- events: 1,000,000 events by one connection that writes on while it reads;
- asked: 100,000 events, each when the reply to the one before is there;
- crowd: 200 processes side by side, 1,000 events each;
- slow: a writer of single bytes, a reader that first reads nothing and then little, and both at once;
- cut: an input that ends, or halts, behind each of its bytes;
- rubbish: 64 MiB of bytes at random, of one line, of lines that are too long, and of what begins as a question;
- gone: readers that go away at 100 places, and writers that do.

With `small` it is a hundredth of that. BENCH_PROGRAM=PATH is the program; else it is that of tools/program.sh. Each
reply is compared with the one that must come, so nothing is lost and nothing comes twice; each process must end by
itself with its status, within a time that is set; and beside what the world takes, a session may take no more memory
than 1 MiB. The first thing that is otherwise is told in a line, and the status is 1. `MB` is the most memory that one
process held, and `cpu s` the time of all of them.
"""

import functools
import os
import random
import re
import select
import selectors
import subprocess
import sys
import threading
import time

import generate

HERE = os.path.dirname(os.path.abspath(__file__))
MEBIBYTE = 1 << 20
# No part may take longer, in seconds, and no wait for a process.
LIMIT, PATIENCE = 900, 60
# What a session may take beside its world, in MB; of a program that is built without proof, which keeps what it frees.
MORE, MORE_OF_QUICK = 1.0, 300.0
FAULT = re.compile(rb"fault [1-9][0-9]*(:[1-9][0-9]*)? [A-Za-z]+( expected .+)?")
GONE = re.compile(rb"fault: line ([1-9][0-9]*): WriteFailed\n")
DOT = b".\n"


class Wrong(Exception):
    """Something isn't as it must be."""


class Served:
    """A process that serves a session, which is killed when its time is over."""

    def __init__(self, program):
        pipes = {"stdin": subprocess.PIPE, "stdout": subprocess.PIPE, "stderr": subprocess.PIPE}
        self.child = subprocess.Popen([program, "serve"], bufsize=0, **pipes)
        self.timer = threading.Timer(LIMIT, self.child.kill)
        self.timer.daemon = True
        self.timer.start()
        self.to, self.back = self.child.stdin, self.child.stdout.fileno()
        self.cpu, self.rest = 0.0, b""

    def __enter__(self):
        return self

    def __exit__(self, *_):
        self.timer.cancel()
        if self.child.returncode is None:
            self.child.kill()
            self.child.wait()
        for stream in (self.child.stdin, self.child.stdout, self.child.stderr):
            stream.close()

    def send(self, text):
        view = memoryview(text)
        while view:
            view = view[self.to.write(view):]

    def take(self, size=1 << 16):
        """What comes next, which must come in time."""
        if not select.select([self.back], [], [], PATIENCE)[0]:
            raise Wrong(f"nothing came in {PATIENCE} seconds")
        return os.read(self.back, size)

    def takes(self, wanted):
        """Takes as much as these bytes, which it must be."""
        while len(self.rest) < len(wanted):
            piece = self.take()
            if not piece:
                break
            self.rest += piece
        if not self.rest.startswith(wanted):
            raise Wrong(f"{self.rest[:200]!r} came, and not {wanted[:200]!r}")
        self.rest = self.rest[len(wanted):]

    def memory(self):
        """The most memory that it held so far, in MB."""
        with open(f"/proc/{self.child.pid}/status", encoding="ascii") as file:
            return int(re.search(r"^VmHWM:\s*(\d+) kB$", file.read(), re.M)[1]) / 1024

    def end(self, status=0, told=b""):
        """The input ends; it must have no more to say than that, and end so. Returns the memory that it took."""
        taken = self.memory()
        self.to.close()
        left = self.rest + b"".join(iter(self.take, b""))
        if left:
            raise Wrong(f"{left[:200]!r} came behind all replies")
        self.reap(status, told)
        return taken

    def reap(self, status=0, told=b""):
        """It must end with this status, and tell this alone."""
        if not select.select([self.child.stderr], [], [], PATIENCE)[0]:
            raise Wrong(f"it doesn't end in {PATIENCE} seconds")
        said = self.child.stderr.read()
        _, code, used = os.wait4(self.child.pid, 0)
        self.child.returncode = os.waitstatus_to_exitcode(code)
        self.cpu = used.ru_utime + used.ru_stime
        if self.child.returncode != status or not re.fullmatch(told, said):
            raise Wrong(f"it ends with status {self.child.returncode}, and tells {said[:200]!r}")
        return said


class Beside:
    """A thread that runs beside; what it raises comes out at its end."""

    def __init__(self, work):
        self.raised = None
        self.thread = threading.Thread(target=self.run, args=(work,), daemon=True)
        self.thread.start()

    def run(self, work):
        try:
            work()
        except Exception as raised:
            self.raised = raised

    def join(self):
        self.thread.join(LIMIT)
        if self.thread.is_alive():
            raise Wrong("a writer hangs")
        if self.raised:
            raise self.raised


def text(line):
    return line.encode() + b"\n"


def replied(answer):
    return text(answer) + DOT


def head():
    return list(generate.head("lives", 1))


def opened(session):
    """Begins the world of one key."""
    for line in head():
        session.send(text(line))
        session.takes(DOT)


def lives(events):
    """So many events and their answers, of a key that lives over and over."""
    pairs = generate.played("lives", events)
    return (pair for pair, _ in zip(pairs, range(events)))


def joined(pieces):
    """The same, some 64 KiB at a time."""
    held = []
    for at, piece in enumerate(pieces, 1):
        held.append(piece)
        if at % 4096 == 0:
            yield b"".join(held)
            held = []
    yield b"".join(held)


def row(what, count, begun, cpu, memory):
    took = time.perf_counter() - begun
    print(f"| {what} | {count:,} | {took:.1f} | {cpu:.1f} | {count / took:,.0f} | {memory:.1f} |", flush=True)


def within(memory, base, what):
    if memory > base + (MORE_OF_QUICK if "quick" in os.path.basename(program_path()) else MORE):
        raise Wrong(f"{what}: {memory:.1f} MB, where {base:.1f} do for the world")


def least(program):
    """The memory of a session in which a key has lived a few times."""
    with Served(program) as session:
        opened(session)
        for event, answer in lives(100):
            session.send(text(event))
            session.takes(replied(answer))
        return session.end()


# ---- a part each

def events(program, scale):
    count, base, begun = 1_000_000 // scale, least(program), time.perf_counter()
    with Served(program) as session:
        opened(session)
        writer = Beside(lambda: [session.send(it) for it in joined(text(event) for event, _ in lives(count))])
        for wanted in joined(replied(answer) for _, answer in lives(count)):
            session.takes(wanted)
        writer.join()
        memory = session.end()
    within(memory, base, "events by one connection")
    row("events by one connection", count, begun, session.cpu, memory)


def asked(program, scale):
    count, base, begun = 100_000 // scale, least(program), time.perf_counter()
    with Served(program) as session:
        opened(session)
        for event, answer in lives(count):
            session.send(text(event))
            session.takes(replied(answer))
        memory = session.end()
    within(memory, base, "events one by one")
    row("events one by one", count, begun, session.cpu, memory)


def crowd(program, scale):
    sessions, each = 200 // min(scale, 10), 1_000 // min(scale, 10)
    base, begun, memory, cpu = least(program), time.perf_counter(), 0.0, 0.0
    chooser, members = selectors.DefaultSelector(), []
    try:
        for _ in range(sessions):
            member = Served(program)
            member.talk = iter([*((it, None) for it in head()), *lives(each)])
            members.append(member)
            chooser.register(member.back, selectors.EVENT_READ, member)
            member.wanted = sends_next(member)
        while chooser.get_map():
            ready = chooser.select(PATIENCE)
            if not ready:
                raise Wrong(f"of {len(chooser.get_map())} processes none replies in {PATIENCE} seconds")
            for key, _ in ready:
                member = key.data
                member.takes(member.wanted)
                member.wanted = sends_next(member)
                if member.wanted is None:
                    chooser.unregister(member.back)
        for member in members:
            memory = max(memory, member.end())
            cpu += member.cpu
    finally:
        for member in members:
            member.__exit__()
    within(memory, base, f"one of {sessions} processes")
    row(f"{sessions} processes side by side, events", sessions * each, begun, cpu, memory)


def sends_next(member):
    """Sends a member's next line; returns the reply that must come, or none where there is no line."""
    line, answer = next(member.talk, (None, None))
    if line is None:
        return None
    member.send(text(line))
    return DOT if answer is None else replied(answer)


def slow(program, scale):
    base = least(program)
    for what, bytes_slow, reads_slow in (("a writer of single bytes", True, False), ("a reader that waits", False, True),
                                         ("both", True, True)):
        count, begun = (2_000 if bytes_slow else 100_000) // scale, time.perf_counter()
        with Served(program) as session:
            opened(session)
            sent = (text(event) for event, _ in lives(count))
            pieces = (bytes([it]) for line in sent for it in line) if bytes_slow else joined(sent)
            writer = Beside(lambda pieces=pieces, session=session: [session.send(it) for it in pieces])
            if reads_slow:
                time.sleep(1)
                total = sum(len(replied(answer)) for _, answer in lives(count))
                while len(session.rest) < min(1_400, total // 2):
                    time.sleep(0.002)
                    session.rest += session.take(7)
            for wanted in joined(replied(answer) for _, answer in lives(count)):
                session.takes(wanted)
            writer.join()
            memory = session.end()
        within(memory, base, what)
        row(f"{what}, events", count, begun, session.cpu, memory)


def replies_to(program, given):
    """The replies to this input, which comes at once."""
    with Served(program) as session:
        writer = Beside(lambda: (session.send(given), session.to.close()))
        wrote = b"".join(iter(session.take, b""))
        writer.join()
        session.reap()
        return wrote, session.cpu


def cut(program, scale):
    given = b"".join(map(text, head())) + b"".join(text(event) for event, _ in lives(17)) + b"walk\n?trace\n!reset\n"
    whole, cpu = replies_to(program, given)
    base, begun, count, memory = least(program), time.perf_counter(), 0, 0.0
    for at in range(0, len(given), min(scale, 20)):
        wrote, used = replies_to(program, given[:at])
        ended = given[:at].count(b"\n")
        parts = re.split(rb"^\.\n", wrote, flags=re.M)
        if parts[-1] or len(parts) - 1 != ended + (not given[:at].endswith(b"\n") and at > 0):
            raise Wrong(f"the input ends behind {at} bytes: {len(parts) - 1} replies")
        if not whole.startswith(b"".join(it + DOT for it in parts[:ended])):
            raise Wrong(f"the input ends behind {at} bytes: other replies")
        cpu += used
        with Served(program) as session:
            session.send(given[:at])
            session.takes(b"".join(it + DOT for it in parts[:ended]))
            session.send(given[at:])
            memory = max(memory, session.memory())
            session.to.close()
            if b"".join(it + DOT for it in parts[:ended]) + session.rest + b"".join(iter(session.take, b"")) != whole:
                raise Wrong(f"the input halts behind {at} bytes: other replies")
            session.reap()
            cpu, count = cpu + session.cpu, count + 2
    row("inputs that end or halt behind a byte", count, begun, cpu, memory)
    within(memory, base, "inputs that are cut")


def rubbish(program, scale):
    size = 64 * MEBIBYTE // scale
    source = random.Random(1)
    kinds = (("bytes at random", lambda: source.randbytes(size // 64)),
             ("one line", lambda: b"x" * (size // 64)),
             ("lines that are too long", lambda: (b"y" * 8192 + b"z\n") * (size // 64 // 8194)),
             ("lines of one byte", lambda: source.choice((b"?\n", b"!\n", b"x\n")) * (size // 64 // 8)),
             ("zero bytes and line feeds", lambda: (bytes(63) + b"\n") * (size // 64 // 64)))
    for what, made in kinds:
        base, begun = least(program), time.perf_counter()
        with Served(program) as session:
            opened(session)
            session.send(b"?world\n")
            world = session.take()
            while not world.endswith(b"\n.\n"):
                world += session.take()
            sent = [0, 0]
            writer = Beside(lambda made=made, session=session, sent=sent: throws(session, made, sent))
            lines = dots = 0
            held, tail = b"", b""
            while not tail.endswith(b"\n.\n" + world):
                piece = session.take()
                if not piece:
                    raise Wrong(f"{what}: it ends among them")
                tail = (tail + piece)[-len(world) - 3:]
                *whole, held = (held + piece).split(b"\n")
                dots += whole.count(b".")
                lines += sum(1 for it in whole if it != b"." and not FAULT.fullmatch(it))
            writer.join()
            if dots != sent[0] + 2 or lines != world.count(b"\n") - 1:
                raise Wrong(f"{what}: {dots} replies to {sent[0] + 2} lines, and {lines} lines that are no fault")
            memory = session.end()
        within(memory, base, what)
        row(f"rubbish: {what}, bytes", sent[1], begun, session.cpu, memory)


def throws(session, made, sent):
    """Writes it in pieces, counts its lines and its bytes, ends the last line, and asks for the world."""
    for _ in range(64):
        piece = made()
        sent[0] += piece.count(b"\n")
        sent[1] += len(piece)
        session.send(piece)
    session.send(b"\n?world\n")


def gone(program, scale):
    times, base, begun, cpu, memory = 100 // min(scale, 10), least(program), time.perf_counter(), 0.0, 0.0
    source = random.Random(2)
    for at in range(times):
        with Served(program) as session:
            opened(session)
            read = source.randrange(1, 300)
            writer = Beside(lambda session=session: writes_on(session))
            for _, answer in lives(read):
                session.takes(replied(answer))
            memory = max(memory, session.memory())
            session.child.stdout.close()
            said = session.reap(1, GONE.pattern)
            if int(GONE.fullmatch(said)[1]) <= len(head()) + read:
                raise Wrong(f"a reader goes behind {read} replies: {said!r}")
            writer.join()
            cpu += session.cpu
        with Served(program) as session:
            opened(session)
            for event, answer in lives(at + 1):
                session.send(text(event))
                session.takes(replied(answer))
            session.send(b"wa")
            memory = max(memory, session.memory())
            session.to.close()
            session.takes(b"fault %d:1 BadEvent expected the word of an event\n.\n" % (len(head()) + at + 2))
            session.reap()
            cpu += session.cpu
    row("readers and writers that go away", 2 * times, begun, cpu, memory)
    within(memory, base, "readers and writers that go away")


def writes_on(session):
    """Writes until nobody takes it any more."""
    try:
        for it in joined(text(event) for event, _ in lives(10_000_000)):
            session.send(it)
    except BrokenPipeError:
        return
    raise Wrong("all is taken, though nobody reads the replies")


PARTS = {"events": events, "asked": asked, "crowd": crowd, "slow": slow, "cut": cut, "rubbish": rubbish, "gone": gone}


@functools.cache
def program_path():
    given = os.environ.get("BENCH_PROGRAM")
    if given:
        return os.path.realpath(given)
    return subprocess.run([os.path.join(HERE, "../tools/program.sh")], stdout=subprocess.PIPE, check=True, text=True).stdout.strip()


def main(words):
    scale = 100 if words[:1] == ["small"] else 1
    names = words[1:] if scale > 1 else words
    if not all(it in PARTS for it in names):
        print(f"serve: expected small, or parts: {' '.join(PARTS)}", file=sys.stderr)
        return 2
    program = program_path()
    print("| what | number | clock s | cpu s | a second | MB |")
    print("| --- | ---: | ---: | ---: | ---: | ---: |")
    for name in names or PARTS:
        try:
            PARTS[name](program, scale)
        except (Wrong, OSError) as wrong:
            print(f"serve: {name}: {wrong}", file=sys.stderr)
            return 1
    return 0


if __name__ == "__main__":
    sys.exit(main(sys.argv[1:]))
