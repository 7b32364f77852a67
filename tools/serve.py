#!/usr/bin/env python3
"""Drives `automount_cli serve` over two pipes, and counts what went as it should.

usage: tools/serve.py

- each script of `tests` and `examples`, and each of the files of cases there, is served: its answers are those of
  `script`, each line is answered by a line that is just a dot, and where it ends in a fault that is told with the same
  line, word and place;
- each example is served line by line: what `?trace` tells of each event is what its trace has, and `?world` what
  `world` has, also of one namespace;
- behind lines that are faulty, cut, full of zero bytes or too long the world is as it was, and the session goes on;
- questions, commands, heads that begin anew, and lines that come in pieces, or together;
- a reader that fails, a writer that takes no more, and inputs of 64 MiB;
- the examples of docs/USING.md in Python and in C print what they say; and by each of its commands for a socket, where
  socat or systemd-socket-activate is there, two sessions are served at one time, one that takes too much memory is told
  so, and one that takes too long ends beside one that goes on.

The program is the proved one, or else one that is built without proof. The last line counts the checks.
"""

import glob
import os
import re
import select
import shutil
import socket
import subprocess
import sys
import tempfile
import time

sys.dont_write_bytecode = True

import scripts

PATIENCE = 60
HEAD = b"master\n/auto auto.home\nend\nmap auto.home\nhome srv:/home\nend\nevents\n"
MEBIBYTE = 1 << 20
LONGEST = 8192
FAULT = re.compile(rb"fault (\d+)(?::(\d+))? (\w+)(?: expected (.*))?")
PLACE = re.compile(rb"^ *\^? ?column (\d+)(?: of the joined line)?: expected (.*)$", re.M)


class Silence(Exception):
    """No reply came."""


class Session:
    """A session, at the other end of two pipes."""

    def __init__(self, program):
        self.child = subprocess.Popen([program, "serve"], stdin=subprocess.PIPE, stdout=subprocess.PIPE,
                                      stderr=subprocess.PIPE, bufsize=0)
        self.read = b""

    def __enter__(self):
        return self

    def __exit__(self, *_):
        self.child.kill()
        self.child.wait()
        for stream in (self.child.stdin, self.child.stdout, self.child.stderr):
            stream.close()

    def send(self, text):
        self.child.stdin.write(text)

    def has_replied(self):
        return bool(self.read) or bool(select.select([self.child.stdout], [], [], 0.2)[0])

    def reply(self):
        """Waits for a reply, and gives its lines."""
        while not self.read.startswith(b".\n") and b"\n.\n" not in self.read:
            if not select.select([self.child.stdout], [], [], PATIENCE)[0]:
                raise Silence
            more = os.read(self.child.stdout.fileno(), 65536)
            if not more:
                raise Silence
            self.read += more
        if self.read.startswith(b".\n"):
            text, self.read = b"", self.read[2:]
        else:
            text, _, self.read = self.read.partition(b"\n.\n")
            text += b"\n"
        return text

    def ask(self, line):
        self.send(line + b"\n")
        return self.reply()

    def end(self):
        """Ends the session, and tells whether the program says no more and has nothing to tell."""
        self.child.stdin.close()
        rest = self.read + self.child.stdout.read() + self.child.stderr.read()
        return self.child.wait() == 0 and rest == b""


def ran(program, words, given, **how):
    return subprocess.run([program, *words], input=given, capture_output=True, timeout=PATIENCE * 10, check=False, **how)


def replies_in(wrote):
    """The replies in what was written, each as its lines."""
    parts = re.split(rb"^\.\n", wrote, flags=re.M)
    if parts[-1]:
        raise Silence
    return parts[:-1]


def served(program, lines):
    """The replies to lines that come together, in a session that ends well."""
    done = ran(program, ["serve"], b"".join(it + b"\n" for it in lines))
    if done.returncode or done.stderr:
        raise Silence
    found = replies_in(done.stdout)
    if len(found) != len(lines):
        raise Silence
    return found


def text_of(path):
    with open(path, "rb") as file:
        return file.read()


def lines_of(text):
    lines = text.split(b"\n")
    return lines[:-1] if not lines[-1] else lines


# ---- scripts

def told_of(said):
    """The line, word, column and expectation of a fault on standard error."""
    first = re.match(rb"fault: line (\d+): (\w+)\n", said)
    place = PLACE.search(said)
    return (*first.groups(), *(place.groups() if place else (None, None)))


def replied_of(text):
    """The same of a reply."""
    line, column, word, expected = FAULT.fullmatch(text.rstrip(b"\n")).groups()
    return line, word, column, expected


def is_served_as_script(program, text):
    """Whether a script's answers are those of `script`, and its fault is told so too."""
    played = ran(program, ["script"], text)
    found = served(program, lines_of(text))
    faulty = next((at for at, it in enumerate(found) if it.startswith(b"fault ")), len(found))
    if b"".join(found[:faulty]) != played.stdout:
        return False
    if played.returncode == 0:
        return faulty == len(found)
    if faulty == len(found):
        # A head that doesn't come to its line `events` isn't looked at.
        return all(it.split() != [b"events"] for it in lines_of(text))
    told, replied = told_of(played.stderr), replied_of(found[faulty])
    # Below a fault a line that is left out has no place.
    return told[:2] == replied[:2] and (told[2:] == replied[2:] or told[2] is None)


def are_cases_served(program, path):
    """The same of each script of a file of cases; of a case named `each line` each line is one. A line that is too long ends
    a script in the order of its head, and is answered at once in a session: it is looked at by itself (`TALKS`)."""
    file = scripts.Cases(path)
    for case in file.cases:
        texts = [it for it in case.text.split("\n") if it] if case.name == "each line" else [case.text]
        for text in texts:
            script = scripts.decoded(file.head) + scripts.decoded(text)
            if all(len(it) <= LONGEST for it in lines_of(script)) and not is_served_as_script(program, script):
                print(f"{path}: {case.name}: {text[:200]!r}")
                return False
    return True


def is_shown(program, path):
    """Whether a session tells what is seen of each event of an example, and its world."""
    name = path.removesuffix(".script")
    traced = re.split(rb"^\d+: .*\n= .*\n", text_of(name + ".trace"), flags=re.M)[1:]
    seen = []
    with Session(program) as session:
        for line in lines_of(text_of(path)):
            if session.ask(line):
                seen.append(session.ask(b"?trace"))
        if session.ask(b"?lawful") != b"yes\n" or seen != traced:
            return False
        if not all(is_told_of(program, text_of(path), session, number) for number in range(3)):
            return False
        return session.ask(b"?world") == text_of(name + ".world") and session.end()


def is_told_of(program, script, session, number):
    """Whether a session tells of a namespace what `world --namespace` does, or that there is none."""
    told, reply = ran(program, ["world", "--namespace", str(number)], script), session.ask(b"?world %d" % number)
    return reply == told.stdout if told.returncode == 0 else re.fullmatch(rb"fault \d+ NoSuchNamespace\n", reply) is not None


# ---- lines that nobody expects

HOSTILE = (
    b"walk", b"walk 7", b"walk 7 0 auto 5 room", b"act 1 maybe", b"resume 4294967296 1 room", b"\0", b"walk 7 0 /a\0b 1 room",
    b"\xff\xfe", b"attach", b"events", b"master", b"end", b"map x", b"?", b"!", b"?world x", b"?world 01",
    b"?world 4294967296", b"?world 0 0", b"?next", b"?next -1", b"?waiting", b"?waiting 1 2", b"?trace 1", b"?lawful x",
    b"?World", b"!save x", b"!back 1", b"!back", b"!saved", b"!reset x", b"?kind", b"?kind 0", b"?kind 0 a", b"?kind 01 /",
    b"?kind 0 / /", b"?world 7", b"#" * (LONGEST + 1), b" " * (LONGEST + 1),
    b"walk 7 0 /" + b"y" * LONGEST + b" 1 room", b"!reset" + b" " * LONGEST, b"x" * (3 * LONGEST + 17),
)
QUIET = (b"", b"   ", b"\t", b"# comment", b"#" * LONGEST, b" " * LONGEST)


def changes_nothing(program, line, is_fault):
    with Session(program) as session:
        for it in HEAD.splitlines() + [b"attach /auto", b"walk 7 0 /auto/home 100 room"]:
            session.ask(it)
        before = session.ask(b"?world"), session.ask(b"?trace")
        reply = session.ask(line)
        good = FAULT.fullmatch(reply.rstrip(b"\n")) is not None if is_fault else reply == b""
        if not good or (session.ask(b"?world"), session.ask(b"?trace")) != before:
            return False
        return session.ask(b"deliver 1") == b"job 1\n" and session.end()


# ---- what is replied

# Lines with their replies.
TALKS = {
    "a key is served, and asked of": [
        *((it, b"") for it in HEAD.splitlines()),
        (b"attach /auto", b"fs 2 attach 1 mount 2\n"), (b"?next 1", b"none\n"), (b"?waiting 7", b"no\n"),
        (b"walk 7 0 /auto/home 100 room", b"wait 1\n"), (b"?waiting 7", b"waiting 1\n"), (b"?waiting 8", b"no\n"),
        (b"?next 1", b"none\n"), (b"deliver 1", b"job 1\n"), (b" ?next\t1 ", b"next mkdir\n"), (b"?next 2", b"none\n"),
        (b"?trace", b"  delivered 1 attach 1 missing-indirect dev 2 ino 1 uid 0 gid 0 pid 7 tgid 7 name home\n"
                    b"  recorded mounting 1 fs 2 name home\n"),
        (b"act 1 ok", b"did mkdir\n"), (b"?next 1", b"next mount\n"), (b"act 1 ok", b"did mount 3\n"),
        (b"?next 1", b"next record\n"), (b"act 1 ok", b"did record\n"), (b"?next 1", b"next reply\n"),
        (b"act 1 ok", b"did reply\n"), (b"?next 1", b"none\n"), (b"?waiting 7", b"no\n"),
        (b"?trace", b"  answered 1 ready\n  released 7 token 1 ready\n"), (b"# a comment", b""),
        (b"?trace", b"  answered 1 ready\n  released 7 token 1 ready\n"), (b"resume 7 101 room", b"at 3 /\n"),
        (b"?lawful", b"yes\n"),
    ],
    "kinds are asked": [
        (b"?kind 0 /", b"fault 1 NoWorld\n"), (b"?kind 0", b"fault 1 BadQuestion\n"), (b"events", b""),
        (b"mount 0 /a", b"mount 2\n"), (b"change 0 /a shared", b"ok\n"), (b"mount 0 /a/b", b"mount 3\n"), (b"?trace", b"  mounted 3\n"),
        (b"?kind 0 /a", b"kind shared\n"), (b" ?kind\t0  //a/", b"kind shared\n"), (b"?kind 0 /", b"kind private\n"),
        (b"?kind 1 /", b"err 1\n"), (b"?kind 0 /c", b"err 5\n"), (b"?kind 0 c", b"fault 5 BadQuestion\n"), (b"?trace", b"  mounted 3\n"),
        (b"kind 0 /a", b"kind shared\n"), (b"?trace", b""), (b"x", b"fault 6:1 BadEvent expected the word of an event\n"),
    ],
    "an unmount is next": [
        *((it, b"") for it in HEAD.splitlines()),
        (b"attach /auto", b"fs 2 attach 1 mount 2\n"), (b"walk 7 0 /auto/home 100 room", b"wait 1\n"),
        (b"deliver 1", b"job 1\n"), (b"act 1 ok", b"did mkdir\n"), (b"act 1 ok", b"did mount 3\n"),
        (b"act 1 ok", b"did record\n"), (b"act 1 ok", b"did reply\n"), (b"resume 7 101 room", b"at 3 /\n"),
        (b"leave 7", b"ok\n"), (b"expire 9 2 9000 idle room", b"wait 2\n"), (b"deliver 2", b"job 2\n"),
        (b"?next 2", b"next umount\n"), (b"act 2 ok", b"did umount\n"), (b"?next 2", b"next rmdir\n"),
        (b"act 2 ok", b"did rmdir\n"), (b"?next 2", b"next record\n"),
    ],
    "lines are numbered as those of a script that were taken": [
        (b"# one", b""), (b"events", b""), (b"x", b"fault 3:1 BadEvent expected the word of an event\n"),
        (b"?trace", b""), (b"y", b"fault 3:1 BadEvent expected the word of an event\n"), (b"", b""),
        (b"mount 0 /a", b"mount 2\n"), (b"kind 0", b"fault 5:7 BadEvent expected a path, which begins with /\n"),
        (b"?nothing", b"fault 5 BadQuestion\n"), (b"?world 9", b"fault 5 NoSuchNamespace\n"), (b"kind 0 /a", b"kind private\n"),
    ],
    "a head has a fault, and another begins": [
        (b"limits 1", b""), (b"events", b"fault 1:9 BadLimits expected the most waits, a number from 1 to 65536\n"),
        (b"events", b""), (b"kind 0 /", b"kind private\n"),
    ],
    "faults of heads are told at their lines": [
        (b"master", b""), (b"/auto m", b""), (b"end", b""),
        (b"events", b"fault 2:7 NoSuchMap expected the name of a map that has a section\n"),
        (b"", b""), (b"master", b""), (b"/auto m", b""), (b"end", b""), (b"map m", b""), (b"k x", b""), (b"end", b""),
        (b" events ", b"fault 6:3 BadLocation expected options behind a dash, or a location host:/path\n"),
        (b"events x", b""), (b"events", b"fault 1:8 BadSection expected the end of the line\n"),
        (b"x" * (LONGEST + 1), b"fault 1:8193 LongLine expected the end of the line\n"), (b"events", b""),
    ],
    "what stands in a section is its text": [
        (b"map m", b""), (b"events", b""), (b"!reset", b""), (b"?trace", b""), (b"end ", b""), (b"master", b""), (b"end", b""),
        (b"?trace", b"fault 8 NoWorld\n"), (b"?world", b"fault 8 NoWorld\n"), (b"!reset", b""), (b"?lawful", b"fault 1 NoWorld\n"),
        (b"?lawful x", b"fault 1 BadQuestion\n"), (b"events", b""), (b"?lawful", b"yes\n"),
    ],
    "a world is saved, and comes back": [
        *((it, b"") for it in HEAD.splitlines()),
        (b"attach /auto", b"fs 2 attach 1 mount 2\n"), (b"walk 7 0 /auto/home 100 room", b"wait 1\n"), (b"!back", b"fault 10 NotSaved\n"),
        (b"!save", b""), (b"deliver 1", b"job 1\n"), (b"x", b"fault 11:1 BadEvent expected the word of an event\n"),
        (b"!back", b""), (b"x", b"fault 10:1 BadEvent expected the word of an event\n"), (b"?next 1", b"none\n"),
        (b"?waiting 7", b"waiting 1\n"), (b"deliver 1", b"job 1\n"), (b"act 1 ok", b"did mkdir\n"), (b" !back ", b""),
        (b"!save\t", b""), (b"admincat 2", b"ok\n"), (b"?waiting 7", b"no\n"), (b"!back", b""), (b"?waiting 7", b"waiting 1\n"),
        (b"!reset", b""), (b"!save", b"fault 1 NoWorld\n"), (b"map m", b""), (b"!back", b""), (b"!save", b""), (b"end", b""),
        (b"!back", b""), (b"?waiting 7", b"waiting 1\n"), (b"deliver 1", b"job 1\n"), (b"?lawful", b"yes\n"),
    ],
    "a session is reset": [
        (b"events", b""), (b"mount 0 /a", b"mount 2\n"), (b"!reset", b""), (b"mount 0 /b", b""), (b"!reset", b""), (b"events", b""),
        (b"mount 0 /b", b"mount 2\n"), (b"umount 0 /b", b"gone 2\n"),
    ],
}


def talks(program, talk):
    found = served(program, [line for line, _ in talk])
    for (line, wanted), reply in zip(talk, found):
        if reply != wanted:
            print(f"{line[:60]}: {reply}, and not {wanted}")
            return False
    with Session(program) as session:
        return all(session.ask(line) == wanted for line, wanted in talk) and session.end()


def replies_at_the_line_feed(program):
    with Session(program) as session:
        for byte in HEAD:
            session.send(bytes([byte]))
        if [session.reply() for _ in HEAD.splitlines()] != [b""] * len(HEAD.splitlines()):
            return False
        for byte in b"attach /auto":
            session.send(bytes([byte]))
        if session.has_replied():
            return False
        session.send(b"\n")
        return session.reply() == b"fs 2 attach 1 mount 2\n" and session.end()


def replies_to_all_that_was_sent(program):
    with Session(program) as session:
        session.send(HEAD + b"kind 0 /\n" * 1000 + b"kind 0")
        replies = [session.reply() for _ in range(len(HEAD.splitlines()) + 1000)]
        if replies[-1000:] != [b"kind private\n"] * 1000 or session.has_replied():
            return False
        session.send(b" /\n")
        return session.reply() == b"kind private\n" and session.end()


def comes_in_pieces(program, size):
    """Whether the replies are the same where all comes in pieces of so many bytes."""
    talk = TALKS["a key is served, and asked of"] + [(b"z" * 20000, None), (b"kind 0 /", b"kind private\n")]
    text = b"".join(line + b"\n" for line, _ in talk)
    whole = ran(program, ["serve"], text).stdout
    with Session(program) as session:
        for at in range(0, len(text), size):
            session.send(text[at:at + size])
        session.child.stdin.close()
        return session.child.stdout.read() == whole and session.child.wait() == 0


def last_line_counts(program):
    """Behind the last line feed stands a line, or nothing."""
    return (ran(program, ["serve"], b"").stdout == b"" and ran(program, ["serve"], b"\n").stdout == b".\n"
            and ran(program, ["serve"], b"events\nkind 0 /").stdout == b".\nkind private\n.\n"
            and ran(program, ["serve"], b"events\n" + b"x" * 9000).stdout
            == b".\nfault 2:8193 LongLine expected the end of the line\n.\n")


# ---- streams that fail

def reader_fails(program):
    folder = os.open("/", os.O_RDONLY)
    try:
        done = subprocess.run([program, "serve"], stdin=folder, capture_output=True, timeout=PATIENCE, check=False)
    finally:
        os.close(folder)
    return (done.returncode, done.stdout, done.stderr) == (1, b"", b"fault: line 1: ReadFailed\n")


def writer_fails(program):
    with open("/dev/full", "wb") as full:
        done = subprocess.run([program, "serve"], input=b"events\n", stdout=full, stderr=subprocess.PIPE, timeout=PATIENCE, check=False)
    return (done.returncode, done.stderr) == (1, b"fault: line 1: WriteFailed\n")


def pipe_is_closed(program):
    with Session(program) as session:
        session.ask(b"events")
        session.child.stdout.close()
        session.send(b"kind 0 /\n")
        told = session.child.stderr.read()
        return session.child.wait() == 1 and told == b"fault: line 2: WriteFailed\n"


# ---- memory

def memory_of(program, head, piece, count):
    """The most memory that a session takes of a head and so many pieces, in KiB."""
    child = subprocess.Popen([program, "serve"], stdin=subprocess.PIPE, stdout=subprocess.DEVNULL)
    child.stdin.write(head)
    for _ in range(count):
        child.stdin.write(piece)
    child.stdin.close()
    _, status, usage = os.wait4(child.pid, 0)
    child.returncode = os.waitstatus_to_exitcode(status)
    return usage.ru_maxrss if child.returncode == 0 else None


def takes_no_more_memory(program, head, piece, count):
    few, many = memory_of(program, head, piece, 1), memory_of(program, head, piece, count)
    return few is not None and many is not None and many < few + 1024


def lives_on_with_little(program):
    """A head that finds no memory is told so, and the session goes on."""
    limit = 24 * MEBIBYTE
    with tempfile.TemporaryFile() as wrote:
        text = b"map m\n" + (b"#" * 8191 + b"\n") * 4096 + b"end\n!reset\nevents\nkind 0 /\n"
        done = subprocess.run(["prlimit", f"--as={limit}", program, "serve"], input=text, stdout=wrote, stderr=subprocess.PIPE,
                              timeout=PATIENCE * 10, check=False)
        wrote.seek(0)
        replies = replies_in(wrote.read())
    return done.returncode == 0 and any(b" NoMemory\n" in it for it in replies) and replies[-1] == b"kind private\n"


# ---- the pages

def block(language):
    """The first block of this language in the page's section."""
    section = text_of("docs/USING.md").decode().partition("\n### In a session\n")[2]
    return re.search(rf"^```{language}\n(.*?)^```$", section, re.M | re.S).group(1)


def prints_its_answers(command, room):
    """Whether an example prints what the page says, where the program is found by its name."""
    path = os.path.join(room, "bin") + os.pathsep + os.environ["PATH"]
    done = subprocess.run(command, env={**os.environ, "PATH": path}, stdout=subprocess.PIPE, timeout=PATIENCE, check=False)
    return done.returncode == 0 and done.stdout.decode() == block("text")


def python_example(room):
    script = os.path.join(room, "example.py")
    with open(script, "w", encoding="utf-8") as file:
        file.write(block("python"))
    return prints_its_answers([sys.executable, script], room)


def c_example(compiler, room):
    source, built = os.path.join(room, "example.c"), os.path.join(room, "example")
    with open(source, "w", encoding="utf-8") as file:
        file.write(block("c"))
    subprocess.run([compiler, "-O1", "-o", built, source], check=True)
    return prints_its_answers([built], room)


def socket_commands():
    """The commands of the page that serve a socket."""
    return [it for it in block("sh").split("\n") if it]


class Listener:
    """What serves a socket by a command of the page, with other limits where some are given."""

    def __init__(self, command, room, memory=None, seconds=None):
        self.where = os.path.join(room, f"socket.{os.urandom(4).hex()}")
        command = command.replace("/tmp/automount", self.where)
        if memory:
            command = re.sub(r"--as=\d+", f"--as={memory}", command)
        if seconds:
            command = re.sub(r"--cpu=\d+", f"--cpu={seconds}", command)
        path = os.path.join(room, "bin") + os.pathsep + os.environ["PATH"]
        self.child = subprocess.Popen(["sh", "-c", "exec " + command], env={**os.environ, "PATH": path}, stderr=subprocess.DEVNULL)

    def __enter__(self):
        return self

    def __exit__(self, *_):
        self.child.terminate()
        self.child.wait()

    def connected(self):
        """A connection, which may have to wait until the socket is there."""
        end = socket.socket(socket.AF_UNIX)
        end.settimeout(PATIENCE)
        for _ in range(20 * PATIENCE):
            try:
                end.connect(self.where)
                break
            except (FileNotFoundError, ConnectionRefusedError):
                time.sleep(0.05)
        return end


def replies_of(end, count):
    """What comes over a socket, to so many lines that are just a dot."""
    wrote = b""
    while len(re.findall(rb"^\.$", wrote, re.M)) < count:
        more = end.recv(65536)
        if not more:
            raise Silence
        wrote += more
    return wrote


def sent_until_closed(end, piece, most):
    """Sends a piece over and over, at most so many bytes, and takes what comes; whether the other end was closed before."""
    end.setblocking(False)
    sent, rest = 0, b""
    while sent < most:
        readable, writable, _ = select.select([end], [end], [], PATIENCE)
        try:
            if readable and not end.recv(1 << 20):
                return True
            if writable:
                rest = rest or piece
                count = end.send(rest)
                sent, rest = sent + count, rest[count:]
        except (BrokenPipeError, ConnectionResetError):
            return True
        if not readable and not writable:
            return False
    return False


def over_a_socket(command, room):
    """Two sessions at one time."""
    with Listener(command, room) as listener:
        ends = [listener.connected() for _ in range(2)]
        for end in ends:
            end.sendall(b"events\nmount 0 /a\n")
        wrote = [replies_of(end, 2) for end in ends]
        for end in ends:
            end.close()
        return wrote == [b".\nmount 2\n.\n"] * 2


def memory_is_bounded(command, room):
    """A session that takes too much memory is told so, and goes on."""
    with Listener(command, room, memory=24 * MEBIBYTE) as listener, listener.connected() as end:
        end.sendall(b"map m\n")
        replies_of(end, 1)
        is_told = False
        for _ in range(8192):
            end.sendall(b"#" * 8191 + b"\n")
            is_told |= b" NoMemory\n" in replies_of(end, 1)
        end.sendall(b"end\n!reset\nevents\nkind 0 /\n")
        return is_told and replies_of(end, 4).endswith(b"kind private\n.\n")


def time_is_bounded(command, room):
    """A session that takes too long ends, and one beside it goes on."""
    with Listener(command, room, seconds=1) as listener, listener.connected() as busy, listener.connected() as quiet:
        quiet.sendall(b"events\nmount 0 /a\n")
        replies_of(quiet, 2)
        if not sent_until_closed(busy, b"events\n" + b"kind 0 /\n" * 4096, 4096 * MEBIBYTE):
            return False
        quiet.sendall(b"kind 0 /a\n")
        return replies_of(quiet, 1) == b"kind private\n.\n"


def checks(program, room):
    """Each check, by its name."""
    for path in sorted(glob.glob("tests/*.script") + glob.glob("examples/*.script")):
        yield f"{path}, served", lambda path=path: is_served_as_script(program, text_of(path))
    for path in sorted(glob.glob("tests/*.cases")):
        yield f"{path}, served", lambda path=path: are_cases_served(program, path)
    for path in sorted(glob.glob("examples/*.script")):
        yield f"{path}, what is asked behind each event", lambda path=path: is_shown(program, path)
    for line in HOSTILE:
        yield f"a line that is none: {line[:40]}", lambda line=line: changes_nothing(program, line, True)
    for line in QUIET:
        yield f"a line that is skipped: {line[:40]}", lambda line=line: changes_nothing(program, line, False)
    for name, talk in TALKS.items():
        yield name, lambda talk=talk: talks(program, talk)
    yield "a line that is sent byte by byte", lambda: replies_at_the_line_feed(program)
    yield "lines that are sent together", lambda: replies_to_all_that_was_sent(program)
    for size in (1, 7, 4095, 4096, 8193):
        yield f"all in pieces of {size} bytes", lambda size=size: comes_in_pieces(program, size)
    yield "what stands behind the last line feed", lambda: last_line_counts(program)
    yield "a reader that fails", lambda: reader_fails(program)
    yield "a writer that takes nothing", lambda: writer_fails(program)
    yield "a pipe that is closed", lambda: pipe_is_closed(program)
    for name, head, piece in (("lines that are none", b"events\n", b"x" * 8000 + b"\n"),
                              ("lines that are too long", b"", b"?" * MEBIBYTE + b"\n"),
                              ("one line", b"events\n", b"x" * MEBIBYTE), ("one line of a head", b"", bytes(MEBIBYTE))):
        yield f"64 MiB: {name}", lambda head=head, piece=piece: takes_no_more_memory(program, head, piece, 64 * MEBIBYTE // len(piece))
    for line in (b"?lawful", b"?world", b"kind 0 /", b"umount 0 /a"):
        yield f"8000 times {line}", lambda line=line: takes_no_more_memory(program, b"events\n", (line + b"\n") * 100, 80)
    if "quick" in os.path.basename(program):
        print("the program is built without proof, and takes more memory: it isn't run with little")
    else:
        yield "a head that finds no memory", lambda: lives_on_with_little(program)
    yield "the example in Python", lambda: python_example(room)
    compiler = next(filter(None, map(shutil.which, ("cc", "gcc", "clang"))), None)
    if compiler is None:
        print("no C compiler is there: the example in C isn't run")
    else:
        yield "the example in C", lambda: c_example(compiler, room)
    if "quick" in os.path.basename(program):
        print("nor over a socket, where it has little too")
        return
    for command in socket_commands():
        tool = command.split()[0]
        if shutil.which(tool) is None:
            print(f"{tool} isn't there: it serves no session over a socket")
            continue
        yield f"sessions by {tool}", lambda command=command: over_a_socket(command, room)
        yield f"the memory of a session by {tool}", lambda command=command: memory_is_bounded(command, room)
        yield f"the time of a session by {tool}", lambda command=command: time_is_bounded(command, room)


def main():
    if len(sys.argv) != 1:
        print("serve: expected no words", file=sys.stderr)
        return 2
    os.chdir(os.path.join(os.path.dirname(os.path.abspath(__file__)), ".."))
    program = subprocess.run(["tools/program.sh"], stdout=subprocess.PIPE, check=True).stdout.decode().strip()
    passed = failed = 0
    with tempfile.TemporaryDirectory() as room:
        os.mkdir(os.path.join(room, "bin"))
        os.symlink(program, os.path.join(room, "bin", "automount_cli"))
        for name, check in checks(program, room):
            try:
                good = check()
            except (Silence, OSError, subprocess.SubprocessError, AttributeError) as error:
                good = False
                print(f"{name}: {error!r}")
            print(f"{name}: {'as expected' if good else 'not as expected'}")
            passed, failed = passed + good, failed + (not good)
    print(f"{passed} passed, {failed} failed")
    return 0 if failed == 0 else 1


if __name__ == "__main__":
    sys.exit(main())
