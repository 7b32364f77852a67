#!/usr/bin/env python3
"""Drives the program over two pipes, and counts what went as it should.

usage: tools/pipes.py

- each script of `examples` is played event by event, each sent when the answer to the one before came; and so by
  `trace`, each sent when what is seen of the one before stood there, by the count in the line of its answer;
- a line that is sent byte by byte is answered when its line feed was, and lines that are sent together
  are all answered before more is sent;
- behind a line that is no event, or is too long, at most 4,095 bytes of a file were read;
- a longer input takes no more memory, of `script` and of `trace`;
- the examples of docs/USING.md in Python and in C print what they say.

The program is the proved one, or else one that is built without proof. The last line counts the checks.
"""

import glob
import os
import re
import select
import shutil
import subprocess
import sys
import tempfile

PATIENCE = 20
AHEAD = 4095
HEAD = b"master\n/auto auto.home\nend\nmap auto.home\nhome srv:/home\nend\nevents\n"


class Silence(Exception):
    """No answer came."""


class Play:
    """A program that plays a script, at the other end of two pipes."""

    def __init__(self, program, command="script"):
        self.child = subprocess.Popen([program, command], stdin=subprocess.PIPE, stdout=subprocess.PIPE, bufsize=0)
        self.read = b""

    def __enter__(self):
        return self

    def __exit__(self, *_):
        self.child.kill()
        self.child.wait()
        self.child.stdin.close()
        self.child.stdout.close()

    def send(self, text):
        self.child.stdin.write(text)

    def has_answered(self):
        return b"\n" in self.read or bool(select.select([self.child.stdout], [], [], 0.2)[0])

    def answer(self):
        """Waits for one answer line."""
        while b"\n" not in self.read:
            if not select.select([self.child.stdout], [], [], PATIENCE)[0]:
                raise Silence
            more = os.read(self.child.stdout.fileno(), 65536)
            if not more:
                raise Silence
            self.read += more
        line, self.read = self.read.split(b"\n", 1)
        return line + b"\n"

    def block(self):
        """Waits for the lines of an event in a trace."""
        asked, told = self.answer(), self.answer()
        return asked + told + b"".join(self.answer() for _ in range(int(told.rpartition(b" : ")[2])))

    def end(self):
        """Ends the script, and tells whether the program says no more and has nothing to tell."""
        self.child.stdin.close()
        rest = self.read + self.child.stdout.read()
        return self.child.wait() == 0 and rest == b""


def parted(script):
    """The head of a script with its line `events`, and the lines behind it."""
    head, events = re.match(rb"(?s)(.*?^\s*events\s*?\n)(.*)", script, re.M).groups()
    return head, events.splitlines(keepends=True)


def is_event(line):
    words = line.split()
    return bool(words) and not words[0].startswith(b"#")


def plays_in_turn(program, path):
    """Whether each event of a script is answered before the next is sent."""
    with open(path, "rb") as file:
        head, lines = parted(file.read())
    with open(path.replace(".script", ".out"), "rb") as file:
        expected = file.read()
    answers = b""
    with Play(program) as play:
        play.send(head)
        for line in lines:
            play.send(line)
            if is_event(line):
                answers += play.answer()
        return play.end() and answers == expected


def traces_in_turn(program, path):
    """Whether what is seen of each event of a script stands in the trace before the next is sent."""
    with open(path, "rb") as file:
        head, lines = parted(file.read())
    with open(path.replace(".script", ".trace"), "rb") as file:
        expected = file.read()
    traced = b""
    with Play(program, "trace") as play:
        play.send(head)
        for line in lines:
            play.send(line)
            if is_event(line):
                traced += play.block()
        return play.end() and traced == expected


def answers_at_the_line_feed(program):
    with Play(program) as play:
        for byte in HEAD + b"attach /auto":
            play.send(bytes([byte]))
        if play.has_answered():
            return False
        play.send(b"\n")
        return play.answer() == b"fs 2 attach 1 mount 2\n" and play.end()


def answers_all_that_was_sent(program):
    with Play(program) as play:
        play.send(HEAD + b"attach /auto\n" + b"kind 0 /\n" * 1000 + b"kind 0")
        answers = [play.answer() for _ in range(1001)]
        if answers != [b"fs 2 attach 1 mount 2\n"] + [b"kind private\n"] * 1000 or play.has_answered():
            return False
        play.send(b" /\n")
        return play.answer() == b"kind private\n" and play.end()


def read_ahead(program, room, before, line):
    """How many bytes were read behind this line, and what the program told."""
    script = os.path.join(room, "script")
    with open(script, "wb") as file:
        file.write(before + line + b"\n" + b"kind 0 /\n" * 10000)
    with open(script, "rb") as file:
        done = subprocess.run([program, "script"], stdin=file, stdout=subprocess.DEVNULL, stderr=subprocess.PIPE)
        return os.lseek(file.fileno(), 0, os.SEEK_CUR) - len(before + line + b"\n"), done.stderr


def reads_little_ahead(program, room, line, word):
    """A fault at each place of what is read at once, by steps of 97 bytes."""
    for place in range(0, 4096, 97):
        before = HEAD + b"#" * place + b"\n" + b"kind 0 /\n" * 1000
        ahead, told = read_ahead(program, room, before, line)
        if ahead > AHEAD or not told.startswith(b"fault: line 1009: " + word + b"\n"):
            return False
    return True


def memory_of(program, room, command, mebibytes):
    """The most memory that a script of so many blank lines takes, in KiB."""
    script = os.path.join(room, "blank")
    with open(script, "wb") as file:
        file.write(b"events\n")
        for _ in range(mebibytes):
            file.write((b" " * 63 + b"\n") * (1 << 14))
    with open(script, "rb") as file:
        child = subprocess.Popen([program, command], stdin=file, stdout=subprocess.DEVNULL)
        _, status, usage = os.wait4(child.pid, 0)
        child.returncode = os.waitstatus_to_exitcode(status)
    return usage.ru_maxrss if child.returncode == 0 else None


def takes_no_more_memory(program, room, command):
    few, many = memory_of(program, room, command, 1), memory_of(program, room, command, 8)
    return few is not None and many is not None and many < few + 1024


def block(language):
    """The first block of this language in the page's section."""
    with open("docs/USING.md", encoding="utf-8") as page:
        section = page.read().partition("\n## From another program\n")[2]
        return re.search(rf"^```{language}\n(.*?)^```$", section, re.M | re.S).group(1)


def prints_its_answers(command, room):
    """Whether an example prints what the page says, where the program is found by its name."""
    path = os.path.join(room, "bin") + os.pathsep + os.environ["PATH"]
    done = subprocess.run(command, env={**os.environ, "PATH": path}, stdout=subprocess.PIPE, timeout=PATIENCE, check=False)
    return done.returncode == 0 and done.stdout.decode() == block("text")


def python_example(room):
    script = os.path.join(room, "example.py")
    with open(script, "w", encoding="utf-8") as file:
        file.write(block("python"))
    return prints_its_answers([sys.executable, script], room)


def c_example(compiler, room):
    source, built = os.path.join(room, "example.c"), os.path.join(room, "example")
    with open(source, "w", encoding="utf-8") as file:
        file.write(block("c"))
    subprocess.run([compiler, "-O1", "-o", built, source], check=True)
    return prints_its_answers([built], room)


def checks(program, room):
    """Each check, by its name."""
    for path in sorted(glob.glob("examples/*.script")):
        yield f"{path}, event by event", lambda path=path: plays_in_turn(program, path)
        yield f"{path}, its trace", lambda path=path: traces_in_turn(program, path)
    yield "a line that is sent byte by byte", lambda: answers_at_the_line_feed(program)
    yield "lines that are sent together", lambda: answers_all_that_was_sent(program)
    yield "what is read behind a line that is no event", lambda: reads_little_ahead(program, room, b"none", b"BadEvent")
    yield "what is read behind a line that is too long", lambda: reads_little_ahead(program, room, b"#" * 8193, b"LongLine")
    for command in ("script", "trace"):
        yield f"the memory of a longer input of {command}", lambda command=command: takes_no_more_memory(program, room, command)
    yield "the example in Python", lambda: python_example(room)
    compiler = next(filter(None, map(shutil.which, ("cc", "gcc", "clang"))), None)
    if compiler is None:
        print("no C compiler is there: the example in C isn't run")
    else:
        yield "the example in C", lambda: c_example(compiler, room)


def main():
    if len(sys.argv) != 1:
        print("pipes: expected no words", file=sys.stderr)
        return 2
    os.chdir(os.path.join(os.path.dirname(os.path.abspath(__file__)), ".."))
    program = subprocess.run(["tools/program.sh"], stdout=subprocess.PIPE, check=True).stdout.decode().strip()
    passed = failed = 0
    with tempfile.TemporaryDirectory() as room:
        os.mkdir(os.path.join(room, "bin"))
        os.symlink(program, os.path.join(room, "bin", "automount_cli"))
        for name, check in checks(program, room):
            try:
                good = check()
            except (Silence, BrokenPipeError, subprocess.SubprocessError) as error:
                good = False
                print(f"{name}: {error!r}")
            print(f"{name}: {'as expected' if good else 'not as expected'}")
            passed, failed = passed + good, failed + (not good)
    print(f"{passed} passed, {failed} failed")
    return 0 if failed == 0 else 1


if __name__ == "__main__":
    sys.exit(main())
