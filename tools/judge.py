#!/usr/bin/env python3
"""Holds `automount_cli judge` against tools/laws.py, which is written from the definition of the laws, and against what
is said of a trace's lines.

usage: tools/judge.py

- the short traces of tests/short_traces.traces, by which each law is broken first, but for one: what is delivered a
  second time isn't in the queue, which is told before it;
- the traces of all examples, which are lawful, and each of them with one observation left out, made twice, or changed
  for its neighbour: the line and the law that the program tells are the first that tools/laws.py finds;
- the lines of tests/misread.lines, none of which is an observation's: where each doesn't go on as expected, and with
  what it was to.

The last line counts the checks.
"""

import glob
import os
import subprocess
import sys

import laws

PATIENCE = 60
MISREAD = "tests/misread.lines"
#: What `judge` says of a law, by the words of tools/laws.py. Of several laws that one observation breaks it tells the first.
SENTENCES = {
    "queued once": "a packet of a token is queued once",
    "waits on an open token": "a walker waits on a token that is open",
    "delivered from the queue": "the packet that is delivered stands in the queue",
    "delivered once": "the packet of a token is delivered once",
    "answered while it is open": "a token that is answered is open",
    "answered after its delivery": "a token is answered behind its delivery",
    "an answer releases all": "an answer releases, at once, all who wait on its token",
    "catatonic mode releases all": "catatonic mode releases, at once, all who wait on open tokens of its file system",
    "released by what closed its token": "a walker is released once from the token that it waits on, by what closes it",
    "released from what it waits on": "a walker is released once from the token that it waits on, by what closes it",
    "released once": "a walker is released once from the token that it waits on, by what closes it",
    "no walk passes an expiring trigger": "no walk passes a trigger whose expiry is outstanding",
    "no mount in use is unmounted": "no mount that is in use is unmounted",
}
RANKS = {name: rank for rank, name in enumerate(SENTENCES)}


def program():
    return subprocess.run(["tools/program.sh"], stdout=subprocess.PIPE, text=True, check=True).stdout.strip()


def judged(path, text):
    """What the program makes of a trace: its status, what it writes and what it tells."""
    ran = subprocess.run([path, "judge"], input=text.encode("utf-8", "surrogateescape"), capture_output=True, timeout=PATIENCE,
                         check=False)
    return ran.returncode, ran.stdout.decode(), ran.stderr.decode()


def first_breach(text):
    """The first observation that breaks a law, by its line, and of the laws that it breaks the first; none in a lawful trace."""
    lines = [number for number, line in enumerate(text.split("\n"), 1) if line.startswith(" ")]
    seen = laws.observations(text)
    for place, it in enumerate(seen):
        broken = [name for law in laws.LAWS for name, holds in law(it, seen[:place], seen[place + 1:]) if not holds]
        if broken:
            return lines[place], SENTENCES[min(broken, key=RANKS.get)]
    return None


def expected(text):
    breach = first_breach(text)
    return (1, f"line {breach[0]}: {breach[1]}\n", "") if breach else (0, "lawful\n", "")


def changed(text):
    """The trace with one observation left out, made twice, or changed for the one behind it."""
    lines = text.split("\n")
    places = [at for at, line in enumerate(lines) if line.startswith(" ")]
    for at, behind in zip(places, places[1:] + [None]):
        yield lines[:at] + lines[at + 1:]
        yield lines[:at + 1] + lines[at:]
        if behind is not None:
            yield [*lines[:at], lines[behind], *lines[at + 1:behind], lines[at], *lines[behind + 1:]]


def text_of(path):
    with open(path, encoding="utf-8", errors="surrogateescape") as file:
        return file.read()


def short_texts():
    for line in laws.short_traces():
        yield line, "".join(f"  {laws.WORDS[word]}\n" for word in line.split()[1:])


def misread_rows():
    """Each row: the column, what was expected, and the line, behind two bars."""
    for line in text_of(MISREAD).split("\n"):
        if line and not line.startswith("#"):
            column, what, row = line.split("|", 2)
            yield int(column), what, row


def checks(path):
    """Each check, by its name: whether it went well."""
    told = set()
    for name, text in short_texts():
        said = judged(path, text)
        told.add(said[1].partition(": ")[2].strip())
        yield f"a short trace: {name}", said == expected(text)
    yield "each law is broken first by a short trace", set(SENTENCES.values()) - {SENTENCES["delivered once"]} <= told
    for example in sorted(glob.glob("examples/*.trace") + glob.glob("tests/*.trace")):
        text = text_of(example)
        yield f"{example} is lawful", judged(path, text) == (0, "lawful\n", "")
        yield f"{example}, changed", all(judged(path, it) == expected(it) for it in map("\n".join, changed(text)))
    for column, what, row in misread_rows():
        fault = f"fault: line 3, column {column}: {what} expected\n"
        yield f"misread: {row}", judged(path, f"1: die\n  died\n{row}\n  \n") == (1, "", fault)


def main():
    if len(sys.argv) != 1:
        print("judge: expected no words", file=sys.stderr)
        return 2
    os.chdir(os.path.join(os.path.dirname(os.path.abspath(__file__)), ".."))
    passed = failed = 0
    for name, good in checks(program()):
        if not good:
            print(f"{name}: not as expected")
        passed, failed = passed + bool(good), failed + (not good)
    print(f"{passed} passed, {failed} failed")
    return 1 if failed else 0


if __name__ == "__main__":
    sys.exit(main())
