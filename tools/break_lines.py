#!/usr/bin/env python3
"""Breaks the lines of definitions and proofs that are longer than 120 columns, and then formats their crates.

usage: tools/break_lines.py CRATE..

A statement is broken at an arrow, another line where the fewest brackets are open, and an import becomes several of
the same module. What it writes says the same: only blanks and the number of imports change.
"""

import glob
import os
import re
import subprocess
import sys

MOST = 120
USE = re.compile(r"^( *(?:pub )?use [^{}]+\.)\{(.*)\}$")
OPEN, CLOSE = "([{⟨", ")]}⟩"
# Before what a line is broken first, where as many brackets are open.
FIRST = ("→ ", "∙ ", "∷ ", "× ", "⊎ ", "++ ", "≡ ")


def import_lines(line):
    """The import as several of the same module."""
    head, names = USE.match(line).groups()
    written, row = [], ""
    for name in names.split(", "):
        more = f"{row}, {name}" if row else name
        if row and len(f"{head}{{{more}}}") > MOST:
            written.append(f"{head}{{{row}}}")
            more = name
        row = more
    return [*written, f"{head}{{{row}}}"]


def comment_lines(line):
    """The comment over several lines."""
    head = re.match(r" *-- *", line).group()
    written, row = [], ""
    for word in line[len(head):].split(" "):
        more = f"{row} {word}" if row else word
        if row and len(head + more) > MOST:
            written.append(head + row)
            more = word
        row = more
    return [*written, head + row]


def break_of(text, indent):
    """Where the text is broken, if it can be: the place of a blank."""
    depth, best, quoted = 0, None, False
    for at, sign in enumerate(text[: MOST + 1]):
        if sign == '"':
            quoted = not quoted
        if quoted:
            continue
        if sign in OPEN:
            depth += 1
        elif sign in CLOSE:
            depth -= 1
        elif sign == " " and at > indent + 12 and not text[at:].strip().startswith(("--", "=", ":", "where")):
            rank = next((it for it, words in enumerate(FIRST) if text[at + 1:].startswith(words)), len(FIRST))
            key = (depth, rank if depth == 0 or rank < len(FIRST) else rank, -at)
            if best is None or key < best[0]:
                best = (key, at)
    return best and best[1]


def code_lines(line):
    """The line over several lines, of which all but the first stand further in."""
    indent = len(line) - len(line.lstrip(" "))
    written, more = [], indent
    while len(line) > MOST:
        at = break_of(line, more)
        if not at:
            break
        written.append(line[:at])
        more = indent + 4
        line = " " * more + line[at + 1:].lstrip(" ")
    return [*written, line]


def lines_of(line):
    if len(line) <= MOST:
        return [line]
    if USE.match(line):
        return import_lines(line)
    if line.lstrip(" ").startswith("--"):
        return comment_lines(line)
    return code_lines(line)


def main(crates):
    if not crates or any(not os.path.isdir(f"crates/{it}") for it in crates):
        print("usage: tools/break_lines.py CRATE..", file=sys.stderr)
        return 2
    for crate in crates:
        for path in sorted(glob.glob(f"crates/{crate}/specs/**/*.antt", recursive=True) + glob.glob(f"crates/{crate}/proofs/**/*.antt", recursive=True)):
            with open(path, encoding="utf-8") as file:
                old = file.read().splitlines()
            new = [more for line in old for more in lines_of(line)]
            if new != old:
                with open(path, "w", encoding="utf-8") as file:
                    file.write("\n".join(new) + "\n")
        subprocess.run(["rt", "fmt"], cwd=f"crates/{crate}", stdout=subprocess.DEVNULL, check=True)
    return 0


if __name__ == "__main__":
    sys.exit(main(sys.argv[1:]))
