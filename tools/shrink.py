#!/usr/bin/env python3
"""Shrinks a script that fails to one that still fails, and from which no line can be taken away.

usage: tools/shrink.py SCRIPT COMMAND [WORD..]

The command reads a script from standard input, and says by its status whether that fails: 0 where it
doesn't. Another status than that of SCRIPT itself is another failure, and doesn't count. The shrunk
script goes to standard output, and how many lines it has to standard error. A command that runs for
longer than 20 seconds has status 124.
"""

import subprocess
import sys

PATIENCE = 20


def stop(text):
    print(f"shrink: {text}", file=sys.stderr)
    sys.exit(2)


def status_of(command, script):
    try:
        done = subprocess.run(command, input=script, stdout=subprocess.DEVNULL, stderr=subprocess.DEVNULL,
                              timeout=PATIENCE, check=False)
    except subprocess.TimeoutExpired:
        return 124
    return done.returncode


def without(lines, start, count):
    return lines[:start] + lines[start + count:]


def pass_over(lines, count, fails):
    """Takes runs of so many lines away, from the last one on, where the rest still fails."""
    start = len(lines) - count
    while start > -count:
        fewer = without(lines, max(start, 0), count + min(start, 0))
        if fails(fewer):
            lines = fewer
        start -= count
    return lines


def shrink(lines, fails):
    """The lines that are left where no run of them, of a half, a quarter and so on, can be taken away."""
    size = None
    while size != len(lines):
        size, count = len(lines), max(len(lines) // 2, 1)
        while count > 0:
            lines = pass_over(lines, count, fails)
            count //= 2
    return lines


def main(words):
    if len(words) < 2:
        stop("expected two words or more, the path of a script and a command")
    path, command = words[0], words[1:]
    try:
        with open(path, "rb") as file:
            script = file.read()
    except OSError as error:
        stop(f"expected a script that can be read: {error}")
    try:
        wanted = status_of(command, script)
    except OSError as error:
        stop(f"expected a command: {error}")
    if wanted == 0:
        stop("expected a script that fails, and the command ends with status 0")
    lines = script.splitlines(keepends=True)
    short = shrink(lines, lambda some: status_of(command, b"".join(some)) == wanted)
    sys.stdout.buffer.write(b"".join(short))
    print(f"{len(short)} of {len(lines)} lines, status {wanted}", file=sys.stderr)


if __name__ == "__main__":
    main(sys.argv[1:])
