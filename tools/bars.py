#!/usr/bin/env python3
"""Compares the bars of pictures with the worlds behind the events.

usage: tools/bars.py [FILE..]    those of these scripts; without them of all scripts of `examples`, and of those of
                                 `tests` that have pictures

In the row of each event stands, just below its middle, a bar in the lane of each walker that waits in the world which
the script leaves behind that event, one for each that is inside of a mount, and one for each open token, as `world`
tells them, and no other; so it is of each autofs that is mounted somewhere and catatonic, and of each failure that lasts
at the latest moment, by the seconds that the head tells. Who stands in a lane is told where the bar begins, as is of
which trigger a failure is, with which error, and until when. While the daemon is drawn dead, it holds no attachment. No
two bars of a lane overlap, and no bar stands beside the lanes of its kind. The last line counts the scripts.
"""

import glob
import os
import re
import subprocess
import sys
import xml.etree.ElementTree as tree

SVG = "{http://www.w3.org/2000/svg}"
TOP, ROW, MIDDLE = 118, 26, 13
# Each so many rows the titles stand once more, and take the height of a row.
TITLES = 40
# What is told of a row is probed so far below its middle, where the bars have begun.
BELOW = 11
KINDS = ("waits", "inside", "missing", "expire", "mode", "dead", "lasting")
ERRORS = ("ENOENT", "EPERM", "EBUSY", "EEXIST", "EINVAL", "EAGAIN", "ELOOP", "ENAMETOOLONG", "ENOSPC")


def played(program, command, script):
    done = subprocess.run([program, command], input=script, capture_output=True, check=True)
    return done.stdout.decode()


def cut_behind_each(script):
    """The script up to each of its events."""
    lines = script.split(b"\n")
    first = next((at for at, it in enumerate(lines) if it.split() == [b"events"]), len(lines))
    for at in range(first + 1, len(lines)):
        if lines[at].strip() and not lines[at].startswith(b"#"):
            yield b"\n".join(lines[:at + 1]) + b"\n"


def seconds_of(script):
    """For how many seconds failures last."""
    found = re.search(rb"^[ \t]*negative[ \t]+(\d+)[ \t]*$", script.split(b"\nevents")[0], re.M)
    return int(found[1]) if found else 0


def shown(name):
    """A name as a picture shows it, cut in its middle where it is long."""
    return name if len(name) <= 12 else f"{name[:6]}...{name[-6:]}"


def lasting_in(world, negative):
    """What a picture says of each failure that lasts."""
    latest = int(re.search(r"^# latest (\d+)$", world, re.M)[1])
    for error, at, fs, name in re.findall(r"^# fail ?(\d*) at (\d+) fs (\d+) (?:direct|name (.*))$", world, re.M):
        end = int(at) + negative
        if latest < end:
            until = f" until {end}" if end < 1 << 64 else ""
            yield f"{shown(name) or f'file system {fs}'} {ERRORS[int(error or 1) - 1]}{until}"


def busy_in(world, negative):
    """Who waits, who is inside, which tokens are open, who is catatonic and what failed, by what a world prints."""
    waits = {int(it) for found in re.findall(r"^# open \d+ waiters ((?:\d+ )*)fs", world, re.M) for it in found.split()}
    inside = {int(it) for it in re.findall(r"^# entered (\d+) mount", world, re.M)}
    tokens = {int(it) for it in re.findall(r"^# open (\d+) ", world, re.M)}
    systems = {int(it) for it in re.findall(r"^\d+ \d+ 0:(\d+) .* - autofs \S+ \S*\bfd=-1,", world, re.M)}
    return waits, inside, tokens, systems, set(lasting_in(world, negative))


def rows_of(root):
    """The rows of a picture, each with the top of its own coordinates."""
    for group in root.iter(SVG + "g"):
        found = re.fullmatch(r"translate\(0[ ,](\d+)\)", group.get("transform", ""))
        if found:
            yield int(found[1]), group


def numbers_of(rows):
    """Who is told of where, by the place to the right of a walker's number, or over a token's."""
    found = {}
    for top, row in rows:
        for text in row.findall(SVG + "text"):
            x, y = int(text.get("x")), top + MIDDLE
            if text.get("class") == "s n" and (text.text or "").isdigit():
                found["walker", x + 8, y] = int(text.text)
            if text.get("class") == "k":
                found["token", x, y] = int(text.text)
            if text.get("class") == "s failed":
                found["lasting", x - 8, y] = text.text
            catatonic = re.fullmatch(r"file system (\d+) is catatonic", text.text or "")
            if catatonic:
                found["system", y + 10] = int(catatonic[1])
    return found


def named_in(numbers, kind, x, begin):
    """Who is told of where a bar of this kind begins."""
    if kind == "dead":
        return 0
    if kind == "mode":
        return numbers.get(("system", begin))
    if kind == "lasting":
        return numbers.get(("lasting", x, begin))
    return numbers.get(("token", x, begin) if kind in KINDS[2:4] else ("walker", x, begin - 6))


def bars_of(root):
    """Each bar: its kind, who it is of, its lane, and from where to where."""
    rows = list(rows_of(root))
    numbers = numbers_of(rows)
    for top, row in rows:
        for path in row.findall(SVG + "path"):
            if path.get("class") not in KINDS:
                continue
            x, reach = map(int, re.fullmatch(r"M(\d+) 13v-(\d+)", path.get("d")).groups())
            end = top + MIDDLE
            begin = end - reach
            yield path.get("class"), named_in(numbers, path.get("class"), x, begin), x, begin, end


def faults_of(program, script):
    """What isn't so of a script's picture."""
    bars = list(bars_of(tree.fromstring(played(program, "draw", script))))
    negative = seconds_of(script)
    for at, one in enumerate(bars):
        if one[1] is None:
            yield f"nobody is told of where a bar begins: {one}"
        for other in bars[at + 1:]:
            if one[2] == other[2] and one[3] < other[4] and other[3] < one[4]:
                yield f"two bars overlap: {one} and {other}"
    for number, part in enumerate(cut_behind_each(script)):
        probe = TOP + ROW * (number + number // TITLES) + MIDDLE + BELOW
        here = [it for it in bars if it[3] <= probe < it[4]]
        drawn = tuple(sorted(it[1] or 0 for it in here if it[0] in kinds)
                      for kinds in (KINDS[:1], KINDS[1:2], KINDS[2:4], KINDS[4:5], KINDS[6:]))
        world = played(program, "world", part)
        there = tuple(sorted(it) for it in busy_in(world, negative))
        if drawn != there:
            yield f"behind event {number + 1} waiters, walkers inside, tokens, catatonic and failures are {there}, " \
                f"and drawn are {drawn}"
        if any(it[0] == "dead" for it in here) and "\n# held " in world:
            yield f"behind event {number + 1} the daemon holds an attachment, and it is drawn as dead"


def main(names):
    if names[:1] in (["--help"], ["-h"]):
        print(__doc__.strip())
        return 0
    for name in names:
        if not os.path.isfile(name):
            print(f"bars: expected scripts, and {name} is no file", file=sys.stderr)
            return 2
    top = os.path.dirname(os.path.dirname(os.path.abspath(__file__)))
    names = names or sorted(glob.glob(f"{top}/examples/*.script")
                            + [f"{it[:-4]}.script" for it in glob.glob(f"{top}/tests/*.svg")])
    program = subprocess.run([f"{top}/tools/program.sh"], check=True, stdout=subprocess.PIPE, text=True).stdout.strip()
    failed = 0
    for name in names:
        with open(name, "rb") as file:
            found = list(faults_of(program, file.read()))
        print(f"{os.path.relpath(name, top)}: " + ("; ".join(found[:3]) if found else "as its worlds"))
        failed += bool(found)
    print(f"{len(names) - failed} passed, {failed} failed")
    return 1 if failed else 0


if __name__ == "__main__":
    sys.exit(main(sys.argv[1:]))
