"""What the program tells below the fault of a script or a scene, looked at by itself (docs/FORMATS.md, "Below a
fault")."""

import functools
import re

FORMATS = "docs/FORMATS.md"
# How many bytes of a line are shown, up to which column from its beginning, and how many stand before a column behind that.
WIDTH, FIRST, BEFORE = 72, 60, 40
# Faults that no word of the script or the scene has.
NO_PLACE = (b"NoMemory", b"ReadFailed", b"WriteFailed", b"NoEvents")
# The last column of these tables of the page has what may be expected.
TABLES = ("| N | Expected |", "| Fault | Place | Expected |")
FAULT = re.compile(rb"fault: line (\d+): (\w+)")
POINTER = re.compile(rb"( +)\^ column (\d+): expected (.*)")
JOINED = re.compile(rb"  column (\d+) of the joined line: expected (.*)")
NOTES = (b"  the script begins with a byte order mark, which is no part of a script",
         b"  the line ends in a carriage return: lines of a script end in a line feed alone")
PADDED = re.compile(rb"  line (\d+) is end with a blank beside it, which ends no section")


@functools.cache
def expectations():
    """What may be expected, in words."""
    with open(FORMATS, encoding="utf-8") as file:
        text = file.read()
    rows = [(row, it.count(" | ")) for it in TABLES
            for row in text.partition(f"\n{it}\n")[2].partition("\n\n")[0].split("\n")[1:]]
    return {row.strip("| ").split(" | ", before)[-1].encode() for row, before in rows}


def first(said):
    """The first line that is told."""
    return said[:said.find(b"\n") + 1]


def excerpt(line, column, expected):
    """What is told of a place in a line."""
    left_out = 0 if column <= FIRST else column - 1 - BEFORE
    shown = bytes(32 if it == 9 else it if 32 <= it < 127 else 63 for it in line[left_out:left_out + WIDTH])
    return (b".." if left_out else b"  ") + shown + (b".." if len(line) > left_out + WIDTH else b"") + b"\n  " \
        + b" " * (column - 1 - left_out) + b"^ column %d: expected %s\n" % (column, expected)


def problem(script, said):
    """What is wrong with what is told below a fault of this script, if anything is."""
    lines = said.split(b"\n")
    told, below = FAULT.fullmatch(lines[0]), lines[1:-1]
    if told is None or lines[-1]:
        return None if not below else "something stands below what is no fault of a script"
    if told[2] in NO_PLACE:
        return "a fault that has no place has one" if below else None
    if not below:
        return "a fault has no place"
    every = script.split(b"\n")
    line = every[int(told[1]) - 1]
    joined, pointer = JOINED.fullmatch(below[0]), POINTER.fullmatch(below[1]) if len(below) > 1 else None
    if joined:
        found, rest = joined, below[1:]
        if not line.endswith(b"\\"):
            return "a line that isn't joined is told as one that is"
    elif pointer:
        found, rest = (None, pointer[2], pointer[3]), below[2:]
        if excerpt(line, int(pointer[2]), pointer[3]).split(b"\n")[:2] != below[:2]:
            return f"{below[:2]} isn't the line"
        if int(pointer[2]) > len(line) + 1:
            return "a column stands behind the line"
    else:
        return f"{below} has no column"
    if found[2] not in expectations():
        return f"{found[2]} is none of what is expected"
    padded = PADDED.fullmatch(rest[0]) if rest else None
    if padded and (every[int(padded[1]) - 1].split() != [b"end"] or every[int(padded[1]) - 1] == b"end"):
        return f"{rest} isn't so"
    return None if not rest or len(rest) == 1 and (padded or rest[0] in NOTES) else f"{rest} stands behind"
