#!/usr/bin/env python3
"""Tells which parts of a crate's check took longest.

usage: tools/slow_parts.py CRATE [COUNT]

A check keeps what it has proved in crates/CRATE/out, a file for each part, in the order of proving. The
time from one file to the next is what the second one took: its seconds by the clock stand before the
part's name, which ends in that of the function. Run it after a check from nothing, with one job and nothing
else to do: `rm -r crates/CRATE/out/incremental`, and `rt check --jobs 1` in the crate.
"""

import os
import sys

FEW = 20


def parts_of(crate):
    """Returns each kept part of the crate's check, with the moment at which it was written."""
    found = []
    for folder, _, names in os.walk(f"crates/{crate}/out/incremental"):
        found += [(os.stat(f"{folder}/{it}").st_mtime, it) for it in names if it.endswith(".oantt")]
    return sorted(found)


def main(words):
    if len(words) not in (2, 3) or words[2:] and not words[2].isdigit():
        print("slow_parts: expected the name of a crate, and how many parts to tell", file=sys.stderr)
        return 2
    os.chdir(os.path.dirname(os.path.abspath(__file__)) + "/..")
    parts = parts_of(words[1])
    if not parts:
        print(f"slow_parts: expected a crate that was checked, and nothing is kept of {words[1]}", file=sys.stderr)
        return 2
    count = int(words[2]) if words[2:] else FEW
    took = [(later - before, name) for (before, _), (later, name) in zip(parts, parts[1:])]
    for seconds, name in sorted(took, reverse=True)[:count]:
        print(f"{seconds:7.1f}  {name.removesuffix('.oantt').removesuffix('.decls')}")
    return 0


if __name__ == "__main__":
    sys.exit(main(sys.argv))
