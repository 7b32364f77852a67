#!/usr/bin/env python3
"""Looks for a script in which something goes wrong, and shrinks it to the shortest that still shows it.

usage: shrinks_a_script.py          makes scripts by chance until one fails, and shrinks it
       shrinks_a_script.py check    reads a script: status 1 where it fails, 0 where it doesn't

What may go wrong is to be said by the reader of this file: here it is that a walk fails though each mount of the
daemon is made. The module dalvicna is found by PYTHONPATH, and tools/shrink.py beside this folder.
"""

import os
import random
import subprocess
import sys
import tempfile

import dalvicna

HEAD = "master\n/auto auto.home\nend\nmap auto.home\nhome srv:/home\nwork srv:/work\nend\nevents\n"
SHRINK = os.path.join(os.path.dirname(os.path.abspath(__file__)), "..", "..", "tools", "shrink.py")


def fails(script):
    """Whether a walker that waited is told that its walk can't go on."""
    return any(answer.startswith("fail ") for answer in dalvicna.played(script).text.split("\n"))


def event(chance):
    walker, key, token = 7 + int(chance() * 3), "home" if chance() < 0.5 else "work", 1 + int(chance() * 3)
    events = (f"walk {walker} 0 /auto/{key} 100 room", f"resume {walker} 101 room", f"deliver {token}",
              f"act {token} ok", f"leave {walker}", f"umount 0 /auto/{key}", "die", "reattach 2", "catatonic 1 2")
    return events[int(chance() * len(events))]


def failing():
    """The first script of so many events by chance that fails."""
    chance = random.Random(1).random
    while True:
        script = HEAD + "attach /auto\n" + "".join(event(chance) + "\n" for _ in range(24))
        if fails(script):
            return script


def main(words):
    if words == ["check"]:
        return 1 if fails(sys.stdin.buffer.read()) else 0
    with tempfile.NamedTemporaryFile("w", suffix=".script") as file:
        file.write(failing())
        file.flush()
        check = [sys.executable, __file__, "check"]
        done = subprocess.run([sys.executable, SHRINK, file.name, *check], capture_output=True, text=True, check=True)
    for line in done.stdout.splitlines():
        print(line)
    for answer in dalvicna.play(done.stdout):
        print(f"= {answer}")
    return 0


if __name__ == "__main__":
    sys.exit(main(sys.argv[1:]))
