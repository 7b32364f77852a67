#!/usr/bin/env python3
"""Holds `automount_cli import` against its inputs: the world that the imported script leaves is the mountinfo that was
read, but for numbers, and for what is listed.

usage: tools/imports.py            imports tests/mountinfo/*.mountinfo, the mounts of this process, and the worlds that the
                                   scripts of examples/ and tests/ leave
       tools/imports.py FILE..     imports these mountinfos, and tells in what their worlds are unlike them

Mounts are compared by their namespaces, and there by the places at which they and what they are mounted on stand. File
systems, peer groups and masters are to stand for one another, one for one, and an autofs for an autofs. What the program
itself tells behind the script is to be the same. tests/mountinfo/unlike has what is unlike of each file: a line FILE NAMESPACE NUMBER WORD for
each mount, of which WORD is none, or in what it is unlike.

The last line counts the checks.
"""

import glob
import itertools
import os
import re
import subprocess
import sys

PATIENCE = 60
#: Namespaces of two texts are compared in any order up to so many.
FEW = 4
UNLIKE = "tests/mountinfo/unlike"
#: What the program says of a mount that is unlike its line.
RANKS = ("none", "more", "shown", "group", "master", "unbindable", "autofs")
WORDS = {", but for its namespace": "namespace", ", but for what it is mounted on": "parent", ", but for its path": "path",
         ", but for what it shows": "shown", ", but for its peer group": "group", ", but for its master": "master",
         ", but for unbindable": "unbindable", ", which isn't there": "gone", "": ""}
NOTE = re.compile(r"^# namespace (\d+) mount (\d+): (?:none|mount \d+(.*))$", re.M)


class Mount:
    """A mount, as its line tells it."""

    def __init__(self, words):
        self.number, self.parent, device, root, path = int(words[0]), int(words[1]), words[2], words[3], words[4]
        self.shown = (device, root)
        self.names = tuple(name for name in re.sub(r"\\([0-7]{3})", lambda it: chr(int(it[1], 8)), path).split("/") if name)
        fields = words[6:words.index("-")]
        self.group = number_behind("shared:", fields)
        self.master = number_behind("master:", fields)
        self.unbindable = "unbindable" in fields
        self.is_autofs = words[words.index("-") + 1] == "autofs"


def number_behind(tag, fields):
    return next((int(it[len(tag):]) for it in fields if it.startswith(tag)), None)


def spaces_of(text):
    """The mounts of each namespace."""
    spaces = [[]]
    for line in text.split("\n"):
        words = line.split()
        if words[:2] == ["#", "namespace"] and len(words) == 3:
            spaces.append([])
        elif words and not words[0].startswith("#"):
            spaces[-1].append(Mount(words))
    return [it for it in spaces if it]


def placed(mounts):
    """The mounts of a namespace by the places of what they are mounted on, from the root, and their own."""
    numbered = {it.number: it for it in mounts}
    found = {}
    for mount in mounts:
        places, here = [], mount
        while here.parent != here.number and here.parent in numbered:
            above = numbered[here.parent]
            places.append(here.names[len(above.names):])
            here = above
        found.setdefault(tuple(reversed(places)), []).append(mount)
    return found


class Stands:
    """Which number stands for which, one for one."""

    def __init__(self):
        self.there, self.back = {}, {}

    def takes(self, one, other):
        if (one is None) != (other is None):
            return False
        return one is None or self.there.setdefault(one, other) == other and self.back.setdefault(other, one) == one


def differences(wanted, found):
    """In what the namespaces that were found are unlike those that are wanted: (namespace, number, word)."""
    unlike, pairs = [], []
    for space, (some, others) in enumerate(zip(map(placed, wanted), map(placed, found))):
        for place, mounts in some.items():
            # Of mounts at one place the newest are the tops.
            there = others.get(place, [])
            pairs += [(space, one, other) for one, other in zip(reversed(mounts), reversed(there))]
            unlike += [(space, it.number, "none") for it in mounts[:max(0, len(mounts) - len(there))]]
        for place, mounts in others.items():
            unlike += [(space, it.number, "more") for it in mounts[:max(0, len(mounts) - len(some.get(place, [])))]]
    systems, groups = Stands(), Stands()
    shared = [(space, one, other) for space, one, other in pairs if not systems.takes(one.shown, other.shown)]
    unlike += [(space, one.number, "shown") for space, one, other in shared]
    unlike += [(space, one.number, "group") for space, one, other in pairs if not groups.takes(one.group, other.group)]
    for space, one, other in pairs:
        master = groups.there.get(one.master, other.master if one.master is not None else None)
        if (one.master is None) != (other.master is None) or master != other.master:
            unlike.append((space, one.number, "master"))
        if one.unbindable != other.unbindable:
            unlike.append((space, one.number, "unbindable"))
        if one.is_autofs != other.is_autofs:
            unlike.append((space, one.number, "autofs"))
    return sorted(firsts(unlike))


def firsts(unlike):
    """Of each mount the first in which it is unlike its line, as the program tells it."""
    found = {}
    for space, number, word in sorted(unlike, key=lambda it: RANKS.index(it[2])):
        found.setdefault((space, number), word)
    return [(space, number, word) for (space, number), word in found.items()]


def least(wanted, found):
    """The fewest differences over the orders of the namespaces that were found."""
    if len(wanted) != len(found):
        return [(0, 0, f"{len(found)} namespaces for {len(wanted)}")]
    orders = itertools.permutations(found) if len(found) <= FEW else [found]
    return min((differences(wanted, order) for order in orders), key=len)


def program():
    return subprocess.run(["tools/program.sh"], stdout=subprocess.PIPE, text=True, check=True).stdout.strip()


def ran(path, command, text):
    return subprocess.run([path, command], input=text.encode("utf-8", "surrogateescape"), capture_output=True, timeout=PATIENCE,
                          check=False)


def text_of(output):
    return output.decode("utf-8", "surrogateescape")


def told(text):
    """What the program tells of the mounts that are unlike their lines: (namespace, number, word)."""
    found = []
    for space, number, what in NOTE.findall(text):
        line = f"# namespace {space} mount {number}: "
        is_none = f"{line}none\n" in text
        word = "none" if is_none else WORDS[what]
        if word:
            found.append((int(space), int(number), word))
    return sorted(found)


def notes(text):
    return len(NOTE.findall(text))


def tried(path, text):
    """The differences by this tool, those that the program tells, and how many mounts it tells of."""
    imported = ran(path, "import", text)
    if imported.returncode:
        return None, None, text_of(imported.stderr)
    script = text_of(imported.stdout)
    world = ran(path, "world", script)
    return least(spaces_of(text), spaces_of(text_of(world.stdout))), told(script), notes(script)


def mounts_alone(world):
    """The mounts that a world's text tells, without what else there is."""
    return "".join(f"{it}\n" for it in world.split("\n") if it and (not it.startswith("#") or it.startswith("# namespace")))


def kept():
    """What is unlike of each stored file."""
    known = {}
    with open(UNLIKE, encoding="utf-8") as file:
        for line in file:
            words = line.split()
            if words and not words[0].startswith("#"):
                known.setdefault(words[0], []).append((int(words[1]), int(words[2]), words[3]))
    return known


class Count:
    def __init__(self):
        self.passed, self.failed = 0, 0

    def check(self, name, wanted, found):
        if wanted == found:
            self.passed += 1
        else:
            self.failed += 1
            print(f"FAILED {name}: {found}, and not {wanted}")


def check_file(count, path, name, text, known):
    seen, said, mounts = tried(path, text)
    count.check(f"{name}: its world", known, seen)
    count.check(f"{name}: what is told of it", known, said)
    count.check(f"{name}: mounts that are told of", sum(map(len, spaces_of(text))), mounts)


def check_script(count, path, name, known):
    with open(name, encoding="utf-8", errors="surrogateescape") as file:
        world = ran(path, "world", file.read())
    text = mounts_alone(text_of(world.stdout))
    if text:
        seen, said, _mounts = tried(path, text)
        count.check(f"{name}: its world", known, seen and [it for it in seen if it[2] != "more"])
        count.check(f"{name}: what is told of it", known, said)


def check_all(path):
    count, known = Count(), kept()
    for name in sorted(glob.glob("tests/mountinfo/*.mountinfo")):
        with open(name, encoding="utf-8") as file:
            check_file(count, path, name, file.read(), sorted(known.get(os.path.basename(name), [])))
    with open("/proc/self/mountinfo", encoding="utf-8", errors="surrogateescape") as file:
        text = file.read()
    seen, said, _mounts = tried(path, text)
    count.check("the mounts of this process", seen and [it for it in seen if it[2] != "more"], said)
    for name in sorted(glob.glob("examples/*.script") + glob.glob("tests/*.script")):
        if os.path.getsize(name) < 20000:
            check_script(count, path, name, sorted(known.get(os.path.basename(name), [])))
    print(f"{count.passed} passed, {count.failed} failed")
    return count.failed == 0


def main(words):
    os.chdir(os.path.join(os.path.dirname(os.path.abspath(__file__)), ".."))
    if "--help" in words:
        print(__doc__.strip())
        return True
    for name in words:
        if not os.path.isfile(name):
            print(f"imports: expected a file of mountinfo, not {name}", file=sys.stderr)
            sys.exit(2)
    path = program()
    if not words:
        return check_all(path)
    for name in words:
        with open(name, encoding="utf-8", errors="surrogateescape") as file:
            seen, said, mounts = tried(path, file.read())
        print(f"{name}: {mounts} mounts; unlike: {seen}; told: {said}")
    return True


if __name__ == "__main__":
    sys.exit(0 if main(sys.argv[1:]) else 1)
