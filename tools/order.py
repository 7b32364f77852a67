#!/usr/bin/env python3
"""Writes the script of the order that is found for a question of a scene: the scene's lines up to its first thread, and
behind them the events of the order.

usage: tools/order.py SCENE LINE    the question is that on this line of the scene

`make show SCRIPT=FILE` then writes each event with its answer beside it, and `make draw SCRIPT=FILE` draws what
happened. Where no order is found, that is told, with status 1.
"""

import os
import re
import subprocess
import sys

#: The words with which the lines of a scene begin, behind those of its script.
WORDS = ("thread", "serve", "sometimes", "never", "always")
QUESTIONS = ("sometimes", "never", "always")
FOUND = re.compile(r"# line (\d+): (?:yes, events (\d+)|(no order|not all seen, no order of fewer than \d+ events))")


def lines_of(text):
    """The lines of a text; what no line feed ends is one too."""
    return text.removesuffix("\n").split("\n")


def words_of(line):
    """The words of a line, none where it is a comment."""
    words = line.replace("\t", " ").split(" ")
    return [] if line.lstrip(" \t").startswith("#") else [it for it in words if it]


def scene_begins(scene):
    """The number of the line with which the scene begins, behind the events that lead to it."""
    section = events = False
    for number, line in enumerate(lines_of(scene), 1):
        first = "".join(words_of(line)[:1])
        if section:
            section = line != "end"
        elif not events:
            section, events = first in ("master", "map"), first == "events"
        elif first in WORDS:
            return number
    return len(lines_of(scene)) + 1


def script_of(scene):
    """What leads to the scene: a script."""
    return "".join(f"{it}\n" for it in scene.split("\n")[:scene_begins(scene) - 1])


def questions(scene):
    """The words of each question of a scene, by the number of its line."""
    rows = [(number, words_of(line)) for number, line in enumerate(lines_of(scene), 1)]
    return {number: words for number, words in rows[scene_begins(scene) - 1:] if words and words[0] in QUESTIONS}


def findings(wrote):
    """What was found of each question, by its line: the events of an order, or why there is none; and the last line."""
    lines, found = lines_of(wrote), {}
    last = lines.pop()
    while lines:
        said = FOUND.fullmatch(lines.pop(0))
        count = int(said[2] or 0)
        found[int(said[1])] = said[3] or lines[:count]
        del lines[:count]
    return found, last


def is_cut(found):
    """Whether that says that not all was seen."""
    return isinstance(found, str) and found.startswith("not all seen")


def text_of(path):
    with open(path, encoding="utf-8", errors="surrogateescape", newline="") as file:
        return file.read()


def program():
    return subprocess.run(["tools/program.sh"], stdout=subprocess.PIPE, text=True, check=True).stdout.strip()


def stop(text):
    print(f"order: {text}", file=sys.stderr)
    sys.exit(2)


def main(words):
    if len(words) != 2 or not os.path.isfile(words[0]):
        stop("expected the path of a scene, and the number of a line")
    path, line = os.path.abspath(words[0]), words[1]
    scene = text_of(path)
    if line not in map(str, questions(scene)):
        stop(f"expected the line of a question of {words[0]}, and it has none on line {line}")
    os.chdir(os.path.join(os.path.dirname(os.path.abspath(__file__)), ".."))
    with open(path, "rb") as file:
        done = subprocess.run([program(), "explore"], stdin=file, capture_output=True, check=False)
    if done.stderr:
        sys.stderr.write(done.stderr.decode(errors="replace"))
        return 1
    found = findings(done.stdout.decode("utf-8", "surrogateescape"))[0][int(line)]
    if isinstance(found, str):
        print(f"order: of the question on line {line}: {found}", file=sys.stderr)
        return 1
    text = script_of(scene) + "".join(f"{it}\n" for it in found)
    sys.stdout.buffer.write(text.encode("utf-8", "surrogateescape"))
    return 0


if __name__ == "__main__":
    sys.exit(main(sys.argv[1:]))
