#!/usr/bin/env python3
"""Runs all that can be run without a proof, as `make quick` does. It proves nothing.

usage: tools/quick.py

The tests of each crate that has some are built without proof and run (`rt try`), those of maps, packets and names
once more, with an allocation of each test refused; and so is the program: it plays the examples and the files of
`tests`, and sweeps over three scripts, explores the scenes of `examples`, runs its commands, and is driven over two pipes; the pages are compared with
the repository, and what they show is run. What is loaded before a program, as where each allocation is refused in
turn, takes the proved one. As many of these go on side by side as there are processors. The last line counts all.
"""

import concurrent.futures
import glob
import os
import re
import subprocess
import sys
import threading
import time

COUNTS = re.compile(r"^(\d+) passed, (\d+) failed$", re.M)
TESTS = re.compile(r"^test result: \w+\. (\d+) passed; (\d+) failed", re.M)
# How long the tests or a program of one crate may take, in seconds and in steps.
PATIENCE = ("--seconds", "400", "--steps", "1000000000000")
# The tests that are run once more with an allocation refused, and with which: a build for each.
REFUSED = (("am_text_tests", 9),)
# What plays the program that all of these share, which is built once.
SHARED = ("examples.sh", "bars.py", "pipes.py", "serve.py", "commands.py", "judge.py", "imports.py", "explores.py", "farms.py a_failure", "scripts.py", "sweeps.py catatonic death_and_reattachment first", "run_pages")


def text_of(path):
    with open(path, encoding="utf-8", errors="replace") as file:
        return file.read()


def crates_with_tests():
    found = []
    for line in text_of("crates.txt").splitlines():
        name = line.split(":")[0].split()[0] if ":" in line and not line.startswith("#") else ""
        files = glob.glob(f"crates/{name}/src/**/*.rt", recursive=True) if name else []
        if any("#[test]" in text_of(it) for it in files):
            found.append(name)
    return found


def ran(words, folder=".", **how):
    return subprocess.run(words, cwd=folder, stdin=subprocess.DEVNULL, capture_output=True, text=True, errors="replace",
                          check=False, **how)


def tests_of(crate, *more):
    """Runs a crate's tests; returns how many passed and failed, and what was said."""
    done = ran(["rt", "try", "--test", *PATIENCE, *more], f"crates/{crate}")
    found = TESTS.findall(done.stdout + done.stderr)
    if done.returncode or not found:
        return 0, 1, (done.stdout + done.stderr)[-2000:]
    return sum(int(it[0]) for it in found), sum(int(it[1]) for it in found), ""


def tool(name):
    done = ran(f"tools/{name}".split())
    found = COUNTS.findall(done.stdout)
    passed, failed = (int(found[-1][0]), int(found[-1][1])) if found else (0, 1)
    return passed, failed, "" if not failed else (done.stdout + done.stderr)[-2000:]


def shared():
    """Builds the program, and then plays it."""
    built = ran(["tools/program.sh"])
    if built.returncode:
        return 0, 1, built.stderr[-2000:]
    passed = failed = 0
    said = ""
    for name in SHARED:
        counts = tool(name)
        passed, failed, said = passed + counts[0], failed + counts[1], said + counts[2]
    return passed, failed, said


def tasks():
    """What is done, by its name, that which takes longest first."""
    found = [("the program: examples, pipes, pages, scripts, sweeps", shared)]
    found += [(f"{it}: its tests", lambda it=it: tests_of(it)) for it in reversed(crates_with_tests())]
    found += [(f"{it}: its tests, where allocation {number} is refused",
               lambda it=it, number=number: tests_of(it, "--fail-alloc", str(number))) for it, number in REFUSED]
    return found + [("laws.py", lambda: tool("laws.py")), ("pages", lambda: tool("check_pages"))]


def main(words):
    if len(words) > 1:
        print("quick: expected no words", file=sys.stderr)
        return 2
    os.chdir(os.path.dirname(os.path.abspath(__file__)) + "/..")
    begin, printing = time.time(), threading.Lock()
    print("quick: nothing is proved here; make test proves", flush=True)

    def timed(name, call):
        before = time.time()
        passed, failed, said = call()
        with printing:
            print(f"{said}quick: {name}: {passed} passed, {failed} failed, {time.time() - before:.0f} seconds", flush=True)
        return passed, failed

    with concurrent.futures.ThreadPoolExecutor(len(os.sched_getaffinity(0))) as pool:
        counts = [it.result() for it in [pool.submit(timed, *it) for it in tasks()]]
    passed, failed = (sum(it[at] for it in counts) for at in (0, 1))
    print(f"quick: {(time.time() - begin) / 60:.1f} minutes")
    print(f"{passed} passed, {failed} failed")
    return 1 if failed else 0


if __name__ == "__main__":
    sys.exit(main(sys.argv))
