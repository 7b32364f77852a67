#!/usr/bin/env python3
"""Measures the command `explore`: time and memory of searches over all orders of a scene.

usage: explore.py [RUNS] [NAME..]
       explore.py farm [NAME..]

The program is that of `tools/program.sh`; with BENCH_PROGRAM=PATH it is the one at that path. Each scene asks nothing, so
that one search sees all orders. Their number is compared with that of a second explorer, which keeps a world's tables as
sets: a wrong one stops the run with status 1. How many states the program tells apart is its own. `million` has more
states than are looked at: its search is cut at 1,000,000.
"""

import os
import resource
import statistics
import subprocess
import sys
import tempfile
import time

sys.path.insert(0, os.path.join(os.path.dirname(os.path.abspath(__file__)), "../tools"))
import explore_farm  # pylint: disable=wrong-import-position
import order  # pylint: disable=wrong-import-position

RUNS = 3
TOP = os.path.dirname(os.path.dirname(os.path.abspath(__file__)))
HEAD = "master\n/auto auto.home --timeout=10\nend\nmap auto.home\nhome srv:/home\nwork srv:/work\nend\nevents\n"
SHARED = ["change 0 / shared", "attach /auto", "nscopy 0"]
EXPIRER = ["expire 20 2 200 immediate room", "resume 20 201 room"]
DEATH = ["die", "admincat 2", "reattach 2"]


#: The scenes of the farm, and how one run and parts of them are bounded.
FARM = {
    "seven_keys": (1_000_000, ()), "three_keys": (1_000_000, ()), "death": (1_000_000, ()),
    "million": (100_000, ("--alike", "--most", "25000", "--split", "4", "--parts", "5")),
}


def walker(number, namespace, key="home"):
    return [f"walk {number} {namespace} /auto/{key} 100 room", f"resume {number} 101 room", f"leave {number}"]


SEVEN, EIGHT, NINE = walker(7, 0), walker(8, 1), walker(9, 0)
#: What leads to each scene, its threads, how acts may fail (None: the daemon doesn't serve), and how many orders there
#: are, if that is known.
SCENES = {
    "two_namespaces": (["change 0 / shared", "attach /auto"], [["nscopy 0", *EIGHT[:2]], SEVEN[:2]], "", 67),
    "expiry": ([*SHARED, SEVEN[0], "deliver 1", *["act 1 ok"] * 4, SEVEN[1]],
               [SEVEN[2:], EXPIRER, ["walk 9 1 /auto/home 200 room", "resume 9 201 room", "leave 9"]], "", 65),
    "two_walkers": (SHARED, [SEVEN, EIGHT], "", 72),
    "three_walkers": (SHARED, [SEVEN, EIGHT, NINE], "", 11_070),
    "two_keys": (SHARED, [SEVEN, walker(8, 1, "work"), NINE], "", 5_060_016),
    "three_keys": (["attach /auto"], [SEVEN[:1], walker(8, 0, "work")[:1], walker(9, 0, "mail")[:1]], "", 17_153_136),
    "death": (SHARED, [SEVEN, EIGHT, EXPIRER, DEATH], "", 56_054_078),
    "failures": (SHARED, [SEVEN, EIGHT, EXPIRER], " fail 2", 24_891_299_552),
    "administrator": (["attach /auto"], [SEVEN, DEATH[:1], DEATH[1:]], " fail 2", 1_711),
    "seven_keys": (["attach /auto"], [*([f"walk {it} 0 /auto/k{it} 100 room"] for it in range(1, 8)), ["admincat 2"]],
                   None, 40_320),
    "million": (SHARED, [SEVEN, EIGHT, NINE, EXPIRER, DEATH], " fail 2", None),
}


def text_of(before, threads, fails):
    lines = list(before)
    # A key that most scenes don't have makes none of their worlds larger.
    head = HEAD.replace("end\nevents", "mail srv:/mail\nend\nevents") if "/auto/mail" in str(threads) else HEAD
    for number, events in enumerate(threads):
        lines += [f"thread t{number}", *events, "end"]
    serves = [] if fails is None else [f"serve daemon{fails}"]
    return head + "\n".join([*lines, *serves]) + "\n"


def program_path():
    given = os.environ.get("BENCH_PROGRAM")
    if given:
        return os.path.realpath(given)
    return subprocess.run([os.path.join(TOP, "tools/program.sh")], check=True, stdout=subprocess.PIPE, text=True).stdout.strip()


def search(program, text, most=1_000_000):
    """Seconds, MiB at most, and what was written."""
    begun = time.perf_counter()
    words = [program, "explore", "--most", str(most)]
    with subprocess.Popen(words, stdin=subprocess.PIPE, stdout=subprocess.PIPE) as run:
        run.stdin.write(text.encode())
        run.stdin.close()
        wrote = run.stdout.read().decode()
        _, status, used = os.wait4(run.pid, 0)
        run.returncode = os.waitstatus_to_exitcode(status)
    if run.returncode != 0:
        sys.exit(f"explore: status {run.returncode}")
    return time.perf_counter() - begun, used.ru_maxrss / 1024, wrote


def counts_in(wrote):
    """The orders, states and ends of a last line; of a search that was cut the states alone."""
    last = wrote.splitlines()[-1].replace(",", "").split()
    return last[2:7:2] if last[1] == "orders" else ["", last[last.index("states") + 1], ""]


# The farm

def spent():
    used = resource.getrusage(resource.RUSAGE_CHILDREN)
    return used.ru_utime + used.ru_stime


def by_parts(program, path, words, processes):
    """The last line, and how many states all searches of the farm looked at."""
    words = explore_farm.read([*words, "--processes", str(processes), "--program", program, path])
    farm = explore_farm.searched(explore_farm.Scene(order.text_of(path)), words)
    return farm.results()[1], farm.states


def measure_farm(program, names):
    print("| Scene | By | Orders | States of all searches | Seconds | Of processors |\n|---|---|---|---|---|---|")
    for name in names or FARM:
        (most, words), (*scene, orders) = FARM[name], SCENES[name]
        with tempfile.NamedTemporaryFile("w", suffix=".scene") as file:
            file.write(text_of(*scene))
            file.flush()
            for processes in (0, 1, 4):
                begun, before = time.perf_counter(), spent()
                if processes:
                    last, states = by_parts(program, file.name, words, processes)
                    last, how = last.split(), f"parts, {processes} at once"
                    seen = last[2] if last[1] == "orders" else ""
                else:
                    seen, states, _ = counts_in(search(program, text_of(*scene), most)[2])
                    how = "one run"
                if orders is not None and seen != str(orders):
                    sys.exit(f"explore: {name} has {orders} orders, and not {seen or 'some that were not seen'}")
                row = f"{time.perf_counter() - begun:.2f} | {spent() - before:.2f}"
                print(f"| {name} | {how} | {seen} | {states} | {row} |", flush=True)
    return 0


def main(words):
    if words[:1] == ["farm"]:
        if set(words[1:]) <= set(FARM):
            return measure_farm(program_path(), words[1:])
        print("explore: expected farm [NAME..], of " + " ".join(FARM), file=sys.stderr)
        return 2
    runs = int(words.pop(0)) if words and words[0].isdigit() else RUNS
    unknown = [it for it in words if it not in SCENES]
    if unknown or runs < 1:
        print("explore: expected [RUNS] [NAME..], of " + " ".join(SCENES), file=sys.stderr)
        return 2
    program = program_path()
    print("| Scene | Orders | States | Ends | Seconds | MiB |\n|---|---|---|---|---|---|")
    for name in words or SCENES:
        *scene, orders = SCENES[name]
        taken = [search(program, text_of(*scene)) for _ in range(runs)]
        counts = counts_in(taken[0][2])
        if orders is not None and counts[0] != str(orders):
            sys.exit(f"explore: {name} has {orders} orders, and not {counts[0] or 'some that were not seen'}")
        seconds, held = (statistics.median(it[at] for it in taken) for at in (0, 1))
        print(f"| {name} | {counts[0]} | {counts[1]} | {counts[2]} | {seconds:.2f} | {held:.0f} |", flush=True)
    return 0


if __name__ == "__main__":
    sys.exit(main(sys.argv[1:]))
