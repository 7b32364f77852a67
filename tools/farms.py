#!/usr/bin/env python3
"""Holds tools/explore_farm.py against one run of `automount_cli explore`.

usage: tools/farms.py [NAME..]

- scenes of examples/explore, all of them or those that are named, are explored by parts that are cut several levels
  deep: what is found of each question, the number of orders and the exit status are those of one run;
- where no name is given, three walkers of bench/explore.py too: their orders, and those of the parts `1`, `2` .. that
  `explore --prefix` sees, add up;
- what isn't seen isn't told; a program, a scene, a scheduler or words that aren't there are told in one line, and a
  fault of a scene as `explore` tells it;
- the searches run on three workers of a scheduler of dask, on this machine, of which one is killed meanwhile: nothing
  else comes of them. Where Python's distributed isn't installed that is left out, and told.

The last line counts the checks.
"""

import contextlib
import glob
import json
import os
import re
import signal
import subprocess
import sys
import tempfile
import time

sys.dont_write_bytecode = True
sys.path += [os.path.dirname(os.path.abspath(__file__)), os.path.dirname(os.path.abspath(__file__)) + "/../bench"]
import explore  # noqa: E402
import order  # noqa: E402

FARM, FOLDER, PATIENCE = "tools/explore_farm.py", "examples/explore", 300
#: The scene that is explored on workers, and isn't seen whole: one of few states.
LEFT = "a_failure"
#: Which part of a scene's states one search looks at, and how its parts are cut.
CUTS = ((2, "--alike --split 4"), (6, "--alike --split 2"), (5, "--alike --split 30"), (3, ""))
WORKERS = 3
#: A program that is slow enough to kill a worker meanwhile, and tells that it has begun.
SLOW = "#!/bin/sh\necho begun >> {room}/begun\nsleep 0.3\nexec {program} \"$@\"\n"
COUNTS = re.compile(r"# orders (\d+) states (\d+) ends \d+.*")


def ran(words, python=sys.executable, **how):
    """Runs the farm, and returns its status, what it wrote and what it told."""
    how = {"text": True, "errors": "surrogateescape", "timeout": PATIENCE, "check": False, **how}
    done = subprocess.run([python, FARM, *words], stdin=subprocess.DEVNULL, capture_output=True, **how)
    return done.returncode, done.stdout, done.stderr


def path_of(name):
    return f"{FOLDER}/{name}.scene"


def whole(program, path):
    """What one run finds: its status, its lines without the last, and its counts of orders and states."""
    with open(path, "rb") as file:
        done = subprocess.run([program, "explore"], stdin=file, capture_output=True, timeout=PATIENCE, check=False)
    findings, last = done.stdout.decode("utf-8", "surrogateescape").rstrip("\n").rpartition("\n")[::2]
    return done.returncode, findings, *map(int, COUNTS.fullmatch(last).groups())


def fault_of(came, expected, fewest=2):
    """What is wrong with what came of a farm, if something is."""
    status, wrote, said = came
    findings, last = wrote.rstrip("\n").rpartition("\n")[::2]
    found = re.fullmatch(r"# orders (\d+) parts (\d+)", last)
    if said or not found:
        return f"status {status}, {last!r}, {said.strip()!r}"
    if int(found[1]) != expected[2] or status != expected[0]:
        return f"status {status}, {last}, and of one run status {expected[0]}, {expected[2]} orders"
    if findings != expected[1]:
        return "other findings"
    return None if int(found[2]) >= fewest else f"{found[2]} parts alone"


def checks_of(program, path):
    """Each check of a scene: what is wrong with it, if something is."""
    name = os.path.basename(path)
    expected = whole(program, path)
    yield f"{name}: one part", lambda: fault_of(ran(["--program", program, path]), expected, 1)
    for share, how in CUTS:
        most = max(expected[3] // share, 2)
        words = ["--most", str(most), *how.split(), "--processes", "2", "--program", program, path]
        yield f"{name}: parts of {most} states, {how}", lambda words=words: fault_of(ran(words), expected)


# Parts add up

def fault_of_sum(program, path):
    """What is wrong with the parts `1`, `2` .. of a scene, if something is."""
    expected, text = whole(program, path), order.text_of(path).encode()
    cut = subprocess.run([program, "explore", "--most", "1"], input=text, capture_output=True, check=False)
    count = int(re.search(r"^# not all seen, states 1 choices (\d+)$", cut.stdout.decode(), re.M)[1])
    parts = [subprocess.run([program, "explore", "--prefix", str(it)], input=text, capture_output=True, check=False)
             for it in range(1, count + 1)]
    orders = [int(COUNTS.fullmatch(it.stdout.decode().splitlines()[-1])[1]) for it in parts]
    return None if sum(orders) == expected[2] else f"{orders} orders, and of one run {expected[2]}"


# What isn't there

def fault_of_refusal(words, status, told, **how):
    came = ran(words, **how)
    is_so = came[0] == status and not came[1] and re.fullmatch(f"{told}.*\n", came[2])
    return None if is_so else f"status {came[0]}, {came[2].strip()[-300:]!r}"


def fault_of_left(program):
    """What is wrong where not all parts are searched, if something is."""
    path = path_of(LEFT)
    status, wrote, said = ran(["--alike", "--parts", "2", "--most", "8", "--split", "2", "--program", program, path])
    findings, last = order.findings(wrote)
    told = {it for it in findings.values() if isinstance(it, str)}
    is_so = status == 3 and not said and re.fullmatch(r"# not all seen, parts [01]", last)
    is_so = is_so and told and all(it.startswith("not all seen") for it in told)
    return None if is_so else f"status {status}, {wrote!r}"


def refusals(program, room):
    """What is refused, by its name: the words, the status, and how what is told begins."""
    scene, bad = path_of(LEFT), f"{room}/bad.scene"
    with open(bad, "w", encoding="utf-8") as file:
        file.write("events\nthread\nend\n")
    rows = (
        ("no words", [], 2, "explore_farm: expected"),
        ("no scene", [f"{room}/none"], 2, "explore_farm: expected the path of a scene"),
        ("no states", ["--most", "0", scene], 2, "explore_farm: expected"),
        ("no program", ["--program", f"{room}/none", scene], 2, "explore_farm: expected a program"),
        ("another program", ["--program", "/bin/true", scene], 1, "explore_farm: the program"),
        ("a bad scene", ["--program", program, bad], 1,
         "fault: line 2: BadThread\n  thread\n        \\^ column 7: expected the name of the thread"),
        ("no address", ["--program", program, "--scheduler", "nowhere", scene], 2, "explore_farm: expected"),
    )
    for name, *row in rows:
        yield name, lambda row=row: fault_of_refusal(*row)


# On workers

def has_dask(python):
    return subprocess.run([python, "-c", "import distributed"], capture_output=True, check=False).returncode == 0


def python_with_dask():
    return next((it for it in (sys.executable, "/usr/bin/python3") if os.path.exists(it) and has_dask(it)), None)


@contextlib.contextmanager
def dask(python, room):
    """A scheduler with workers, each a process here: gives its address and the processes."""
    how = {**dict.fromkeys(("stdin", "stdout", "stderr"), subprocess.DEVNULL), "start_new_session": True}
    begin = [python, "-m"]
    where = ["--scheduler-file", f"{room}/scheduler", "--host", "127.0.0.1", "--no-dashboard"]
    running = [subprocess.Popen([*begin, "distributed.cli.dask_scheduler", *where, "--port", "0"], **how)]
    try:
        until(lambda: os.path.exists(f"{room}/scheduler") and order.text_of(f"{room}/scheduler").strip().endswith("}"))
        words = [*where, "--nthreads", "1", "--no-nanny", "--local-directory", room]
        running += [subprocess.Popen([*begin, "distributed.cli.dask_worker", *words], **how) for _ in range(WORKERS)]
        yield json.loads(order.text_of(f"{room}/scheduler"))["address"], running[1:]
    finally:
        for it in reversed(running):
            with contextlib.suppress(ProcessLookupError):
                os.killpg(it.pid, signal.SIGKILL)
            it.wait()


def until(is_so, seconds=60):
    """Waits until something is so."""
    end = time.monotonic() + seconds
    while not is_so():
        if time.monotonic() > end:
            raise ValueError("it is waited for in vain")
        time.sleep(0.05)


def begun(room):
    return order.text_of(f"{room}/begun").count("\n") if os.path.exists(f"{room}/begun") else 0


def fault_on_workers(program, python, room):
    """What is wrong where a worker is killed meanwhile, if something is."""
    path, expected = path_of(LEFT), whole(program, path_of(LEFT))
    with open(f"{room}/slow", "w", encoding="utf-8") as file:
        file.write(SLOW.format(room=room, program=program))
    os.chmod(f"{room}/slow", 0o755)
    with dask(python, room) as (address, workers):
        words = ["--alike", "--most", "4", "--split", "2", "--scheduler", address, "--program", f"{room}/slow", path]
        how = {"stdout": subprocess.PIPE, "stderr": subprocess.PIPE, "text": True}
        with subprocess.Popen([python, FARM, *words], **how) as farm:
            try:
                until(lambda: begun(room) >= 4 or farm.poll() is not None)
                was_running = farm.poll() is None
                os.killpg(workers[0].pid, signal.SIGKILL)
                wrote, said = farm.communicate(timeout=PATIENCE)
            finally:
                farm.kill()
    if not was_running:
        return f"it ended before a worker was killed: {said.strip()!r}"
    return fault_of((farm.returncode, wrote, said), expected)


def checks_with_dask(program, python, room):
    if python:
        yield f"{LEFT}: {WORKERS} workers, of which one is killed", lambda: fault_on_workers(program, python, room)
        nobody = ["--program", program, "--scheduler", "127.0.0.1:1", path_of(LEFT)]
        yield "no scheduler", lambda: fault_of_refusal(nobody, 2, "explore_farm: expected a scheduler", python=python)
    else:
        print("farms: Python's distributed isn't installed: no worker of dask is tried")


# All of it

def checks(program, names, room):
    for path in [path_of(it) for it in names] or sorted(glob.glob(f"{FOLDER}/*.scene")):
        yield from checks_of(program, path)
    if not names:
        with open(f"{room}/three_walkers.scene", "w", encoding="utf-8") as file:
            file.write(explore.text_of(*explore.SCENES["three_walkers"][:3]))
        yield from checks_of(program, f"{room}/three_walkers.scene")
        path = f"{room}/three_walkers.scene"
        yield "three walkers: the parts by the first choice", lambda: fault_of_sum(program, path)
    yield "not all parts", lambda: fault_of_left(program)
    yield from refusals(program, room)
    yield from checks_with_dask(program, python_with_dask(), room)


def fault(check):
    try:
        return check()
    except (AttributeError, IndexError, KeyError, OSError, TypeError, ValueError, subprocess.TimeoutExpired) as wrong:
        return f"{type(wrong).__name__}: {wrong}"


def main(names):
    if any(not os.path.isfile(path_of(it)) for it in names):
        print("farms: expected names of scenes of examples/explore, or no words", file=sys.stderr)
        return 2
    passed = failed = 0
    program = os.path.abspath(order.program())
    with tempfile.TemporaryDirectory(prefix="farms-") as room:
        for name, check in checks(program, names, room):
            wrong = fault(check)
            if wrong:
                print(f"{name}: not as expected, {wrong}")
            passed, failed = passed + (not wrong), failed + bool(wrong)
    print(f"{passed} passed, {failed} failed")
    return 1 if failed else 0


os.chdir(os.path.join(os.path.dirname(os.path.abspath(__file__)), ".."))

if __name__ == "__main__":
    sys.exit(main(sys.argv[1:]))
