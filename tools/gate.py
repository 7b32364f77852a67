#!/usr/bin/env python3
"""The merge gate, as `make test` runs it.

usage: tools/gate.py [--all]

First every planted fault is read: where one doesn't apply, or the front end refuses it, the gate ends there.
Then every crate and its tests are proved from nothing and run (`rt ci`), and beside that planted faults are
tried, in rounds (tools/faults): those of the crates that the last commit changed, and those of an eighth of
the others, another eighth at each commit; with --all those of all crates. After 110 minutes no more of them are begun;
what is left is told by name. When all is proved, the refused allocations, the program's commands, the examples, the program
over two pipes, the library for C, and the pages are run, beside the faults that are left.

Each minute it says how far it is. At its end stands what each crate cost, in seconds of a processor, and the
last line counts all. RT_JOBS is how many proofs run side by side; without it the toolchain chooses by the
processors and the memory that are free.
"""

import glob
import os
import re
import subprocess
import sys
import tempfile
import time
from concurrent.futures import ThreadPoolExecutor

TICKS = os.sysconf("SC_CLK_TCK")
PAGE = os.sysconf("SC_PAGE_SIZE")
KINDS = ("proof", "tests", "faults")
# How many parts the faults of the crates are tried in.
PARTS = 8
# Which share of the work the proofs are; the planted faults are the rest.
PROOFS = 0.75
# Behind so many minutes no more planted faults are begun: a gate ends on a slow machine too, and says what it left out.
LATEST = 110
# What is run when all is proved.
REST = ("refuse_all.sh", "commands.py", "examples.sh", "bars.py", "laws.py", "judge.py", "imports.py", "explores.py", "farms.py", "scripts.py", "sweeps.py", "pipes.py", "serve.py", "library.py test",
        "check_pages", "run_pages")
COUNTS = re.compile(r"^(\d+) passed, (\d+) failed$", re.M)


def text_of(path):
    with open(path, encoding="utf-8", errors="replace") as file:
        return file.read()


def say(text):
    print(f"gate: {text}", flush=True)


# What the checks cost

def words_of(process):
    try:
        return text_of(f"/proc/{process}/cmdline").split("\0")
    except OSError:
        return []


def stat_of(process):
    """Returns its parent, its processor time with that of the children that it has waited for, and its memory."""
    try:
        fields = text_of(f"/proc/{process}/stat").rpartition(")")[2].split()
    except OSError:
        return 0, 0.0, 0
    if len(fields) < 22:
        return 0, 0.0, 0
    return int(fields[1]), sum(int(it) for it in fields[11:15]) / TICKS, int(fields[21]) * PAGE


def kind_of(process, words):
    if "--test" in words:
        return "tests"
    try:
        return "faults" if os.readlink(f"/proc/{process}/cwd").count("/faults-") or "--incremental" in words else "proof"
    except OSError:
        return "proof"


class Costs:
    """What the checks below this process took, looked at again and again; the last seconds of each are missing."""

    def __init__(self):
        self.spent, self.most = {}, 0

    def look(self):
        ours, held = {os.getpid()}, 0
        processes = sorted(int(it) for it in os.listdir("/proc") if it.isdigit())
        stats = {it: stat_of(it) for it in processes}
        grown = True
        while grown:
            more = {it for it in processes if it not in ours and stats[it][0] in ours}
            ours |= more
            grown = bool(more)
        for process in ours:
            held += stats[process][2]
            words = words_of(process)
            if "--crate-name" not in words or not os.path.basename(words[0]).startswith("rattle"):
                continue
            # What a check has split off is told with it.
            if "--crate-name" in words_of(stats[process][0]) and words_of(stats[process][0])[0] == words[0]:
                continue
            crate = words[words.index("--crate-name") + 1]
            self.spent[process] = crate, kind_of(process, words), stats[process][1]
        self.most = max(self.most, held)

    def by_crate(self):
        sums = {}
        for crate, kind, seconds in self.spent.values():
            row = sums.setdefault(crate, dict.fromkeys(KINDS, 0.0))
            row[kind] += seconds
        return sums

    def table(self):
        sums = self.by_crate()
        rows = sorted(sums.items(), key=lambda it: -sum(it[1].values()))
        yield "| Crate | proof | tests | faults |"
        yield "|---|---|---|---|"
        for crate, row in rows:
            yield f"| `{crate}` | " + " | ".join(f"{row[it]:.0f}" if row[it] else "" for it in KINDS) + " |"
        total = {kind: sum(row[kind] for _, row in rows) / 60 for kind in KINDS}
        yield f"| all, {sum(total.values()):.0f} minutes | " + " | ".join(f"{total[it]:.0f} minutes" for it in KINDS) + " |"


# How far it is

def sizes():
    """The lines of each crate's code and proofs, and whether it has tests beside."""
    found = {}
    for line in text_of("crates.txt").splitlines():
        if ":" in line and not line.startswith("#"):
            name = line.split()[0].rstrip(":")
            code = [text_of(it) for it in glob.glob(f"crates/{name}/src/**/*.rt", recursive=True)]
            proofs = [text_of(it) for it in glob.glob(f"crates/{name}/proofs/**/*.antt", recursive=True)]
            size = sum(it.count("\n") for it in code) + sum(it.count("\n") for it in proofs) // 4
            found[name, "proof"] = size
            if any("#[test]" in it for it in code):
                found[name, "tests"] = size
    return found


class Proofs:
    """The output of `rt ci`, as far as it has come."""

    def __init__(self, log):
        self.log, self.sizes = log, sizes()

    def done(self):
        text = text_of(self.log)
        proved = {(it, "proof") for it in re.findall(r"^rt: (\w+) (?:NOT PROVED|proved$|is kept: )", text, re.M)}
        return proved | {(it, "tests") for it in re.findall(r"^rt: (\w+): its tests are", text, re.M)}

    def share(self):
        done = self.done()
        return sum(self.sizes[it] for it in self.sizes if it in done) / sum(self.sizes.values())

    def words(self):
        done = self.done() & set(self.sizes)
        return f"{len(done)} of {len(self.sizes)} proofs of crates and their tests"


def counts_in(text):
    """What the last line says; what has none has judged nothing."""
    found = COUNTS.findall(text)
    return (int(found[-1][0]), int(found[-1][1])) if found else (0, 1)


def far(begin, proofs, log):
    """A line that tells how far the proofs and the faults are, and how long it may take."""
    spent = (time.time() - begin) / 60
    tried = re.findall(r"(\d+) of (\d+) faults, minute", text_of(log))
    done, count = (int(it) for it in tried[-1]) if tried else (0, 0)
    share = PROOFS * proofs.share() + (1 - PROOFS) * done / max(count, 1)
    words = [f"minute {spent:.0f}", proofs.words()]
    if count:
        words.append(f"{done} of {count} planted faults")
    if share > 0.03:
        words.append(f"about {spent / share - spent:.0f} minutes to go")
    return ", ".join(words)


# The parts

def commits():
    ran = subprocess.run(["git", "rev-list", "--count", "HEAD"], capture_output=True, text=True, check=False)
    return int(ran.stdout) if ran.returncode == 0 else int(time.time() / 86400)


def has_parent():
    return subprocess.run(["git", "rev-parse", "-q", "--verify", "HEAD~1"], capture_output=True, check=False).returncode == 0


def tried_faults(is_all):
    """The words that say which faults are tried."""
    if is_all:
        return ["--all"]
    words = ["--part", f"{commits() % PARTS + 1}/{PARTS}"]
    return words + (["--since", "HEAD~1"] if has_parent() else [])


def read_faults():
    """Reads all faults, and returns how many can't be read."""
    ran = subprocess.run(["tools/faults", "--all", "--read"], capture_output=True, text=True, check=False)
    print(ran.stdout + ran.stderr, end="", flush=True)
    return counts_in(ran.stdout)[1] if ran.stdout else 1


def is_over(process, log):
    """Whether the proofs came to their end, so that what rests on them can be run."""
    return process.poll() is not None and bool(COUNTS.search(text_of(log)))


def prove_and_try(is_all, costs, pool):
    """Runs the proofs, the faults beside them, and behind the proofs the rest; returns both outputs, and the runs of the rest."""
    begin, rest = time.time(), []
    with tempfile.TemporaryDirectory(prefix="gate-") as room:
        logs = f"{room}/proofs", f"{room}/faults"
        words = [*tried_faults(is_all), "--minutes", str(LATEST)] if not is_all else tried_faults(is_all)
        say(f"planted faults: {' '.join(words)}")
        with open(logs[0], "wb") as first, open(logs[1], "wb") as second:
            proofs = subprocess.Popen(["rt", "ci"], stdin=subprocess.DEVNULL, stdout=first, stderr=first)
            faults = subprocess.Popen(["tools/faults", *words, "--were-read", "--beside", logs[0]], stdout=second, stderr=second)
            seen, told, progress = [0, 0], time.time(), Proofs(logs[0])
            running = True
            while running:
                running = proofs.poll() is None or faults.poll() is None
                costs.look()
                for at, log in enumerate(logs):
                    text = text_of(log)
                    end = len(text) if not running else text.rfind("\n") + 1
                    print(shown(text[seen[at]:end], at), end="", flush=True)
                    seen[at] = max(end, seen[at])
                if time.time() - told > 60:
                    told = time.time()
                    say(far(begin, progress, logs[1]))
                time.sleep(2)
                if not rest and is_over(proofs, logs[0]):
                    rest = [pool.submit(run_tool, tool) for tool in REST]
                # Where the proofs died, nothing more will stand for the faults to rest on.
                if proofs.poll() is not None and not is_over(proofs, logs[0]):
                    faults.terminate()
        return text_of(logs[0]), text_of(logs[1]), rest or [pool.submit(run_tool, tool) for tool in REST]


def shown(text, at):
    """The lines of an output that tell how far it is, or what is wrong; of the proofs not those of each function."""
    if at == 1:
        return text
    keep = [it for it in text.splitlines(True) if not re.match(r"(fn|struct|enum|impl|trait|type) \S+: proved$", it)
            and not it.startswith(("statements ", "crate ", "by-macro: "))]
    return "".join(keep)


def run_tool(tool):
    """Runs a tool; returns its name, what it said, and how long it took."""
    before = time.time()
    done = subprocess.run(f"tools/{tool}".split(), stdout=subprocess.PIPE, stderr=subprocess.STDOUT, text=True, errors="replace",
                          check=False)
    return tool, done.stdout, time.time() - before


def main(words):
    if words[1:] not in ([], ["--all"]):
        print("gate: expected no words, or --all", file=sys.stderr)
        return 2
    os.chdir(os.path.dirname(os.path.abspath(__file__)) + "/..")
    begin, costs, rows = time.time(), Costs(), []
    kit = subprocess.run(["rt", "version"], capture_output=True, text=True, check=False).stdout.strip()
    say(f"{len(os.sched_getaffinity(0))} processors, {kit}")
    unread = read_faults()
    if unread:
        print(f"0 passed, {unread} failed", flush=True)
        return 1
    say(f"all planted faults are read, in {time.time() - begin:.0f} seconds")
    before = time.time()
    with ThreadPoolExecutor(len(os.sched_getaffinity(0))) as pool:
        proofs, faults, rest = prove_and_try(words[1:] == ["--all"], costs, pool)
        rows.append(("proofs and tests", time.time() - before, counts_in(proofs)))
        rows.append(("planted faults", 0, counts_in(faults)))
        for tool, said, seconds in (it.result() for it in rest):
            print(said, end="", flush=True)
            rows.append((tool, seconds, counts_in(said)))
    print("\n".join(costs.table()))
    slowest = sorted(((seconds, crate, kind) for crate, row in costs.by_crate().items() for kind, seconds in row.items()), reverse=True)
    say("the slowest ten: " + ", ".join(f"{crate} ({kind}) {seconds:.0f}" for seconds, crate, kind in slowest[:10]))
    for name, seconds, (passed, failed) in rows:
        say(f"{name}: {passed} passed, {failed} failed" + (f", {seconds / 60:.1f} minutes" if seconds else ""))
    say(f"{(time.time() - begin) / 60:.0f} minutes, {costs.most / 1e9:.1f} GB of memory at most")
    passed, failed = (sum(it[2][at] for it in rows) for at in (0, 1))
    print(f"{passed} passed, {failed} failed", flush=True)
    return 1 if failed else 0


if __name__ == "__main__":
    sys.exit(main(sys.argv))
