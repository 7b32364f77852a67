#!/usr/bin/env python3
"""Explores a scene by parts, over the processors of this machine, or over those of many, and writes what
`automount_cli explore` writes.

usage: tools/explore_farm.py [--most STATES] [--alike] [--split PARTS] [--parts N] [--processes N]
                             [--scheduler ADDRESS] [--program PATH] SCENE

First the whole scene is searched, over few states. Where that is cut, it is cut by one choice more into the parts `1`,
`2` .., each of which is searched by `automount_cli explore --prefix`, over STATES at most (100000); a part that is cut
is cut once more, into `PREFIX,1`, `PREFIX,2` .. . What is told rests on nothing but what `explore` writes of each part.

With --alike a cut goes down level by level, until there are PARTS beginnings (two for each search that runs at once),
and of those that are alike one is searched: each thread has made the same events with the same answers, the same was
observed, and the same acts have failed, in another order, and the world's text is the same. So its orders count as
often as there are such beginnings. That this is the same state is tested, and no theorem; it takes less time, by far
where parts are cut several levels deep.

After N searches (100000) no more is begun, and what is left isn't seen. With --scheduler the searches run on the
workers of dask at ADDRESS (tools/spread.py); else N processes run here, as many as there are processors. The program
is the one that tools/program.sh prints, or the one at PATH; each worker needs it at the same path, and the scene goes
with each search.

The last line is `# orders X parts P`: X as `explore` counts, and P how many searches have seen their part whole; or
`# not all seen, parts P`. What is found of each question is what `explore` finds, event by event; where not all is
seen, an order that is told may not be the shortest. The exit statuses are those of `explore`, 2 where something else
is expected.
"""

import argparse
import functools
import hashlib
import os
import re
import signal
import subprocess
import sys

sys.dont_write_bytecode = True
sys.path.insert(0, os.path.dirname(os.path.abspath(__file__)))
import order  # noqa: E402
import spread  # noqa: E402

#: Over how many states the whole scene is searched, before it is cut.
FIRST = 2000
#: Where the count of orders stays.
MOST_ORDERS = 2**64 - 1
CUT = re.compile(r"not all seen(?:, no order of fewer than (\d+) events)?")
LAST = re.compile(r"# orders (\d+) states (\d+) ends \d+.*|# not all seen, states (\d+) choices (\d+)")


class Broken(Exception):
    """What a program wrote or told that isn't what `explore` writes."""


# Where the threads of a scene stand

class Scene:
    """What leads to a scene, its threads, and in which ways the acts of its daemon come out, if it serves."""

    def __init__(self, text):
        self.text, self.questions = text.encode("utf-8", "surrogateescape"), order.questions(text)
        self.script, self.threads, self.ways, inside = order.script_of(text), [], [], None
        for line in order.lines_of(text)[order.scene_begins(text) - 1:]:
            words = order.words_of(line)
            if inside is not None and words == ["end"]:
                inside = None
            elif inside is not None and words:
                inside.append(" ".join(words))
            elif words[:1] == ["thread"]:
                inside = []
                self.threads.append(inside)
            elif words[:1] == ["serve"]:
                self.ways = ["ok", *(f"fail {it}" for it in words[3::2])]

    def begin(self):
        return Stand(tuple((passed(it), ()) for it in self.threads), (), ((), ()))


class Stand:
    """Where a scene stands behind an order: of each thread the next event and the answers it had, all that was observed
    and each act that has failed, whatever came first, and the packets and jobs that are there."""

    def __init__(self, threads, seen, busy):
        self.threads, self.seen, self.busy = threads, seen, busy

    def choices(self, scene):
        """What may come next, as the program counts it: the thread that makes it, none of the daemon, and the event."""
        stands = enumerate(zip(scene.threads, self.threads))
        found = [(n, events[at]) for n, (events, (at, _)) in stands if at < len(events)]
        packets, jobs = self.busy
        if scene.ways:
            found += [(None, f"deliver {it}") for it in packets]
            found += [(None, f"act {it} {way}") for it in jobs for way in scene.ways]
        return found

    def behind(self, scene, choice, answer, seen, world):
        """Where it stands behind a choice that was answered so; None where that is no step."""
        thread, event = choice
        if answer == "err 11" if thread is not None else answer.startswith("err "):
            return None
        threads = self.threads
        if thread is not None:
            at, heard = threads[thread]
            moved = after(scene.threads[thread], at, answer), (*heard, (at + 1, answer))
            threads = (*threads[:thread], moved, *threads[thread + 1:])
        # By which error an act has failed is observed no sooner than its job replies.
        failed = [event] if answer.startswith("failed ") else []
        return Stand(threads, tuple(sorted([*self.seen, *seen, *failed])), busy_in(world))

    def mark(self, world):
        """What tells it from all that aren't alike."""
        told = repr((self.threads, self.seen, world))
        return hashlib.sha256(told.encode("utf-8", "surrogateescape")).digest()


def passed(events):
    """How many resumes come first, which are passed over."""
    return next((at for at, it in enumerate(events) if not it.startswith("resume ")), len(events))


def after(events, at, answer):
    """Where a thread stands when its event at a place is answered so."""
    if answer.startswith("wait "):
        return at if events[at].startswith("resume ") else at + 1
    return at + 1 + passed(events[at + 1:])


def busy_in(world):
    """The tokens of the packets, and the jobs, in a world's text."""
    found = [[it.split(" ")[2] for it in world if it.startswith(f"# {word} ")] for word in ("queued", "job")]
    return tuple(found[0]), tuple(found[1])


# Parts

class Part:
    """All orders that begin in one way, or in ways that are alike: the numbers of the choices and the events of the
    first that was found. Behind a cut it has parts of its own, each with the number of a choice; behind a search its
    findings, and the count of its orders if it was seen whole."""

    def __init__(self, prefix=(), events=(), stand=None):
        self.prefix, self.events, self.stand = prefix, events, stand
        self.parts, self.findings, self.orders = [], None, None

    def is_cut(self):
        return bool(self.parts)


class Farm:
    """The parts of a scene, each by what tells it from the others, and the searches that are to be run."""

    def __init__(self, scene, words):
        self.scene, self.words = scene, words
        self.whole = Part(stand=scene.begin())
        self.parts, self.commands = {}, []
        # How many searches were begun and have ended, how many of them saw their part whole, and the states of all.
        self.begun = self.ended = self.seen = self.states = 0
        self.search(self.whole, min(words.most, FIRST))

    def search(self, part, most):
        """Has a part searched, unless there were as many searches as there may be."""
        if self.begun < self.words.parts:
            self.begun += 1
            prefix = ["--prefix", ",".join(map(str, part.prefix))] if part.prefix else []
            self.commands.append((part, [self.words.program, "explore", "--most", str(most), *prefix], self.scene.text))

    def take(self, part, came):
        """Takes what came of a search."""
        wrote, said = came.stdout.decode("utf-8", "surrogateescape"), came.stderr.decode(errors="replace")
        if came.returncode not in (0, 1, 3) or said or not wrote.endswith("\n"):
            raise Broken(said.strip() or f"the program ends with status {came.returncode}")
        findings, last = order.findings(wrote)
        counts = LAST.fullmatch(last)
        if not counts or list(findings) != list(self.scene.questions):
            raise Broken(f"the program writes {last[:80]!r}, and no findings of a part")
        self.ended, self.states = self.ended + 1, self.states + int(counts[2] or counts[3])
        part.findings = findings
        if counts[1]:
            part.orders, self.seen = int(counts[1]), self.seen + 1
        else:
            self.cut(part, int(counts[4]))

    def cut(self, part, choices):
        """Cuts a part that has so many choices, and has its parts searched."""
        if not self.words.alike:
            found = [Part((*part.prefix, it)) for it in range(1, choices + 1)]
            part.parts = list(enumerate(found, 1))
        else:
            if not part.prefix:
                part.stand.busy = self.busy_at_first()
            if len(part.stand.choices(self.scene)) != choices:
                raise Broken(f"the program has {choices} choices behind {part.prefix}, and here are others")
            found = self.beginnings(part)
        for it in found:
            self.search(it, self.words.most)

    # Beginnings that are alike

    def busy_at_first(self):
        """The packets and jobs that are there at first."""
        ran = self.asked(["world"], self.scene.script)
        return busy_in(ran.splitlines())

    def asked(self, words, text):
        ran = subprocess.run([self.words.program, *words], input=text.encode("utf-8", "surrogateescape"),
                             capture_output=True, check=False)
        if ran.returncode:
            said = ran.stderr.decode(errors="replace").strip()
            raise Broken(said or f"the program ends with status {ran.returncode}")
        return ran.stdout.decode("utf-8", "surrogateescape")

    def beginnings(self, part):
        """Goes down level by level, until there are so many parts, and gives those that are new: of the last level, and
        those that are an end above it."""
        level, ends, below = [part], [], None
        while level and (below is None or len(level) + len(ends) < self.words.split):
            below = []
            for it, steps in zip(level, self.steps(level)):
                it.parts = [(number, self.part_of(it, number, *step, below)) for number, *step in steps]
                if not it.parts:
                    ends.append(it)
            level = below
        return ends + level

    def part_of(self, above, number, event, stand, mark, new):
        """The part behind a choice: one that is there already, or a new one."""
        key = len(above.prefix) + 1, mark
        if key not in self.parts:
            self.parts[key] = Part((*above.prefix, number), (*above.events, event), stand)
            new.append(self.parts[key])
        return self.parts[key]

    def steps(self, level):
        """The steps behind each part of a level: the number of the choice, its event, where it leads and its mark."""
        script, lines = self.scene.script.split("\n")[:-1], []
        for part in level:
            lines += ["!reset", *script, *part.events, "!save"]
            for _, event in part.stand.choices(self.scene):
                lines += [event, "?trace", "?world", "!back"]
        replies = replies_in(self.asked(["serve"], "\n".join(lines) + "\n"))
        for part in level:
            for _ in range(len(script) + len(part.events) + 2):
                next(replies)
            yield self.steps_behind(part, replies)

    def steps_behind(self, part, replies):
        found = []
        for number, choice in enumerate(part.stand.choices(self.scene), 1):
            (answer,), seen, world, _ = (next(replies) for _ in range(4))
            stand = part.stand.behind(self.scene, choice, answer, seen, world)
            if stand:
                found.append((number, choice[1], stand, stand.mark(world)))
        return found

    # What comes of it

    def beginnings_of_all(self):
        """Of each part how many beginnings it has, and which is first of them."""
        ways, first, level = {self.whole: 1}, {self.whole: ()}, [self.whole]
        while level:
            below = {}
            for part in level:
                for number, it in part.parts:
                    prefix = *first[part], number
                    ways[it], first[it] = ways.get(it, 0) + ways[part], min(first.get(it, prefix), prefix)
                    below[it] = True
            level = list(below)
        return ways, first

    def results(self):
        """What is found of each question, and the last line."""
        ways, first = self.beginnings_of_all()
        left = [it for it in ways if not it.parts]
        is_whole = all(it.orders is not None for it in left)
        found = {line: self.finding(line, first) for line in self.scene.questions}
        orders = min(sum(ways[it] * it.orders for it in left), MOST_ORDERS) if is_whole else 0
        return found, f"# orders {orders} parts {self.seen}" if is_whole else f"# not all seen, parts {self.seen}"

    def fewest(self, line):
        """How many events the orders that may still meet a question have at least; None where none does."""
        @functools.cache
        def of(part):
            said = part.findings[line] if part.findings else ""
            told = CUT.fullmatch(said)
            own = int(told[1]) if told and told[1] else len(part.prefix)
            below = [it for it in (of(it) for _, it in part.parts) if it is not None]
            return None if said == "no order" or part.parts and not below else max(own, min(below, default=0))
        return of(self.whole)

    def finding(self, line, first):
        """The shortest order for a question, the first part's among those of one length; or why there is none."""
        told = [(it.findings[line], prefix, it) for it, prefix in first.items() if it.findings]
        told = [(len(events), prefix, it) for events, prefix, it in told if isinstance(events, list)]
        if told:
            _, prefix, part = min(told, key=lambda it: it[:2])
            return part.findings[line] if part.prefix == prefix else self.order_from(prefix, line)
        fewest = self.fewest(line)
        return "no order" if fewest is None else f"not all seen, no order of fewer than {fewest} events"

    def order_from(self, prefix, line):
        """The order that is found for a question from another beginning of a part, which is alike."""
        words = ["explore", "--most", str(self.words.most), "--prefix", ",".join(map(str, prefix))]
        ran = subprocess.run([self.words.program, *words], input=self.scene.text, capture_output=True, check=False)
        return order.findings(ran.stdout.decode("utf-8", "surrogateescape"))[0][line]


def replies_in(text):
    """The lines of each reply of a session."""
    lines = []
    for line in text.split("\n"):
        if line == ".":
            yield lines
            lines = []
        else:
            lines.append(line)


# The command

def status_of(scene, found):
    """The exit status, by what was found of each question."""
    as_asked = {line: isinstance(it, list) == (scene.questions[line][0] == "sometimes") for line, it in found.items()}
    is_seen = {line: isinstance(it, list) or it == "no order" for line, it in found.items()}
    if any(is_seen[line] and not as_asked[line] for line in found):
        return 1
    return 0 if all(is_seen.values()) else 3


def lines_of(found, last):
    for line, it in found.items():
        yield f"# line {line}: yes, events {len(it)}" if isinstance(it, list) else f"# line {line}: {it}"
        yield from it if isinstance(it, list) else ()
    yield last


def searched(scene, words):
    """A farm whose searches have ended."""
    place, bar = spread.place_of(words.scheduler, words.processes), spread.Bar()
    words.split = words.split or 2 * place.width
    farm = Farm(scene, words)
    try:
        for part, came in spread.run(farm.commands, place):
            farm.take(part, came)
            bar.show(farm.ended, farm.begun, f" searches, {farm.seen} parts seen whole")
    finally:
        place.end()
        bar.end()
    return farm


def explore(scene, words):
    """Searches all parts, and writes what is found; returns the exit status."""
    found, last = searched(scene, words).results()
    sys.stdout.buffer.write("".join(f"{it}\n" for it in lines_of(found, last)).encode("utf-8", "surrogateescape"))
    return status_of(scene, found)


class Words(argparse.ArgumentParser):
    """Words that are told in one line where they aren't as expected."""

    def error(self, message):
        stop(f"expected [OPTION].. SCENE: {message}")


def stop(text):
    print(f"explore_farm: {text}", file=sys.stderr)
    sys.exit(2)


def count(word):
    if not re.fullmatch("[1-9][0-9]{0,9}", word) or int(word) >= 2**32:
        raise argparse.ArgumentTypeError(f"a number from 1 to 4294967295, not {word!r}")
    return int(word)


def read(words):
    parser = Words(add_help=False, allow_abbrev=False)
    for name, usual in (("most", 100_000), ("split", None), ("parts", 100_000), ("processes", None)):
        parser.add_argument(f"--{name}", type=count, default=usual)
    parser.add_argument("--alike", action="store_true")
    parser.add_argument("--scheduler")
    parser.add_argument("--program")
    parser.add_argument("scene")
    return parser.parse_args(words)


def main(words):
    signal.signal(signal.SIGTERM, lambda number, _: sys.exit(128 + number))
    words = read(words)
    if not os.path.isfile(words.scene):
        stop(f"expected the path of a scene, and there is no file {words.scene}")
    scene = Scene(order.text_of(words.scene))
    if words.program:
        words.program = os.path.abspath(words.program)
    else:
        os.chdir(os.path.join(os.path.dirname(os.path.abspath(__file__)), ".."))
        words.program = os.path.abspath(order.program())
    try:
        return explore(scene, words)
    except spread.Trouble as trouble:
        stop(trouble)
    except KeyboardInterrupt:
        return 130
    except Broken as broken:
        print(broken if str(broken).startswith("fault: ") else f"explore_farm: {broken}", file=sys.stderr)
        return 1


if __name__ == "__main__":
    sys.exit(main(sys.argv[1:]))
