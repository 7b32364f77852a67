#!/usr/bin/env python3
"""Plays scripts over and over, each time with something else done to it, and counts what went as it must.

usage: tools/sweeps.py            plays all of them; the last line counts
       tools/sweeps.py NAME..     plays these alone

At every position of a script the daemon dies, the file system becomes catatonic, the daemon attaches again, or an
event meets a pipe that is full or gone; one script has two such changes at each pair of positions. Whatever comes:

- the laws hold of the trace (tools/laws.py);
- kernel and daemon agree on each file system that the daemon serves (docs/MODEL.md, "Kernel and daemon agree");
- acts of an old attachment are refused.

And nothing is stuck. In each world to which a script leads kernel and daemon agree too; and from there the daemon alone
closes every open token of a file system that it serves, by six events at most, however its mounts and unmounts go;
catatonic mode closes the tokens of the others. Then everybody who waited goes on.

All is judged by the program's traces and worlds. Each line tells what was seen, and must be that of tests/sweeps.out.
"""

import concurrent.futures
import functools
import itertools
import os
import re
import sys

sys.dont_write_bytecode = True

import laws
from commands import Program

EXPECTED = "tests/sweeps.out"
#: The scripts of `examples` are played, and these.
OTHERS = ("tests/an_expiry_beside_a_walk.script", "tests/bind_of_an_autofs_is_late.script",
          "tests/private_autofs_in_another_namespace.script")
#: The script that is changed at each pair of positions too.
IN_PAIRS = "an_expiry_beside_a_walk"
#: What is put in at a position; the file system that an `attach` of the scripts mounts first is the second one.
PUT_IN = (("die",), ("admincat 2",), ("die", "admincat 2", "reattach 2"))
#: What an event may meet in place of its own pipe.
PIPES = ("full", "gone")
WITH_PIPE = ("walk", "resume", "expire")
#: Acts of the jobs that may be there.
ACTS = ("act 1 ok", "act 2 ok", "act 3 ok")
#: The most events that close a token: a delivery and five acts.
MOST_EVENTS = 6
#: A moment behind those of the scripts.
LATER = 1_000_000
EPERM = "err 2"


class Script:
    """A script: its head with the line `events`, the points of its master map, and its events."""

    def __init__(self, path):
        with open(path, encoding="utf-8") as file:
            self.head, events = re.match(r"(?s)(.*?^events\n)(.*)", file.read(), re.M).groups()
        lines = [it.strip() for it in events.split("\n")]
        self.name = os.path.basename(path).removesuffix(".script")
        self.events = tuple(it for it in lines if it and not it.startswith("#"))
        master = re.search(r"(?ms)^master\n(.*?)^end$", self.head)
        self.points = {it.split()[0] for it in master[1].split("\n") if it} if master else set()


# ---- What the program says of a world

class Step:
    """An event of a trace, its answer, and what is seen of it."""

    def __init__(self, event):
        self.event, self.answer, self.seen = event, "", []


def steps_of(trace):
    steps = []
    for line in trace.split("\n")[:-1]:
        if line.startswith(" "):
            steps[-1].seen.append(laws.seen_in(line))
        elif line.startswith("= "):
            steps[-1].answer = line[2:].rpartition(" : ")[0]
        else:
            steps.append(Step(line.partition(": ")[2]))
    return steps


class Autofs:
    """A file system that is attached, as the events up to a place of a trace say."""

    def __init__(self, words, is_direct):
        self.fs, self.attach, self.location = words[1], words[3], words[5]
        self.is_direct, self.is_catatonic, self.is_held = is_direct, False, True

    def is_served(self):
        return self.is_held and not self.is_catatonic


def follow(attached, script, step):
    """What an event changes of the file systems that are attached."""
    words = step.event.split()
    if words[0] == "attach" and step.answer.startswith("fs "):
        autofs = Autofs(step.answer.split(), words[1] not in script.points)
        attached[autofs.fs] = autofs
    for seen in step.seen:
        if seen.what == "catatonic":
            attached[seen.fs].is_catatonic = True
        if seen.what == "reattached":
            autofs = attached[seen.fs]
            autofs.attach, autofs.is_catatonic, autofs.is_held = seen.attach, False, True
        if seen.what == "died":
            for autofs in attached.values():
                autofs.is_held = False


def attached_behind(script, steps):
    attached = {}
    for step in steps:
        follow(attached, script, step)
    return attached


class Mount:
    """A line of mountinfo: a mount, what it is mounted on, its path, and its peer group and master."""

    def __init__(self, line):
        words = line.split()
        self.number, self.below, self.device, self.path = int(words[0]), int(words[1]), words[2], words[4]
        tags = dict(it.split(":") for it in words[6:] if ":" in it)
        self.group, self.master = tags.get("shared"), tags.get("master")


class World:
    """What the program prints of a world (docs/FORMATS.md, "Worlds")."""

    def __init__(self, text):
        self.mounts, self.open, self.queued, self.book, self.jobs = {}, {}, {}, {}, {}
        for line in text.split("\n")[:-1]:
            if line.startswith("#"):
                self.read(line.split()[1:])
            else:
                mount = Mount(line)
                self.mounts[mount.number] = mount

    def read(self, words):
        what, at = words[0], words.index("fs") if "fs" in words else len(words)
        trigger = tuple(words[at:])
        if what == "open":
            self.open[words[1]] = words[3:at], trigger
        if what == "queued":
            self.queued[words[1]] = words[3]
        if what == "recorded":
            self.book[trigger] = words[1:at]
        if what == "job":
            self.jobs[words[1]] = words[3]

    def trigger_below(self, mount, autofs, at):
        """The trigger on which a mount is mounted at this mount of an autofs, if it is on one there."""
        if mount.below != at or mount.number == at:
            return None
        start = self.mounts[at].path.rstrip("/")
        place = mount.path[len(start):].strip("/")
        if autofs.is_direct:
            return None if place else ("fs", autofs.fs, "direct")
        return ("fs", autofs.fs, "name", place) if place and "/" not in place else None

    def masters(self):
        return {it.group: it.master for it in self.mounts.values() if it.group}

    def receives_from(self, mount, group):
        """Whether a mount is in this peer group, or a slave of it, or of its slaves."""
        source, masters = mount.group or mount.master, self.masters()
        while source and source != group:
            source = masters.get(source)
        return source == group


# ---- Kernel and daemon agree

def is_mounted(world, autofs, trigger, number):
    """The mount is the latest on the trigger at the daemon's mount of the autofs; and on each older mount that receives
    from that one there is a copy of it, a mount of the same file system."""
    at = int(autofs.location)
    on = [it.number for it in world.mounts.values() if world.trigger_below(it, autofs, at) == trigger]
    if not on or max(on) != number:
        return False
    group = world.mounts[at].group
    receivers = [it.number for it in world.mounts.values()
                 if group and it.number < number and world.receives_from(it, group)]
    return all(any(it.device == world.mounts[number].device and world.trigger_below(it, autofs, receiver) == trigger
                   for it in world.mounts.values()) for receiver in receivers)


def is_pending(world, autofs, trigger, token):
    """The token is open for the trigger, and a job of it is at work under the attachment."""
    return token in world.open and world.open[token][1] == trigger and world.jobs.get(token) == autofs.attach


def is_record_true(world, autofs, trigger, entry):
    if entry[0] == "mounted":
        return is_mounted(world, autofs, trigger, int(entry[1]))
    return is_pending(world, autofs, trigger, entry[1])


def is_token_served(world, autofs, token):
    """It is to be delivered, and no job has it; or a job has it, and it is in no pipe."""
    if token in world.queued:
        return world.queued[token] == autofs.attach and token not in world.jobs
    return world.jobs.get(token) == autofs.attach


def disagreements_on(world, autofs):
    """What kernel and daemon don't agree on, of a file system that the daemon serves."""
    for trigger, entry in world.book.items():
        if trigger[1] == autofs.fs and not is_record_true(world, autofs, trigger, entry):
            yield f"the book has {' '.join(entry)} of {' '.join(trigger)}"
    for mount in world.mounts.values():
        trigger = world.trigger_below(mount, autofs, int(autofs.location))
        if trigger and trigger not in world.book:
            yield f"the book has nothing of {' '.join(trigger)}"
    for token, (_, trigger) in world.open.items():
        if trigger[1] == autofs.fs and not is_token_served(world, autofs, token):
            yield f"token {token} is neither to be delivered nor to be answered"


# ---- One play

@functools.cache
def program():
    return Program(None)


def played(command, script, events):
    status, wrote, said = program().run([command], (script.head + "".join(f"{it}\n" for it in events)).encode())
    if status or said:
        raise RuntimeError(f"{script.name}: {command}: {said.decode(errors='replace').strip()}")
    return wrote.decode("utf-8", "surrogateescape")


def acts_of_the_old(script, steps):
    """The answers to acts of jobs that have not ended, of attachments before the latest."""
    attached, jobs = {}, {}
    for step in steps:
        words = step.event.split()
        if words[0] == "act" and words[1] in jobs:
            fs, attach = jobs[words[1]]
            if attached[fs].attach != attach:
                yield step.answer
            if step.answer == "did reply":
                del jobs[words[1]]
        follow(attached, script, step)
        for seen in step.seen:
            if seen.what == "delivered":
                jobs[seen.token] = seen.fs, seen.attach


@functools.cache
def judged(script, events):
    """What is wrong with these events in the script's world; whether the daemon serves a file system behind them; and
    how many acts of an old attachment were refused, those behind the events too."""
    steps = steps_of(played("trace", script, events + ACTS))
    attached = attached_behind(script, steps[:len(events)])
    old = list(acts_of_the_old(script, steps))
    wrong = laws.breaches([it for step in steps for it in step.seen])
    wrong += laws.breaches([it for step in steps[:len(events)] for it in step.seen])
    wrong += disagreements(script, events, attached)
    wrong += [f"an act of an old attachment is answered {it}" for it in old if it != EPERM]
    return wrong, any(it.is_served() for it in attached.values()), len(old)


def disagreements(script, events, attached):
    """What they don't agree on behind these events, of all that the daemon serves."""
    served = [it for it in attached.values() if it.is_served()]
    world = World(played("world", script, events)) if served else None
    return [wrong for it in served for wrong in disagreements_on(world, it)]


# ---- Sweeps

def edits(events, first):
    """Each change of the events at the first position or behind it: what it is, the events with it, and the position
    behind what it put in."""
    for at in range(first, len(events) + 1):
        for lines in PUT_IN:
            yield f"{', '.join(lines)} behind {at} events", events[:at] + lines + events[at:], at + len(lines)
        words = events[at].split() if at < len(events) else [""]
        for pipe in PIPES:
            if words[0] in WITH_PIPE and words[-1] != pipe:
                other = " ".join(words[:-1] + [pipe])
                yield f"{pipe} behind {at} events", events[:at] + (other,) + events[at + 1:], at


def swept(found):
    """What was seen of these changes: how many were played, of how many the daemon serves a file system at the end, and
    how many acts were refused. Or what was not as it must be at one of them."""
    count = served = refused = 0
    for change, events, script in found:
        wrong, is_served, acts = judged(script, events)
        if wrong:
            return f"not as it must be, {change}: {wrong[0]}"
        count, served, refused = count + 1, served + is_served, refused + acts
    return count, served, refused


def sweep_singly(script):
    return swept((change, events, script) for change, events, _ in edits(script.events, 0))


def sweep_in_pairs(script, number):
    """The change of this number, from 0, and each that may come behind it."""
    first, once, end = list(edits(script.events, 0))[number]
    return swept((f"{first}, and then {second}", both, script) for second, both, _ in edits(once, end))


# ---- Nothing is stuck

class Stuck(Exception):
    """A token can't be closed."""


def answers(step, token):
    return any(it.what == "answered" and it.token == token for it in step.seen)


def is_refused(step):
    return step.answer.startswith("err ")


def close(script, events, token, walkers, is_queued):
    """Closes a token by the daemon's events, however its acts go; returns how many events it took at most. Behind its
    answer its job makes no act any more."""
    most, ahead = 0, [()]
    resumes = tuple(f"resume {it} {LATER} room" for it in walkers)
    delivery = (f"deliver {token}",) if is_queued else ()
    while ahead:
        chosen = ahead.pop()
        words = chosen + ("ok",) * (MOST_EVENTS - len(delivery) - len(chosen))
        made = delivery + tuple(f"act {token} {it}" for it in words)
        steps = steps_of(played("trace", script, events + made + resumes))[len(events):]
        closed = next((at + 1 for at, step in enumerate(steps[:len(made)]) if answers(step, token)), None)
        if closed is None:
            raise Stuck(f"it is open behind {', '.join(made)}")
        for at, step in enumerate(steps):
            if is_refused(step) != (closed <= at < len(made)):
                raise Stuck(f"{', '.join((made + resumes)[:at + 1])}: {step.answer}")
        # The acts up to the answer may go otherwise, one of them for the first time.
        ahead += [words[:at] + ("fail 2",) for at in range(len(chosen), closed - len(delivery))]
        most = max(most, closed)
    return most


def close_by_catatonic_mode(script, events, token, fs, walkers):
    ends = (f"admincat {fs}", *(f"resume {it} {LATER} room" for it in walkers))
    steps = steps_of(played("trace", script, events + ends))
    refused = [f"{step.event}: {step.answer}" for step in steps[len(events):] if is_refused(step)]
    if refused or laws.is_open(token, [it for step in steps for it in step.seen]):
        raise Stuck(refused[0] if refused else "it is open behind catatonic mode")


def close_each(script):
    """How many open tokens, of all worlds of a script, the daemon closes, by how many events at most, and how many
    catatonic mode closes. Or what was not as it must be."""
    by_daemon = most = others = 0
    steps = steps_of(played("trace", script, script.events))
    for at in range(len(script.events) + 1):
        events, attached = script.events[:at], attached_behind(script, steps[:at])
        wrong = disagreements(script, events, attached)
        if wrong:
            return f"not as it must be, behind {at} events: {wrong[0]}"
        world = World(played("world", script, events))
        for token, (walkers, trigger) in world.open.items():
            try:
                if attached[trigger[1]].is_served():
                    by_daemon += 1
                    most = max(most, close(script, events, token, walkers, token in world.queued))
                else:
                    others += 1
                    close_by_catatonic_mode(script, events, token, trigger[1], walkers)
            except Stuck as stuck:
                return f"not as it must be, token {token} behind {at} events: {stuck}"
    return f"{by_daemon} closed by the daemon, by {most} events at most, {others} by catatonic mode"


# ---- All of it

def seen_by(task):
    _, call, path, *more = task
    return call(Script(path), *more)


def tasks(names):
    """What is done: what its line begins with, and a call with the script that it plays."""
    paths = [f"examples/{it}" for it in os.listdir("examples") if it.endswith(".script")] + list(OTHERS)
    for path in sorted(paths, key=os.path.basename):
        name = os.path.basename(path).removesuffix(".script")
        if not names or name in names:
            yield f"{name}, its open tokens", close_each, path
            yield name, sweep_singly, path
            if name == IN_PAIRS:
                for number in range(len(list(edits(Script(path).events, 0)))):
                    yield f"{name}, in pairs", sweep_in_pairs, path, number


def line_of(found):
    """The line of what was seen, which may be in parts."""
    wrong = [it for it in found if isinstance(it, str)]
    if wrong:
        return wrong[0]
    return "{} played, {} served at the end, {} acts refused".format(*(sum(it) for it in zip(*found)))


def main(words):
    if words[:1] in (["--help"], ["-h"]):
        print(__doc__.strip())
        return True
    os.chdir(os.path.dirname(os.path.abspath(__file__)) + "/..")
    program()
    with open(EXPECTED, encoding="utf-8") as file:
        expected = dict(line.split(": ", 1) for line in file.read().split("\n")[:-1])
    passed = failed = 0
    work = list(tasks(words))
    with concurrent.futures.ProcessPoolExecutor(len(os.sched_getaffinity(0))) as pool:
        parts = zip(work, pool.map(seen_by, work))
        for name, found in itertools.groupby(parts, lambda it: it[0][0]):
            seen = line_of([it for _, it in found])
            if seen == expected.get(name):
                passed += 1
                print(f"{name}: {seen}", flush=True)
            else:
                failed += 1
                print(f"failed: {name}: {seen}\nexpected: {expected.get(name, 'a line of ' + EXPECTED)}", flush=True)
    if not passed + failed:
        print("sweeps: expected names of scripts that are swept", file=sys.stderr)
        sys.exit(2)
    print(f"{passed} passed, {failed} failed")
    return not failed


if __name__ == "__main__":
    sys.exit(0 if main(sys.argv[1:]) else 1)
