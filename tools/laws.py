#!/usr/bin/env python3
"""The laws of a trace (docs/MODEL.md, "The laws of a trace"), judged place by place, as they are said there.

usage: tools/laws.py            judges the short traces of tests/short_traces.traces, of which each says whether it is
                                lawful; the last line counts them
       tools/laws.py TRACE..    judges these traces, as `automount_cli trace` writes them, and tells each breach

Of a trace only the observations count: the lines that begin with a blank (docs/FORMATS.md, "Traces").
"""

import os
import sys
from typing import NamedTuple

SHORT_TRACES = "tests/short_traces.traces"


class Seen(NamedTuple):
    """An observation: its first word, and of those that the laws speak of what they say. Other fields are None."""

    what: str
    walker: object = None
    token: object = None
    fs: object = None
    attach: object = None
    packet: object = None
    status: object = None
    trigger: object = None
    mounts: tuple = ()


def seen_in(line):
    """The observation of a line. Its last words may be a packet, a trigger, a status or mounts."""
    words = line.split()
    what, rest = words[0], words[1:]
    if what in ("queued", "delivered"):
        packet = tuple(rest[3:])
        return Seen(what, token=rest[0], attach=rest[2], packet=packet, fs=packet[2], trigger=trigger_of(packet))
    if what == "waits":
        return Seen(what, walker=rest[0], token=rest[2])
    if what == "released":
        return Seen(what, walker=rest[0], token=rest[2], status=rest[3:])
    if what == "answered":
        return Seen(what, token=rest[0], status=rest[1:])
    if what in ("catatonic", "reattached"):
        return Seen(what, fs=rest[0], attach=rest[-1])
    if what == "passed":
        return Seen(what, walker=rest[0], trigger=tuple(rest[1:]))
    if what in ("entered", "left"):
        return Seen(what, walker=rest[0], mounts=(rest[2],))
    if what in ("mounted", "unmounted"):
        return Seen(what, mounts=tuple(rest))
    if what in ("recorded", "died"):
        return Seen(what)
    raise ValueError(f"expected an observation, not {line!r}")


def trigger_of(packet):
    """The trigger that a packet is about, in the words of a trace."""
    kind, fs = packet[0], packet[2]
    return ("fs", fs, "direct") if kind.endswith("-direct") else ("fs", fs, "name", packet[-1])


def observations(trace):
    """The observations of a trace's text."""
    return [seen_in(line) for line in trace.split("\n") if line.startswith(" ")]


# ---- What is said of the part of a trace that was seen before a place

def first_queued(token, before):
    """The first Queued of a token: its packet is the token's."""
    return next((it for it in before if it.what == "queued" and it.token == token), None)


def fs_of(token, before):
    queued = first_queued(token, before)
    return queued.fs if queued else None


def places(what, token, before):
    return [at for at, it in enumerate(before) if it.what == what and it.token == token]


def is_open(token, before):
    """It was queued, and then neither answered nor its file system made catatonic."""
    fs = fs_of(token, before)

    def closes(it):
        return it.what == "answered" and it.token == token or it.what == "catatonic" and it.fs == fs

    return any(not any(closes(it) for it in before[at + 1:]) for at in places("queued", token, before))


def is_in_queue(delivered, before):
    """This very packet was queued, and then neither delivered nor its file system made catatonic."""

    def takes(it):
        return (it.what == "delivered" and it.token == delivered.token
                or it.what == "catatonic" and it.fs == delivered.fs)

    return any((before[at].attach, before[at].packet) == (delivered.attach, delivered.packet)
               and not any(takes(it) for it in before[at + 1:]) for at in places("queued", delivered.token, before))


def is_expiring(trigger, before):
    """A token that asks to expire the trigger is open."""
    tokens = {it.token for it in before if it.what == "queued"}
    return any(first_queued(it, before).packet[0].startswith("expire-") and first_queued(it, before).trigger == trigger
               and is_open(it, before) for it in tokens)


def uses(mount, before):
    """How often a mount was entered, less how often it was left."""
    counts = {"entered": 1, "left": -1}
    return sum(counts.get(it.what, 0) for it in before if it.mounts == (mount,))


def waiters(token, before):
    return [it.walker for it in before if it.what == "waits" and it.token == token]


def all_are_released(token, before, behind):
    """Each walker that waits on the token is in the unbroken row of Released with which what is behind begins."""
    row = set()
    for it in behind:
        if it.what != "released":
            break
        row.add((it.walker, it.token))
    return all((walker, token) in row for walker in waiters(token, before))


def is_closed_right_before(released, before):
    """Behind what closed its token, with this status, stand Released alone; and the token was open before that."""
    at = len(before)
    while at and before[at - 1].what == "released":
        at -= 1
    if not at:
        return False
    cause, earlier = before[at - 1], before[:at - 1]
    answers = cause.what == "answered" and cause.token == released.token and cause.status == released.status
    fails = cause.what == "catatonic" and cause.fs == fs_of(released.token, earlier) and released.status == ["fail"]
    return (answers or fails) and is_open(released.token, earlier)


# ---- The laws: what must hold where an observation stands

def waiters_law(it, before, behind):
    if it.what == "waits":
        yield "waits on an open token", is_open(it.token, before)
    if it.what == "released":
        yield "released by what closed its token", is_closed_right_before(it, before)
        yield "released from what it waits on", it.walker in waiters(it.token, before)
        yield "released once", (it.walker, it.token) not in [
            (other.walker, other.token) for other in before if other.what == "released"]
    if it.what == "answered":
        yield "an answer releases all", all_are_released(it.token, before, behind)
    if it.what == "catatonic":
        tokens = {other.token for other in before if other.what == "queued"}
        yield "catatonic mode releases all", all(
            all_are_released(token, before, behind) for token in tokens
            if fs_of(token, before) == it.fs and is_open(token, before))


def passes_law(it, before, _):
    if it.what == "passed":
        yield "no walk passes an expiring trigger", not is_expiring(it.trigger, before)


def unmounts_law(it, before, _):
    if it.what == "unmounted":
        yield "no mount in use is unmounted", all(uses(mount, before) == 0 for mount in it.mounts)


def packets_law(it, before, _):
    if it.what == "queued":
        yield "queued once", not places("queued", it.token, before)
    if it.what == "delivered":
        yield "delivered from the queue", is_in_queue(it, before)
        yield "delivered once", not places("delivered", it.token, before)
    if it.what == "answered":
        yield "answered while it is open", is_open(it.token, before)
        yield "answered after its delivery", bool(places("delivered", it.token, before))


LAWS = (waiters_law, passes_law, unmounts_law, packets_law)


def breaches(trace):
    """What is unlawful in these observations: each its place, from 1, what stands there, and what it breaks."""
    return [f"observation {at + 1}, {it.what}: {name}" for at, it in enumerate(trace) for law in LAWS
            for name, holds in law(it, trace[:at], trace[at + 1:]) if not holds]


# ---- Short traces, of which each says whether it is lawful

PACKET = "dev 2 ino 1 uid 0 gid 0 pid 7 tgid 7 name home"
#: The words of a short trace: what is seen of walker 7 and token 1, of file system 2, and of mount 5.
WORDS = {
    "queued": f"queued 1 attach 1 missing-indirect {PACKET}",
    "expiring": f"queued 1 attach 1 expire-indirect {PACKET}",
    "delivered": f"delivered 1 attach 1 missing-indirect {PACKET}",
    "delivered-to-2": f"delivered 1 attach 2 missing-indirect {PACKET}",
    "waits": "waits 7 token 1",
    "waits-too": "waits 8 token 1",
    "answered": "answered 1 ready",
    "released": "released 7 token 1 ready",
    "released-too": "released 8 token 1 ready",
    "failed": "released 7 token 1 fail",
    "failed-by-2": "released 7 token 1 fail 2",
    "catatonic": "catatonic 2",
    "passed": "passed 8 fs 2 name home",
    "passed-another": "passed 8 fs 2 name work",
    "entered": "entered 1 mount 5",
    "entered-by-2": "entered 2 mount 5",
    "left": "left 1 mount 5",
    "unmounted": "unmounted 5",
}


def is_judged_well(line):
    """Whether a short trace, behind its word `lawful` or `unlawful`, is judged so."""
    word, *words = line.split()
    return {"lawful": True, "unlawful": False}[word] == (not breaches([seen_in(WORDS[it]) for it in words]))


def short_traces():
    with open(SHORT_TRACES, encoding="utf-8") as file:
        return [line.strip() for line in file if line.strip() and not line.startswith("#")]


def judge_short_traces():
    wrong = [it for it in short_traces() if not is_judged_well(it)]
    for line in wrong:
        print(f"failed: {SHORT_TRACES}: not as it says: {line}")
    print(f"{len(short_traces()) - len(wrong)} passed, {len(wrong)} failed")
    return not wrong


def judge(path):
    try:
        with open(path, encoding="utf-8", errors="surrogateescape") as file:
            found = breaches(observations(file.read()))
    except OSError as error:
        print(f"laws: {path}: expected a trace that can be read: {error.strerror}", file=sys.stderr)
        sys.exit(2)
    for breach in found:
        print(f"{path}: {breach}")
    return not found


def main(words):
    if words[:1] in (["--help"], ["-h"]):
        print(__doc__.strip())
        return True
    if words:
        return all([judge(it) for it in words])
    os.chdir(os.path.dirname(os.path.abspath(__file__)) + "/..")
    return judge_short_traces()


if __name__ == "__main__":
    sys.exit(0 if main(sys.argv[1:]) else 1)
