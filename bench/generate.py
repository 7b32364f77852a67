#!/usr/bin/env python3
"""Writes a script of so many keys, lines or copies, or the answers that it must get.

usage: generate.py one-by-one|all-first KEYS script|answers
       generate.py map|master LINES script|answers
       generate.py namespaces|peers N script|answers
       generate.py expiries|walks|mounts|families|lives|copies|masters|attachments|jobs|crowd N script|answers

Key I is walked to by walker I, which waits on token I. Of a long map, or of a long master map with
a map for each of its lines, the last line is attached, walked to and begun to be served, so that
the answers tell whether it was read. With N namespaces beside the first, or with N peers of a
mount, TIMES mounts are made, each with N copies. Where N keys stand, they are asked to expire, or
walked to; N times a mount with TIMES copies comes and goes; on N peers that have STOOD mounts each
TIMES mounts come and go with N copies each; one key lives N times from its walk to its expiry; a namespace of N mounts is copied and dropped; where N mounts are shared, N times one more
gives up its peer group, which has a slave; where N autofs file systems are attached, a key of each is
served; N keys are delivered before the first of them is served; and N walkers are inside of one mount at
once, before they leave. The same arguments give the same bytes.
"""

import sys

SHAPES = ("one-by-one", "all-first")
HEADS = ("map", "master")
COPIES = ("namespaces", "peers")
STANDING = ("expiries", "walks")
LIVES = STANDING + ("mounts", "families", "lives", "copies", "masters", "attachments", "jobs", "crowd")
# So many mounts come with copies, whatever N is.
TIMES = 10
# So many mounts stand on each peer.
STOOD = 32
# By default no mount has a greater number.
MOST_MOUNTS = 1000000


def head(shape, keys):
    if shape in COPIES and copied(shape, keys, TIMES) + keys > MOST_MOUNTS:
        yield f"limits {copied(shape, keys, TIMES) + keys} 1024 4294967295"
    if shape == "families" and copied("peers", keys, STOOD + TIMES) + keys > MOST_MOUNTS:
        yield f"limits {copied('peers', keys, STOOD + TIMES) + keys} 1024 4294967295"
    # By default 1024 walkers may wait at once.
    if shape in ("all-first", "jobs") and keys > 1024:
        yield f"limits {MOST_MOUNTS} {keys} 4294967295"
    if shape in ("mounts", "copies"):
        most = keys * (TIMES + 1) + TIMES + 2
        if most > MOST_MOUNTS:
            yield f"limits {most} 1024 4294967295"
    if shape in ("peers", "mounts", "families", "copies", "masters"):
        yield "events"
    elif shape == "attachments":
        yield from long_master(keys)
    else:
        yield from one_map({"namespaces": TIMES, "lives": 1, "crowd": 1}.get(shape, keys), "")


def one_map(lines, options):
    """A master map of one line, its map of so many lines with these options, and `events`."""
    yield "master"
    yield "/auto auto.keys --timeout=10"
    yield "end"
    yield "map auto.keys"
    for i in range(1, lines + 1):
        yield f"{name(i)} {options}server:/export/{name(i)}"
    yield "end"
    yield "events"


def name(i):
    return f"key{i:06d}"


def attach():
    yield "attach /auto", "fs 2 attach 1 mount 2"


def walk(i, ns=0):
    yield f"walk {i} {ns} /auto/{name(i)} 100 room", f"wait {i}"


def serve(i, mount, arrives, walker=None, key=None, fs=2):
    """The daemon serves token I by job I, which makes this mount, and walker I arrives in that one."""
    walker, key = walker or i, key or name(i)
    yield f"deliver {i}", f"job {i}"
    yield from work(i, mount, arrives, walker, key, fs)


def work(i, mount, arrives, walker, key, fs=2):
    """The same without the delivery."""
    yield f"act {i} ok", "did mkdir"
    yield f"act {i} ok", f"did mount {mount}"
    yield f"act {i} ok", "did record"
    yield f"act {i} ok", "did reply"
    yield f"record {fs} {key}", f"record mounted {mount}"
    yield f"resume {walker} 101 room", f"at {arrives} /"


def gone(first, count):
    return "gone " + " ".join(str(it) for it in range(first, first + count))


def ends(i, walker):
    """The daemon serves token I, of an expiry that this walker asks for, and the mount goes."""
    yield f"expire {walker} 2 101 immediate room", f"wait {i}"
    yield f"deliver {i}", f"job {i}"
    yield f"act {i} ok", "did umount"
    yield f"act {i} ok", "did rmdir"
    yield f"act {i} ok", "did record"
    yield f"act {i} ok", "did reply"
    yield f"resume {walker} 101 room", "expired"


def copied(shape, n, i):
    """The number of the mount that is the Ith with N copies, which have the numbers behind it."""
    # Each namespace has two mounts before; or there are the root, a mount, and N binds of it.
    before = 2 * (n + 1) if shape == "namespaces" else n + 2
    return before + (i - 1) * (n + 1) + 1


def first_events(shape, n):
    """Each event that comes before those that are measured, with its answer."""
    if shape == "namespaces":
        yield "change 0 / shared", "ok"
        yield from attach()
        for ns in range(1, n + 1):
            yield "nscopy 0", f"ns {ns}"
    elif shape == "peers":
        yield "mount 0 /a", "mount 2"
        yield "change 0 /a shared", "ok"
        for i in range(1, n + 1):
            yield f"bind 0 /a /b{i}", f"mount {i + 2}"
    elif shape == "mounts":
        yield from first_events("peers", TIMES)
    elif shape == "families":
        yield from first_events("peers", n)
        for i in range(1, STOOD + 1):
            yield f"mount 0 /a/x{i}", f"mount {copied('peers', n, i)}"
    elif shape == "copies":
        for i in range(1, n + 1):
            yield f"mount 0 /{name(i)}", f"mount {i + 1}"
    elif shape == "masters":
        for i in range(1, n + 2):
            yield f"mount 0 /{name(i)}", f"mount {i + 1}"
            yield f"change 0 /{name(i)} shared", "ok"
    elif shape == "attachments":
        for i in range(1, n + 1):
            yield f"attach /auto/{name(i)}", f"fs {i + 1} attach {i} mount {i + 1}"
    else:
        yield from attach()
        if shape in STANDING:
            yield from events("one-by-one", n)
        elif shape == "jobs":
            for i in range(1, n + 1):
                yield from walk(i)


def events(shape, keys):
    """Each event that is measured, with its answer."""
    if shape == "namespaces":
        # The mount at the daemon's is in namespace 0, and its Jth copy in namespace J.
        for i in range(1, TIMES + 1):
            ns = i % (keys + 1)
            mount = copied(shape, keys, i)
            yield from walk(i, ns)
            yield from serve(i, mount, mount + ns)
    elif shape == "peers":
        for i in range(1, TIMES + 1):
            yield f"mount 0 /a/x{i}", f"mount {copied(shape, keys, i)}"
    elif shape == "expiries":
        for _ in range(keys):
            yield f"expire {keys + 1} 2 105 idle room", "err 6"
    elif shape == "walks":
        for i in range(1, keys + 1):
            yield f"leave {i}", "ok"
            yield f"walk {i} 0 /auto/{name(i)} 102 room", f"at {i + 2} /"
    elif shape == "mounts":
        for i in range(1, keys + 1):
            mount = copied("peers", TIMES, i)
            yield "mount 0 /a/x", f"mount {mount}"
            yield "umount 0 /a/x", gone(mount, TIMES + 1)
    elif shape == "families":
        for i in range(STOOD + 1, STOOD + TIMES + 1):
            mount = copied("peers", keys, i)
            yield "mount 0 /a/y", f"mount {mount}"
            yield "umount 0 /a/y", gone(mount, keys + 1)
    elif shape == "lives":
        for i in range(1, keys + 1):
            yield f"walk 1 0 /auto/{name(1)} 100 room", f"wait {2 * i - 1}"
            yield from serve(2 * i - 1, i + 2, i + 2, walker=1, key=name(1))
            yield "leave 1", "ok"
            yield from ends(2 * i, 1)
    elif shape == "copies":
        for i in range(1, TIMES + 1):
            yield "nscopy 0", f"ns {i}"
            yield f"nsdrop {i}", gone(i * (keys + 1) + 1, keys + 1)
    elif shape == "masters":
        # The slave of the group that goes is one of the last mount's then.
        for i in range(1, keys + 1):
            mount = keys + 2 * i + 1
            yield f"bind 0 /{name(keys + 1)} /b", f"mount {mount}"
            yield "change 0 /b slave", "ok"
            yield "change 0 /b shared", "ok"
            yield "bind 0 /b /c", f"mount {mount + 1}"
            yield "change 0 /c slave", "ok"
            yield "change 0 /b private", "ok"
            yield "umount 0 /c", gone(mount + 1, 1)
            yield "umount 0 /b", gone(mount, 1)
    elif shape == "attachments":
        for i in range(1, keys + 1):
            yield f"walk {i} 0 /auto/{name(i)}/home 100 room", f"wait {i}"
            yield from serve(i, keys + i + 1, keys + i + 1, key="home", fs=i + 1)
    elif shape == "jobs":
        for i in range(1, keys + 1):
            yield f"deliver {i}", f"job {i}"
        for i in range(1, keys + 1):
            yield from work(i, i + 2, i + 2, i, name(i))
    elif shape == "crowd":
        yield from walk(1)
        yield from serve(1, 3, 3)
        for i in range(2, keys + 1):
            yield f"walk {i} 0 /auto/{name(1)} 102 room", "at 3 /"
        for i in range(1, keys + 1):
            yield f"leave {i}", "ok"
    elif shape == "one-by-one":
        for i in range(1, keys + 1):
            yield from walk(i)
            yield from serve(i, i + 2, i + 2)
    else:
        for i in range(1, keys + 1):
            yield from walk(i)
        for i in range(1, keys + 1):
            yield from serve(i, i + 2, i + 2)


def long_master(lines):
    """A master map of so many lines, a map for each, and `events`."""
    yield "master"
    for i in range(1, lines + 1):
        yield f"/auto/{name(i)} file:auto.{name(i)} --timeout 10"
    yield "end"
    for i in range(1, lines + 1):
        yield f"map auto.{name(i)}"
        yield f"home -fstype=nfs server:/export/{name(i)}"
        yield "end"
    yield "events"


def last_line(shape, lines):
    """Each event with its answer."""
    point = "/auto" if shape == "map" else f"/auto/{name(lines)}"
    key = name(lines) if shape == "map" else "home"
    yield f"attach {point}", "fs 2 attach 1 mount 2"
    yield f"walk 1 0 {point}/{key} 100 room", "wait 1"
    yield "deliver 1", "job 1"
    yield "act 1 ok", "did mkdir"


def played(shape, keys):
    """Each event with its answer."""
    if shape in HEADS:
        yield from last_line(shape, keys)
    else:
        yield from first_events(shape, keys)
        yield from events(shape, keys)


def script_of(shape, keys, pairs):
    """The script that plays these events."""
    if shape in HEADS:
        yield from one_map(keys, "-fstype=nfs ") if shape == "map" else long_master(keys)
    else:
        yield from head(shape, keys)
    for event, _ in pairs:
        yield event


def answers_of(pairs):
    for _, answer in pairs:
        yield answer


def script(shape, keys):
    yield from script_of(shape, keys, played(shape, keys))


def answers(shape, keys):
    yield from answers_of(played(shape, keys))


def text(lines):
    return "".join(line + "\n" for line in lines).encode("ascii")


def main(words):
    if len(words) != 3 or words[0] not in SHAPES + HEADS + COPIES + LIVES or not words[1].isdigit() \
            or words[2] not in ("script", "answers"):
        print("generate: expected a shape, a number, and script or answers", file=sys.stderr)
        sys.exit(2)
    tell = script if words[2] == "script" else answers
    sys.stdout.buffer.write(text(tell(words[0], int(words[1]))))


if __name__ == "__main__":
    main(sys.argv[1:])
