#!/usr/bin/env python3
"""Plays scripts on the running kernel, and compares what it does with the model, event by event.

usage: tools/linux/live.py SCRIPT..
       tools/linux/live.py --random N [--seed S] [--scheduler ADDRESS]

Given N, it makes so many scripts, of S and the numbers behind it, and plays them; of one with a difference that isn't
told it writes the shortest that still has it, to untold-SEED.script. What the scripts don't have: expiries by time, a
full pipe, timeouts, and acts of an attachment that has ended. With a scheduler of dask each is played by a command on
one of its workers (tools/spread.py), which is to be root, on a kernel of its own, and needs this repository at the same
path; `--random 1 --seed SEED` then makes the shortest here.

For each event it prints a line: the event, the model's answer, and the kernel's. Behind each event the mounts
of all namespaces are compared too: who is mounted where, on what, of which file system, in which peer group
and below which master; only the numbers may differ. A script ends at its first difference: where LINUX.md
tells of it (told.txt beside this file has its name and the words of its row), it is told, and the rest of the
script isn't compared. A script with a line `# shows: NAME` is to show the departure of that name, and an example that of the row of
LINUX.md that names it, or none; another one is a difference.

Each script is played in mount namespaces of its own, which begin with one mount, a tmpfs. An autofs is mounted
with a pipe to a daemon; each namespace and each walker is a process. The daemon's half is the model's: it says
which act comes next, and the kernel has to take it. Nothing outside is touched, and nothing is left behind:
the namespaces end with their processes, which end with this one.

It needs root and autofs. Status 0: alike, but for what is told; 1: a difference that isn't told; 2: it can't run
here, or was given other words, or a script that has a fault; 130 and 143: it was ended by SIGINT or SIGTERM. What it
can't play, and says so: expiries by time (`idle`).

Tokens are compared by their order: the kernel counts those of all file systems, also of others that are in use
meanwhile.
"""

import array
import contextlib
import ctypes
import errno
import fcntl
import json
import os
import random
import re
import select
import signal
import socket
import stat
import struct
import subprocess
import sys
import tempfile
import time

HERE = os.path.dirname(os.path.abspath(__file__))
TOP = f"{HERE}/../.."
sys.path.insert(0, f"{HERE}/..")
import spread  # pylint: disable=wrong-import-position

# How long a process may take to come to rest, and how long it must stand still, in seconds.
PATIENCE, STILL = 120.0, 0.04
# The numbers of FORMATS.md.
ERRORS = {errno.ENOENT: 1, errno.EPERM: 2, errno.EBUSY: 3, errno.EEXIST: 4, errno.EINVAL: 5, errno.EAGAIN: 6, errno.ELOOP: 7,
          errno.ENAMETOOLONG: 8, errno.ENOSPC: 9}
NUMBERS = {number: code for code, number in ERRORS.items()}


def number_of(code):
    """The number of an error in FORMATS.md, or its name where it has none."""
    return ERRORS.get(code) or errno.errorcode.get(code, code)


# mount(2)
MS_BIND, MS_REC, MS_UNBINDABLE, MS_PRIVATE, MS_SLAVE, MS_SHARED = 4096, 16384, 1 << 17, 1 << 18, 1 << 19, 1 << 20
KINDS = {"unbindable": MS_UNBINDABLE, "private": MS_PRIVATE, "slave": MS_SLAVE, "shared": MS_SHARED}
CLONE_NEWUSER, CLONE_NEWNS, MNT_DETACH, PR_SET_PDEATHSIG, TMPFS = 0x10000000, 0x20000, 2, 1, 0x01021994
PR_SET_CHILD_SUBREAPER = 36
# auto_fs.h and auto_dev-ioctl.h
READY, FAIL, CATATONIC, SETTIMEOUT, EXPIRE_MULTI = 0x9360, 0x9361, 0x9362, 0xC0089364, 0x40049366
DEV_FAIL, DEV_SETPIPEFD, DEV_OPENMOUNT = 0xC0189377, 0xC0189378, 0xC0189374
PACKET = struct.Struct("<iiIIQIIIII256s")
PACKET_SIZE = 304
LIBC = ctypes.CDLL(None, use_errno=True)


def call(name, *words):
    words = [it.encode() if isinstance(it, str) else it for it in words]
    if getattr(LIBC, name)(*words) < 0:
        code = ctypes.get_errno()
        raise OSError(code, os.strerror(code))


def mount(source, path, kind=None, flags=0, data=None):
    call("mount", source, path, kind, ctypes.c_ulong(flags), data)


# The processes inside: each does one thing at a time, as it is told over its socket

class Agent:
    """A process in a namespace of a play, as it runs there."""

    def __init__(self, channel):
        self.channel, self.held = channel, {}

    def serve(self):
        LIBC.prctl(PR_SET_PDEATHSIG, signal.SIGKILL, 0, 0, 0)
        while True:
            said, fds, _, _ = socket.recv_fds(self.channel, 65536, 4)
            if not said:
                os._exit(0)
            order = json.loads(said)
            self.fds = list(fds)
            try:
                given = getattr(self, "do_" + order.pop("do"))(**order)
                self.say(ok=given)
            except Said:
                pass
            except OSError as error:
                self.say(errno=error.errno)

    def say(self, fds=(), **words):
        socket.send_fds(self.channel, [json.dumps(words).encode()], list(fds))

    def do_fork(self, group):
        """Starts another process in this namespace, at the socket that came with the order."""
        other = socket.socket(fileno=self.fds[0])
        pid = os.fork()
        if pid:
            other.close()
            return pid
        if group:
            os.setpgid(0, 0)
        self.channel.close()
        self.run(other, self.held)
        return None

    @classmethod
    def run(cls, channel, held):
        agent = cls(channel)
        agent.held = held
        try:
            agent.serve()
        finally:
            os._exit(1)

    def do_begin(self):
        """Goes into a namespace that has one mount."""
        self.held["dev"] = os.open("/dev/autofs", os.O_RDONLY)
        call("unshare", CLONE_NEWNS)
        mount("none", "/", None, MS_REC | MS_PRIVATE)
        place = "/tmp"
        mount("plain", place, "tmpfs")
        os.chdir(place)
        os.mkdir("old")
        LIBC.syscall(155, b".", b"old")
        os.chdir("/")
        call("umount2", "/old", MNT_DETACH)
        os.rmdir("/old")
        os.umask(0)

    def do_copy(self):
        call("unshare", CLONE_NEWNS)

    def do_copy_reduced(self):
        """Copies the namespace as a less privileged one: that of another user namespace."""
        call("unshare", CLONE_NEWUSER | CLONE_NEWNS)

    def do_copy_of_others(self):
        """Copies the namespace as one of those who have it: of the user namespace that came with the order."""
        call("setns", self.fds[0], CLONE_NEWUSER)
        call("unshare", CLONE_NEWNS)

    def do_enter(self):
        call("setns", self.fds[0], CLONE_NEWNS)

    def do_mount(self, path):
        self.make(path)
        mount("plain", path, "tmpfs")

    def do_mount_plain(self, path):
        mount("plain", path, "tmpfs")

    def do_bind(self, source, path):
        self.make(source)
        self.make(path)
        mount(source, path, None, MS_BIND)

    def do_umount(self, path):
        self.make(path)
        call("umount2", path, 0)

    def do_change(self, path, kind):
        self.make(path)
        mount("none", path, None, KINDS[kind])

    def make(self, path):
        """Makes the directories of a path, on plain file systems alone: there each name is a directory."""
        folder = os.open("/", os.O_PATH | os.O_DIRECTORY)
        for name in path.strip("/").split("/") if path.strip("/") else ():
            folder = step(folder, name, False)
        os.close(folder)

    def do_attach(self, path, is_direct):
        """Mounts an autofs, and gives the reading end of its pipe."""
        self.make(path)
        reader, writer = os.pipe()
        kind = "direct" if is_direct else "indirect"
        mount("automount", path, "autofs", 0, f"fd={writer},pgrp={os.getpgrp()},minproto=5,maxproto=5,{kind}")
        os.close(writer)
        self.do_open(path)
        self.say(fds=[reader], ok=os.stat(self.held[path]).st_dev)
        os.close(reader)
        raise Said

    def do_open(self, path):
        self.held[path] = os.open(path, os.O_RDONLY | os.O_DIRECTORY)

    def do_reattach(self, path, device):
        """Attaches again, as a new daemon does that finds its autofs mounted."""
        order = struct.pack("<IIIiII", 1, 0, 24 + len(path) + 1, -1, device, 0) + path.encode() + b"\0"
        buffer = array.array("B", order)
        fcntl.ioctl(self.held["dev"], DEV_OPENMOUNT, buffer, True)
        opened = struct.unpack_from("<i", buffer, 12)[0]
        reader, writer = os.pipe()
        order = struct.pack("<IIIiii", 1, 0, 24, opened, writer, 0)
        fcntl.ioctl(self.held["dev"], DEV_SETPIPEFD, array.array("B", order), True)
        os.close(writer)
        self.held[path] = opened
        self.say(fds=[reader], ok=0)
        os.close(reader)
        raise Said

    def do_answer(self, path, token, failure):
        if failure is None:
            fcntl.ioctl(self.held[path], READY, token)
        elif failure == errno.ENOENT:
            fcntl.ioctl(self.held[path], FAIL, token)
        else:
            order = struct.pack("<IIIiIi", 1, 0, 24, self.held[path], token, -failure)
            fcntl.ioctl(self.held["dev"], DEV_FAIL, array.array("B", order), True)

    def do_catatonic(self, path):
        fcntl.ioctl(self.held[path], CATATONIC, 0)

    def do_timeout(self, path, seconds):
        fcntl.ioctl(self.held[path], SETTIMEOUT, array.array("L", [seconds]), True)

    def do_expire(self, path):
        """Asks for an immediate expiry, and waits for its end."""
        self.say(begun=True)
        fcntl.ioctl(self.held[path], EXPIRE_MULTI, struct.pack("<i", 1))

    def do_mkdir(self, path):
        os.mkdir(path)

    def do_rmdir(self, path):
        os.rmdir(path)

    def do_walk(self, path):
        """Walks along a path, name by name, and says before each where it stands."""
        folder = os.open("/", os.O_PATH | os.O_DIRECTORY)
        names = path.strip("/").split("/") if path.strip("/") else []
        for at, name in enumerate(names):
            self.say(at=at, dev=os.stat(folder).st_dev)
            folder = step(folder, name, True)
        if not names:
            self.say(at=0, dev=0)
        self.held["walk"] = folder
        return folder

    def do_leave(self):
        os.close(self.held.pop("walk"))


class Said(Exception):
    """An order that has been answered already."""


def statfs_type(fd):
    buffer = (ctypes.c_long * 32)()
    LIBC.fstatfs(fd, buffer)
    return buffer[0]


def step(folder, name, follows):
    """Goes from an open directory to one in it. On a plain file system each name is a directory: it is made first, as
    another walker may do too. What is there already, a trigger too, is left alone by that, and met when it is opened."""
    if statfs_type(folder) == TMPFS:
        with contextlib.suppress(FileExistsError):
            os.mkdir(name, dir_fd=folder)
    found = os.open(name, os.O_RDONLY | os.O_DIRECTORY if follows else os.O_PATH, dir_fd=folder)
    os.close(folder)
    return found


# The play outside

class Silence(Exception):
    """A process that doesn't come to rest."""


class Unfit(Exception):
    """A script that can't be played anywhere."""


class Remote:
    """An agent, from outside."""

    def __init__(self, channel, pid):
        self.channel, self.pid, self.said, self.ended = channel, pid, [], None

    def ask(self, **order):
        """Has it do something that can't wait, and gives what came of it: an OSError where it is refused."""
        fds = order.pop("fds", ())
        try:
            socket.send_fds(self.channel, [json.dumps(order).encode()], list(fds))
        except BrokenPipeError as error:
            raise Silence(f"process {self.pid} has ended") from error
        while True:
            if not select.select([self.channel], [], [], PATIENCE)[0]:
                raise Silence(f"{order}: process {self.pid} stands in {waits_in(self.pid)}")
            said, fds = self.hear()
            if "ok" in said:
                return (said["ok"], *fds) if fds else said["ok"]
            if "errno" in said:
                raise OSError(said["errno"], os.strerror(said["errno"]))

    def begin(self, **order):
        """Has it begin something that may wait."""
        self.said, self.ended = [], None
        socket.send_fds(self.channel, [json.dumps(order).encode()], [])

    def hear(self):
        said, fds, _, _ = socket.recv_fds(self.channel, 65536, 4)
        if not said:
            raise Silence(f"process {self.pid} has ended")
        return json.loads(said), list(fds)

    def rest(self):
        """Waits until it has ended what it does, or stands still in autofs, or before a full pipe."""
        begin, still = time.time(), None
        while self.ended is None:
            if select.select([self.channel], [], [], 0.005)[0]:
                said, _ = self.hear()
                if "ok" in said or "errno" in said:
                    self.ended = said
                else:
                    self.said.append(said)
                still = None
                continue
            waits = re.search("autofs|pipe_write", waits_in(self.pid)) and state_of(self.pid) in "SD"
            still = (still or time.time()) if waits else None
            if still and time.time() - still > STILL:
                return
            if time.time() - begin > PATIENCE:
                raise Silence(f"process {self.pid} stands in {waits_in(self.pid)}")

    def kill(self):
        """Ends it, and waits until what it had is given back."""
        try:
            os.kill(self.pid, signal.SIGKILL)
        except ProcessLookupError:
            pass
        self.channel.close()
        begin = time.time()
        while state_of(self.pid) not in "?ZX" and time.time() - begin < PATIENCE:
            time.sleep(0.005)


def text_of(path):
    try:
        with open(path, encoding="utf-8", errors="surrogateescape") as file:
            return file.read()
    except OSError:
        return ""


def waits_in(pid):
    return text_of(f"/proc/{pid}/wchan")


def namespace_of(pid):
    return os.readlink(f"/proc/{pid}/ns/mnt")


def state_of(pid):
    return (text_of(f"/proc/{pid}/stat").rpartition(")")[2].split() or "?")[0]


def forked(parent, group=False):
    """A new agent, forked from another one in its namespace."""
    ours, theirs = socket.socketpair(socket.AF_UNIX, socket.SOCK_SEQPACKET)
    pid = parent.ask(do="fork", group=group, fds=[theirs.fileno()])
    theirs.close()
    return Remote(ours, pid)


def first_agent():
    ours, theirs = socket.socketpair(socket.AF_UNIX, socket.SOCK_SEQPACKET)
    pid = os.fork()
    if pid == 0:
        ours.close()
        os.setpgid(0, 0)
        Agent.run(theirs, {})
    theirs.close()
    return Remote(ours, pid)


# What the model says

def head_of(script):
    """The lines of a script's head, with the line `events`."""
    found, inside = [], False
    for line in script.splitlines():
        found.append(line)
        words = line.split()
        if inside:
            inside = line != "end"
        elif words == ["events"]:
            return found
        else:
            inside = words[:1] in (["master"], ["map"])
    raise Unfit("it has no events")


class Model:
    """The program's answers, observations and worlds of a script."""

    def __init__(self, program, path):
        self.program = program
        self.script = text_of(path)
        self.head = head_of(self.script)
        self.kept = {}
        self.events, self.answers, self.seen, self.lines = [], [], [], []
        for line in self.run("trace", self.script).splitlines():
            if line.startswith("= "):
                self.answers.append(line[2:].rpartition(" : ")[0])
            elif line.startswith("  "):
                self.seen[-1].append(line.strip())
            else:
                number, _, event = line.partition(": ")
                self.lines.append(int(number))
                self.events.append(event)
                self.seen.append([])

    def run(self, command, text):
        ran = subprocess.run([self.program, command], input=text, capture_output=True, text=True, errors="surrogateescape", check=False)
        if ran.returncode:
            raise Unfit(ran.stderr.strip())
        return ran.stdout

    def world(self, count):
        return self.run("world", "\n".join([*self.head, *self.events[:count]]) + "\n")

    def mounts(self, count):
        """A world's text in which the mounts are right: that behind the last event that touched some."""
        while count and not self.events[count - 1].startswith("change ") and not any("mounted " in it for it in self.seen[count - 1]):
            count -= 1
        if count not in self.kept:
            self.kept = {count: self.world(count)}
        return self.kept[count]

    def is_direct(self, path):
        """Whether an autofs at this path is of a direct map: then the master has no line for it."""
        inside, points = False, []
        for line in self.head:
            inside = line != "end" and (inside or line.split() == ["master"])
            points += line.split()[:1] * inside
        return path not in ["/" + "/".join(filter(None, it.split("/"))) for it in points]


class Row:
    """A mount: of a line of mountinfo."""

    def __init__(self, fields):
        self.number, self.parent, self.fs, self.place = int(fields[0]), int(fields[1]), fields[2], fields[4]
        options = fields[6:fields.index("-")]
        self.kind = fields[fields.index("-") + 1]
        found = dict(it.split(":") for it in options if ":" in it)
        self.group, self.master, self.is_unbindable = found.get("shared"), found.get("master"), "unbindable" in options

    def state(self):
        if self.is_unbindable:
            return "unbindable"
        if self.group:
            return "shared-slave" if self.master else "shared"
        return "slave" if self.master else "private"


def rows_of(text):
    return [Row(it.split(" ")) for it in text.splitlines() if it and not it.startswith("#")]


def namespaces_of(world):
    """The rows of each namespace of a world's text."""
    found, number = {}, None
    for line in world.splitlines():
        head = re.fullmatch(r"# namespace (\d+)", line)
        if head:
            number = int(head[1])
            found[number] = []
        elif line and not line.startswith("#"):
            found[number].append(Row(line.split(" ")))
    return found


class Pairs:
    """Names of the model beside those of the kernel: one to one."""

    def __init__(self):
        self.ours, self.theirs = {}, {}

    def fit(self, ours, theirs):
        if (ours is None) != (theirs is None):
            return False
        if ours is None:
            return True
        return self.ours.setdefault(ours, theirs) == theirs and self.theirs.setdefault(theirs, ours) == ours


class Tables:
    """The mounts of the model beside those of the kernel, after an event."""

    def __init__(self, world, keepers):
        self.numbers, self.systems, self.groups = Pairs(), Pairs(), Pairs()
        self.rows, self.why = {}, None
        model = namespaces_of(world)
        if set(model) != set(keepers):
            self.why = f"namespaces {sorted(model)}, and on the kernel {sorted(keepers)}"
        for number, ours in model.items():
            self.rows[number] = theirs = rows_of(text_of(f"/proc/{keepers[number].pid}/mountinfo")) if number in keepers else []
            self.why = self.why or self.compare(number, ours, theirs)

    def compare(self, number, ours, theirs):
        known = {it.number for it in theirs}
        below = lambda rows, parent: {it.place: it for it in rows if it.parent == parent and it.number != parent}
        roots = [it for it in ours if it.number == it.parent], [it for it in theirs if it.parent not in known or it.parent == it.number]
        if len(roots[1]) != 1:
            return f"namespace {number}: {len(roots[1])} roots on the kernel"
        left, count = [(roots[0][0], roots[1][0])], 0
        while left:
            one, other = left.pop()
            count += 1
            why = self.differ(one, other)
            if why:
                return f"namespace {number}, mount {one.number} at {one.place}: {why}"
            mine, its = below(ours, one.number), below(theirs, other.number)
            if set(mine) != set(its):
                places = sorted(set(mine) ^ set(its))
                return f"namespace {number}, on mount {one.number}: {', '.join(places)} only {'in the model' if places[0] in mine else 'on the kernel'}"
            left += [(mine[it], its[it]) for it in mine]
        return None if count == len(theirs) else f"namespace {number}: {count} mounts, and on the kernel {len(theirs)}"

    def differ(self, one, other):
        if not self.numbers.fit(one.number, other.number):
            return "it is another one on the kernel"
        if ("autofs" == one.kind) != ("autofs" == other.kind) or not self.systems.fit(one.fs, other.fs):
            return f"its file system is {one.kind} {one.fs}, and on the kernel {other.kind} {other.fs}"
        if one.is_unbindable != other.is_unbindable or not self.groups.fit(one.group, other.group) or not self.groups.fit(one.master, other.master):
            return f"it is {one.state()}, and on the kernel {other.state()}, or in another group"
        return None


# A script

class Walk:
    def __init__(self, remote, namespace, path):
        self.remote, self.namespace, self.path, self.is_inside = remote, namespace, path, False


class Play:
    """A script on the running kernel."""

    def __init__(self, model):
        self.model = model
        root = first_agent()
        self.agents, self.keepers = [root], {0: root}
        # Of each namespace that less privileged ones have their user namespace.
        self.users = {}
        root.ask(do="begin")
        self.daemon = self.start(root)
        self.systems, self.readers, self.packets, self.open = {}, {}, [], {}
        self.walks, self.expiries, self.names = {}, {}, {}
        # Of each token of the model that of the kernel, and how many events were played.
        self.tokens, self.played = {}, 0
        # Of each token what was read of its packet; and the mounts behind the last event.
        self.contents, self.tables = {}, None

    def start(self, source, group=False):
        """A new process where another one is. None but the first and the daemon has children, so that it can end alone."""
        root = self.agents[0]
        found = forked(source if source in self.agents[:2] else root, group)
        self.agents.append(found)
        if namespace_of(source.pid) != namespace_of(root.pid):
            place = os.open(f"/proc/{source.pid}/ns/mnt", os.O_RDONLY)
            found.ask(do="enter", fds=[place])
            os.close(place)
        return found

    def end(self):
        for it in reversed(self.agents):
            it.kill()
        for fd in [*self.readers.values(), *self.users.values()]:
            os.close(fd)
        # Whoever has begun another one stands before it, and by its end the other is this one's child.
        for it in self.agents:
            try:
                os.waitpid(it.pid, 0)
            except ChildProcessError:
                pass

    # tokens

    def take_packets(self):
        """Takes what the kernel has written to the pipes, in the order of tokens."""
        found = []
        for fd in self.readers.values():
            while select.select([fd], [], [], 0)[0]:
                data = os.read(fd, PACKET_SIZE)
                if len(data) < PACKET_SIZE:
                    break
                _, kind, token, dev, *others, size, name = PACKET.unpack(data[:PACKET.size])
                found.append((token, kind, dev, name[:size].decode(errors="surrogateescape"), others))
        for token, kind, dev, name, others in sorted(found):
            number = self.numbered(token)
            self.packets.append(number)
            self.contents[number] = (kind, dev, name, *others)
            self.names[number] = name if kind in (3, 4) else None
            # A direct trigger is its file system's root, whatever the name in its packet is.
            self.open[dev, name if kind in (3, 4) else None] = number

    def fill(self):
        """Fills the pipes, and gives how many bytes each has."""
        filled = {}
        for number, fd in self.readers.items():
            writer = os.open(f"/proc/self/fd/{fd}", os.O_WRONLY | os.O_NONBLOCK)
            filled[number] = 0
            try:
                while True:
                    filled[number] += os.write(writer, b"\xff" * 4096)
            except BlockingIOError:
                os.close(writer)
        return filled

    def drain(self, filled):
        for number, size in filled.items():
            while size > 0:
                size -= len(os.read(self.readers[number], min(size, 4096)))

    def numbered(self, token):
        """The model's number of a token that the kernel tells: the next that it has, or one that it hasn't."""
        last = max(self.tokens, default=0)
        queued = [int(it.split(" ")[1]) for seen in self.model.seen[:self.played] for it in seen if it.startswith("queued ")]
        number = min((it for it in queued if it > last), default=max([last, *queued]) + 1)
        self.tokens[number] = token
        return number

    def token_of(self, dev, name):
        return self.open.get((dev, name)) or self.open.get((dev, None))

    # events

    def play(self, at):
        """Plays an event, and gives the kernel's answer."""
        self.played = at + 1
        words = self.model.events[at].split(" ")
        filled = self.fill() if words[-1] == "full" else {}
        answer = getattr(self, "on_" + words[0])(at, *words[1:])
        self.drain(filled)
        self.take_packets()
        return answer

    def tried(self, agent, **order):
        """The answer of what an administrator or the daemon does: the model's, where it is done."""
        try:
            agent.ask(**order)
        except OSError as error:
            return f"err {number_of(error.errno)}"
        return None

    def done_as(self, at, refused):
        """The model's answer where the kernel has done what it has, else the refusal."""
        said = self.model.answers[at]
        if refused:
            return refused
        return said if not said.startswith("err") else "done"

    def administers(self, at, namespace, **order):
        keeper = self.keepers.get(int(namespace))
        return self.done_as(at, self.tried(keeper, **order) if keeper else "err 1")

    def on_attach(self, at, path):
        said = self.model.answers[at]
        if said.startswith("err"):
            return said
        dev, reader = self.daemon.ask(do="attach", path=path, is_direct=self.model.is_direct(path))
        number = int(said.split()[1])
        # Packets have the kernel's own form of a device number, and so has a stat of small ones.
        self.systems[number] = {"path": path, "dev": dev, "is_direct": self.model.is_direct(path)}
        self.readers[number] = reader
        return said

    def on_mount(self, at, namespace, path):
        return self.administers(at, namespace, do="mount", path=path)

    def on_bind(self, at, namespace, source, path):
        return self.administers(at, namespace, do="bind", source=source, path=path)

    def on_umount(self, at, namespace, path):
        return self.administers(at, namespace, do="umount", path=path)

    def on_change(self, at, namespace, path, kind):
        return self.administers(at, namespace, do="change", path=path, kind=kind)

    def on_kind(self, at, namespace, path):
        if int(namespace) not in self.keepers:
            return "err 1"
        rows = self.rows_at(int(namespace), path)
        if rows:
            return f"kind {rows[-1].state()}"
        # The kernel's own call wants the root of a mount too.
        return self.tried(self.keepers[int(namespace)], do="change", path=path, kind="private")

    def rows_at(self, namespace, path):
        rows = rows_of(text_of(f"/proc/{self.keepers[namespace].pid}/mountinfo"))
        return [it for it in rows if it.place == path]

    def on_nscopy(self, at, namespace, form="full"):
        if int(namespace) not in self.keepers:
            return "err 1"
        said, source, users = self.model.answers[at], int(namespace), None
        keeper = self.start(self.keepers[source])
        try:
            if form == "reduced":
                users = self.enter(keeper, source, do="copy_reduced")
            elif source in self.users:
                # A copy by a process of another user namespace would be reduced.
                users = self.enter(keeper, source, do="copy_of_others", fds=[self.users[source]])
            else:
                keeper.ask(do="copy")
        except OSError as error:
            return f"err {number_of(error.errno)}"
        if said.startswith("ns "):
            number = int(said.split()[1])
            self.keepers[number] = keeper
            if users is not None:
                self.users[number] = users
        elif users is not None:
            os.close(users)
        return self.done_as(at, None)

    def enter(self, keeper, source, **copy):
        """Has a privileged process enter a copy of a namespace that less privileged ones have. Gives the user namespace
        of these."""
        first = self.start(self.keepers[source])
        first.ask(**copy)
        place = os.open(f"/proc/{first.pid}/ns/mnt", os.O_RDONLY)
        keeper.ask(do="enter", fds=[place])
        os.close(place)
        users = os.open(f"/proc/{first.pid}/ns/user", os.O_RDONLY)
        first.kill()
        return users

    def on_nsdrop(self, at, namespace):
        # A namespace of Linux ends with its processes, and nothing refuses its end.
        if self.model.answers[at] == "err 1":
            return "err 1"
        self.keepers.pop(int(namespace)).kill()
        return self.done_as(at, None)

    def on_walk(self, at, walker, namespace, path, now, pipe):
        keeper = self.keepers.get(int(namespace))
        if not keeper:
            return "err 1"
        if int(walker) in self.walks or self.model.answers[at] == "err 5":
            return self.model.answers[at]
        walk = Walk(self.start(keeper, True), int(namespace), path)
        walk.remote.begin(do="walk", path=path)
        return self.rested(int(walker), walk, self.refusal(at))

    def refusal(self, at):
        """The word for an error: the kernel's walk that fails doesn't tell whether it waited."""
        return "fail" if self.model.answers[at].startswith("fail") else "err"

    def on_resume(self, at, walker, now, pipe):
        walker = int(walker)
        if walker in self.expiries:
            return self.expired(walker, "fail")
        walk = self.walks.get(walker)
        if not walk or walk.is_inside:
            return "err 5"
        if walk.remote.ended is None and self.waits_still(walk):
            return "err 11" if self.model.answers[at] == "err 11" else self.rested(walker, walk, "fail")
        return self.rested(walker, walk, "fail")

    def waits_still(self, walk):
        walk.remote.rest()
        return walk.remote.ended is None

    def rested(self, walker, walk, word):
        """What a walk answers once it stands still."""
        walk.remote.rest()
        self.walks[walker] = walk
        if "pipe" in waits_in(walk.remote.pid):
            return "waits for the pipe"
        self.take_packets()
        if walk.remote.ended is None:
            last = walk.remote.said[-1]
            name = walk.path.strip("/").split("/")[last["at"]]
            return f"wait {self.token_at(walk, last, name)}"
        if "errno" in walk.remote.ended:
            del self.walks[walker]
            walk.remote.kill()
            return f"{word} {number_of(walk.remote.ended['errno'])}"
        return self.arrived(walk)

    def token_at(self, walk, last, name):
        """The token that a walk waits on: of the trigger that it was about to pass."""
        found = self.token_of(last["dev"], name)
        if found:
            return found
        # A direct trigger: the root of an autofs that is mounted on the name.
        path = "/" + "/".join(walk.path.strip("/").split("/")[:last["at"] + 1])
        for it in self.systems.values():
            if it["is_direct"] and it["path"] == path:
                return self.open.get((it["dev"], None))
        return None

    def arrived(self, walk):
        walk.is_inside = True
        pid, fd = walk.remote.pid, walk.remote.ended["ok"]
        number = re.search(r"mnt_id:\s*(\d+)", text_of(f"/proc/{pid}/fdinfo/{fd}"))
        number = int(number[1]) if number else None
        row = next((it for it in rows_of(text_of(f"/proc/{pid}/mountinfo")) if it.number == number), None)
        if row is None:
            return "at a mount that has gone"
        place = walk.path.rstrip("/")[len(row.place.rstrip("/")):] or "/"
        # The table before the event has it, or the event has made it: then it is looked up in the next one.
        return ("at", number, place)

    def on_leave(self, at, walker):
        walk = self.walks.pop(int(walker), None)
        if walk:
            walk.remote.kill()
        return self.model.answers[at]

    def on_expire(self, at, walker, fs, now, how, pipe):
        system = self.systems.get(int(fs))
        if not system or self.model.answers[at] == "err 5":
            return self.model.answers[at]
        remote = self.start(self.daemon)
        remote.begin(do="expire", path=system["path"])
        self.expiries[int(walker)] = remote
        return self.expired(int(walker), self.refusal(at), system)

    def expired(self, walker, word, first=None):
        remote = self.expiries[walker]
        remote.rest()
        if "pipe" in waits_in(remote.pid):
            return "waits for the pipe"
        before = len(self.packets)
        self.take_packets()
        if remote.ended is None:
            if first:
                return f"wait {self.packets[-1] if len(self.packets) > before else self.token_of(first['dev'], None)}"
            return "err 11"
        del self.expiries[walker]
        remote.kill()
        if "errno" in remote.ended:
            return f"{word} {number_of(remote.ended['errno'])}"
        return "expired"

    def on_deliver(self, at, token, data=None):
        self.take_packets()
        if int(token) not in self.packets:
            return "err 12"
        said = self.model.answers[at]
        if said.startswith("job"):
            self.packets.remove(int(token))
        return said

    def on_act(self, at, job, came, failure=None):
        said, seen = self.model.answers[at], self.model.seen[at]
        if said == "did record" or said.startswith("err"):
            return self.refused_act(at, int(job)) if said == "err 2" else said
        fs, name = self.trigger_of(int(job))
        system = self.systems[fs]
        path = system["path"] if name is None else f"{system['path'].rstrip('/')}/{name}"
        if said == "did reply":
            return self.reply(said, seen, system, int(job), name)
        if said.startswith("failed"):
            if came == "fail":
                return said
            refused = self.tried(self.daemon, do="umount" if "umount" in said else "mount_plain", path=path)
            return said if refused else "done"
        act = {"mkdir": "mkdir", "rmdir": "rmdir", "umount": "umount", "mount": "mount_plain"}[said.split()[1]]
        refused = self.tried(self.daemon, do=act, path=path)
        # The daemon takes a directory for made that is there, and for removed if it isn't there or has a mount on it.
        counts = refused in {"mkdir": ["err 4"], "rmdir": ["err 1", "err 3"]}.get(act, ())
        return self.done_as(at, None if counts else refused)

    def refused_act(self, at, job):
        """What the kernel says to an act whose attachment has ended: asked where that is a mkdir, and nobody has attached again."""
        fs, name = self.trigger_of(job)
        has_acted = any(re.match(rf"act {job} ", it) for it in self.model.events[:at])
        if name is None or has_acted or not self.is_catatonic(fs) or self.is_expiry(job):
            return self.model.answers[at]
        return self.done_as(at, self.tried(self.daemon, do="mkdir", path=f"{self.systems[fs]['path'].rstrip('/')}/{name}"))

    def is_catatonic(self, fs):
        last = None
        for seen in self.model.seen[:self.played]:
            for line in seen:
                if re.match(rf"(catatonic {fs}$|reattached {fs} )", line):
                    last = line
        return last is not None and last.startswith("catatonic")

    def is_expiry(self, token):
        return any(re.match(rf"queued {token} attach \d+ expire-", it) for seen in self.model.seen for it in seen)

    def trigger_of(self, token):
        """The trigger of a token, by what the model has seen of its packet."""
        for seen in self.model.seen:
            for line in seen:
                found = re.match(rf"queued {token} attach \d+ (\S+) dev (\d+) .* name (.*)$", line)
                if found:
                    return int(found[2]), None if found[1].endswith("-direct") else found[3]
        raise Silence(f"no packet of token {token} was seen")

    def reply(self, said, seen, system, token, name):
        status = next(it.split(" ")[2:] for it in seen if it.startswith("answered "))
        failure = None if status[0] == "ready" else NUMBERS[int(status[1]) if len(status) > 1 else 1]
        refused = self.tried(self.daemon, do="answer", path=system["path"], token=self.tokens.get(token, 0), failure=failure)
        self.open.pop((system["dev"], name), None)
        return refused or said

    def on_repeat(self, at, attach, token, status):
        # The daemon is one process, so what an attachment before the latest one may do isn't asked.
        fs = self.latest().get(int(attach))
        if fs is None:
            return self.model.answers[at]
        order = {"token": self.tokens.get(int(token), 0), "failure": None if status == "ready" else errno.ENOENT}
        return self.done_as(at, self.tried(self.daemon, do="answer", path=self.systems[fs]["path"], **order))

    def latest(self):
        """The file systems of the attachments that are the latest of theirs."""
        found = {}
        for event, said in zip(self.model.events[:self.played], self.model.answers):
            first = re.match(r"fs (\d+) attach (\d+) ", said)
            again = re.match(r"attach (\d+)$", said)
            if first:
                found[int(first[1])] = int(first[2])
            elif again:
                found[int(event.split(" ")[1])] = int(again[1])
        return {attach: fs for fs, attach in found.items()}

    def on_catatonic(self, at, attach, fs):
        return self.on_admincat(at, fs)

    def on_admincat(self, at, fs):
        said = self.model.answers[at]
        if said.startswith("err"):
            return said
        return self.done_as(at, self.tried(self.daemon, do="catatonic", path=self.systems[int(fs)]["path"]))

    def on_timeout(self, at, attach, fs, seconds):
        said = self.model.answers[at]
        if said.startswith("err"):
            return said
        return self.done_as(at, self.tried(self.daemon, do="timeout", path=self.systems[int(fs)]["path"], seconds=int(seconds)))

    def on_die(self, at):
        # Its jobs go on until they find out; what the kernel can see is that nobody reads the pipes.
        self.take_packets()
        for number in list(self.readers):
            os.close(self.readers.pop(number))
        self.packets = []
        return self.model.answers[at]

    def on_reattach(self, at, fs):
        said = self.model.answers[at]
        if said.startswith("err"):
            return said
        system = self.systems[int(fs)]
        if int(fs) in self.readers:
            os.close(self.readers.pop(int(fs)))
        try:
            _, self.readers[int(fs)] = self.daemon.ask(do="reattach", path=system["path"], device=system["dev"])
        except OSError as error:
            return f"err {number_of(error.errno)}"
        return said

    def on_record(self, at, fs, name):
        # The daemon's book is the model's own.
        return self.model.answers[at]

    # comparison

    def compare(self, at):
        """Plays an event, and gives both answers, and where the mounts differ."""
        answer = self.play(at)
        tables = self.tables = Tables(self.model.mounts(at + 1), self.keepers)
        if isinstance(answer, tuple):
            _, number, place = answer
            answer = f"at {tables.numbers.theirs.get(number, f'kernel mount {number}')} {place}"
        return self.model.answers[at], answer, tables.why or self.misnamed(at)

    def misnamed(self, at):
        """What is wrong with the name in a packet, if something is."""
        for line in self.model.seen[at]:
            found = re.match(r"queued (\d+) .* name (.*)$", line)
            name = self.names.get(int(found[1])) if found else None
            if name is not None and name != found[2]:
                return f"the packet of token {found[1]} names {found[2]}, and on the kernel {name}"
        return None


# What is told

def told():
    """The departures that LINUX.md tells: their names with the words of their rows."""
    found = {}
    for line in text_of(f"{HERE}/told.txt").splitlines():
        name, colon, words = line.partition(": ")
        if colon and not line.startswith("#"):
            found[name] = words
    return found


def is_covered(world):
    """Whether a mount of a world stands at the same place as another one of its namespace."""
    return any(len({it.place for it in rows}) < len(rows) for rows in namespaces_of(world).values())


class Difference:
    """What differs at an event, and the tests by which it is one that is told; the first that holds names it."""

    def __init__(self, play, at, ours, theirs, why):
        self.play, self.model, self.at = play, play.model, at
        self.words, self.ours, self.theirs, self.why = self.model.events[at].split(" "), ours, theirs, why or ""
        self.world = self.model.world(at)

    def name(self):
        tests = [it for it in dir(self) if it.startswith("is_")]
        found = [it for it in tests if getattr(self, it)()]
        if not found and self.goes_on_at_once():
            return "goes-on-at-once"
        return found[0].removeprefix("is_").replace("_", "-") if found else None

    def goes_on_at_once(self):
        """Whether a walker is released that has still to go on in the model; on the kernel it has done so.

        Where it goes on now, and nothing came between that would be otherwise with it inside, that is no reason."""
        if self.begins("resume"):
            mine = f"released {self.words[1]} "
            released = max((at for at in range(self.at) if any(it.startswith(mine) for it in self.model.seen[at])), default=-1)
            if all(it.startswith(("resume ", "record ", "kind ")) for it in self.model.events[released + 1:self.at]):
                return False
        may_be = self.ours != self.theirs and self.begins("expire", "walk", "resume", "umount", "nsdrop", "act")
        return may_be and re.search(r"^# walk \d+ token \d+ (ready|fail)", self.world, re.M) is not None

    def begins(self, *words):
        return self.words[0] in words

    def notifies(self):
        """The kernel notifies the daemon: it waits, or, where nobody reads the pipe, finds that out, and has ENOENT."""
        return self.theirs.startswith("wait") or self.words[-1] == "gone" and self.theirs in ("err 1", "fail 1")

    def asks_more(self):
        """The kernel notifies the daemon where the model doesn't."""
        return self.notifies() and self.ours.startswith("err") and self.ours != self.theirs

    def fs(self):
        return self.play.systems.get(int(self.words[2])) if self.begins("expire") else None

    def has_tree(self):
        """Whether something is mounted on what is mounted on an autofs."""
        for rows in namespaces_of(self.world).values():
            autofs = {it.number for it in rows if it.kind == "autofs"}
            on_autofs = {it.number for it in rows if it.parent in autofs}
            if any(it.parent in on_autofs for it in rows):
                return True
        return False

    def meets_autofs(self):
        """Whether an autofs stands at the path that the administrator names."""
        rows = namespaces_of(self.world).get(int(self.words[1]), ())
        return any(it.kind == "autofs" and it.place == self.words[2] for it in rows)

    def is_administrator_on_an_autofs(self):
        refused = self.begins("mount", "bind", "umount") and self.ours == "err 2"
        return refused and self.done_or_busy() and not (self.begins("umount") and self.meets_autofs())

    def done_or_busy(self):
        """The kernel does it, or an unmount is refused there as one of any other mount is: it is in use."""
        return self.theirs == "done" or self.begins("umount") and self.theirs == "err 3"

    def is_bind_below_a_root(self):
        return self.begins("bind") and self.ours == "err 5" and self.theirs == "done"

    def is_another_token(self):
        """A walk opens a token of its own, or goes in before the READY."""
        waits = self.begins("walk", "resume") and self.ours.startswith("wait") and self.ours != self.theirs
        if self.theirs.startswith(("wait", "at")):
            return waits
        return waits and self.notifies() and "did rmdir" in self.model.answers[:self.at]

    def is_copy_goes_under(self):
        return self.begins("mount", "bind", "act") and bool(self.why) and is_covered(self.model.world(self.at + 1))

    def is_cover_moves_down(self):
        return self.begins("umount", "act", "nsdrop") and bool(self.why) and is_covered(self.world)

    def is_directory_goes(self):
        return self.begins("act") and self.ours == "did rmdir" and "namespace" in self.why

    def is_end_of_a_namespace(self):
        return self.begins("nsdrop") and self.ours == "err 3" and self.theirs == "done"

    def is_expiry_by_one_mount(self):
        return self.begins("expire") and self.ours == "err 6" and self.asks_more() and not self.fs()["is_direct"] and not self.has_tree()

    def is_expiry_of_a_bare_direct_trigger(self):
        return self.begins("expire") and self.ours == "err 6" and self.asks_more() and self.fs()["is_direct"]

    def is_expiry_of_a_tree(self):
        return self.begins("expire") and self.ours == "err 6" and self.asks_more() and self.has_tree()

    def is_expiry_takes_another(self):
        return self.begins("expire") and "names" in self.why

    def is_expiry_where_nothing_is_due(self):
        return self.begins("expire") and self.ours == "err 1" and self.theirs == "err 6"

    def is_failure_lasts(self):
        return self.begins("walk", "resume") and self.asks_more() and any(it.startswith("negative") for it in self.model.head)

    def is_full_pipe(self):
        return self.ours == "err 6" and self.theirs == "waits for the pipe"

    def is_locked_together(self):
        reduced = any(it.startswith("nscopy") and it.endswith("reduced") for it in self.model.events[:self.at])
        return self.begins("umount", "bind") and reduced and self.theirs == "err 5"

    def is_long_name(self):
        return self.begins("walk") and self.theirs == "err 1" and any(len(it) in (254, 255) for it in self.words[3].split("/"))

    def is_mkdir_in_catatonic_mode(self):
        return self.begins("act") and self.ours == "err 2" and self.theirs == "err EACCES"

    def is_mount_over_the_root(self):
        roots = [it for rows in namespaces_of(self.world).values() for it in rows if it.place == "/" and it.parent != it.number]
        return self.begins("walk", "resume", "mount", "bind", "umount", "change", "kind", "nscopy") and bool(roots)

    def is_reply_in_catatonic_mode(self):
        return self.begins("repeat") and self.ours == "err 2" and self.theirs == "err 5"

    def is_reply_without_a_job(self):
        return self.begins("repeat") and self.ours == "err 12" and self.theirs == "done"

    def is_unbindable_copy(self):
        return self.begins("nscopy") and "unbindable, and on the kernel private" in self.why

    def is_unmount_of_an_autofs(self):
        return self.begins("umount") and self.ours == "err 2" and self.done_or_busy() and self.meets_autofs()

    def is_unmount_of_the_root(self):
        return self.begins("umount") and self.words[2].strip("/") == "" and self.ours == "err 3" and self.theirs == "done"

    def is_walk_elsewhere(self):
        return self.begins("walk", "resume") and self.ours in ("err 7", "fail 7") and self.notifies()


def unplayable(event):
    words = event.split(" ")
    return "expiry by time" if words[0] == "expire" and "idle" in words else None


def played(program, path):
    """Plays a script, and returns 0 where it is alike, 1 where it differs, and 2 where it can't be played."""
    try:
        return play(program, path)
    except Silence as silence:
        print(f"-- {os.path.basename(path)}: a DIFFERENCE: {silence}")
        return 1
    except Unfit as unfit:
        print(f"-- {os.path.basename(path)}: no script that can be played: {unfit}")
        return 2


def play(program, path):
    """Plays a script, and returns 0 where it is alike, 1 where it differs."""
    print(f"== {path}")
    model = Model(program, path)
    shows = to_show(path, model.script)
    play_of = Play(model)
    try:
        for at, event in enumerate(model.events):
            missing = unplayable(event)
            if missing:
                print(f"{event}  {model.answers[at]}  not played: {missing}")
                print(f"-- {os.path.basename(path)}: {at} events alike, then {missing}, which can't be played")
                return 0
            ours, theirs, why = play_of.compare(at)
            print(f"{event}  {ours}  {theirs}" + (f"  {why}" if why else ""))
            if ours != theirs or why:
                name = Difference(play_of, at, ours, theirs, why).name()
                if name:
                    print(f"-- {os.path.basename(path)}: {at} events alike, then {name}, told: {told()[name]}")
                    return is_not_shown(path, shows, name)
                print(f"-- {os.path.basename(path)}: {at} events alike, then a DIFFERENCE that isn't told")
                return 1
        print(f"-- {os.path.basename(path)}: {len(model.events)} events alike")
        return is_not_shown(path, shows, None)
    finally:
        play_of.end()


def to_show(path, script):
    """The departures that a script is to show, one of them: what its line `# shows:` says, or of an example those of the
    rows of LINUX.md that name it, or that there is none. None where nothing is said."""
    said = re.search(r"^# shows: (\S+)$", script, re.M)
    if said:
        return {said[1]}
    if os.path.dirname(os.path.realpath(path)) != os.path.realpath(f"{TOP}/examples"):
        return None
    name = os.path.basename(path).removesuffix(".script")
    rows = [it for it in text_of(f"{TOP}/docs/LINUX.md").splitlines() if f"`{name}`" in it.rstrip("| ").rpartition(" | ")[2]]
    return {it for it, words in told().items() if any(words in row for row in rows)} or {None}


def is_not_shown(path, shows, name):
    """1 where a script is to show a departure, or none, and has shown another one, else 0."""
    if shows is None or name in shows:
        return 0
    print(f"-- {os.path.basename(path)}: a DIFFERENCE: it shows {name or 'nothing'}, and should show {', '.join(map(str, shows))}")
    return 1


# Scripts by chance

HEAD = """master
/auto auto.home
/- auto.direct
end
map auto.home
a srv:/a
b srv:/b
end
map auto.direct
/srv/d srv:/d
end
events
"""
EVENTS = 40


class Chance:
    """A script that is made event by event, each by the model's answers to those before it."""

    def __init__(self, program, seed):
        self.dice, self.lines, self.now = random.Random(seed), [], 100
        self.model = subprocess.Popen([program, "script"], stdin=subprocess.PIPE, stdout=subprocess.PIPE, text=True)
        self.model.stdin.write(HEAD)
        self.namespaces, self.tokens, self.jobs, self.next, self.last = [0], [], [], 7, 0
        # The namespaces of who waits, none for one that asked for an expiry, and of who is inside.
        self.waiting, self.inside = {}, {}
        self.roots = ["/", "/auto"]
        # How likely it is that an act fails, and that the daemon dies.
        self.failing, self.dying = self.dice.choice([0, 0.1, 0.3]), self.dice.choice([False, False, True])
        self.is_alive, self.attached = True, []
        self.begin()
        while len(self.lines) < EVENTS:
            self.now += 1
            self.one()
        self.model.stdin.close()
        self.model.stdout.close()
        self.model.wait()

    def begin(self):
        for line in ["change 0 / shared"] * self.dice.randint(0, 1):
            self.say(line)
        for path in ["/auto"] + ["/srv/d"] * (self.dice.random() < 0.3):
            self.attached.append(int(self.say(f"attach {path}").split()[1]))

    def text(self):
        return HEAD + "\n".join(self.lines) + "\n"

    def say(self, line):
        self.lines.append(line)
        print(line, file=self.model.stdin, flush=True)
        return self.model.stdout.readline().rstrip("\n")

    def one(self):
        """Makes one event, of those that there is something for."""
        kinds = ["walk"] * 4 + ["expire", "mount", "bind", "umount", "change", "copy"]
        kinds += ["deliver"] * 5 * bool(self.tokens) + ["act"] * 12 * bool(self.jobs)
        kinds += ["resume"] * 4 * bool(self.waiting) + ["leave"] * 3 * bool(self.inside)
        kinds += ["drop"] * (len(self.namespaces) > 1) + ["kind"]
        kinds += ["die"] * (self.dying and self.is_alive) + ["reattach"] * 4 * (not self.is_alive)
        getattr(self, self.dice.choice(kinds))()

    def namespace(self):
        return self.dice.choice(self.namespaces)

    def place(self):
        return self.dice.choice(["/m", "/m/n", "/p", "/q"])

    def pipe(self):
        return "room" if self.is_alive else "gone"

    def waits(self, walker, namespace, answer):
        if answer.startswith("wait"):
            token = int(answer.split()[1])
            self.waiting[walker] = namespace
            if token > self.last:
                self.last = token
                self.tokens.append(token)
        elif answer.startswith("at"):
            self.inside[walker] = namespace

    def walk(self):
        walker, self.next, namespace = self.next, self.next + 1, self.namespace()
        path = self.dice.choice(["/auto/a", "/auto/b", "/auto/a/x", "/auto/none", "/m", "/p/x", "/late/a", "/srv/d/x"])
        self.waits(walker, namespace, self.say(f"walk {walker} {namespace} {path} {self.now} {self.pipe()}"))

    def resume(self):
        walker = self.dice.choice(list(self.waiting))
        answer = self.say(f"resume {walker} {self.now} {self.pipe()}")
        if answer != "err 11":
            self.waits(walker, self.waiting.pop(walker), answer)

    def leave(self):
        walker = self.dice.choice(list(self.inside))
        del self.inside[walker]
        self.say(f"leave {walker}")

    def deliver(self):
        token = self.tokens.pop(0)
        if self.say(f"deliver {token}").startswith("job"):
            self.jobs.append(token)

    def act(self):
        job = self.dice.choice(self.jobs)
        came = f"fail {self.dice.randint(1, 9)}" if self.dice.random() < self.failing else "ok"
        if self.say(f"act {job} {came}").startswith(("did reply", "err")):
            self.jobs.remove(job)

    def expire(self):
        walker, self.next = self.next, self.next + 1
        answer = self.say(f"expire {walker} {self.dice.choice(self.attached)} {self.now} immediate {self.pipe()}")
        self.waits(walker, None, answer)

    def mount(self):
        place = self.place()
        if self.say(f"mount {self.namespace()} {place}").startswith("mount"):
            self.roots.append(place)

    def bind(self):
        self.say(f"bind {self.namespace()} {self.dice.choice(self.roots)} {self.dice.choice(['/late', '/q', '/r'])}")

    def umount(self):
        self.say(f"umount {self.namespace()} {self.dice.choice(['/m', '/m/n', '/p', '/q', '/late'])}")

    def change(self):
        self.say(f"change {self.namespace()} {self.dice.choice(['/', '/m', '/p', '/auto'])} {self.dice.choice(list(KINDS))}")

    def kind(self):
        self.say(f"kind {self.namespace()} {self.dice.choice(['/', '/m', '/p', '/auto'])}")

    def copy(self):
        if len(self.namespaces) < 3:
            answer = self.say(f"nscopy {self.namespace()}{self.dice.choice(['', ' reduced'])}")
            if answer.startswith("ns"):
                self.namespaces.append(int(answer.split()[1]))

    def drop(self):
        """Drops a namespace in which nobody walks."""
        number = self.dice.choice(self.namespaces[1:])
        if number not in [*self.waiting.values(), *self.inside.values()] and self.say(f"nsdrop {number}").startswith("gone"):
            self.namespaces.remove(number)

    def die(self):
        self.say("die")
        self.is_alive, self.tokens, self.jobs = False, [], []

    def reattach(self):
        """Has the daemon attach again, as a new one does, to all that there is."""
        for fs in self.attached:
            self.say(f"admincat {fs}")
            self.say(f"reattach {fs}")
        self.is_alive = True


def status_of(program, text, folder):
    """Plays a script's text, and returns its status with what was printed of it last."""
    path = f"{folder}/by_chance.script"
    with open(path, "w", encoding="utf-8") as file:
        file.write(text)
    with open(f"{folder}/said", "w+", encoding="utf-8") as out, contextlib.redirect_stdout(out):
        status = played(program, path)
        out.seek(0)
        return status, out.read()


def shortest(program, text, folder):
    """A script that differs still, from which no event can be left out."""
    lines = text.removeprefix(HEAD).splitlines()
    at = len(lines) - 1
    while at >= 0:
        fewer = lines[:at] + lines[at + 1:]
        if status_of(program, HEAD + "\n".join(fewer) + "\n", folder)[0] == 1:
            lines = fewer
        at -= 1
    return HEAD + "\n".join(lines) + "\n"


def by_chance(program, count, seed):
    """Plays so many scripts, and tells how many of their events were compared."""
    told_of, events = {}, 0
    try:
        with tempfile.TemporaryDirectory(prefix="live-") as folder:
            for number in range(seed, seed + count):
                text = Chance(program, number).text()
                found, said = status_of(program, text, folder)
                last = said.rstrip("\n").splitlines()[-1]
                alike = re.search(r": (\d+) events alike", last)
                events += int(alike[1]) if alike else 0
                name = re.search(r"then ([\w-]+), ", last)
                name = "UNTOLD" if found else name[1] if name else "alike"
                told_of[name] = told_of.get(name, 0) + 1
                if found:
                    print(f"-- seed {number}: {last}", flush=True)
                    with open(f"untold-{number}.script", "w", encoding="utf-8") as file:
                        file.write(shortest(program, text, folder))
    finally:
        said = ", ".join(f"{name} {told_of[name]}" for name in sorted(told_of))
        print(f"{sum(told_of.values())} scripts, {events} events compared: {said}", flush=True)
    return 1 if "UNTOLD" in told_of else 0


def spread_seeds(name, words, count, seed, scheduler):
    """Has commands on workers play a seed each, and gives the lines that each wrote, seed by seed."""
    begin = ["python3", f"{HERE}/{name}.py", *words, "--random", "1", "--seed"]
    commands = [(it, [*begin, str(it)], b"") for it in range(seed, seed + count)]
    came, bar = {}, spread.Bar()
    try:
        for number, done in spread.run(commands, spread.place_of(scheduler)):
            came[number] = done
            bar.show(len(came), count, " scripts")
            if done.returncode not in (0, 1):
                said = done.stderr.decode(errors="replace").strip()[-300:]
                raise spread.Trouble(f"seed {number}, on a worker: {said}")
        for at in sorted(came):
            yield at, came[at].stdout.decode(errors="replace").splitlines()
    finally:
        bar.end()


def by_chance_there(count, seed, scheduler):
    """Has workers play so many scripts, and tells how many of their events were compared."""
    told_of, events = {}, 0
    for _, lines in spread_seeds("live", [], count, seed, scheduler):
        for line in lines[:-1]:
            print(line)
        last = re.fullmatch(r"\d+ scripts, (\d+) events compared: (.*)", lines[-1])
        events += int(last[1])
        for name, times in (it.rsplit(" ", 1) for it in last[2].split(", ")):
            told_of[name] = told_of.get(name, 0) + int(times)
    print(f"{count} scripts, {events} events compared: {', '.join(f'{it} {told_of[it]}' for it in sorted(told_of))}")
    return 1 if "UNTOLD" in told_of else 0


# The command

def lacking():
    """What this machine lacks, if it does."""
    if os.geteuid():
        return "expected root"
    if "autofs" not in text_of("/proc/filesystems") or not os.path.exists("/dev/autofs"):
        return "expected a kernel with autofs"
    return lacking_namespaces()


def lacking_namespaces():
    """Whether a namespace can be made here, and an autofs mounted in it."""
    agent = first_agent()
    try:
        agent.ask(do="begin")
        os.close(agent.ask(do="attach", path="/auto", is_direct=False)[1])
        return None
    except (OSError, Silence) as error:
        return f"expected that an autofs can be mounted in a namespace of its own: {error}"
    finally:
        agent.kill()
        os.waitpid(agent.pid, 0)


def program():
    """The path of the program that is the model, or what is wrong with it."""
    ran = subprocess.run([f"{TOP}/tools/program.sh"], capture_output=True, text=True, check=False)
    if ran.returncode:
        raise Unfit((ran.stderr.strip().splitlines() or ["no program can be built"])[-1])
    return ran.stdout.strip()


def ended_by(number, _):
    sys.exit(128 + number)


def prepare(name):
    """What a tool that plays on the kernel does first: it gives the program, or tells why it can't play here."""
    for number in (signal.SIGINT, signal.SIGTERM):
        signal.signal(number, ended_by)
    LIBC.prctl(PR_SET_CHILD_SUBREAPER, 1, 0, 0, 0)
    why = lacking()
    try:
        if not why:
            return program()
    except Unfit as error:
        why = error
    print(f"{name}: {why}", file=sys.stderr)
    sys.exit(2)


def main(words):
    found = re.fullmatch(r"--random (\d+)(?: --seed (\d+))?(?: --scheduler (\S+))?", " ".join(words[1:]))
    paths = [] if found else words[1:]
    if not found and (not paths or any(not os.path.isfile(it) for it in paths)):
        print("live: expected the paths of scripts, or --random N [--seed S] [--scheduler ADDRESS]", file=sys.stderr)
        return 2
    if found and found[3]:
        return there("live", lambda: by_chance_there(int(found[1]), int(found[2] or 1), found[3]))
    model = prepare("live")
    if found:
        return by_chance(model, int(found[1]), int(found[2] or 1))
    return max(played(model, path) for path in paths)


def there(name, play):
    """Plays on workers, or tells why that can't be."""
    try:
        return play()
    except spread.Trouble as trouble:
        print(f"{name}: {trouble}", file=sys.stderr)
        return 2


if __name__ == "__main__":
    sys.exit(main(sys.argv))
