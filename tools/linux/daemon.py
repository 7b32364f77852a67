#!/usr/bin/env python3
"""Drives an installed automount over maps, and compares what it mounts and answers with the model.

usage: tools/linux/daemon.py [--random N [--seed S] [--scheduler ADDRESS]]

First it plays the rows of LINUX.md, "Maps" and "Master maps": of each a master map and a map, read by automount and by
the model, and a walk; a row is as told where both do what the page says. Then it makes N masters and maps, of
S and the numbers behind it (20 of 1, where nothing is said), and for each some walks, leaves and immediate expiries. For each walk it
prints what automount has mounted and answered beside the model's acts, its answer and what its book says, and
compares the answers and what is mounted where. With a scheduler of dask the masters and maps are played by commands on
its workers (tools/spread.py), each root on a kernel of its own, with automount, and with this repository at the same
path; the rows are played by each of them. Keys that fail to mount have a file system type that there isn't; the model's
mount of them is told to fail. All others are mounted as tmpfs, whose source in mountinfo tells which location was read.

automount runs in a mount and a pid namespace of its own, below a root of its own, with its maps in /etc there.
Nothing outside is touched, and nothing is left behind. Its own log isn't read.

It needs root, autofs, and automount (Debian's package autofs). Status 0: alike, but for what is told; 1: a
difference; 2: it can't run here, or was given other words; 130 and 143: it was ended by SIGINT or SIGTERM.
"""

import errno
import os
import random
import re
import shutil
import signal
import socket
import subprocess
import sys
import time

sys.path.insert(0, os.path.dirname(os.path.abspath(__file__)))
import live  # pylint: disable=wrong-import-position

CLONE_NEWPID = 0x20000000
# How long automount may take until it serves its maps, or has expired what it may, in seconds.
PATIENCE = 60.0
TMPFS = "-fstype=tmpfs"
PLAIN = "/auto auto.home --timeout=100\n"
HOME = f"web {TMPFS} srv:/www\n"
LONG = "n" * 254

# The words of a row in LINUX.md, the master, its map (of a direct master its direct one), where a walk goes, what automount
# does (the source of what it mounts, or an error; and an option of the mount or of the autofs), and what the model says.
ROWS = (
    ("`* -fstype=nfs,context=& srv:/&`", PLAIN, f"* {TMPFS},mode=& srv:/&\n", "/auto/700", "srv:/700, mode=700", "mounted"),
    ("`web srv:/a:b`", PLAIN, f"web {TMPFS} srv:/a:b\n", "/auto/web", "srv:/a/b", "mounted"),
    ("a faulty line", PLAIN, f"other {TMPFS}\n{HOME}", "/auto/web", "srv:/www", "NoLocation"),
    ("`web srv:/www # tail`", PLAIN, f"web {TMPFS} srv:/www # tail\n", "/auto/web", "srv:/www", "BadLocation"),
    ("`web -ro -fstype=nfs srv:/x`", PLAIN, f"web -ro {TMPFS} srv:/x\n", "/auto/web", "srv:/x, ro", "BadLocation"),
    ("more hosts, quotes, `$HOST`", PLAIN, f"web {TMPFS} srv:/$OSNAME\n", "/auto/web", "srv:/Linux", "BadLocation"),
    ("more hosts, quotes, `$HOST`", PLAIN, f'web {TMPFS} "srv:/a b"\n', "/auto/web", "srv:/a b", "BadLocation"),
    ("`*` or a bare name in a direct map", "/- auto.home\n", f"web {TMPFS} srv:/w\n/srv/d {TMPFS} srv:/d\n", "/srv/d", "srv:/d", "BadKey"),
    ("`*` or a bare name in a direct map", PLAIN, f"a/b {TMPFS} srv:/ab\n{HOME}", "/auto/web", "srv:/www", "BadKey"),
    ("a line that begins with a blank", PLAIN, f"{HOME} other {TMPFS} srv:/o\n", "/auto/web", "err 1", "mounted"),
    ("a line that begins with a blank", PLAIN, f"{HOME} other {TMPFS} srv:/o\n", "/auto/other", "err 1", "mounted"),
    ("a line that begins with a blank", PLAIN, f" {HOME}other {TMPFS} srv:/o\n", "/auto/web", "srv:/www", "mounted"),
    ("a key of 254 or 255 bytes", PLAIN, f"{LONG} {TMPFS} srv:/n\n", f"/auto/{LONG}", "err 1", "mounted"),
    ("no timeout", "/auto auto.home\n", HOME, "/auto/web", "srv:/www, timeout=600", "mounted"),
    ("`/auto m -t=7`, `-t7`", "/auto auto.home -t=7\n", HOME, "/auto/web", "srv:/www, timeout=7", "mounted"),
    ("`/auto m -t=7`, `-t7`", "/auto auto.home -t7\n", HOME, "/auto/web", "srv:/www, timeout=7", "mounted"),
    ("`--timeout=4294967296`", "/auto auto.home --timeout=4294967296\n", HOME, "/auto/web", "srv:/www", "BadTimeout"),
    ("`--timeout=abc`, `--timeout` alone", "/auto auto.home --timeout=abc\n", HOME, "/auto/web", "srv:/www, timeout=600", "BadTimeout"),
    ("`--timeout=abc`, `--timeout` alone", "/auto auto.home --timeout\n", HOME, "/auto/web", "err 1", "BadTimeout"),
    ("other words that begin with a dash", "/auto auto.home -ro\n", HOME, "/auto/web", "srv:/www, ro", "mounted"),
    ("`--ghost=no`", "/auto auto.home\n/two auto.home --ghost=no\n/three auto.home\n", HOME, "/three/web", "nothing", "mounted"),
    ("`/auto` twice", "/auto auto.home --timeout=100\n/auto auto.home --timeout=200\n", HOME, "/auto/web", "srv:/www, timeout=100", "Twice"),
    ("a faulty line", f"none\n{PLAIN}", HOME, "/auto/web", "srv:/www", "BadPoint"),
)


# The process inside: the first one of a pid namespace, below a root of its own

class Inside(live.Agent):
    """Begins the daemon, and walks as somebody else."""

    def do_settle(self, texts):
        os.setsid()
        live.mount("none", "/", None, live.MS_REC | live.MS_PRIVATE)
        live.mount("root", "/tmp", "tmpfs")
        os.chdir("/tmp")
        for name in ("usr", "etc", "proc", "dev", "run", "var", "tmp", "old", "root"):
            os.mkdir(name)
        for name in ("bin", "sbin", "lib", "lib64", "lib32", "libx32"):
            if os.path.islink(f"/{name}"):
                os.symlink(os.readlink(f"/{name}"), name)
            elif os.path.isdir(f"/{name}"):
                os.mkdir(name)
                live.mount(f"/{name}", name, None, live.MS_BIND | live.MS_REC)
        for name in ("usr", "dev"):
            live.mount(f"/{name}", name, None, live.MS_BIND | live.MS_REC)
        live.mount("proc", "proc", "proc")
        for name in ("ld.so.cache", "protocols", "services", "netconfig"):
            if os.path.exists(f"/etc/{name}"):
                shutil.copy(f"/etc/{name}", f"etc/{name}")
        os.symlink("/proc/self/mounts", "etc/mtab")
        for name, text in texts.items():
            with open(f"etc/{name}", "w", encoding="utf-8") as file:
                file.write(text)
        live.LIBC.syscall(155, b".", b"old")
        os.chdir("/")
        live.call("umount2", "/old", live.MNT_DETACH)
        os.rmdir("/old")

    def do_serve_maps(self, automount):
        pid = os.fork()
        if not pid:
            os.setsid()
            log = os.open("/run/log", os.O_CREAT | os.O_WRONLY)
            os.dup2(log, 1)
            os.dup2(log, 2)
            os.execv(automount, [automount, "-f", "-C", "--pid-file", "/run/automount.pid", "/etc/auto.master"])
        return pid

    def do_mounts(self):
        return live.text_of("/proc/self/mountinfo")

    def do_log(self):
        return live.text_of("/run/log")[-2000:]

    def do_signal(self, pid, number):
        os.kill(pid, number)

    def do_goes(self, walker, path):
        """Walks along a path, and tells where that is: at which mount, and which way below it."""
        folder = os.open("/", os.O_PATH | os.O_DIRECTORY)
        for name in path.strip("/").split("/"):
            folder = live.step(folder, name, True)
        self.held[f"walk {walker}"] = folder
        number = int(re.search(r"mnt_id:\s*(\d+)", live.text_of(f"/proc/self/fdinfo/{folder}"))[1])
        place = next(it.place for it in live.rows_of(self.do_mounts()) if it.number == number)
        return [place, path.rstrip("/")[len(place.rstrip("/")):] or "/"]

    def do_leaves(self, walker):
        os.close(self.held.pop(f"walk {walker}"))


def inside():
    """The first process of a pid namespace, with one above it that ends it."""
    ours, theirs = socket.socketpair(socket.AF_UNIX, socket.SOCK_SEQPACKET)
    pid = os.fork()
    if pid == 0:
        ours.close()
        live.LIBC.prctl(live.PR_SET_PDEATHSIG, signal.SIGKILL, 0, 0, 0)
        live.call("unshare", live.CLONE_NEWNS | CLONE_NEWPID)
        if os.fork() == 0:
            Inside.run(theirs, {})
        theirs.close()
        os.wait()
        os._exit(0)
    theirs.close()
    return live.Remote(ours, pid)


class Served:
    """An automount that serves a master and its maps."""

    def __init__(self, automount, master, maps, points):
        self.remote = inside()
        texts = {"auto.master": master, **maps, "passwd": "root:x:0:0:root:/root:/bin/sh\n", "group": "root:x:0:\n",
                 "nsswitch.conf": "".join(f"{it}: files\n" for it in ("automount", "passwd", "group", "protocols", "services", "hosts")),
                 "autofs.conf": "[ autofs ]\nbrowse_mode = no\n"}
        self.remote.ask(do="settle", texts=texts)
        self.pid = self.remote.ask(do="serve_maps", automount=automount)
        self.wait(lambda: {it for it, kind in self.places() if kind == "autofs"} >= set(points))

    def wait(self, is_so):
        """Waits until something is so, and tells whether it is."""
        begin = time.time()
        while not is_so():
            if time.time() - begin > PATIENCE:
                return False
            time.sleep(0.1)
        return True

    def lines(self):
        return [it for it in self.remote.ask(do="mounts").splitlines() if re.search(" - (autofs|tmpfs) ", it)]

    def places(self):
        """Where an autofs or something of a map is mounted."""
        found = [(it.split(" ")[4], it.split(" - ")[1].split(" ")[0]) for it in self.lines()]
        return {(place.replace("\\040", " "), "plain" if kind == "tmpfs" else kind) for place, kind in found
                if place != "/" and not place.startswith("/dev")}

    def sources(self):
        """Of each place of a map's mount its source."""
        found = [it.split(" ") for it in self.lines() if " - tmpfs " in it]
        return {it[4]: it[it.index("-") + 2].replace("\\040", " ") for it in found}

    def walk(self, walker, path):
        """Where a walk arrives, or its error."""
        try:
            return self.remote.ask(do="goes", walker=walker, path=path)
        except OSError as error:
            return f"err {live.number_of(error.errno)}"

    def leave(self, walker):
        self.remote.ask(do="leaves", walker=walker)

    def expire(self, expected):
        """Has it expire all that it may, and waits until that is so; tells whether it was."""
        self.remote.ask(do="signal", pid=self.pid, number=signal.SIGUSR1)
        return self.wait(lambda: self.places() == expected)

    def end(self):
        """Ends it, and waits until all processes of its namespace have gone."""
        self.remote.kill()
        while True:
            try:
                os.waitpid(-1, 0)
            except ChildProcessError:
                return


# The model's daemon and kernel

class Asked:
    """The model, event by event."""

    def __init__(self, program, master, maps, failing=()):
        self.program, self.failing, self.now = program, failing, 100
        sections = "".join(f"map {name}\n{text}end\n" for name, text in maps.items())
        self.text = f"master\n{master}end\n{sections}events\n"
        self.systems, self.fault = {}, None

    def begin(self, points):
        for path in points:
            said = self.say(f"attach {path}")
            if self.fault:
                return
            self.systems[path] = int(said.split(" ")[1])

    def say(self, line):
        """The answer to one more event; none where the script has a fault, which is then known."""
        ran = subprocess.run([self.program, "script"], input=f"{self.text}{line}\n", capture_output=True, text=True, check=False)
        if ran.returncode:
            self.fault = ran.stderr.strip().rpartition(" ")[2]
            return ""
        self.text += f"{line}\n"
        return ran.stdout.splitlines()[-1]

    def serve(self, token, path):
        """Has the daemon serve a token, and gives its acts."""
        fails = "fail" if any(f"{path}/".startswith(f"{it}/") for it in self.failing) else "ok"
        acts = []
        said = self.say(f"deliver {token}")
        while said.startswith(("job", "did", "failed")) and said != "did reply":
            said = self.say(f"act {token} {fails}")
            acts.append(said.removeprefix("did "))
        return acts

    def walk(self, walker, path):
        """Where a walk arrives, or its error; and the acts of the daemon."""
        self.now += 1
        said, acts = self.say(f"walk {walker} 0 {path} {self.now} room"), []
        while said.startswith("wait"):
            acts += self.serve(int(said.split(" ")[1]), path)
            said = self.say(f"resume {walker} {self.now} room")
        if said.startswith("at"):
            _, mount, place = said.split(" ", 2)
            return [next(it.place for it in self.rows() if it.number == int(mount)), place], acts
        return said.replace("fail", "err"), acts

    def expire(self, walker):
        acts = []
        for fs in self.systems.values():
            said = self.say(f"expire {walker} {fs} {self.now} immediate room")
            while said.startswith("wait"):
                acts += self.serve(int(said.split(" ")[1]), "")
                self.say(f"resume {walker} {self.now} room")
                said = self.say(f"expire {walker} {fs} {self.now} immediate room")
        return acts

    def rows(self):
        ran = subprocess.run([self.program, "world"], input=self.text, capture_output=True, text=True, check=False)
        return live.namespaces_of(ran.stdout)[0]

    def places(self):
        return {(it.place.replace("\\040", " "), it.kind) for it in self.rows() if it.number != it.parent}

    def book(self, path):
        """What the book says of the trigger on a path, and where that is."""
        for point, fs in self.systems.items():
            if path == point or path.startswith(point + "/"):
                name = "-" if point in DIRECT else path[len(point) + 1:].split("/")[0]
                return self.say(f"record {fs} {name}").removeprefix("record "), point if point in DIRECT else f"{point}/{name}"
        return "none", path


# Rows of the page

def seen(served, path):
    """What automount does for a walk: the source of the mount with its options, or the error."""
    came = served.walk(1, path)
    if isinstance(came, str):
        return came
    lines = [it for it in served.lines() if it.split(" ")[4] == came[0] or " - autofs " in it]
    options = [word for it in lines for word in (it.split(" ")[5] + "," + it.rpartition(" ")[2]).split(",")]
    return f"{served.sources().get(came[0], 'nothing') if came[0] != '/' else 'nothing'}, {', '.join(options)}"


def is_as_told(does, expected):
    """Whether it has done what was expected: the source, or the error, and the options that are named."""
    first, *options = expected.split(", ")
    return does.split(", ")[0] == first and set(options) <= set(does.split(", ")[1:])


def play_row(program, automount, row):
    words, master, text, path, expected, models = row
    points = ["/srv/d"] if master.startswith("/-") else ["/auto"]
    model = Asked(program, master, {"auto.home": text})
    model.begin(points + ["/three"] * ("/three" in master))
    says = model.fault
    if not says:
        says = "mounted" if "mount" in " ".join(model.walk(1, path)[1]) else "nothing mounted"
    served = Served(automount, master, {"auto.home": text}, points)
    try:
        does = seen(served, path)
    finally:
        served.end()
    is_told = is_as_told(does, expected) and says == models
    brief = does if is_told or len(does) < 300 else does[:300]
    print(f"{words}  model: {says}  automount: {', '.join(it for it in brief.split(', ') if it in expected.split(', ')) or brief}"
          + ("" if is_told else f"  a DIFFERENCE: {does}; expected {models}, {expected}"), flush=True)
    return 0 if is_told else 1


# Maps by chance

DIRECT = ("/srv/d", "/srv/e")
KEYS = ("home", "work", "a.b", "x-1")


class Maps:
    """A master with maps, which automount and the model read alike."""

    def __init__(self, dice):
        self.dice, self.failing = dice, ["bad", "worse"]
        self.maps = {"auto.home": self.indirect(), "auto.more": self.indirect(), "auto.direct": self.direct()}
        served = (("/auto", "auto.home"), ("/net/more", "auto.more"))
        self.fails = [f"{point}/{key}" for point, name in served for key in self.failing if f"\n{key} " in "\n" + self.maps[name].replace("\t", " ")]
        lines = [f"/auto {self.type()}auto.home{self.timeout()}", f"/net//more/ auto.more{self.timeout()}", "/- auto.direct", "# nothing", ""]
        dice.shuffle(lines)
        self.master = "\n".join(lines) + "\n"
        self.points = ["/auto", "/net/more", *DIRECT]

    def type(self):
        return self.dice.choice(["", "file:", "file,sun:"])

    def timeout(self):
        return self.dice.choice([" --timeout=1000", " -t 900", " --timeout 800 -t 700", " -nosuid --timeout=600"])

    def options(self):
        return self.dice.choice([TMPFS, f"{TMPFS},size=1m", f"{TMPFS},,noatime", "-nosuid,fstype=tmpfs"])

    def line(self, key):
        kind = "-fstype=nosuch" if key in self.failing else self.options()
        host = self.dice.choice(["srv", "", "srv.example"])
        # No local path below its own key: automount's mount would wait for itself there.
        path = self.dice.choice([f"/{key.strip('*/')}x", "/p/&", "/q/&/&", "/p"])
        gap = self.dice.choice([" ", "\t", "  ", " \\\n "])
        return f"{key}{gap}{kind}{self.dice.choice([' ', chr(9)])}{host}:{path}"

    def indirect(self):
        keys = self.dice.sample(KEYS, 3) + self.dice.sample(self.failing, self.dice.randint(0, 2))
        keys += self.dice.sample(keys, 1) + ["*"] * self.dice.randint(0, 1)
        self.dice.shuffle(keys)
        return self.joined([self.line(it) for it in keys])

    def direct(self):
        return self.joined([self.line(it) for it in self.dice.choice([DIRECT, DIRECT[::-1]])])

    def joined(self, lines):
        lines.insert(self.dice.randint(0, len(lines)), self.dice.choice(["# a comment \\\n joined", "", "#"]))
        return "\n".join(lines) + self.dice.choice(["\n", "\n\n"])

    def path(self):
        key = self.dice.choice([*KEYS, *self.failing, "none"])
        return self.dice.choice([f"/auto/{key}", f"/auto/{key}/in", f"/net/more/{key}", "/srv/d", "/srv/e/in"])


def spoken(came):
    return came if isinstance(came, str) else f"at {came[0]} {came[1]}"


def by_chance(program, automount, seed):
    """Plays one master with its maps; tells how many steps were compared, and whether all were alike."""
    dice = random.Random(seed)
    made = Maps(dice)
    model = Asked(program, made.master, made.maps, made.fails)
    model.begin(made.points)
    if model.fault:
        print(f"== seed {seed}: the model says {model.fault}\n{model.text}")
        return 0, False
    served = Served(automount, made.master, made.maps, made.points)
    try:
        return steps(dice, made, model, served, seed)
    finally:
        served.end()


def steps(dice, made, model, served, seed):
    print(f"== seed {seed}")
    inside_of, count = [], 0
    for walker in range(7, 19):
        kind = dice.choice(["walk"] * 4 + ["leave"] * 2 * bool(inside_of) + ["expire"])
        before = served.sources()
        if kind == "walk":
            path = made.path()
            event, theirs = f"walk {path}", served.walk(walker, path)
            ours, acts = model.walk(walker, path)
            book, place = model.book(path)
            told = f"{' '.join(acts) or 'no act'}; {spoken(ours)}; book {book}"
            inside_of += [walker] if isinstance(ours, list) else []
            ours, theirs = [ours, book != "none"], [theirs, place in served.sources()]
        elif kind == "leave":
            left = inside_of.pop(dice.randrange(len(inside_of)))
            event, ours, theirs = f"leave {left}", model.say(f"leave {left}"), "ok"
            served.leave(left)
            told = ours
        else:
            acts = model.expire(walker)
            event, ours, theirs = "expire", "", "" if served.expire(model.places()) else "not all, or too much, has expired"
            told = " ".join(acts) or "no act"
        now = served.sources()
        does = [f"mounts {now[it]} at {it}" for it in now if it not in before] + [f"unmounts {it}" for it in before if it not in now]
        print(f"{event}  model: {told}  automount: {', '.join(does) or 'nothing'}; {spoken(theirs[0] if kind == 'walk' else theirs)}", flush=True)
        count += 1
        if ours != theirs or model.places() != served.places():
            print(f"-- seed {seed}: a DIFFERENCE: mounted in the model {sorted(model.places() - served.places())}, "
                  f"by automount {sorted(served.places() - model.places())}\n{model.text}")
            return count, False
    return count, True


LAST = re.compile(r"\d+ rows, (\d+) not as told; \d+ masters with maps, (\d+) steps compared, (\d+) with a difference")


def by_chance_there(count, seed, scheduler):
    """Has workers play so many masters with their maps, and sums up what they tell."""
    told = [0, 0, 0]
    for number, lines in live.spread_seeds("daemon", [], count, seed, scheduler):
        last = LAST.fullmatch(lines[-1])
        told = [max(told[0], int(last[1])), told[1] + int(last[2]), told[2] + int(last[3])]
        begin = lines.index(f"== seed {number}") if f"== seed {number}" in lines else 0
        for line in lines[begin:-1] if number > seed else lines[:-1]:
            print(line)
    rows, masters = f"{len(ROWS)} rows, {told[0]} not as told", f"{count} masters with maps, {told[1]} steps compared"
    print(f"{rows}; {masters}, {told[2]} with a difference")
    return 1 if told[0] or told[2] else 0


def main(words):
    found = re.fullmatch(r"(?:--random (\d+)(?: --seed (\d+))?(?: --scheduler (\S+))?)?", " ".join(words[1:]))
    if not found:
        print("daemon: expected nothing, or --random N [--seed S] [--scheduler ADDRESS]", file=sys.stderr)
        return 2
    if found[3]:
        return live.there("daemon", lambda: by_chance_there(int(found[1]), int(found[2] or 1), found[3]))
    automount = shutil.which("automount", path="/usr/sbin:/sbin:/usr/local/sbin:/usr/bin")
    if not automount:
        print("daemon: expected automount, which Debian's package autofs has", file=sys.stderr)
        return 2
    program = live.prepare("daemon")
    count, first = int(found[1] or 20), int(found[2] or 1)
    failed = sum(play_row(program, automount, it) for it in ROWS)
    steps_of, odd = 0, 0
    for seed in range(first, first + count):
        made, is_alike = by_chance(program, automount, seed)
        steps_of += made
        odd += not is_alike
    print(f"{len(ROWS)} rows, {failed} not as told; {count} masters with maps, {steps_of} steps compared, {odd} with a difference")
    return 1 if failed or odd else 0


if __name__ == "__main__":
    sys.exit(main(sys.argv))
