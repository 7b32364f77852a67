#!/usr/bin/env python3
"""Plays a script on the running kernel, and writes the trace of what the kernel did, as `automount_cli trace` writes it.

usage: tools/linux/record.py SCRIPT
       tools/linux/record.py --compare SCRIPT..
       tools/linux/record.py --log FILE

Each event stands there with the kernel's answer, and below it what was seen: the packets that came out of the pipes,
the requests that the kernel took, which processes wait in it, go on and arrive, and what came and went in mountinfo.
So a run of a real kernel can be held against the laws of a trace.

What is seen otherwise than in the model's trace of the same script: a walker goes on as soon as its token is
answered, so that what it passes and enters stands there, and not at its `resume`; and a packet has the kernel's own
inode, uid, gid, pid, tgid, and of a direct trigger its own name. Numbers that the kernel doesn't have are the script's own: of
file systems, attachments, walkers and tokens (in the order in which the kernel gives them), and of mounts, which are
found by their places. The daemon's half is the model's, and so are the lines of its book (`recorded`) and its death.
Not seen: the status with which a walker was released that had waited for an expiry: it is that of the answer.

With --compare it tells instead of each script whether the kernel's observations are those of the model's trace, whatever
their order, but for the fields of packets that are the kernel's own; and which are not.

With --log it plays nothing: it reads what `automount -f -d` has written, and writes the observations that are in it: the packets
that the daemon has read, and its answers. An autofs has the number of its line `mounted`, from 2 on, and one attachment; a packet that stands
there with no path behind it is left out with its answer, and told on standard error.

At the first difference from the model the script is played no further, as its events are meant for what the
model would do; then standard error says what it is. Status 0: the whole script is there; 1: up to a difference; 2: it can't
run here, or was given other words, or a script that can't be played; 130 and 143: it was ended by SIGINT or SIGTERM.
It leaves nothing behind, as live.py beside it, which it plays by.
"""

import collections
import contextlib
import io
import os
import re
import sys

sys.path.insert(0, os.path.dirname(os.path.abspath(__file__)))
import live  # pylint: disable=wrong-import-position

TYPES = {3: "missing-indirect", 4: "expire-indirect", 5: "missing-direct", 6: "expire-direct"}


class Recorder(live.Play):
    """A play that tells what is seen of each event."""

    def __init__(self, model):
        super().__init__(model)
        self.standing = dict(live.Tables(model.world(0), self.keepers).numbers.theirs)
        # Of each walker that waits its token, in the order in which they came to wait, and how much of its way is told.
        self.tokens_of, self.told_of = {}, {}
        self.written, self.answered, self.ended, self.lines = set(), [], set(), []

    # what is seen

    def see(self, at):
        """Plays an event, and gives the answer, the model's, what differs, and what was seen."""
        self.lines, self.answered = [], []
        ours, theirs, why = self.compare(at)
        daemons = self.model.seen[at] if ours == theirs else []
        self.lines += [it for it in daemons if it == "died"]
        if theirs.startswith("job"):
            token = int(theirs.split(" ")[1])
            self.lines.append(f"delivered {token} attach {self.attachment_of(token)} {self.packet(token)}")
        self.mounts()
        self.lines += [it for it in daemons if it.startswith("recorded ")]
        for token, status in self.answered:
            self.lines.append(f"answered {token} {status}")
            self.release([token], status)
        self.attachments(at)
        for walker in [*self.walks, *self.expiries]:
            self.look(walker)
        for token in sorted(set(self.contents) - self.written):
            self.queued(token)
        return ours, theirs, why

    def mounts(self):
        """What has come and gone in the tables."""
        numbers = self.tables.numbers.theirs
        beyond = max([0, *self.standing.values(), *numbers.values()])
        now = {}
        for rows in self.tables.rows.values():
            for row in rows:
                beyond += row.number not in numbers and row.number not in self.standing
                now[row.number] = numbers.get(row.number) or self.standing.get(row.number) or beyond
        came = sorted(now[it] for it in now if it not in self.standing)
        gone = sorted(self.standing[it] for it in self.standing if it not in now)
        self.lines += ["mounted " + " ".join(map(str, came))] * bool(came)
        self.lines += ["unmounted " + " ".join(map(str, gone))] * bool(gone)
        self.standing = now

    def attachments(self, at):
        """What has become catatonic, or is so no longer, by what the kernel says of its pipes."""
        said = "".join(live.text_of(f"/proc/{it.pid}/mountinfo") for it in self.keepers.values())
        for number, system in sorted(self.systems.items()):
            device = f"{os.major(system['dev'])}:{os.minor(system['dev'])}"
            found = re.search(rf"^\d+ \d+ {device} .* - autofs .*[, ]fd=(-?\d+)", said, re.M)
            if not found:
                continue
            is_catatonic = found[1] == "-1"
            if is_catatonic and number not in self.ended:
                self.ended.add(number)
                self.lines.append(f"catatonic {number}")
                self.release(sorted(it for it in self.contents if self.contents[it][1] == system["dev"]), "fail")
                self.forget(system["dev"])
            elif number in self.ended and not is_catatonic:
                self.ended.remove(number)
                self.lines.append(f"reattached {number} {self.model.answers[at]}")

    def forget(self, dev):
        for key in [it for it in self.open if it[0] == dev]:
            del self.open[key]

    def release(self, tokens, status):
        """Who waited on these tokens, and was seen to go on, with the status that it was given."""
        for token in tokens:
            for walker in [it for it, at in self.tokens_of.items() if at == token]:
                remote = self.expiries[walker] if walker in self.expiries else self.walks[walker].remote if walker in self.walks else None
                if remote is None or self.is_held(walker, remote):
                    continue
                del self.tokens_of[walker]
                self.lines.append(f"released {walker} token {token} {self.status_of(remote, token, status)}")

    def is_held(self, walker, remote):
        """Whether it waits still, on what has been answered."""
        remote.rest()
        self.take_packets()
        if remote.ended is not None or walker in self.expiries:
            return remote.ended is None
        return len(remote.said) == self.told_of.get(walker, 0) and not self.waits_on(walker)

    def status_of(self, remote, token, status):
        """What a walker was told: its own error, where its wait was for a mount or it asked for an expiry."""
        is_own = self.contents[token][0] in (3, 5) or remote in self.expiries.values()
        if status == "ready" or not is_own or "errno" not in (remote.ended or {}):
            return status
        number = live.number_of(remote.ended["errno"])
        return "fail" if number == 1 else f"fail {number}"

    def waits_on(self, walker):
        walk = self.walks[walker]
        last = walk.remote.said[-1]
        return self.token_at(walk, last, walk.path.strip("/").split("/")[last["at"]])

    def look(self, walker):
        """What a walker has done since it was looked at last."""
        remote = self.expiries[walker] if walker in self.expiries else self.walks[walker].remote
        remote.rest()
        self.take_packets()
        if walker in self.expiries:
            if remote.ended is None and walker not in self.tokens_of:
                token = max(it for it in self.contents if self.contents[it][0] in (4, 6))
                self.waits(walker, token)
            return
        walk = self.walks[walker]
        self.passes(walker, walk)
        if remote.ended is None and walker not in self.tokens_of and remote.said:
            token = self.waits_on(walker)
            if token:
                self.waits(walker, token)
        elif remote.ended and "ok" in remote.ended and not walk.__dict__.get("is_told"):
            walk.is_told = True
            self.lines.append(f"entered {walker} mount {self.standing.get(self.mount_of(walk), 0)}")

    def waits(self, walker, token):
        self.tokens_of[walker] = token
        if token not in self.written:
            self.queued(token)
        self.lines.append(f"waits {walker} token {token}")

    def passes(self, walker, walk):
        """The triggers behind which a walker stands now."""
        names = walk.path.strip("/").split("/")
        said = walk.remote.said
        behind = len(said) if walk.remote.ended and "ok" in walk.remote.ended else len(said) - 1
        for index in range(self.told_of.get(walker, 0), behind):
            trigger = self.trigger_at(said[index], names)
            if trigger:
                self.lines.append(f"passed {walker} {trigger}")
        self.told_of[walker] = max(behind, self.told_of.get(walker, 0))

    def trigger_at(self, stood, names):
        """The trigger that a step leads through: a name in the root of an autofs, or the place of a direct one."""
        place = "/" + "/".join(names[:stood["at"] + 1])
        for number, system in self.systems.items():
            if system["is_direct"] and system["path"] == place:
                return f"fs {number} direct"
            if not system["is_direct"] and system["dev"] == stood["dev"]:
                return f"fs {number} name {names[stood['at']]}"
        return None

    def mount_of(self, walk):
        found = re.search(r"mnt_id:\s*(\d+)", live.text_of(f"/proc/{walk.remote.pid}/fdinfo/{walk.remote.ended['ok']}"))
        return int(found[1]) if found else None

    # packets

    def queued(self, token):
        self.written.add(token)
        self.lines.append(f"queued {token} attach {self.attachment_of(token)} {self.packet(token)}")

    def system_of(self, token):
        return next(number for number, it in self.systems.items() if it["dev"] == self.contents[token][1])

    def attachment_of(self, token):
        attached = {fs: attach for attach, fs in self.latest().items()}
        return attached[self.system_of(token)]

    def packet(self, token):
        kind, _, name, ino, uid, gid, pid, tgid = self.contents[token]
        return f"{TYPES[kind]} dev {self.system_of(token)} ino {ino} uid {uid} gid {gid} pid {pid} tgid {tgid} name {name}"

    # requests and leaves, which the play makes

    def reply(self, said, seen, system, token, name):
        answer = super().reply(said, seen, system, token, name)
        if answer == said:
            self.answered.append((token, next(it for it in seen if it.startswith("answered ")).split(" ", 2)[2]))
        return answer

    def on_leave(self, at, walker):
        walk = self.walks.get(int(walker))
        mount = self.standing.get(self.mount_of(walk)) if walk and walk.is_inside else None
        answer = super().on_leave(at, walker)
        if mount and answer == "ok":
            self.lines.append(f"left {walker} mount {mount}")
            self.told_of.pop(int(walker), None)
        return answer


def record(program, path):
    """Writes the trace of a script, and returns the status."""
    model = live.Model(program, path)
    play = Recorder(model)
    try:
        for at, event in enumerate(model.events):
            missing = live.unplayable(event)
            if missing:
                raise live.Unfit(f"{event}: {missing}, which can't be played")
            ours, theirs, why = play.see(at)
            told = [f"{model.lines[at]}: {event}", f"= {theirs} : {len(play.lines)}", *(f"  {it}" for it in play.lines)]
            print("\n".join(told), flush=True)
            if ours != theirs or why:
                name = live.Difference(play, at, ours, theirs, why).name()
                print(f"record: {event}: the model says {ours}, and the kernel {theirs}{'; ' + why if why else ''}; "
                      f"{name + ', told in LINUX.md' if name else 'a DIFFERENCE that is not told'}", file=sys.stderr)
                return 1
        return 0
    finally:
        play.end()


OWN = re.compile(r" ino \d+ uid \d+ gid \d+ pid \d+ tgid \d+ name .*")


def observations(trace):
    """How often each observation stands in a trace, without what the kernel and the model have of their own."""
    return collections.Counter(OWN.sub("", it.strip()) for it in trace.splitlines() if it.startswith("  "))


def compare(program, path):
    """Tells which observations of a script are the kernel's or the model's alone, up to where they part."""
    with contextlib.redirect_stdout(io.StringIO()) as written:
        status = record(program, path)
    theirs = written.getvalue()
    last = max([0, *(int(it.split(":")[0]) for it in theirs.splitlines() if it[:1].isdigit())])
    ours, inside = "", True
    for line in live.Model(program, path).run("trace", live.text_of(path)).splitlines():
        inside = int(line.split(":")[0]) <= last if line[:1].isdigit() else inside
        ours += f"{line}\n" * inside
    lacks, has = observations(ours) - observations(theirs), observations(theirs) - observations(ours)
    said = "; ".join(f"{word} alone: {', '.join(it.elements())}" for word, it in (("the model", lacks), ("the kernel", has)) if it)
    print(f"-- {os.path.basename(path)}: {observations(theirs).total()} observations{'' if said or status else ', alike'}"
          f"{', up to where they part' if status else ''}{'; ' + said if said else ''}", flush=True)
    return int(bool(status or said))


# What automount logs of its packets and its answers.

PACKET = re.compile(r"handle_packet_(missing|expire)_(indirect|direct): token (\d+), name (\S+?)(?:, request pid (\d+))?$")
ANSWER = re.compile(r"dev_ioctl_send_(ready|fail): token = (\d+)$")
POINT = re.compile(r"mounted (?:indirect|direct) on (\S+) with timeout ")
WAY = re.compile(r"(?:attempting to mount entry|expiring path) (\S+)$")


def joined(path):
    return "/" + "/".join(filter(None, path.split("/")))


def of_a_log(lines):
    """The observations of a log of automount."""
    points, told = [], set()
    for at, line in enumerate(lines):
        point, packet, answer = POINT.search(line), PACKET.search(line), ANSWER.search(line)
        if point:
            points.append(joined(point[1]))
        elif packet:
            what, kind, token, name, pid = packet.groups()
            ways = (joined(it[1]) for it in map(WAY.search, lines[at:]) if it)
            path = joined(name) if kind == "direct" else next((it for it in ways if it.rpartition("/")[2] == name), "").rpartition("/")[0]
            if path not in points:
                print(f"record: line {at + 1}: no path stands behind the packet of token {token}", file=sys.stderr)
                continue
            told.add(token)
            number = points.index(path)
            fields = f"dev {number + 2} ino 0 uid 0 gid 0 pid {pid or 0} tgid {pid or 0} name {'direct' if kind == 'direct' else name}"
            for word in ("queued", "delivered"):
                yield f"{word} {token} attach {number + 1} {what}-{kind} {fields}"
        elif answer and answer[2] in told:
            yield f"answered {answer[2]} {answer[1]}"


def main(words):
    if words[1:2] == ["--log"] and len(words) == 3 and os.path.isfile(words[2]):
        for line in of_a_log(live.text_of(words[2]).splitlines()):
            print(f"  {line}")
        return 0
    compares = words[1:2] == ["--compare"]
    paths = words[2:] if compares else words[1:]
    if not paths or not compares and len(paths) > 1 or any(not os.path.isfile(it) for it in paths):
        print("record: expected the path of a script, --compare and the paths of some, or --log and a file", file=sys.stderr)
        return 2
    program = live.prepare("record")
    try:
        return max(compare(program, it) for it in paths) if compares else record(program, paths[0])
    except (live.Unfit, live.Silence) as error:
        print(f"record: {error}", file=sys.stderr)
        return 2


if __name__ == "__main__":
    sys.exit(main(sys.argv))
