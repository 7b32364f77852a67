#!/usr/bin/env python3
"""Mounts, binds, unmounts and namespaces computed the slow way, by chains of mounts, over
generated small worlds. It prints the number that the test `worlds_of_the_slow_model` of
am_table_tests expects: both fold each answer, what each unmount would take, whether it would be
refused, and the whole mount table after each step."""
import sys

MASK = (1 << 64) - 1
EINVAL, ENOENT, EBUSY, ENOSPC = 5, 1, 3, 9
# The number of no mount.
ABSENT = 99


class Random:
    def __init__(self, seed):
        self.x = seed

    def below(self, n):
        self.x = (self.x * 6364136223846793005 + 1442695040888963407) & MASK
        return (self.x >> 33) % n


class World:
    def __init__(self, limit):
        # number: [ns, parent or None, place, fs, origin]
        self.rows = {1: [0, None, 0, 1, 1]}
        # number: [group, master, unbindable]; group: master, in order of making
        self.members = {1: [None, None, False]}
        self.groups = {}
        self.last_group, self.last, self.last_ns, self.limit = 0, 1, 0, limit

    def master_of(self, m):
        group, master, _ = self.members[m]
        return self.groups[group] if group else master

    def passes(self, b, c):
        group = self.members[b][0]
        return group is not None and group in (self.members[c][0], self.master_of(c))

    def receivers(self, b):
        found, more = set(), [b]
        while more:
            x = more.pop()
            for c in self.members:
                if self.passes(x, c) and c not in found:
                    found.add(c)
                    more.append(c)
        return sorted(found - {b})

    def lift(self, master):
        peopled = {row[0] for row in self.members.values()}
        while master is not None and master not in peopled:
            master = self.groups[master]
        return master

    def settle(self):
        members = {m: [g, self.lift(a), u] for m, (g, a, u) in self.members.items()}
        groups = {g: self.lift(a) for g, a in self.groups.items()}
        self.members, self.groups = members, groups

    def change(self, kind, m):
        if m not in self.rows:
            return EINVAL
        group, master, _ = self.members[m]
        if kind == 0 and not group:
            self.last_group += 1
            self.groups[self.last_group] = master
            self.members[m] = [self.last_group, None, False]
        elif kind == 1 and group:
            self.members[m] = [None, group, False]
        elif kind >= 2:
            self.members[m] = [None, None, kind == 3]
        self.settle()

    def add(self, b, place, fs, source):
        if b not in self.rows:
            return EINVAL
        group, master, _ = source
        receivers = self.receivers(b)
        if self.last + 1 + len(receivers) > self.limit:
            return ENOSPC
        before = set(self.rows)
        number = self.last + 1
        own = self.members[b][0]
        new = {}
        if own is None:
            new[number] = [group, master, False]
        else:
            old_members, old_groups = dict(self.members), dict(self.groups)
            others = sorted({old_members[r][0] for r in receivers} - {None, own})
            stands = {}
            if group is None:
                self.last_group += 1
                group = self.last_group
                self.groups[group] = master
            stands[own] = group
            for g in others:
                self.last_group += 1
                stands[g] = self.last_group
            for g in [g for g in old_groups if g in others]:
                up = old_groups[g]
                self.groups[stands[g]] = stands[up] if up is not None else None
            new[number] = [group, None, False]
            for i, r in enumerate(receivers):
                g, a, _ = old_members[r]
                copy = [stands[g], None, False] if g is not None else [None, stands[a], False]
                new[number + 1 + i] = copy
        for i, r in enumerate([b] + receivers):
            self.rows[number + i] = [self.rows[r][0], r, place, fs, number]
        self.members.update(new)
        self.last = number + len(receivers)
        return self.came(before)

    def came(self, before):
        return [100 + m for m in sorted(set(self.rows) - before)]

    def bind(self, source, b, place):
        if source not in self.rows or self.members[source][2]:
            return EINVAL
        return self.add(b, place, self.rows[source][3], self.members[source])

    def on(self, m):
        return [c for c in self.rows if self.rows[c][1] == m]

    def remove(self, gone):
        for m in gone:
            del self.rows[m]
            del self.members[m]
        self.settle()
        return [100 + m for m in sorted(gone)]

    def takes(self, m):
        if m not in self.rows:
            return []
        _, parent, place, _, _ = self.rows[m]
        gone = {m}
        for r in self.receivers(parent) if parent is not None else []:
            there = [c for c in self.on(r) if self.rows[c][2] == place]
            if there and not self.on(max(there)):
                gone.add(max(there))
        return sorted(gone)

    def umount_refusal(self, m, used):
        if m not in self.rows:
            return EINVAL
        if self.rows[m][1] is None or self.on(m) or used in self.takes(m):
            return EBUSY
        return 0

    def umount(self, m, used):
        return self.umount_refusal(m, used) or self.remove(self.takes(m))

    def in_ns(self, ns):
        return sorted(m for m in self.rows if self.rows[m][0] == ns)

    def copy(self, ns, reduced):
        mounts = self.in_ns(ns)
        if not mounts:
            return ENOENT
        if self.last + len(mounts) > self.limit:
            return ENOSPC
        before = set(self.rows)
        copy = {m: self.last + 1 + i for i, m in enumerate(mounts)}
        self.last_ns += 1
        for m in mounts:
            _, parent, place, fs, origin = self.rows[m]
            self.rows[copy[m]] = [self.last_ns, copy.get(parent), place, fs, origin]
            group, master, unbindable = self.members[m]
            if reduced and group is not None:
                self.members[copy[m]] = [None, group, False]
            else:
                self.members[copy[m]] = [group, master, unbindable]
        self.last += len(mounts)
        return [100 + self.last_ns] + self.came(before)

    def drop(self, ns, used):
        mounts = self.in_ns(ns)
        if ns == 0:
            return EINVAL
        if not mounts:
            return ENOENT
        return EBUSY if used in mounts else self.remove(mounts)


def step(world, random):
    mounts = sorted(world.rows) + [ABSENT]
    op = random.below(8)
    a = mounts[random.below(len(mounts))]
    b = mounts[random.below(len(mounts))]
    n = random.below(4)
    reduced = random.below(2) == 1
    if op <= 1:
        return world.add(a, n % 2, 2, [None, None, False])
    if op <= 3:
        return world.bind(a, b, n % 2)
    if op <= 5:
        return world.change(n, a) or 0
    if op == 6:
        takes, refusal = [100 + m for m in world.takes(a)], world.umount_refusal(a, b)
        answer = world.umount(a, b)
        return takes + [refusal] + (answer if isinstance(answer, list) else [answer])
    return world.copy(n, reduced) if n % 2 == 0 else world.drop(n, b)


def main(words):
    if len(words) != 2 or not all(word.isdecimal() for word in words):
        print("slow_mounts: expected two numbers, of worlds and of the steps of each", file=sys.stderr)
        return 2
    worlds, steps = (int(word) for word in words)
    random, total = Random(1), 0

    def fold(value):
        nonlocal total
        total = (total * 1000003 + value) & MASK

    for _ in range(worlds):
        world = World(40)
        for _ in range(steps):
            answer = step(world, random)
            for value in answer if isinstance(answer, list) else [answer]:
                fold(value)
            for m in sorted(world.rows):
                ns, parent, place, fs, origin = world.rows[m]
                group, _, unbindable = world.members[m]
                for value in (m, ns, parent or 0, place, fs, origin, group or 0):
                    fold(value)
                fold(world.master_of(m) or 0)
                fold(1 if unbindable else 0)
    print(total)
    return 0


if __name__ == "__main__":
    sys.exit(main(sys.argv[1:]))
