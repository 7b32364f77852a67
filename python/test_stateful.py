"""A property test by Hypothesis (Debian's python3-hypothesis), where the package is there: rules make events by chance,
what must hold is looked at behind each, and where it doesn't, Hypothesis shrinks the events to few.

Beside the model's daemon stands one of the reader's own, of twenty lines, which keeps a book of its own. Both books must
tell the same of each key; a daemon with a fault is found, and by how few events.
"""

import contextlib
import io
import unittest

import dalvicna

try:
    from hypothesis import settings, strategies as some
    from hypothesis.stateful import RuleBasedStateMachine, invariant, precondition, rule, run_state_machine_as_test
except ImportError:
    raise unittest.SkipTest("the package hypothesis isn't there") from None

KEYS = ("home", "work")
WALKERS = some.integers(1, 4)
SETTINGS = settings(max_examples=40, stateful_step_count=40, deadline=None, database=None, derandomize=True)


class Daemon:
    """A daemon of the reader's own: its book, and what each job writes there at its end."""

    def __init__(self):
        self.book, self.key_of, self.ends = dict.fromkeys(KEYS, "none"), {}, {}

    def takes_up(self, token, packet, key):
        self.key_of[token], self.ends[token] = key, "none"
        if packet == "missing-indirect":
            self.book[key] = f"mounting {token}"
        else:
            self.book[key] = f"unmounting {token} {self.book[key].split()[-1]}"

    def has_done(self, token, told):
        key = self.key_of[token]
        if told.startswith("did mount"):
            self.ends[token] = f"mounted {told.split()[-1]}"
        elif told == "failed umount":
            self.stays(token, key)
        elif told == "did record":
            self.book[key] = self.ends[token]

    def stays(self, token, key):
        self.ends[token] = f"mounted {self.book[key].split()[-1]}"


class Hasty(Daemon):
    """One that takes a mount for unmounted, however that went."""

    def stays(self, token, key):
        pass


class Machine(RuleBasedStateMachine):
    """One autofs with two keys: walks, deliveries, acts, expiries and mounts."""

    daemon_of = Daemon

    def __init__(self):
        super().__init__()
        self.world = dalvicna.World(master="/auto auto.home --timeout=10\n",
                                    maps={"auto.home": "".join(f"{key} srv:/{key}\n" for key in KEYS)})
        self.daemon = self.daemon_of()
        self.trace, self.now, self.queue, self.jobs = [], 100, [], []
        self.ask("attach /auto")

    def ask(self, event):
        answer = self.world.ask(event)
        for line in self.world.observed():
            self.trace.append(f"  {line}\n")
            words = line.split()
            if words[0] == "queued":
                self.queue.append(words[1])
            elif words[0] == "delivered":
                self.jobs.append(words[1])
                self.daemon.takes_up(words[1], words[4], words[-1])
        return answer

    @rule(walker=WALKERS, key=some.sampled_from(KEYS))
    def walk(self, walker, key):
        self.ask(f"walk {walker} 0 /auto/{key} {self.now} room")

    @rule(walker=WALKERS)
    def resume(self, walker):
        self.ask(f"resume {walker} {self.now} room")

    @rule(walker=WALKERS)
    def leave(self, walker):
        self.ask(f"leave {walker}")

    @precondition(lambda self: self.queue)
    @rule()
    def deliver(self):
        self.ask(f"deliver {self.queue.pop(0)}")

    @precondition(lambda self: self.jobs)
    @rule(data=some.data(), result=some.sampled_from(("ok", "ok", "fail")))
    def act(self, data, result):
        token = data.draw(some.sampled_from(self.jobs))
        told = self.ask(f"act {token} {result}")
        self.daemon.has_done(token, told)
        if told == "did reply":
            self.jobs.remove(token)

    @rule(walker=WALKERS, how=some.sampled_from(("idle", "immediate")), seconds=some.integers(0, 20))
    def expire(self, walker, how, seconds):
        self.now += seconds
        self.ask(f"expire {walker} 2 {self.now} {how} room")

    @rule(place=some.sampled_from(("/tmp", "/home")))
    def mount(self, place):
        self.ask(f"mount 0 {place}")

    @invariant()
    def the_trace_is_lawful(self):
        assert dalvicna.trace_holds("".join(self.trace)), "".join(self.trace)

    @invariant()
    def the_books_tell_the_same(self):
        for key in KEYS:
            told = self.world.ask(f"record 2 {key}")
            assert told == f"record {self.daemon.book[key]}", f"{key}: {told}, and here {self.daemon.book[key]}"

    def teardown(self):
        self.world.close()


class WithHasty(Machine):
    daemon_of = Hasty


class Stateful(unittest.TestCase):
    def test_a_daemon_beside_the_models(self):
        run_state_machine_as_test(Machine, settings=SETTINGS)

    def test_a_fault_is_found_by_few_events(self):
        with contextlib.redirect_stdout(io.StringIO()) as said, self.assertRaises(AssertionError) as raised:
            run_state_machine_as_test(WithHasty, settings=settings(SETTINGS, max_examples=400))
        steps = [line for line in said.getvalue().split("\n") if line.startswith("state.") and "teardown" not in line]
        # a walk, its job of four acts and its packet; an expiry, its packet, and two acts
        self.assertLessEqual(len(steps), 14, said.getvalue() + str(raised.exception))


if __name__ == "__main__":
    unittest.main()
