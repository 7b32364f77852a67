"""Tests of the module; tools/library.py test runs them, by `python3 -m unittest` in this folder."""

import glob
import os
import pickle
import re
import threading
import unittest

import dalvicna

TOP = os.path.realpath(os.path.join(os.path.dirname(__file__), ".."))
HEAD = "master\n/auto auto.home\nend\nmap auto.home\nhome srv:/home\nend\nevents\n"


def bytes_of(path):
    with open(path, "rb") as file:
        return file.read()


class Examples(unittest.TestCase):
    """All examples, byte for byte."""

    def each(self, end, view):
        scripts = sorted(glob.glob(f"{TOP}/examples/*.script"))
        self.assertGreaterEqual(len(scripts), 12)
        for path in scripts:
            with self.subTest(path):
                written = view(bytes_of(path)).encode(*dalvicna.ENCODING)
                self.assertEqual(written, bytes_of(path[:-len("script")] + end))

    def test_answers(self):
        self.each("out", lambda script: "".join(f"{line}\n" for line in dalvicna.play(script)))

    def test_traces(self):
        self.each("trace", dalvicna.trace)

    def test_pictures(self):
        self.each("svg", dalvicna.draw)

    def test_worlds(self):
        self.each("world", dalvicna.world_text)


class Scripts(unittest.TestCase):
    def test_the_scripts_of_tests(self):
        """Answers, how many these are and how many of them refusals, and the fault, as the files beside them say."""
        scripts = sorted(glob.glob(f"{TOP}/tests/*.script"))
        self.assertGreaterEqual(len(scripts), 150)
        for path in scripts:
            with self.subTest(path):
                start = path[:-len("script")]
                told, answers = dalvicna.played(bytes_of(path)), bytes_of(f"{start}out")
                fault = bytes_of(f"{start}fault").decode().strip() if os.path.exists(f"{start}fault") else ""
                self.assertEqual(told.text.encode(*dalvicna.ENCODING), answers)
                self.assertEqual(f"line {told.fault.line}: {told.fault.word}" if told.fault else "", fault)
                if not fault:
                    refused = sum(line.startswith(b"err ") for line in answers.split(b"\n"))
                    self.assertEqual((told.lines, told.refused), (answers.count(b"\n"), refused))

    def test_how_a_script_went(self):
        told = dalvicna.played("events\nleave 7\nkind 0 /\n")
        self.assertEqual((told.text, told.lines, told.refused, told.fault), ("err 5\nkind private\n", 2, 1, None))
        self.assertEqual(dalvicna.error_name(5), "EINVAL")
        self.assertEqual(dalvicna.play(""), [])

    def test_a_fault_behind_answers(self):
        with self.assertRaises(dalvicna.ScriptFault) as raised:
            dalvicna.play(HEAD + "attach /auto\nwalk\n")
        fault = raised.exception
        self.assertEqual((fault.number, fault.word, fault.line, fault.expected), (6, "BadEvent", 9, "a walker, a number below 2^32"))
        self.assertEqual(fault.column, 5)
        self.assertEqual(fault.written, "fs 2 attach 1 mount 2\n")
        self.assertEqual(str(fault), "line 9, column 5: BadEvent: expected a walker, a number below 2^32")
        again = pickle.loads(pickle.dumps(fault))
        self.assertEqual((str(again), again.column, again.written), (str(fault), 5, fault.written))
        self.assertIsNone(fault.cause)

    def test_faults_of_maps(self):
        told = dalvicna.played("master\n/a x\n/a y\nend\n").fault
        self.assertEqual((told.number, told.word, told.line), (3, "Twice", 3))
        self.assertIsInstance(told.cause, dalvicna.MasterFault)
        told = dalvicna.played("master\n/a x\nend\nmap x\nk\nend\nevents\n").fault
        self.assertEqual((told.number, told.word), (4, "NoLocation"))
        self.assertEqual(str(told), "line 5, column 2: NoLocation: expected options behind a dash, or a location host:/path")

    def test_a_fault_is_pickled(self):
        fault = dalvicna.played("master\n/a x\n/a y\nend\n").fault
        again = pickle.loads(pickle.dumps(fault))
        self.assertEqual((str(again), again.cause.number), (str(fault), 5))

    def test_bytes_that_are_no_text(self):
        script = b"events\nmount 0 /\xff\nkind 0 /\xff\n"
        self.assertEqual(dalvicna.play(script), ["mount 2", "kind private"])
        self.assertEqual(dalvicna.play(script.decode(*dalvicna.ENCODING)), ["mount 2", "kind private"])
        self.assertIn(b"mount 0 /\xff\n", dalvicna.trace(script).encode(*dalvicna.ENCODING))
        for some in (b"\0" * 9, b"\xff" * 9000, bytes(range(256)) * 40):
            with self.assertRaises(dalvicna.ScriptFault):
                dalvicna.play(some)

    def test_more_than_there_is_room_for_at_first(self):
        script = "events\n" + "mount 0 /a\n" * 600
        self.assertGreater(len(dalvicna.world_text(script)), 20000)
        self.assertEqual(dalvicna.trace(script).count("= mount"), 600)
        for room in (0, 1, 9000):
            self.assertEqual(dalvicna._script("am_trace", script, room).text, dalvicna.trace(script))

    def test_one_namespace_and_some_rows(self):
        script = "events\nnscopy 0\nmount 1 /a\n"
        self.assertNotIn("/a", dalvicna.world_text(script, 0))
        self.assertIn("/a", dalvicna.world_text(script, 1))
        self.assertIn("nscopy 0", dalvicna.draw(script))
        self.assertNotIn("nscopy 0", dalvicna.draw(script, 2, 2))
        self.assertIn("mount 1 /a", dalvicna.draw(script, 2, 2))
        with self.assertRaises(OverflowError):
            dalvicna.world_text(script, 2**32)
        with self.assertRaises(OverflowError):
            dalvicna.draw(script, -1)

    def test_threads(self):
        script, found = HEAD + "attach /auto\nwalk 7 0 /auto/home 100 room\n", []

        def often():
            found.extend(dalvicna.play(script) for _ in range(200))

        threads = [threading.Thread(target=often) for _ in range(4)]
        for thread in threads:
            thread.start()
        for thread in threads:
            thread.join()
        self.assertEqual(found, [["fs 2 attach 1 mount 2", "wait 1"]] * 800)


class Worlds(unittest.TestCase):
    MAPS = {"auto.home": "home srv:/home\n"}

    def world(self, **words):
        return dalvicna.World(master="/auto auto.home\n", maps=self.MAPS, **words)

    def test_events_one_by_one(self):
        with self.world() as world:
            self.assertEqual(world.observed(), [])
            self.assertEqual(world.ask("attach /auto"), "fs 2 attach 1 mount 2")
            self.assertEqual(world.ask(b"walk 7 0 /auto/home 100 room"), "wait 1")
            self.assertEqual([line.split()[0] for line in world.observed()], ["queued", "waits"])
            self.assertEqual((world.ask(""), world.ask(" # a comment")), ("", ""))
            self.assertEqual(world.ask("leave 7"), "err 5")
            self.assertIn("/auto", world.text())
            self.assertNotIn("# namespace", world.text(0))

    def test_examples_event_by_event(self):
        for path in sorted(glob.glob(f"{TOP}/examples/*.script")):
            with self.subTest(path):
                script = bytes_of(path).decode(*dalvicna.ENCODING)
                head, _, events = script.partition("\nevents\n")
                sections = re.findall(r"^(master|map (\S+))\n(.*?)^end$", head, re.M | re.S)
                limits = re.search(r"^limits (\d+) (\d+) (\d+)", head, re.M)
                negative = re.search(r"^negative (\d+)", head, re.M)
                world = dalvicna.World(tuple(map(int, limits.groups())) if limits else None,
                                       "".join(text for word, _, text in sections if word == "master"),
                                       {name: text for _, name, text in sections if name},
                                       int(negative[1]) if negative else None)
                answers, seen = [], []
                for line in events.split("\n"):
                    answer = world.ask(line)
                    if answer:
                        answers.append(answer)
                        seen += world.observed()
                self.assertEqual(answers, dalvicna.play(script))
                told = [line[2:] for line in dalvicna.trace(script).split("\n") if line.startswith("  ")]
                self.assertEqual(seen, told)
                self.assertTrue(dalvicna.trace_holds("".join(f"  {it}\n" for it in seen)))
                self.assertEqual(world.text(), dalvicna.world_text(script))

    def test_faults_of_events(self):
        world = self.world()
        for line, column in (("walk", 5), ("leave 7\n", None), ("act 1 done", 7), ("x" * 9000, 8193)):
            with self.assertRaises(dalvicna.ScriptFault) as raised:
                world.ask(line)
            self.assertEqual((raised.exception.line, raised.exception.column), (1, column))
        self.assertEqual((raised.exception.word, raised.exception.expected), ("LongLine", "the end of the line"))
        self.assertEqual(world.ask("attach /auto"), "fs 2 attach 1 mount 2")

    def test_faults_of_heads(self):
        with self.assertRaises(dalvicna.MasterFault) as raised:
            dalvicna.World(master="/a x\n/a y")
        self.assertEqual((raised.exception.word, raised.exception.line), ("Twice", 2))
        self.assertEqual(str(raised.exception), "line 2, column 1: Twice: expected a mount point that no line above has")
        with self.assertRaises(dalvicna.MapFault) as raised:
            dalvicna.World((1000, 10, 10), "/a x\n/b y\n", {"x": "k h:/k", "y": "\nk"})
        self.assertEqual((raised.exception.word, raised.exception.line, raised.exception.map), ("NoLocation", 2, "y"))
        with self.assertRaises(dalvicna.ScriptFault) as raised:
            dalvicna.World(master="\n/a x")
        self.assertEqual((raised.exception.word, raised.exception.line), ("NoSuchMap", 2))
        with self.assertRaises(dalvicna.ScriptFault) as raised:
            dalvicna.World(limits=(0, 1, 1))
        self.assertEqual((raised.exception.word, raised.exception.column), ("BadLimits", 8))
        with self.assertRaises(ValueError):
            dalvicna.World(master="/a x", maps={"x": "k h:/k\nend\n"})
        for name in ("", "n o", "a\nb"):
            with self.assertRaises(ValueError):
                dalvicna.World(maps={name: ""})

    def test_what_is_no_text(self):
        for call in (dalvicna.play, dalvicna.trace_holds, self.world().ask):
            with self.assertRaises(TypeError):
                call(3)

    def test_an_answer_for_which_there_is_no_room_at_first(self):
        world = dalvicna.World()
        for _ in range(1500):
            world.ask("mount 0 /a")
        world.ask("nscopy 0")
        answer = world.ask("nsdrop 1")
        self.assertGreater(len(answer), 4096)
        self.assertTrue(answer.startswith("gone "))
        self.assertEqual(world.ask("kind 0 /a"), "kind private")

    def test_a_closed_world(self):
        world = self.world()
        world.close()
        world.close()
        with self.assertRaises(ValueError):
            world.ask("attach /auto")
        with self.assertRaises(ValueError):
            world.text()

    def test_worlds_in_threads(self):
        found = []

        def often():
            with self.world() as world:
                world.ask("attach /auto")
                found.append([world.ask(f"walk {walker} 0 /auto/home 100 room") for walker in range(500)])

        threads = [threading.Thread(target=often) for _ in range(4)]
        for thread in threads:
            thread.start()
        for thread in threads:
            thread.join()
        self.assertEqual(found, [["wait 1"] * 500] * 4)


class Traces(unittest.TestCase):
    QUEUED = "  queued 1 attach 1 missing-indirect dev 2 ino 1 uid 0 gid 0 pid 7 tgid 7 name home\n"

    def test_traces_of_examples_are_lawful(self):
        for path in sorted(glob.glob(f"{TOP}/examples/*.trace")):
            with self.subTest(path):
                self.assertTrue(dalvicna.trace_holds(bytes_of(path)))

    def test_traces_that_are_lawful_and_such_that_are_not(self):
        self.assertTrue(dalvicna.trace_holds("seen elsewhere\n" + self.QUEUED + "  waits 7 token 1\n"))
        self.assertFalse(dalvicna.trace_holds("  waits 7 token 1\n"))
        self.assertFalse(dalvicna.trace_holds(self.QUEUED * 2))
        self.assertTrue(dalvicna.trace_holds(""))

    def test_where_a_trace_breaks_a_law(self):
        self.assertIsNone(dalvicna.first_breach(self.QUEUED + "  waits 7 token 1\n"))
        found = dalvicna.first_breach("1: an event\n" + self.QUEUED + "  waits 7 token 2\n  waits 8 token 2\n")
        self.assertEqual(found, (3, 2, "a walker waits on a token that is open"))
        with self.assertRaises(dalvicna.TraceFault):
            dalvicna.first_breach("  died now\n")

    def test_a_line_that_is_no_observation(self):
        with self.assertRaises(dalvicna.TraceFault) as raised:
            dalvicna.trace_holds("a\nb\n  waits 7 token x\n")
        fault = raised.exception
        self.assertEqual((fault.word, fault.line, fault.column, fault.expected), ("BadLine", 3, 17, "a token"))
        self.assertEqual(str(fault), "line 3, column 17: BadLine: expected a token")
        again = pickle.loads(pickle.dumps(fault))
        self.assertEqual((str(again), again.column), (str(fault), 17))


class Packets(unittest.TestCase):
    PACKET = dalvicna.Packet(dalvicna.PacketKind.MISSING_INDIRECT, 17, 2, 2**40, 3, 4, 5, 6, b"home")

    def test_a_packet_is_read_as_it_was_written(self):
        some = self.PACKET.to_bytes()
        self.assertEqual((len(some), some[44:49]), (304, b"home\0"))
        self.assertEqual(dalvicna.packet(some), self.PACKET)
        self.assertEqual(dalvicna.packet(memoryview(some)[:300]), self.PACKET)

    def test_faults(self):
        for some, word in ((b"", "Length"), (bytes(304), "Version")):
            with self.assertRaises(dalvicna.PacketFault) as raised:
                dalvicna.packet(some)
            self.assertEqual((raised.exception.word, raised.exception.line), (word, None))
        with self.assertRaises(dalvicna.PacketFault):
            dalvicna.Packet(dalvicna.PacketKind.EXPIRE_INDIRECT, 1, 2, 3, 4, 5, 6, 7, b"a/b").to_bytes()
        with self.assertRaises(OverflowError):
            dalvicna.Packet(dalvicna.PacketKind.EXPIRE_DIRECT, 2**32, 2, 3, 4, 5, 6, 7, b"").to_bytes()

    def test_requests(self):
        self.assertEqual(dalvicna.request_number(dalvicna.Request.READY), 0x9360)
        self.assertEqual(dalvicna.request_number(dalvicna.Request.SETPIPE), 0xC0189378)


class Maps(unittest.TestCase):
    MAP = "home -ro,soft srv:/export/&\n* big:/all/&\n"

    def test_entries(self):
        self.assertEqual(dalvicna.look_up(self.MAP, "home"), dalvicna.Entry("ro,soft", "srv", "/export/home"))
        self.assertEqual(dalvicna.look_up(self.MAP, "k" * 3000), dalvicna.Entry(None, "big", "/all/" + "k" * 3000))
        self.assertIsNone(dalvicna.look_up("home srv:/home", "work"))
        self.assertEqual(dalvicna.look_up("/a//b srv:/x", "/a/b", direct=True).host, "srv")
        with self.assertRaises(dalvicna.MapFault) as raised:
            dalvicna.look_up("a srv:/a\nb\n", "a")
        self.assertEqual((raised.exception.word, raised.exception.line, raised.exception.column), ("NoLocation", 2, 2))
        self.assertEqual(raised.exception.expected, "options behind a dash, or a location host:/path")

    def test_lines_of_a_master_map(self):
        lines = dalvicna.master("/auto auto.home --timeout=60\n\n/- auto.direct\n")
        self.assertEqual(lines[0], dalvicna.MasterLine("/auto", "auto.home", 60, 1))
        self.assertEqual(lines[1:], [dalvicna.MasterLine(None, "auto.direct", 300, 3)])
        self.assertEqual(dalvicna.master(""), [])
        with self.assertRaises(dalvicna.MasterFault) as raised:
            dalvicna.master("/a x\n/a y\n")
        self.assertEqual(str(raised.exception), "line 2, column 1: Twice: expected a mount point that no line above has")


class Header(unittest.TestCase):
    def test_each_call_is_bound(self):
        with open(f"{TOP}/c/dalvicna.h", encoding="utf-8") as file:
            self.assertEqual(sorted(dalvicna._CALLS), sorted(re.findall(r"^\w+ (am_\w+)\(", file.read(), re.M)))


if __name__ == "__main__":
    unittest.main()
