#!/usr/bin/env python3
"""Holds `automount_cli explore` against the scenes of examples/explore, and plays each order that it finds.

usage: tools/explores.py

- what is found of each scene is what stands beside it, in NAME.found, and its exit status is that of its questions; the
  pages that show scenes and what is found have those of the files;
- each order is played, by the script that tools/order.py makes of it: it is one of the scene, and no event of it is out
  of memory; behind it nobody can go on; what the question asks for stands there; and `draw` takes it too;
- with `--most N` each search is cut behind so many states, and tells what it found before that, and which orders it has
  seen;
- `--prefix` has the orders alone that begin with its choices: what the parts of a scene come to, one for each choice,
  is what the whole comes to; of a number that no choice has its place is told, and a choice that is no step begins no
  order;
- on a terminal a search tells each second how far it is, and nowhere else;
- each fault of a scene is told with its line and its place, and nothing is written; so are a reader that fails or ends
  within a line, and a writer that takes nothing; other words are no command line.

The last line counts the checks.
"""

import concurrent.futures
import glob
import os
import pty
import re
import select
import subprocess
import sys
import time

sys.dont_write_bytecode = True
import order  # noqa: E402
import places  # noqa: E402

FOLDER = "examples/explore"
#: The scene that docs/FORMATS.md shows, one with few states, and one of which an order isn't as asked.
SHOWN, SMALL, REFUTED = "two_walkers", "a_failure", "a_wait_for_ever"
PATIENCE = 300
FORMATS, QUESTIONS = "docs/FORMATS.md", "docs/QUESTIONS.md"
STATES = re.compile(r"# orders \d+ states (\d+) ends \d+ worlds \d+")
ORDERS = re.compile(r"# orders (\d+) states \d+ ends \d+ worlds \d+")
FEWER = re.compile(r"^# line (\d+): not all seen, no order of fewer than (\d+) events$", re.M)
#: What is written of a part without an order, behind what is written of its questions.
NO_ORDERS = "# orders 0 states 0 ends 0 worlds 0"
#: What is told each second.
PROGRESS = re.compile(r"explore: states (\d+), orders \d+, ends \d+\r?\n")
#: A scene whose search takes seconds, by as many walkers as it is made with.
MANY = "master\n/auto auto.home\nend\nmap auto.home\n* srv:/&\nend\nevents\nattach /auto\n"
#: One in which a walker waits that nobody releases.
WAITS = f"{MANY}thread a\nwalk 1 0 /auto/k 5 room\nresume 1 6 room\nend\nnever a 1 err *\n"

A_THREAD = "events\nthread a\ndie\nend\n"
#: Texts that are no scenes: the word of the fault, its line, and the text.
FAULTS = (
    ("NoEvents", 1, ""), ("NoEvents", 1, "# no line feed"), ("NoEvents", 2, "limits 9 9 9\n"),
    ("BadSection", 1, "thread a\n"), ("BadSection", 1, "master\n"), ("BadEvent", 2, "events\nattach auto\n"),
    ("LongLine", 2, "events\n#" + 8192 * "x"),
    ("BadLine", 3, "events\nserve daemon\ndie\n"), ("BadLine", 5, f"{A_THREAD}end\n"),
    ("LateLine", 6, f"{A_THREAD}never a waiting\nserve daemon\n"),
    ("LateLine", 6, f"{A_THREAD}never a waiting\nthread b\nend\n"),
    ("BadThread", 2, "events\nthread\nend\n"), ("BadThread", 2, "events\nthread a b\nend\n"),
    ("ThreadTwice", 5, f"{A_THREAD}thread a\nend\n"), ("NoEnd", 2, "events\nthread a\ndie\n"),
    ("BadThreadEvent", 3, "events\nthread a\nwalk 1 0\nend\n"),
    ("BadService", 2, "events\nserve\n"), ("BadService", 2, "events\nserve daemon fail 10\n"),
    ("ServiceTwice", 3, "events\nserve daemon\nserve daemon fail 1\n"),
    ("BadQuestion", 5, f"{A_THREAD}never\n"), ("BadQuestion", 5, f"{A_THREAD}sometimes a\n"),
    ("NoSuchThread", 5, f"{A_THREAD}never b waiting\n"),
    ("NoSuchEvent", 5, f"{A_THREAD}never a 2 *\n"), ("NoSuchEvent", 5, f"{A_THREAD}never a waiting long\n"),
    ("BadAnswer", 5, f"{A_THREAD}never a 1 ok\n"), ("BadAnswer", 5, f"{A_THREAD}never a 1 err 13\n"),
    ("BadAnswer", 5, f"{A_THREAD}never a 1"),
)
#: The faults of scripts among them, and of scenes those that tools/commands.py comes to.
OF_SCRIPTS, ELSEWHERE = {"BadSection", "BadEvent", "LongLine"}, {"NoMemory"}
#: Words behind `explore` that are no command line.
REFUSED = (["x"], ["--most"], ["--most", "0"], ["--most", "4294967296"], ["--most", "-1"], ["--least", "1"],
           ["--prefix"], *(["--prefix", it] for it in (
               "0", "1,0", "4294967296", "01", "+1", "-1", "1,", ",1", "1,,2", "1 2", "1, 2", "a", "1,a", ",")))


class Program:
    def __init__(self):
        self.path = order.program()

    def run(self, words, given, **how):
        """Runs it, and returns its status, what it wrote and what it told."""
        text = given.encode("utf-8", "surrogateescape")
        ran = subprocess.run([self.path, *words], input=text, capture_output=True, timeout=PATIENCE, check=False, **how)
        return ran.returncode, ran.stdout.decode("utf-8", "surrogateescape"), ran.stderr.decode()

    def answers(self, script):
        """The answer to each event of a script, which has no fault."""
        status, wrote, said = self.run(["script"], script)
        if (status, said) != (0, ""):
            raise ValueError(f"the script of an order: {said}")
        return wrote.splitlines()


# How questions come out

def status_of(scene, found):
    """The exit status, by what was found of each question."""
    claims = {line: words[0] for line, words in order.questions(scene).items()}
    if list(found) != list(claims):
        raise ValueError(f"the questions stand on the lines {list(claims)}, and were answered of {list(found)}")
    others = [it for line, it in found.items() if it != (it if claims[line] == "sometimes" else "no order")
              or it == "no order" and claims[line] == "sometimes"]
    return 0 if not others else 3 if all(order.is_cut(it) for it in others) else 1


# What is played of an order

class Scene:
    """The threads of a scene, whether its daemon serves, and the ways in which its acts come out."""

    def __init__(self, text):
        self.threads, self.ways, self.serves, inside = {}, ["ok"], False, None
        for line in order.lines_of(text)[order.scene_begins(text) - 1:]:
            words = order.words_of(line)
            if inside is not None and words == ["end"]:
                inside = None
            elif inside is not None and words:
                inside.append(spelled(words))
            elif words[:1] == ["thread"]:
                inside = self.threads.setdefault(words[1], [])
            elif words[:1] == ["serve"]:
                self.serves = True
                self.ways += [spelled(["act", "1", "fail", it]).removeprefix("act 1 ") for it in words[3::2]]

    def is_daemons(self, event):
        words = event.split(" ", 2)
        is_delivery, is_act = words[0] == "deliver" and len(words) == 2, words[0] == "act" and words[2] in self.ways
        return self.serves and (is_delivery or is_act)


def spelled(words):
    """An event as it is written: its words, without the number of the first error."""
    return " ".join(words[:-1] if words[0] == "act" and words[2:] == ["fail", "1"] else words)


def resumes(events):
    """How many events come before one by which no walker goes on."""
    return next((at for at, it in enumerate(events) if not it.startswith("resume ")), len(events))


def after(events, at, answer):
    """Where a thread stands when its event at a place is answered so."""
    if answer.startswith("wait "):
        return at if events[at].startswith("resume ") else at + 1
    return at + 1 + resumes(events[at + 1:])


def stands(scene, events, answers):
    """Where the threads may stand behind an order, each with its answers; there are none where it is no order of the
    scene. An order doesn't say who makes an event that several could."""
    threads = list(scene.threads.values())
    found = {tuple((resumes(it), ()) for it in threads)}
    for event, answer in zip(events, answers):
        here, found = found, set()
        for stand in here:
            for n, (at, heard) in enumerate(stand):
                if threads[n][at:at + 1] == [event] and answer != "err 11":
                    moved = after(threads[n], at, answer), (*heard, (at + 1, answer))
                    found.add((*stand[:n], moved, *stand[n + 1:]))
            if scene.is_daemons(event) and not answer.startswith("err "):
                found.add(stand)
    return found


def fits(words, answer):
    return words == ["*"] or words[1:] == ["*"] and answer.split(" ")[0] == words[0] or " ".join(words) == answer


def asks_of_text(scene, question):
    """Whether the question is one on the text of the world."""
    return question[0] == "always" or question[1] not in scene.threads


def has_line(world, words):
    """Whether a text has a line of these words, where a star is any one word."""
    rows = [[it for it in re.split("[ \t]", line) if it] for line in world.split("\n")]
    return any(len(row) == len(words) and all(it in ("*", word) for it, word in zip(words, row)) for row in rows)


def meets(scene, question, stand, world):
    if asks_of_text(scene, question):
        return has_line(world, question[1:]) == (question[0] != "always")
    name, what, *words = question[1:]
    at, heard = stand[list(scene.threads).index(name)]
    if what == "waiting":
        return at < len(scene.threads[name])
    return any(number == int(what) and fits(words, answer) for number, answer in heard)


def world_behind(program, script):
    status, world, said = program.run(["world"], script)
    if (status, said) != (0, ""):
        raise ValueError(f"the world behind an order: {said}")
    return world


def left(scene, stand, world):
    """What may come next, by the world behind an order and by where its threads stand."""
    found = [events[at] for events, (at, _) in zip(scene.threads.values(), stand) if at < len(events)]
    if scene.serves:
        found += [f"deliver {it}" for it in re.findall(r"^# queued (\d+) ", world, re.M)]
        found += [f"act {it} {way}" for it in re.findall(r"^# job (\d+) ", world, re.M) for way in scene.ways]
    return found


def is_end(program, scene, script, stand, world):
    """Whether nothing of that is a step; what is refused changes nothing, so that one can be tried behind another."""
    events = left(scene, stand, world)
    told = program.answers(script + "".join(f"{it}\n" for it in events))
    told = told[len(told) - len(events):]
    return all(it.startswith("err ") if scene.is_daemons(event) else it == "err 11" for event, it in zip(events, told))


def is_met(program, text, question, events):
    """Whether an order that was found is one of the scene, comes to an end, and has what is asked for."""
    scene, script = Scene(text), order.script_of(text) + "".join(f"{it}\n" for it in events)
    answers = program.answers(script)
    own = answers[len(answers) - len(events):]
    if "err 10" in answers:
        return False
    world = world_behind(program, script)
    return any(meets(scene, question, it, world) and is_end(program, scene, script, it, world)
               for it in stands(scene, events, own))


def is_drawn(program, text, events):
    script = order.script_of(text) + "".join(f"{it}\n" for it in events)
    status, wrote, said = program.run(["draw"], script)
    return (status, said) == (0, "") and wrote.endswith("</svg>\n")


# Searches that are cut

def first_choices(program, text):
    """What may come first in a scene."""
    scene, script = Scene(text), order.script_of(text)
    return left(scene, [(resumes(it), ()) for it in scene.threads.values()], world_behind(program, script))


def is_cut_at_once(program, text):
    """One state alone is looked at, and there are more."""
    lines = [f"# line {it}: not all seen, no order of fewer than 0 events\n" for it in order.questions(text)]
    last = f"# not all seen, states 1 choices {len(first_choices(program, text))}\n"
    return program.run(["explore", "--most", "1"], text) == (3, "".join(lines) + last, "")


def is_cut(program, text, whole, most):
    """A search over fewer states has found the same, or isn't over; over as many as there are, it is."""
    status, wrote, said = program.run(["explore", "--most", str(most)], text)
    found, last = order.findings(wrote)
    all_found, all_last = order.findings(whole)
    states = int(STATES.fullmatch(all_last)[1])
    if any(not order.is_cut(it) and it != all_found[line] for line, it in found.items()):
        return False
    orders = {line: it for line, it in all_found.items() if isinstance(it, list)}
    if any(len(orders.get(int(line), wrote)) < int(fewer) for line, fewer in FEWER.findall(wrote)):
        return False
    cut = f"# not all seen, states {most} choices {len(first_choices(program, text))}"
    if last != (all_last if most >= states else cut) or most >= states and wrote != whole:
        return False
    return (status, said) == (status_of(text, found), "")


def is_refuted_and_cut(program):
    """Of two questions one comes out otherwise, by a short order, and of the other not all is seen."""
    text, whole = (order.text_of(f"{FOLDER}/{REFUTED}.{it}") for it in ("scene", "found"))
    most = int(STATES.search(whole)[1]) - 1
    status, wrote, said = program.run(["explore", "--most", str(most)], f"{text}never death 1 err *\n")
    *found, last = order.findings(wrote)[0].values()
    return (status, said) == (1, "") and found == list(order.findings(whole)[0].values()) and order.is_cut(last)


# Parts of a scene

def part_of(program, text, prefix):
    """What is found of the orders that begin with the choices of these numbers, and how many there are."""
    status, wrote, said = program.run(["explore", "--prefix", prefix], text)
    found, last = order.findings(wrote)
    if (status, said) != (status_of(text, found), "") or last == NO_ORDERS and set(found.values()) - {"no order"}:
        raise ValueError(f"--prefix {prefix}: {said or wrote}")
    return found, int(ORDERS.fullmatch(last)[1])


def of_parts(parts):
    """What parts come to: the shortest order of each question, that of the first part among those of one length; and
    how many orders there are."""
    found = {line: min((it[line] for it, _ in parts if isinstance(it[line], list)), key=len, default="no order")
             for line in parts[0][0]}
    return found, sum(orders for _, orders in parts)


def are_parts_whole(program, text, wrote):
    """Whether its parts, one for each choice, come to what the whole does, and each begins with its choice."""
    events = first_choices(program, text)
    parts = [part_of(program, text, str(number + 1)) for number in range(len(events))]
    found, last = order.findings(wrote)
    begin_so = all(it[:1] == [event] for event, (orders, _) in zip(events, parts) for it in orders.values()
                   if isinstance(it, list))
    return begin_so and of_parts(parts) == (found, int(ORDERS.fullmatch(last)[1]))


def are_parts_of_parts_whole(program, text):
    """The same of each part that has an order, by two choices: there are as many as it says where it is cut."""
    tried = 0
    for number in range(1, len(first_choices(program, text)) + 1):
        whole = part_of(program, text, str(number))
        cut = program.run(["explore", "--most", "1", "--prefix", str(number)], text)
        count = re.fullmatch(r"# not all seen, states 1 choices (\d+)", order.findings(cut[1])[1])
        if count:
            parts = [part_of(program, text, f"{number},{it}") for it in range(1, int(count[1]) + 1)]
            tried += 1
            if of_parts(parts) != whole or {int(it) for _, it in FEWER.findall(cut[1])} != {1}:
                return False
    return tried > 0


def is_no_choice(program, text, prefix, place):
    """A number that no choice has at this place of the prefix."""
    return program.run(["explore", "--prefix", prefix], text) == (1, "", f"fault: prefix {place}: NoSuchChoice\n")


def is_no_step(program, text):
    """A walker is resumed that nobody has released, whatever comes first."""
    lines = "".join(f"# line {it}: no order\n" for it in order.questions(text))
    status, wrote, said = program.run(["explore", "--prefix", "1,1"], text)
    return (status, wrote, said) == (0, f"{lines}{NO_ORDERS}\n", "")


# What is told on a terminal

def many(walkers):
    threads = "".join(f"thread w{it}\nwalk {it} 0 /auto/k{it} 5 room\nresume {it} 6 room\nend\n"
                      for it in range(1, walkers + 1))
    return f"{MANY}{threads}serve daemon fail 1\n"


def on_terminal(program, text, seconds):
    """The lines that the program tells on a terminal, and how long it ran: no longer than this."""
    ours, its = pty.openpty()
    began, told = time.monotonic(), b""
    with subprocess.Popen([program.path, "explore"], stdin=subprocess.PIPE, stdout=subprocess.DEVNULL,
                          stderr=its) as run:
        os.close(its)
        run.stdin.write(text.encode())
        run.stdin.close()
        while run.poll() is None and time.monotonic() < began + seconds:
            if select.select([ours], [], [], 0.1)[0]:
                try:
                    told += os.read(ours, 4096)
                except OSError:
                    break
        took = time.monotonic() - began
        run.kill()
    os.close(ours)
    return told[:told.rfind(b"\n") + 1].decode(), took


def is_told_each_second(program):
    """Each second a line, whose states rise; nothing of a search that takes less."""
    for walkers in (2, 3, 4):
        told, took = on_terminal(program, many(walkers), 5)
        states = [int(it[1]) for it in PROGRESS.finditer(told)]
        if PROGRESS.sub("", told) or states != sorted(states) or len(states) > took:
            return False
        if took > 3:
            return len(states) >= 2
    return True


# The pages

def blocks(page, heading):
    """The blocks of a page below a heading, up to the next one."""
    part = re.split(r"^##+ .*$", order.text_of(page).partition(f"\n{heading}\n")[2], maxsplit=1, flags=re.M)[0]
    return re.findall(r"^```text\n(.*?)^```$", part, re.M | re.S)


def is_shown(name):
    """Whether the page of questions has the scene, from its first line behind the script on, and what was found."""
    text, found = (order.text_of(f"{FOLDER}/{name}.{it}") for it in ("scene", "found"))
    shown = re.findall(r"^```text\n(.*?)^```$", order.text_of(QUESTIONS), re.M | re.S)
    tail = "".join(f"{it}\n" for it in order.lines_of(text)[order.scene_begins(text) - 1:])
    return tail in shown and found in shown and f"(../{FOLDER}/{name}.scene)" in order.text_of(QUESTIONS)


def are_all_tried():
    """Whether each fault of the table is told of some text here."""
    part = order.text_of(FORMATS).partition("\n### Faults of a scene\n")[2].partition("\n##")[0]
    table = set(re.findall(r"^\| \d+ \| `(\w+)` \|", part, re.M))
    return len(table) > 10 and table == {word for word, *_ in FAULTS} - OF_SCRIPTS | ELSEWHERE


# All of it

def fault(line, word):
    return 1, "", f"fault: line {line}: {word}\n"


def is_told(program, given, line, word):
    """Whether this fault is told with its place, if it has one, and nothing is written."""
    status, wrote, said = program.run(["explore"], given)
    if (status, wrote) != (1, "") or not said.startswith(fault(line, word)[2]):
        return False
    return places.problem(given.encode(), said.encode()) or True


def is_read_failed(program):
    """A folder can't be read."""
    with subprocess.Popen([program.path, "explore"], stdin=os.open(FOLDER, os.O_RDONLY), stdout=subprocess.PIPE,
                          stderr=subprocess.PIPE, text=True) as run:
        wrote, said = run.communicate(timeout=PATIENCE)
    return (run.returncode, wrote, said) == fault(1, "ReadFailed")


def is_write_failed(program, text):
    with open("/dev/full", "wb") as full:
        ran = subprocess.run([program.path, "explore"], input=text.encode(), stdout=full, stderr=subprocess.PIPE,
                             timeout=PATIENCE, check=False)
    return (ran.returncode, ran.stderr) == (1, b"fault: WriteFailed\n")


def is_refused(program, words):
    status, wrote, said = program.run(["explore", *words], "")
    return (status, wrote) == (2, "") and said.startswith("fault: Usage\n")


def checks_of(program, name):
    """Each check of one scene, by its name: what makes it."""
    text, found = (order.text_of(f"{FOLDER}/{name}.{it}") for it in ("scene", "found"))
    orders = order.findings(found)[0]
    yield f"{name}: what is found", lambda: program.run(["explore"], text) == (status_of(text, orders), found, "")
    yield f"{name}: one state alone", lambda: is_cut_at_once(program, text)
    yield f"{name}: without the last line feed", lambda: program.run(["explore"], text[:-1])[1:] == (found, "")
    for line, events in orders.items():
        if isinstance(events, list):
            question = order.questions(text)[line]
            yield f"{name}: the order for line {line}", lambda question=question, events=events: is_met(
                program, text, question, events)
            yield f"{name}: its picture", lambda events=events: is_drawn(program, text, events)
    if name != SHOWN:
        yield f"{name}: what {QUESTIONS} shows", lambda: is_shown(name)
    yield f"{name}: its parts", lambda: are_parts_whole(program, text, found)
    yield f"{name}: a number behind its choices", lambda: is_no_choice(
        program, text, str(len(first_choices(program, text)) + 1), 1)


def checks(program):
    """Each check, those that take longest first."""
    names = sorted(os.path.basename(it).removesuffix(".scene") for it in glob.glob(f"{FOLDER}/*.scene"))
    beside = sorted(os.path.basename(it).removesuffix(".found") for it in glob.glob(f"{FOLDER}/*.found"))
    yield "each scene has what was found of it beside it", lambda: len(names) > 6 and names == beside
    for name in names:
        yield from checks_of(program, name)
    scene, found, small, whole = (order.text_of(f"{FOLDER}/{it}") for it in (
        f"{SHOWN}.scene", f"{SHOWN}.found", f"{SMALL}.scene", f"{SMALL}.found"))
    yield f"{FORMATS} shows {SHOWN}", lambda: [scene, found] == [
        *blocks(FORMATS, "## Scenes"), *blocks(FORMATS, "### Findings")]
    states = int(STATES.search(whole)[1])
    for most in (2, states // 2, states - 1, states, 4294967295):
        yield f"{SMALL}: {most} states", lambda most=most: is_cut(program, small, whole, most)
    script = order.text_of("examples/first.script")
    yield "a script is a scene that asks nothing", lambda: program.run(["explore"], script) == (
        0, "# orders 1 states 1 ends 1 worlds 1\n", "")
    yield "a script has no choice", lambda: is_no_choice(program, script, "1", 1)
    for words in (["--prefix", ""], ["--prefix="]):
        yield f"an empty prefix: {words}", lambda words=words: program.run(
            ["explore", *words], scene)[1:] == (found, "")
    yield f"{SMALL}: the parts of its parts", lambda: are_parts_of_parts_whole(program, small)
    yield "a number that the second choice hasn't", lambda: is_no_choice(program, small, "1,4294967295,1", 2)
    yield "a choice that is no step", lambda: is_no_step(program, WAITS)
    yield "what a terminal is told", lambda: is_told_each_second(program)
    yield "what isn't as asked goes before what wasn't all seen", lambda: is_refuted_and_cut(program)
    for word, line, text in FAULTS:
        yield f"{word}: {text[-40:]!r}", lambda word=word, line=line, text=text: is_told(program, text, line, word)
    yield f"each fault of {FORMATS} is tried", are_all_tried
    end = scene.index("resume 2")
    yield "a reader that ends within a thread", lambda: is_told(program, scene[:end], 13, "NoEnd")
    yield "a reader that ends within a line", lambda: is_told(program, scene[:end + 8], 15, "BadThreadEvent")
    yield "a reader that fails", lambda: is_read_failed(program)
    yield "a writer that takes nothing", lambda: is_write_failed(program, small)
    for words in REFUSED:
        yield f"no command line: {' '.join(words)}", lambda words=words: is_refused(program, words)


def went_well(check):
    try:
        return check()
    except (AttributeError, IndexError, KeyError, OSError, ValueError, subprocess.TimeoutExpired) as wrong:
        return f"{type(wrong).__name__}: {wrong}"


def main():
    if len(sys.argv) != 1:
        print("explores: expected no words", file=sys.stderr)
        return 2
    os.chdir(os.path.join(os.path.dirname(os.path.abspath(__file__)), ".."))
    passed = failed = 0
    names, those = zip(*checks(Program()))
    with concurrent.futures.ThreadPoolExecutor(len(os.sched_getaffinity(0))) as pool:
        for name, good in zip(names, pool.map(went_well, those)):
            if good is not True:
                print(f"{name}: not as expected{f', {good}' if good else ''}")
            passed, failed = passed + (good is True), failed + (good is not True)
    print(f"{passed} passed, {failed} failed")
    return 1 if failed else 0


if __name__ == "__main__":
    sys.exit(main())
