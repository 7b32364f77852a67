#!/usr/bin/env python3
"""Runs the program's commands, and counts what went as it should.

usage: tools/commands.py

- command lines that are none and those that are, each with its status, what it writes and what it tells;
- help of the program and of each command, in each way in which it is asked for, and the version: one screen each,
  which names each option, and nothing is read;
- what stands below the faults of scripts: the line, its column and what was expected there; of lines with what a
  terminal would take for controls, too, of long ones and of long scripts;
- what is written where standard output takes little at once, and where it fails behind so many bytes; the status
  where standard error takes nothing, and what it holds where it takes a part;
- each allocation refused in turn: the command tells that there was no memory and has written a beginning, or an
  event is answered so, or all is as ever;
- threads with so little memory that some can't be started: they end all the same.

Of the program that is built without proof only the command lines are tried: nothing can be loaded before it. The
last line counts the checks.
"""

import os
import re
import resource
import subprocess
import sys
import tempfile

sys.dont_write_bytecode = True
import offers  # noqa: E402
import places  # noqa: E402

PATIENCE = 60
# What stands below the first line of a command line that is none, and before it what may be meant by it.
COMMAND_LINES_THERE_ARE = b"""usage: automount_cli script|serve|judge|import < FILE
       automount_cli trace [--plain] < FILE
       automount_cli draw [--from N] [--to N] < FILE
       automount_cli world [--namespace N] < FILE
       automount_cli explore [--most N] [--prefix CHOICES] < FILE
       automount_cli threads [--walkers N] [--workers N] [--rounds N]
       automount_cli help [COMMAND]
       automount_cli --version
"""
# The lines and columns of a screen.
SCREEN = (24, 80)
# How many rounds threads make with so many MiB of memory, and how often: of 1,000 it runs out in the midst.
LITTLES = (50, 64, 20), (1000, 24, 8), (1000, 20, 8)
# What the stack of a thread takes of it in bytes, so that all threads begin.
STACK = 1 << 18
# For how many allocations in turn a thread finds no memory: more than the tries of one call.
STRETCH = 20_000

TWO_EVENTS = b"events\nmount 0 /a<b\nleave 1\n"
# Behind it stand two namespaces, an open token with a waiter, its packet, and a walker inside of a mount. The event on
# line 11 is the last.
A_WORLD = (b"master\n/auto auto.home\nend\nmap auto.home\nhome srv:/home\nend\nevents\n"
           b"attach /auto\nmount 0 /a\\b\nnscopy 0 reduced\nwalk 7 0 /auto/home 5 room\n")
AUTOFS = b"autofs none rw,fd=1,timeout=300,minproto=5,maxproto=5,indirect\n"
NAMESPACES = (
    b"1 1 0:1 / / rw - plain none rw\n2 1 0:2 / /auto rw - " + AUTOFS + b"3 1 0:3 / /a\\134b rw - plain none rw\n",
    b"4 4 0:1 / / rw - plain none rw\n5 4 0:2 / /auto rw - " + AUTOFS + b"6 4 0:3 / /a\\134b rw - plain none rw\n",
)
OPEN = (b"# open 1 waiters 7 fs 2 name home\n"
        b"# queued 1 attach 1 missing-indirect dev 2 ino 1 uid 0 gid 0 pid 7 tgid 7 name home\n"
        b"# walk 7 token 1 ns 0 /auto/home\n"
        b"# used 5 fs 2 name home\n# latest 5\n# last mount 6 ns 1 group 0 fs 3 attach 1 token 1\n"
        b"# known 2 /auto\n# held 2 attach 1\n")
WORLD = b"# namespace 0\n" + NAMESPACES[0] + b"# namespace 1\n" + NAMESPACES[1] + OPEN
# What each mount receives from is told, and where from in its namespace.
PROPAGATION = (b"events\nmount 0 /a\nchange 0 /a shared\nbind 0 /a /b\nchange 0 /b slave\nchange 0 /b shared\n"
               b"bind 0 /b /c\nchange 0 /c slave\nnscopy 0\numount 1 /b\nmount 1 /u\nchange 1 /u unbindable\n")
PROPAGATED = (b"5 5 0:1 / / rw - plain none rw\n6 5 0:2 / /a rw shared:1 - plain none rw\n"
              b"8 5 0:2 / /c rw master:2 propagate_from:1 - plain none rw\n9 5 0:3 / /u rw unbindable - plain none rw\n")
INITIAL = (b"# namespace 0\n1 1 0:1 / / rw - plain none rw\n"
           b"# latest 0\n# last mount 1 ns 0 group 0 fs 1 attach 0 token 0\n")
SHORT = b"events\nmount 0 /a\nleave 1\n"
# A trace that is lawful, and one of which the second line breaks a law.
LAWFUL = b"  entered 7 mount 2\n  left 7 mount 2\n  unmounted 2\n"
BROKEN = b"3: leave 7\n  waits 7 token 1"
# What `script` and `trace` say of the two events of SHORT.
ANSWERS = ((b"mount 2\n", b"err 10\n"), (b"err 5\n",))
TRACES = ((b"2: mount 0 /a\n= mount 2 : 1\n  mounted 2\n", b"2: mount 0 /a\n= err 10 : 0\n"), (b"3: leave 1\n= err 5 : 0\n",))


def fault(line, word):
    return b"fault: line %d: %s\n" % (line, word)


def placed(number, word, line, column, expected, note=b""):
    """What is told of a fault that has a place in a short line, as it is shown."""
    return fault(number, word) + b"  " + line + b"\n  " + b" " * (column - 1) + b"^ column %d: expected %s\n" % (column, expected) + note


# Command lines: the words, the input, and what comes of it.

# Two namespaces, and the script for their mounts.
MOUNTS = b"""# namespace a
1 0 8:1 / / rw shared:1 - ext4 x rw
2 1 0:9 / /a rw - tmpfs x rw
# namespace b
3 0 8:1 / / rw master:1 - ext4 x rw
4 3 0:9 / /a rw - tmpfs x rw
"""
IMPORTED = b"""events
mount 0 /a
change 0 / shared
nscopy 0 reduced
# namespace 0 mount 1: mount 1
# namespace 0 mount 2: mount 2
# namespace 1 mount 3: mount 3
# namespace 1 mount 4: mount 4
"""
# An autofs with a mount, and a namespace in which a mount is elsewhere and another one is missing.
TRAPS = b"""1 0 8:1 / / rw shared:1 - ext4 x rw
2 1 0:9 / /auto rw shared:2 - autofs x rw,timeout=9,indirect
3 2 0:10 / /auto/key rw shared:3 - nfs x:/y rw
4 1 0:11 / /b rw shared:4 - tmpfs x rw
# namespace
5 0 8:1 / / rw master:1 - ext4 x rw
6 5 0:9 / /auto rw master:2 - autofs x rw,timeout=9,indirect
7 6 0:10 / /auto/key rw master:3 - nfs x:/y rw
8 5 0:11 / /c rw shared:5 master:4 - tmpfs x rw
"""
# Lines that are none of a mountinfo: where each isn't as expected, and what was expected there.
MISREAD = [
    (b"x 0 8:1 / / rw - ext4 x rw", 1, b"the number of a mount"),
    (b"1 18446744073709551616 8:1 / / rw - t x", 3, b"the number of the mount that it is mounted on"),
    (b"1 0", 4, b"a device"), (b"1 0  8:1", 9, b"the folder of the device that is shown"),
    (b"1 0 8:1 / a rw - ext4 x", 11, b"the path of the mount"), (b"1 0 8:1 / /a\\041 rw - t x", 11, b"the path of the mount"),
    (b"1 0 8:1 / /..", 11, b"the path of the mount"), (b"1 0 8:1 / /", 12, b"the options of the mount"),
    (b"1 0 8:1 / / rw x shared:x - t x", 18, b"the number of a peer group"),
    (b"1 0 8:1 / / rw master: - t x rw", 16, b"the number of a peer group"),
    (b"1 0 8:1 / / rw shared:1 t x", 28, b"- behind the optional fields"), (b"1 0 8:1 / / rw -", 17, b"the type of the file system"),
]


def misread(line, column, what):
    return b"fault: line %d, column %d: %s expected\n" % (line, column, what)


def usage(hint=b""):
    return 2, b"", b"fault: Usage\n" + hint + COMMAND_LINES_THERE_ARE


def near(name):
    return b"did you mean '%s'?\n" % name


def fed(name, what=b"script"):
    return b"the %s is read from standard input: automount_cli %s < FILE\n" % (what, name)


# Command lines that are none, and what may be meant by each.
NO_COMMAND_LINES = [
    ([], b""), (["--helps"], b""), (["--"], b""), (["-x"], b""), ([""], b""), (["x"], b""), (["x" * 5000], b""),
    ([b"script\xff"], b""), ([b"help", b"\xff"], b""),
    *(([word], near(b"script")) for word in ("scrip", "scirpt", "crip", "scripted", "Script", "scr\u00efpt")),
    (["scr"], b""), (["scripting"], b""), (["traces"], near(b"trace")), (["drae"], near(b"draw")),
    (["word"], near(b"world")), (["nudge"], near(b"judge")), (["imports"], near(b"import")),
    (["thread"], near(b"threads")), (["hlep"], near(b"help")), (["traw"], near(b"draw")),
    (["wrad"], near(b"draw")),
    (["scrip", "--help"], near(b"script")), (["help", "scrip"], near(b"script")), (["help", "x"], b""),
    (["help", "script", "x"], b""), (["help", "--version"], b""), (["script", "--version"], b""),
    (["script", "x"], fed(b"script")), (["script", "-x"], b""), (["script", "", "x"], b""), (["script", "--", "x"], b""),
    (["script", "x", "--help"], fed(b"script")), (["trace", "x"], fed(b"trace")),
    (["draw", "--from", "0"], b""), (["draw", "--to", "4294967296"], b""), (["draw", "--from"], b""),
    (["draw", "x"], fed(b"draw")), (["draw", "x", "--from", "1"], fed(b"draw")),
    (["draw", "--from", "1", "--from", "2"], b""), (["draw", "--form", "1"], b""),
    (["server"], near(b"serve")), (["serve", "x"], fed(b"serve", b"session")),
    (["explorer"], near(b"explore")), (["explore", "x"], fed(b"explore", b"scene")), (["explore", "--most", "0"], b""),
    (["explore", "--most", "4294967296"], b""), (["explore", "--most"], b""), (["explore", "--from", "1"], b""),
    (["explore", "--prefix", "0"], b""), (["explore", "--prefix", "1,"], b""), (["explore", "--prefix"], b""),
    (["explore", "--prefix", "4294967296"], b""), (["explore", "--prefix", "1", "--prefix", "2"], b""),
    (["judge", "x"], fed(b"judge", b"trace")), (["import", "x"], fed(b"import", b"mountinfo")),
    (["world", "--namespace", "one"], b""), (["world", "--namespace"], b""), (["world", "1"], fed(b"world")),
    (["world", "--namespace", "4294967296"], b""), (["world", "--from", "1"], b""),
    *((["threads", *words], b"") for words in (
        ["--walkers", "0"], ["--walkers", "17"], ["--workers", "0"], ["--workers", "17"], ["--rounds", "0"],
        ["--rounds", "1001"], ["--rounds", "4294967297"], ["--rounds", "-1"], ["--rounds", "ten"], ["--rounds"], ["x"])),
]
# Lines of events that are none: what is shown of each, the column, and what was expected there.
A_PATH, A_NAMESPACE, A_PART = b"a path, which begins with /", b"a namespace, a number below 2^32", b"limits, negative, master, map or events"
AN_EVENT, IN_ORDER = b"the word of an event", b"a part of the head that may stand below those above it"
THE_END = b"a line that is just end, below this one"
RETURN = b"  the line ends in a carriage return: lines of a script end in a line feed alone\n"
MARK = b"  the script begins with a byte order mark, which is no part of a script\n"
NO_EVENTS = [
    (b"wlak 7 0 /auto 1 room", 1, AN_EVENT), (b"x", 1, AN_EVENT),
    (b"walk 7 0 /auto/.. 1 room", 10, A_PATH), (b"walk 7 0 auto 1 room", 10, A_PATH), (b"walk 7 /auto 1 room", 8, A_NAMESPACE),
    (b"walk 7 0 /auto 1 ful", 18, b"room, full or gone"), (b"walk 7 0 /auto 01 room", 16, b"a moment in seconds, a number below 2^64"),
    (b"act 1 fail 10", 12, b"the number of an error, 1 to 9, or the end of the line"), (b"walk 7", 7, A_NAMESPACE),
    (b"walk 7 ", 8, A_NAMESPACE), (b"nsdrop 0 0", 10, b"the end of the line"),
]
# The same of bytes that a terminal would take for controls, or that are none of ASCII: the line, and how it is shown.
HOSTILE = [
    (b"\x1b[2J\x1b]0;x\x07", b"?[2J?]0;x?", 1, AN_EVENT), (b"walk\t7\tx", b"walk 7 x", 8, A_NAMESPACE),
    (b"walk 7 0 \xff\x9b31m 1 room", b"walk 7 0 ??31m 1 room", 10, A_PATH), (b"\0", b"?", 1, AN_EVENT), (b"\x7f\x80", b"??", 1, AN_EVENT),
    ("walk 7 0 /ä 1 räum".encode(), b"walk 7 0 /?? 1 r??um", 16, b"room, full or gone"), (b"~ \x0b", b"~ ?", 1, AN_EVENT),
]
# Heads with a fault: the line and the word of it, how the line is shown, the column, what was expected there, and a note.
A_MAP = b"master\n/auto m\nend\nmap m\n"
BAD_HEADS = [
    (b"master\n/auto auto.home\nend \nevents\n", (1, b"BadSection", b"master", 1, THE_END,
                                                    b"  line 3 is end with a blank beside it, which ends no section\n")),
    (b"map m\n\tend\nend x\n end\n", (1, b"BadSection", b"map m", 1, THE_END,
                                       b"  line 2 is end with a blank beside it, which ends no section\n")),
    (b"map m\nend x\n", (1, b"BadSection", b"map m", 1, THE_END)),
    (b"events\r\n", (1, b"BadSection", b"events?", 1, A_PART, RETURN)), (b"\xef\xbb\xbfevents\n", (1, b"BadSection", b"???events", 1, A_PART, MARK)),
    (b"# \xef\xbb\xbf\n\xef\xbb\xbfevents\n", (2, b"BadSection", b"???events", 1, A_PART)),
    (b"events x\n", (1, b"BadSection", b"events x", 8, b"the end of the line")),
    (b"map\n", (1, b"BadSection", b"map", 4, b"the name of a map")),
    (b"map m\nend\nmaster\nend\nevents\n", (3, b"BadSection", b"master", 1, IN_ORDER)),
    (b"negative 1\nlimits 1 1 1\nevents\n", (2, b"BadSection", b"limits 1 1 1", 1, IN_ORDER)),
    (b"limits 1000 100000 5\nevents\n", (1, b"BadLimits", b"limits 1000 100000 5", 13, b"the most waits, a number from 1 to 65536")),
    (b"negative x\n", (1, b"BadLimits", b"negative x", 10, b"how many seconds failures last, a number below 2^64")),
    (b"master\n/auto auto.homes\nend\nmap auto.home\nhome srv:/home\nend\nevents\n",
     (2, b"NoSuchMap", b"/auto auto.homes", 7, b"the name of a map that has a section")),
    (b"\nmaster\nx\nend\n", (3, b"BadPoint", b"x", 1, b"/- or a path below /")),
    (b"master\n/a\nend\n", (2, b"NoMap", b"/a", 3, b"a map, its name or file:name")),
    (b"master\n/a hesiod:x\nend\n", (2, b"BadType", b"/a hesiod:x", 4, b"a map, its name or file:name")),
    (b"master\n/a m -t x\nend\n", (2, b"BadTimeout", b"/a m -t x", 9, b"the seconds of a timeout, a number below 2^32")),
    (b"master\n/a m\n/a m\nend\n", (3, b"Twice", b"/a m", 1, b"a mount point that no line above has")),
    (A_MAP + b"/x srv:/x\nend\nevents\n", (5, b"BadKey", b"/x srv:/x", 1, b"a key of this kind of map")),
    (A_MAP + b"home -rw\nend\nevents\n", (5, b"NoLocation", b"home -rw", 9, b"a location host:/path")),
    (A_MAP + b"home srv\r\nend\nevents\n", (5, b"BadLocation", b"home srv?", 6, b"options behind a dash, or a location host:/path", RETURN)),
]
# A line that is joined of two, and one that is too long. Of a script of more than a MiB the last lines are known alone.
JOINED = (A_MAP + b"home \\\n  srv\nend\nevents\n", fault(5, b"BadLocation")
          + b"  column 8 of the joined line: expected options behind a dash, or a location host:/path\n")
TOO_LONG = (b"events\n" + b"#" * 9000 + b"\n", fault(2, b"LongLine") + b".." + b"#" * 72 + b"..\n  " + b" " * 40
            + b"^ column 8193: expected the end of the line\n")
CUT = [
    (b"walk 7 0 /" + b"a" * 100 + b" x room", b".." + b"a" * 39 + b" x room\n  " + b" " * 40
     + b"^ column 112: expected a moment in seconds, a number below 2^64\n"),
    (b"walk 7 0 /" + b"a" * 48 + b" x room", b"  walk 7 0 /" + b"a" * 48 + b" x room\n  " + b" " * 59
     + b"^ column 60: expected a moment in seconds, a number below 2^64\n"),
    (b"walk 7 0 /" + b"a" * 49 + b" x room", b".." + b"a" * 39 + b" x room\n  " + b" " * 40
     + b"^ column 61: expected a moment in seconds, a number below 2^64\n"),
    (b"x" * 72, b"  " + b"x" * 72 + b"\n  ^ column 1: expected the word of an event\n"),
    (b"x" * 73, b"  " + b"x" * 72 + b"..\n  ^ column 1: expected the word of an event\n"),
]
MANY = b"#" * 99 + b"\n"
LONG = MANY * 10500
# Faults of scripts: the words of the command, the script, what is written and what is told.
FAULTS = [
    *((["script"], b"events\n" + line + b"\n", b"", placed(2, b"BadEvent", line, column, expected))
      for line, column, expected in NO_EVENTS),
    *((["script"], b"events\n" + line, b"", placed(2, b"BadEvent", shown, column, expected))
      for line, shown, column, expected in HOSTILE),
    *(([command], head, b"", placed(*row)) for command in ("script", "trace", "draw", "world") for head, row in BAD_HEADS),
    *(([command], b"events\nwalk 7 0 auto 1 room\n", b"", placed(2, b"BadEvent", b"walk 7 0 auto 1 room", 10, A_PATH))
      for command in ("script", "trace", "world")),
    (["script"], *(JOINED[0], b"", JOINED[1])), (["world"], *(JOINED[0], b"", JOINED[1])),
    (["script"], *(TOO_LONG[0], b"", TOO_LONG[1])), (["trace"], *(TOO_LONG[0], b"", TOO_LONG[1])),
    *((["script"], b"events\n" + line + b"\n", b"", fault(2, b"BadEvent") + below) for line, below in CUT),
    # A section that may not stand there: its end may follow, but where all is read.
    (["script"], b"map m\nend\nmaster\n", b"", placed(3, b"BadSection", b"master", 1, IN_ORDER)),
    (["trace"], b"map m\nend\nmaster\n", b"", placed(3, b"BadSection", b"master", 1, IN_ORDER)),
    (["draw"], b"map m\nend\nmaster\n", b"", placed(3, b"BadSection", b"master", 1, THE_END)),
    (["script"], b"map m\nend\nmaster\n" + LONG + b"end\n", b"", placed(3, b"BadSection", b"master", 1, IN_ORDER)),
    (["script"], b"map m\n" + LONG, b"", fault(1, b"BadSection")),
    (["script"], b"events\n" + LONG + b"x y\n" + LONG, b"", placed(10502, b"BadEvent", b"x y", 1, AN_EVENT)),
    (["script"], b"events\nx\n" + LONG, b"", placed(2, b"BadEvent", b"x", 1, AN_EVENT)),
    (["trace"], b"events\n" + LONG + b"x y\n" + LONG, b"", placed(10502, b"BadEvent", b"x y", 1, AN_EVENT)),
    (["trace"], b"events\nx\n" + LONG, b"", placed(2, b"BadEvent", b"x", 1, AN_EVENT)),
    (["world"], b"events\n" + LONG + b"x y\n" + MANY, b"", placed(10502, b"BadEvent", b"x y", 1, AN_EVENT)),
    (["world"], b"events\nx\n" + LONG, b"", fault(2, b"BadEvent")),
    (["world"], b"events\nx\n" + MANY * 10000, b"", placed(2, b"BadEvent", b"x", 1, AN_EVENT)),
]
# Who walks before the mount goes is inside of it, so that it stays; who walks behind that finds none.
SCENE = b"""events
mount 0 /a
thread t
walk 1 0 /a 5 room
end
thread u
umount 0 /a
end
"""
ASKED = SCENE + b"""sometimes t 1 at 2 /
sometimes t 1 at 1 /a
sometimes u 1 err 3
never u waiting
never t 1 fail *
"""
WALKED_FIRST, WALKED_LAST = b"walk 1 0 /a 5 room\numount 0 /a\n", b"umount 0 /a\nwalk 1 0 /a 5 room\n"
BOTH = b"# orders 2 states 5 ends 2 worlds 2\n"
FOUND = (b"# line 9: yes, events 2\n" + WALKED_FIRST + b"# line 10: yes, events 2\n" + WALKED_LAST
         + b"# line 11: yes, events 2\n" + WALKED_FIRST + b"# line 12: no order\n# line 13: no order\n" + BOTH)
# Texts that are no scenes, and what is told of each.
SCENE_LINES, IN_ANSWER = b"thread, serve, sometimes, never or always", (
    b"an answer: wait, at, err or fail with its words or *, or * alone")
NO_SCENES = [
    (b"", fault(1, b"NoEvents")), (b"x\n", placed(1, b"BadSection", b"x", 1, A_PART)),
    (b"events\nx\n", placed(2, b"BadEvent", b"x", 1, AN_EVENT)), (TOO_LONG[0], TOO_LONG[1]),
    (b"events\nthread t\nend\nleave 1\n", placed(4, b"BadLine", b"leave 1", 1, SCENE_LINES)),
    (b"events\nthread t\nend\nnever t waiting\nserve daemon\n",
     placed(5, b"LateLine", b"serve daemon", 1, b"sometimes, never or always, as above")),
    (b"events\nthread t u\nend\n", placed(2, b"BadThread", b"thread t u", 10, b"the end of the line")),
    (b"events\nthread t\nend\nthread t\nend\n",
     placed(4, b"ThreadTwice", b"thread t", 8, b"a name that no thread above has")),
    (b"events\nthread t\nleave 1\n", placed(2, b"NoEnd", b"thread t", 1, b"a line that is just end, below this one")),
    (b"events\nthread t\nx\nend\n", placed(3, b"BadThreadEvent", b"x", 1, AN_EVENT)),
    (b"events\nserve daemon fail 10\n",
     placed(2, b"BadService", b"serve daemon fail 10", 19, b"the number of an error, 1 to 9")),
    (b"events\nserve daemon\nserve daemon\n",
     placed(3, b"ServiceTwice", b"serve daemon", 1,
            b"thread, sometimes, never or always: how the daemon serves stands above")),
    (b"events\nthread t\nend\nnever t\n",
     placed(4, b"BadQuestion", b"never t", 8, b"the number of an event, or waiting")),
    (b"events\nnever t waiting\n",
     placed(2, b"NoSuchThread", b"never t waiting", 7, b"the name of a thread above, or a line of a world")),
    (b"events\nthread t\nend\nnever t 1 *\n",
     placed(4, b"NoSuchEvent", b"never t 1 *", 9, b"the number of an event of the thread, or waiting alone")),
    (b"events\nthread t\nleave 1\nend\nnever t 1 ok\n", placed(5, b"BadAnswer", b"never t 1 ok", 11, IN_ANSWER)),
]
COMMAND_LINES = [
    (["script"], b"# nothing\n", (0, b"", b"")),
    (["script"], SHORT + b"x\n", (1, b"mount 2\nerr 5\n", placed(4, b"BadEvent", b"x", 1, AN_EVENT))),
    *((words, given, (1, wrote, said)) for words, given, wrote, said in FAULTS),
    (["trace"], b"events\nmount 0 /a\\b\n", (0, b"2: mount 0 /a\\b\n= mount 2 : 1\n  mounted 2\n", b"")),
    (["trace", "--plain"], SHORT, (0, b": mount 0 /a\n= mount 2 : 1\n  mounted 2\n: leave 1\n= err 5 : 0\n", b"")),
    (["world"], A_WORLD, (0, WORLD, b"")),
    (["world", "--namespace", "0"], A_WORLD, (0, NAMESPACES[0], b"")),
    (["world", "--namespace", "1"], A_WORLD, (0, NAMESPACES[1], b"")),
    (["world", "--namespace", "2"], A_WORLD, (1, b"", b"fault: line 11: NoSuchNamespace\n")),
    (["world", "--namespace", "1"], b"events\n", (1, b"", b"fault: line 1: NoSuchNamespace\n")),
    (["world", "--namespace", "1"], PROPAGATION, (0, PROPAGATED, b"")),
    (["world"], b"events\nmount 0 /a\nx\n", (1, b"", placed(3, b"BadEvent", b"x", 1, AN_EVENT))),
    (["serve"], b"", (0, b"", b"")),
    (["serve"], b"events\nx\n" + SHORT[7:], (0, b".\nfault 2:1 BadEvent expected the word of an event\n.\nmount 2\n.\nerr 5\n.\n", b"")),
    (["explore"], ASKED, (0, FOUND, b"")), (["explore", "--most", "5"], ASKED, (0, FOUND, b"")),
    (["explore"], b"events\n", (0, b"# orders 1 states 1 ends 1 worlds 1\n", b"")), (["explore"], SCENE, (0, BOTH, b"")),
    (["explore", "--most", "1"], b"events\n", (0, b"# orders 1 states 1 ends 1 worlds 1\n", b"")),
    (["explore"], SCENE + b"never t 1 at 2 *\n",
     (1, b"", placed(9, b"BadAnswer", b"never t 1 at 2 *", 11, IN_ANSWER))),
    (["explore"], SCENE + b"sometimes t waiting\nnever u 1 err *\n",
     (1, b"# line 9: no order\n# line 10: yes, events 2\n" + WALKED_FIRST + BOTH, b"")),
    (["explore"], SCENE + b"sometimes t waiting\nnever u waiting\n",
     (1, b"# line 9: no order\n# line 10: no order\n" + BOTH, b"")),
    (["explore"], SCENE + b"never u 1 err 3\nnever u waiting\n",
     (1, b"# line 9: yes, events 2\n" + WALKED_FIRST + b"# line 10: no order\n" + BOTH, b"")),
    (["explore", "--most", "4"], ASKED, (3, b"".join(b"# line %d: not all seen, no order of fewer than 1 events\n" % line for line in range(9, 14))
                                         + b"# not all seen, states 4 choices 2\n", b"")),
    (["explore", "--most", "1"], SCENE, (0, b"# not all seen, states 1 choices 2\n", b"")),
    (["explore", "--prefix", ""], ASKED, (0, FOUND, b"")), (["explore", "--prefix="], ASKED, (0, FOUND, b"")),
    (["explore", "--prefix", "2"], SCENE + b"sometimes t 1 at 1 /a\nnever u 1 err 3\n",
     (0, b"# line 9: yes, events 2\n" + WALKED_LAST + b"# line 10: no order\n# orders 1 states 2 ends 1 worlds 1\n", b"")),
    (["explore", "--prefix", "1,1"], SCENE, (0, b"# orders 1 states 1 ends 1 worlds 1\n", b"")),
    (["explore", "--most", "1", "--prefix", "1"], SCENE + b"never t waiting\n",
     (3, b"# line 9: not all seen, no order of fewer than 1 events\n# not all seen, states 1 choices 1\n", b"")),
    (["explore", "--prefix", "3"], ASKED, (1, b"", b"fault: prefix 1: NoSuchChoice\n")),
    (["explore", "--prefix", "1,2,1"], ASKED, (1, b"", b"fault: prefix 2: NoSuchChoice\n")),
    (["explore", "--prefix", "1"], b"events\n", (1, b"", b"fault: prefix 1: NoSuchChoice\n")),
    (["explore", "--prefix", "1"], b"x\n", (1, b"", placed(1, b"BadSection", b"x", 1, A_PART))),
    *((["explore"], given, (1, b"", said)) for given, said in NO_SCENES),
    # What was found is a script behind the events of its scene.
    *((["script"], b"events\nmount 0 /a\n" + order, (0, b"mount 2\n" + wrote, b""))
      for order, wrote in ((WALKED_FIRST, b"at 2 /\nerr 3\n"), (WALKED_LAST, b"gone 2\nat 1 /a\n"))),
    (["judge"], b"", (0, b"lawful\n", b"")),
    (["judge"], BROKEN, (1, b"line 2: a walker waits on a token that is open\n", b"")),
    (["judge"], b"  left 1 mount 5\n  died now\n", (1, b"", b"fault: line 2, column 7: the end of the line expected\n")),
    (["import"], b"", (0, b"events\n", b"")),
    (["import"], MOUNTS, (0, IMPORTED, b"")),
    (["import"], b"# x\n" + MOUNTS.replace(b"\n", b"\n\n \n"), (0, IMPORTED, b"")),
    *((["import"], b"# c\n\n" + line + b"\n", (1, b"", misread(3, column, what))) for line, column, what in MISREAD),
    (["threads"], b"", (0, b"rounds 40\n", b"")),
    (["threads", "--walkers", "2", "--workers", "1", "--rounds", "3"], b"", (0, b"rounds 6\n", b"")),
    (["threads", "--workers", "16", "--walkers", "1"], b"", (0, b"rounds 10\n", b"")),
    (["threads", "--rounds", "1000", "--walkers", "1"], b"", (0, b"rounds 1000\n", b"")),
    (["threads", "--rounds", "1", "--walkers", "16"], b"", (0, b"rounds 16\n", b"")),
]
# The numbers of the first and the last event of a picture, which of the two of TWO_EVENTS it shows, and what it says of that.
PICTURES = [
    ([], (True, True), b"2 of 2 events"),
    (["--from", "1"], (True, True), b"2 of 2 events"),
    (["--to", "7"], (True, True), b"2 of 2 events"),
    (["--from", "2"], (False, True), b"1 of 2 events"),
    (["--to", "1"], (True, False), b"1 of 2 events"),
    (["--from", "2", "--to", "2"], (False, True), b"1 of 2 events"),
    (["--from", "4294967295"], (False, False), b"0 of 2 events: none is drawn"),
]
# Scripts of which no event is played, with the status and what is told.
UNPLAYED = [
    (b"", 0, b""), (b"# nothing\n", 0, b""), (b"master\nend\n", 0, b""), (b"events", 0, b""), (b"events\n# none\n", 0, b""),
    (b"events\nwalk 7 0 auto 1 room\n", 1, placed(2, b"BadEvent", b"walk 7 0 auto 1 room", 10, A_PATH)),
]
# Commands that write help or the version.
HELPFUL = (["help"], ["--help"], ["help", "draw"], ["script", "-h"], ["--version"])
# Command lines that are none with what may be meant, of which allocations are refused.
REFUSED = ((["scrip"], (near(b"script"), b"")), (["help", "wrld"], (near(b"world"), b"")), (["nothing"], (b"",)),
           (["draw", "x"], (fed(b"draw"),)), (["draw", "--to", "0"], (b"",)))
# Faults, each of another ending, which standard error doesn't take.
MUTE = ((["script"], SHORT + b"x\n"), (["trace"], b"events\nx\n"), (["explore"], b"x\n"), (["judge"], b"  x\n"),
        (["import"], b"x\n"), (["x"], b""), ([], b""))
# What is shown, how many bytes are taken at once and how many in all, and the line at which the loss is told, if it is at one.
LOSSES = [
    ("trace", SHORT, 100, 0, 2), ("trace", SHORT, 7, 1, 2), ("trace", SHORT, 100, 39, 2), ("trace", SHORT, 7, 40, 3),
    ("trace", SHORT, 1, 44, 3), ("draw", SHORT, 100, 0, 2), ("draw", SHORT, 1, 1, 2), ("draw", SHORT, 100, 6000, 2),
    ("draw", b"", 100, 0, 1), ("draw", b"events\n", 100, 6000, 1), ("draw", b"events\n", 1, 1, 1),
    ("script", SHORT, 100, 0, 2), ("script", SHORT, 1, 8, 3),
    ("serve", SHORT, 100, 0, 1), ("serve", SHORT, 7, 3, 2), ("serve", SHORT, 1, 12, 3), ("serve", SHORT, 100, 19, 3),
    ("help", b"", 5000, 0, None), ("help", b"", 100, 250, None), ("help", b"", 1, 1000, None),
    ("--version", b"", 100, 0, None), ("--version", b"", 7, 15, None),
    ("threads", b"", 100, 0, None), ("threads", b"", 2, 8, None),
    ("import", MOUNTS, 100, 0, None), ("import", MOUNTS, 7, 33, None), ("import", MOUNTS, 1, 140, None),
    ("explore", ASKED, 100, 0, None), ("explore", ASKED, 7, 60, None), ("explore", ASKED, 1, 150, None),
    ("judge", BROKEN, 100, 0, None), ("judge", BROKEN, 5, 20, None), ("judge", LAWFUL, 1, 6, None),
    *(("world", A_WORLD, 1 << 20, room, 11) for room in (0, 1, 100, 300)),
]


class Program:
    """The program, and the folder in which what is loaded before it is built."""

    def __init__(self, room, patience=PATIENCE):
        ran = subprocess.run(["tools/program.sh"], stdout=subprocess.PIPE, check=True)
        self.path, self.room, self.patience = ran.stdout.decode().strip(), room, patience
        self.is_proved = not os.path.basename(self.path).startswith("quick_")

    def run(self, words, given, loaded=None, before=None, **numbers):
        """Runs it, and returns its status, what it wrote and what it told."""
        more = {"LD_PRELOAD": loaded} if loaded else {}
        more.update({it: str(number) for it, number in numbers.items()})
        ran = subprocess.run([self.path, *words], input=given, capture_output=True, timeout=self.patience, check=False,
                             env={**os.environ, **more}, preexec_fn=before)
        return ran.returncode, ran.stdout, ran.stderr

    def built(self, name):
        """Builds what is loaded before the program, and returns its path."""
        tools = os.path.dirname(subprocess.run(["rt", "doc"], stdout=subprocess.PIPE, text=True, check=True).stdout.strip()) + "/toolchain/bin"
        out = f"{self.room}/{name}.so"
        subprocess.run([f"{tools}/clang", "--target=x86_64-unknown-linux-gnu", f"--ld-path={tools}/ld.lld", "-shared", "-fPIC",
                        "-nostdlib", "-O1", "-o", out, f"tools/{name}.c"], check=True)
        return out


def asks_for_help(command):
    """The ways in which help of a command is asked for, or of the program."""
    if command is None:
        return [["help"], ["--help"], ["-h"], ["--help", "x"], ["-hV"]]
    return [["help", command], [command, "--help"], [command, "-h"], [command, "--help", "x"]]


def is_help(program, words, command, options):
    """Whether help is one screen, the same in each way, and names the command and its options, or all commands."""
    status, wrote, said = program.run(words, SHORT)
    lines = wrote.decode().splitlines()
    names = [f"--{it}" for it in options] if command else [f"  {it} " for it in offers.of_program()]
    return (status, said) == (0, b"") and wrote == program.run(asks_for_help(command)[0], b"")[1] \
        and lines[0].startswith(f"Usage: automount_cli {command or 'COMMAND'}") and wrote.endswith(b"\n") \
        and len(lines) < SCREEN[0] and max(map(len, lines)) <= SCREEN[1] and all(it in wrote.decode() for it in names) \
        and all(it in wrote for it in (b"Exit status: 0 ", b"; 1 ", b"\nExample: "))


def is_version(program, words):
    """Whether the program's name and its version are written, as the sources have it."""
    with open("crates/am_cli/src/help.rt", encoding="utf-8") as file:
        version = re.search(r'"(\d+\.\d+\.\d+)"', file.read())[1]
    return program.run(words, SHORT) == (0, f"automount_cli {version}\n".encode(), b"")


def is_unread(program, words):
    """Whether nothing is read of a file that is standard input."""
    with tempfile.TemporaryFile() as given:
        given.write(SHORT)
        given.seek(0)
        subprocess.run([program.path, *words], stdin=given, capture_output=True, timeout=program.patience, check=False)
        return os.lseek(given.fileno(), 0, os.SEEK_CUR) == 0


def is_mute(program, words, given):
    """Whether the status and what is written are the same where standard error takes nothing."""
    with open("/dev/full", "wb", buffering=0) as full:
        ran = subprocess.run([program.path, *words], input=given, stdout=subprocess.PIPE, stderr=full,
                             timeout=program.patience, check=False)
    return (ran.returncode, ran.stdout) == program.run(words, given)[:2]


def with_room(room):
    """Called in the process of a program: what it writes beyond so many bytes of a file fails."""
    resource.setrlimit(resource.RLIMIT_FSIZE, (room, room))


def is_told_in_part(program, words, given, room):
    """Whether the beginning is told that standard error takes, which is a file of so many bytes."""
    status, wrote, whole = program.run(words, given)
    with tempfile.TemporaryFile() as said:
        ran = subprocess.run([program.path, *words], input=given, stdout=subprocess.PIPE, stderr=said, timeout=program.patience,
                             check=False, preexec_fn=lambda: with_room(room), restore_signals=False)
        said.seek(0)
        return (ran.returncode, ran.stdout, said.read()) == (status, wrote, whole[:room])


def is_explained(given, said):
    """Whether what is told is as the pages have it, apart from which column and what was expected."""
    wrong = said.count(b"\n") > 1 and places.problem(given, said)
    if wrong:
        print(wrong)
    return not wrong


def is_picture(program, words, shown, told):
    """Whether the picture shows these of the two events, and says how many."""
    status, wrote, said = program.run(["draw", *words], TWO_EVENTS)
    names = (b">mount 0 /a&lt;b</text>", b">leave 1</text>")
    return (status, said) == (0, b"") and wrote.startswith(b"<svg ") and wrote.endswith(b"\n</svg>\n") \
        and tuple(it in wrote for it in names) == shown and b">" + told + b"<" in wrote


def is_unplayed(program, given, status, told):
    """Whether there is a picture that says that no event was played, the same of each such script."""
    wrote = program.run(["draw"], b"")[1]
    return program.run(["draw", "--from", "2"], given) == (status, wrote, told) and wrote.startswith(b"<svg ") \
        and wrote.endswith(b"\n</svg>\n") and wrote.count(b">no event was played<") == 2


def is_lost(program, little, row):
    """Whether the beginning that is taken is written, and the rest told as lost at this line."""
    command, given, most, room, line = row
    whole = program.run([command], given)[1]
    told = fault(line, b"WriteFailed") if line else b"fault: WriteFailed\n"
    return program.run([command], given, little, MOST=most, ROOM=room) == (1, whole[:room], told)


def is_whole(program, little, command, most):
    """Whether all is written where so many bytes are taken at once."""
    return program.run([command], SHORT, little, MOST=most, ROOM=1 << 20) == program.run([command], SHORT)


def beginnings(parts):
    """What may be written of these parts, each in one of its forms: so many of them, from the first on."""
    found, whole = [b""], [b""]
    for forms in parts:
        whole = [before + form for before in whole for form in forms]
        found += whole
    return found, whole


def is_refused_well(found, whole, refused):
    """Tells of a run whether it wrote one of these wholes, or one of these beginnings and told that there was no
    memory, or whether the command line was refused in one of these ways."""
    told = re.compile(rb"fault: (line \d+: )?NoMemory\n")

    def judge(ran):
        status, wrote, said = ran
        return status == 0 and said == b"" and wrote in whole or status == 1 and told.fullmatch(said) is not None and wrote in found

    return lambda ran: judge(ran) or ran in refused


def is_refused_at_fault(found, whole, every):
    """The same of a script that ends in a fault, of which all of this is told: what stands below it may be missing."""
    no_memory = re.compile(rb"fault: (line \d+: )?NoMemory\n")

    def judge(ran):
        status, wrote, said = ran
        return status == 1 and (wrote in whole and said in (every, places.first(every))
                                or wrote in found and no_memory.fullmatch(said) is not None)

    return judge


def refuses_each(program, refuse, words, given, is_well):
    """Runs a command with each allocation refused in turn; returns how many that were, or none where one went ill."""
    for number in range(1, 100_000):
        status, wrote, said = program.run(words, given, refuse, REFUSE=number)
        said, counts = said[:said.rindex(b"calls=")], said[said.rindex(b"calls="):]
        if not is_well((status, wrote, said)):
            print(f"{' '.join(words)}: allocation {number} refused: {(status, wrote[:200], said)}")
            return None
        if not counts.endswith(b"refused=1\n"):
            return number - 1
    return None


# A session, each of whose allocations is refused.
SESSION = (b"master", b"/auto m", b"end", b"map m", b"home srv:/home", b"end", b"events", b"attach /auto", b"walk 7 0 /auto/home 5 room",
           b"?world", b"?waiting 7", b"deliver 1", b"?next 1", b"act 1 ok", b"!save", b"act 1 ok", b"!back", b"act 1 ok", b"?trace",
           b"nscopy 0", b"?world 1", b"?kind 1 /auto", b"?lawful", b"bind 0 /a", b"?kind 0 a", b"!reset", b"master", b"/a a", b"b", b"end", b"events",
           b"!reset", b"events", b"mount 0 /a")


def served(program, lines):
    return replies_of(program.run(["serve"], b"".join(it + b"\n" for it in lines))[1])


def replies_of(wrote):
    return re.split(rb"^\.\n", wrote, flags=re.M)[:-1]


def is_served_well(program):
    """Tells of a session in which an allocation was refused whether all is as without that, but for the place of a fault, or
    the reply to one line tells that there was no memory and the others are as where that line isn't there."""
    whole = served(program, SESSION)

    def judge(ran):
        status, wrote, said = ran
        found = replies_of(wrote)
        if ran == (1, b"", b"fault: NoMemory\n"):
            # There is none for the words of the command.
            return True
        if status != 0 or said or len(found) != len(whole):
            return False
        at = next((number for number, (one, other) in enumerate(zip(found, whole)) if one != other), None)
        if at is None:
            return True
        if found[at] == re.sub(rb"^(fault \d+):\d+ (\w+) expected .*$", rb"\1 \2", whole[at]):
            # There is none to find the place of a fault, which is told without it.
            return found[at + 1:] == whole[at + 1:]
        if found[at] != b"err 10\n" and re.fullmatch(rb"fault \d+ NoMemory\n", found[at]) is None:
            return False
        if SESSION[at] == b"events":
            # Another head begins.
            others = zip(SESSION[at + 1:SESSION.index(b"!reset")], found[at + 1:])
            return all(it == b"" or b"NoWorld" in it or b"NotSaved" in it or (line, it[-12:]) == (b"?kind 0 a", b"BadQuestion\n")
                       for line, it in others)
        # An event that is refused was taken, as a line that is skipped is; a line with a fault, or a question, wasn't.
        instead = (b"#",) if found[at] == b"err 10\n" and SESSION[at][:1] != b"?" else ()
        others = served(program, SESSION[:at] + instead + SESSION[at + 1:])
        return found[:at] + found[at + 1:] == others[:at] + others[at + len(instead):]

    return judge


def picture_beginnings(program):
    """Of a picture any beginning may be written."""
    whole = program.run(["draw"], SHORT)[1]
    return [whole[:end] for end in range(len(whole) + 1)], [whole]


def refusals(program, refuse):
    """The commands that are run with each allocation refused, each as its name and what does so."""
    rows = [
        (["script"], SHORT, beginnings(ANSWERS)), (["trace"], SHORT, beginnings(TRACES)),
        (["judge"], LAWFUL, ([b""], [b"lawful\n"])), (["explore"], ASKED, ([b""], [FOUND])),
        (["import"], MOUNTS, ([b""], [IMPORTED])),
        (["import"], TRAPS, ([b""], [program.run(["import"], TRAPS)[1]])),
        (["draw"], b"events\n", ([b""], [program.run(["draw"], b"events\n")[1]])),
        (["world"], b"events\n", ([b""], [INITIAL])), (["world"], A_WORLD, ([b""], [WORLD])),
        (["threads", "--walkers", "2", "--workers", "1", "--rounds", "2"], b"", ([b""], [b"rounds 4\n"])),
        *((words, b"", ([b""], [program.run(words, b"")[1]])) for words in HELPFUL),
    ]
    for words, given, (found, whole) in rows:
        yield words, lambda words=words, given=given, found=found, whole=whole: refuses_each(
            program, refuse, words, given, is_refused_well(found, whole, ()))
    for words, given, (found, whole) in (
            (["script"], SHORT + b"x\n", beginnings(ANSWERS)), (["trace"], SHORT + b"x\n", beginnings(TRACES)),
            (["script"], JOINED[0], ([b""], [b""])), (["world"], JOINED[0], ([b""], [b""])),
            (["script"], TOO_LONG[0], ([b""], [b""])), (["trace"], BAD_HEADS[0][0], ([b""], [b""]))):
        yield words, lambda words=words, given=given, found=found, whole=whole: refuses_each(
            program, refuse, words, given, is_refused_at_fault(found, whole, program.run(words, given)[2]))
    yield ["serve"], lambda: refuses_each(program, refuse, ["serve"], b"".join(it + b"\n" for it in SESSION), is_served_well(program))
    # Where there is no memory to find what may be meant, the command lines are told alone; a file is seen all the same.
    for words, hints in REFUSED:
        yield words, lambda words=words, hints=hints: refuses_each(
            program, refuse, words, b"", is_refused_well([b""], [], [usage(it) for it in hints]))


def ends_with_little(program, rounds, memory):
    """Of many rounds memory runs out in the midst."""
    def limit():
        resource.setrlimit(resource.RLIMIT_STACK, (STACK, STACK))
        resource.setrlimit(resource.RLIMIT_AS, (memory, memory))

    words = ["threads", "--walkers", "16", "--workers", "16", "--rounds", str(rounds)]
    ends = (0, b"rounds %d\n" % (16 * rounds), b""), (1, b"", b"fault: NoMemory\n")
    return program.run(words, b"", before=limit) in ends


def ends_behind_a_stretch(program, refuse, number):
    """Whether a run ends where there is no memory for a long while: who finds none gives up, and nobody waits for it."""
    status, wrote, said = program.run(["threads", "--walkers", "2", "--workers", "1", "--rounds", "2"], b"", refuse, REFUSE=number,
                                      REFUSE_COUNT=STRETCH)
    said = said[:said.rindex(b"calls=")]
    return (status, wrote, said) in ((0, b"rounds 4\n", b""), (1, b"", b"fault: NoMemory\n"))


def each_ends_behind_a_stretch(program, refuse):
    """The same from each third allocation on, up to those of a whole run."""
    said = program.run(["threads", "--walkers", "2", "--workers", "1", "--rounds", "2"], b"", refuse, REFUSE=0)[2]
    calls = int(re.search(rb"calls=(\d+)", said)[1])
    return all(ends_behind_a_stretch(program, refuse, number) for number in range(1, calls, 3)) and calls


def checks(program):
    """Each check, by its name."""
    for words, hint in NO_COMMAND_LINES:
        yield f"no command line: {str(words)[:80]}", \
            lambda words=words, hint=hint: program.run(words, b"") == usage(hint)
    for command, options in ((None, ()), *offers.of_program().items()):
        for words in asks_for_help(command):
            yield f"help: {' '.join(words)}", lambda words=words, command=command, options=options: is_help(
                program, words, command, options)
    for words in (["--version"], ["-V"], ["--version", "x"]):
        yield f"the version: {' '.join(words)}", lambda words=words: is_version(program, words)
    for words in (*HELPFUL, ["scrip"], ["script", "x"], ["threads"]):
        yield f"nothing is read: {' '.join(words)}", lambda words=words: is_unread(program, words)
    for words, given in MUTE:
        yield f"standard error takes nothing: {' '.join(words)}", \
            lambda words=words, given=given: is_mute(program, words, given)
    for words, given, ends in COMMAND_LINES:
        yield f"what is told: {' '.join(words)}, {ends[0]}", lambda given=given, ends=ends: is_explained(given, ends[2])
        yield f"command line: {' '.join(words)}, {ends[0]}", lambda words=words, given=given, ends=ends: program.run(words, given) == ends
    for room in (0, 1, 26, 27, 40, 80, 200):
        yield f"standard error takes {room} bytes", lambda room=room: is_told_in_part(
            program, ["script"], b"events\nwalk 7 0 auto 1 room\n", room)
    for row in PICTURES:
        yield f"a picture: {' '.join(row[0])}", lambda row=row: is_picture(program, *row)
    for row in UNPLAYED:
        yield f"a picture of no event: {row[0]}", lambda row=row: is_unplayed(program, *row)
    if not program.is_proved:
        print("the program isn't proved: nothing is loaded before it")
        return
    little, refuse = program.built("little"), program.built("refuse")
    for row in LOSSES:
        yield f"{row[0]}: {row[2]} bytes at once, {row[3]} in all", lambda row=row: is_lost(program, little, row)
    for command in ("script", "trace", "draw", "world", "serve", "explore", "judge", "help", "--version"):
        for most in (1, 7, 5000):
            yield f"{command}: {most} bytes at once", lambda command=command, most=most: is_whole(program, little, command, most)
    for words, run in refusals(program, refuse):
        yield f"{' '.join(words)}: each allocation refused", run
    for rounds, memory, times in LITTLES:
        yield f"threads, {rounds} rounds: {times} times with {memory} MiB", lambda rounds=rounds, memory=memory, times=times: all(
            ends_with_little(program, rounds, memory << 20) for _ in range(times))
    yield f"threads: {STRETCH} allocations in turn refused", lambda: each_ends_behind_a_stretch(program, refuse)


def main():
    if len(sys.argv) != 1:
        print("commands: expected no words", file=sys.stderr)
        return 2
    os.chdir(os.path.join(os.path.dirname(os.path.abspath(__file__)), ".."))
    passed = failed = 0
    with tempfile.TemporaryDirectory() as room:
        for name, check in checks(Program(room)):
            try:
                good = check()
            except subprocess.TimeoutExpired:
                good = False
                print(f"{name}: hangs")
            told = f" ({good})" if good and good is not True else ""
            print(f"{name}: {'as expected' if good else 'not as expected'}{told}")
            passed, failed = passed + bool(good), failed + (not good)
    print(f"{passed} passed, {failed} failed")
    return 1 if failed else 0


if __name__ == "__main__":
    sys.exit(main())
