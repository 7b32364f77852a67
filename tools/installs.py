#!/usr/bin/env python3
"""Installs the program below a folder and removes it again, and counts what went as it should.

usage: tools/installs.py

- `tools/install.sh PREFIX` copies the files that it names, and no other; the program plays a script from there;
- with DESTDIR all stands below that folder;
- `tools/install.sh --remove PREFIX` takes away those files and no other, and says so where there is none;
- the program takes each command with each of its options that crates/am_cli/src/commands.rt names, and no option of
  another command;
- the completion offers just these in bash, fish and zsh, where they are there;
- groff and man, where they are there, format the manual page without a warning.

The last line counts the checks.
"""

import os
import pty
import re
import select
import shutil
import signal
import subprocess
import sys
import tempfile

sys.dont_write_bytecode = True
import offers  # noqa: E402

SCRIPT = "examples/first"
MANUAL = offers.MANUAL
PATIENCE = 300
# What a command is given that has a fault where it reads nothing.
GIVEN = {"explore": "events\n"}
# What an option is given that has a fault where it is a number: that scene has no choice.
VALUES = {"prefix": ""}
# What stands in the folder before, and stays.
BEFORE = "bin/of_another"


def ran(*words, given=None, **more):
    return subprocess.run(words, input=given, capture_output=True, text=True, timeout=PATIENCE, check=False,
                          env={**os.environ, "LC_ALL": "C.UTF-8", "DESTDIR": "", **more})


def files_below(folder):
    return sorted(os.path.relpath(os.path.join(at, name), folder) for at, _, names in os.walk(folder) for name in names)


def told(done, begin):
    """The paths that a run has told, each behind such a word."""
    return sorted(line.removeprefix(begin).partition(",")[0] for line in done.stdout.splitlines()
                  if line.startswith(f"{begin}/"))


def make_before(folder):
    path = os.path.join(folder, BEFORE)
    os.makedirs(os.path.dirname(path))
    with open(path, "w", encoding="utf-8"):
        pass


def plays(program):
    with open(f"{SCRIPT}.script", encoding="utf-8") as script, open(f"{SCRIPT}.out", encoding="utf-8") as out:
        done = ran(program, "script", given=script.read())
        return (done.returncode, done.stdout, done.stderr) == (0, out.read(), "")


def installs_and_removes(room):
    folder = os.path.join(room, "prefix")
    make_before(folder)
    done = ran("tools/install.sh", folder)
    there = [f"{folder}/{it}" for it in files_below(folder) if it != BEFORE]
    yield "installed: what is told", done.returncode == 0 and len(there) > 4 and told(done, "install: ") == there
    yield "installed: the program", plays(f"{folder}/bin/automount_cli")
    yield "installed: which program it is", any(it in done.stdout for it in (", proved\n", ", built without proof"))
    done = ran("tools/install.sh", "--remove", folder)
    yield "removed: what is told", done.returncode == 0 and told(done, "install: removed ") == there
    yield "removed: what stood there before", files_below(folder) == [BEFORE]
    done = ran("tools/install.sh", "--remove", folder)
    yield "removed twice", done.returncode == 0 and done.stdout == f"install: nothing of it is below {folder}\n"


def stages(room):
    stage, folder = os.path.join(room, "stage"), os.path.join(room, "usr")
    done = ran("tools/install.sh", folder, DESTDIR=stage)
    yield "DESTDIR: all stands below it", done.returncode == 0 and not os.path.exists(folder) \
        and plays(f"{stage}/{folder}/bin/automount_cli")
    done = ran("tools/install.sh", "--remove", folder, DESTDIR=stage)
    yield "DESTDIR: all is removed", done.returncode == 0 and files_below(stage) == []


def takes(program):
    commands = offers.of_program()
    options = sorted({it for of_one in commands.values() for it in of_one})
    for name, own in sorted(commands.items()):
        # A command without its options reads an empty input, or little; of threads there are few.
        given = GIVEN.get(name, "")
        yield f"{name} is a command", ran(program, name, given=given).returncode == 0
        for option in options:
            value = [] if option in offers.without_value() else [VALUES.get(option, "1")]
            status = ran(program, name, f"--{option}", *value, given=given).returncode
            yield f"{name} --{option}", status == (0 if option in own else 2)


def asked_in_bash(words):
    line = " ".join(f"'{it}'" for it in words)
    asks = f"source {offers.COMPLETIONS['bash']}; COMP_WORDS=({line}); COMP_CWORD={len(words) - 1}; _automount_cli; " \
        "printf '%s\\n' \"${COMPREPLY[@]}\""
    return ran("bash", "--norc", "-c", asks).stdout.split()


def asked_in_fish(words):
    asks = f"source {offers.COMPLETIONS['fish']}; complete -C '{' '.join(words)}'"
    return [it.partition("\t")[0] for it in ran("fish", "--no-config", "-c", asks).stdout.splitlines()]


def read_until(terminal, mark, patience):
    """What comes from a terminal until a mark has come, or nothing for so many seconds."""
    read = b""
    while not (mark and mark in read) and select.select([terminal], [], [], patience)[0]:
        try:
            read += os.read(terminal, 65536)
        except OSError:
            break
    return read.decode(errors="replace")


def shown_in_zsh(line):
    """What zsh shows on a terminal where this line is typed, and then two tabs."""
    with tempfile.TemporaryDirectory() as room:
        shutil.copy(offers.COMPLETIONS["zsh"], f"{room}/_automount_cli")
        with open(f"{room}/.zshrc", "w", encoding="utf-8") as file:
            file.write(f"fpath=({room} $fpath)\nautoload -Uz compinit\ncompinit -D -u\nPROMPT='> '\n")
        child, terminal = pty.fork()
        if child == 0:
            os.environ.update(ZDOTDIR=room, TERM="dumb")
            os.execlp("zsh", "zsh", "-d", "-i")
        try:
            read_until(terminal, b"> ", PATIENCE)
            os.write(terminal, line.encode() + b"\t\t")
            return read_until(terminal, None, 4)
        finally:
            os.kill(child, signal.SIGKILL)
            os.close(terminal)
            os.waitpid(child, 0)


def asked_in_zsh(words):
    shown = shown_in_zsh(" ".join(words))
    if words[-1] == "--":
        return sorted(set(re.findall(r"--[a-z]+", shown)))
    return re.findall(r"^([a-z]+) +-- ", shown, re.M)


def completes():
    commands = offers.of_program()
    for shell, asked in (("bash", asked_in_bash), ("fish", asked_in_fish), ("zsh", asked_in_zsh)):
        if not shutil.which(shell):
            print(f"{shell} isn't there: its completion isn't asked")
            continue
        yield f"{shell}: the commands", sorted(asked(["automount_cli", ""])) == sorted(commands)
        for name, own in sorted(commands.items()):
            found = sorted(asked(["automount_cli", name, "--"]))
            yield f"{shell}: the options of {name}", found == sorted(f"--{it}" for it in own)


def is_formatted():
    # Of the programs that are called man only that of man-db has warnings.
    rows = (("groff", "GNU groff", ("-man", "-ww", "-z", MANUAL)), ("man", "man ", ("--warnings", "-l", MANUAL)))
    for name, begin, words in rows:
        if shutil.which(name) and ran(name, "--version").stdout.startswith(begin):
            done = ran(name, *words, MANROFFSEQ="")
            yield f"{name} formats {MANUAL}", done.returncode == 0 and done.stderr == ""
        else:
            print(f"{name} isn't there: {MANUAL} isn't formatted by it")


def checks(program, room):
    for some in (installs_and_removes(room), stages(room), takes(program), completes(), is_formatted()):
        yield from some


def main(words):
    if words:
        print("installs: expected no words", file=sys.stderr)
        return 2
    os.chdir(os.path.join(os.path.dirname(os.path.abspath(__file__)), ".."))
    built = subprocess.run(["tools/program.sh"], stdout=subprocess.PIPE, text=True, check=False)
    if built.returncode:
        print("0 passed, 1 failed")
        return 1
    passed = failed = 0
    with tempfile.TemporaryDirectory() as room:
        for name, good in checks(built.stdout.strip(), room):
            passed, failed = passed + bool(good), failed + (not good)
            if not good:
                print(f"{name}: not as expected")
    print(f"{passed} passed, {failed} failed")
    return 1 if failed else 0


if __name__ == "__main__":
    sys.exit(main(sys.argv[1:]))
