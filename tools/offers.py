"""What the program's commands are, and what the manual page and the completions offer: each as a map from a command to
its options. tools/check_pages and tools/installs.py compare them; nobody runs this file."""

import re

COMMANDS = "crates/am_cli/src/commands.rt"
MANUAL = "docs/automount_cli.1"
COMPLETIONS = {shell: f"docs/automount_cli.{shell}" for shell in ("bash", "zsh", "fish")}


def text_of(path):
    with open(path, encoding="utf-8") as file:
        return file.read()


def with_options(parts, option):
    """The commands among the parts of a text, each with the options that the part behind it has."""
    return {name: set(re.findall(option, rest)) for name, rest in zip(parts[1::2], parts[2::2])}


def of_program():
    """The commands and options that the command line is read by."""
    parts = re.split(r'Command::new\(alloc, "(\w+)"\)', text_of(COMMANDS))
    found = with_options(parts, r'\b(?:option(?:_or)?|word|flag)\(alloc, "(\w+)"')
    # The first is the program itself.
    found.pop("automount_cli")
    return found


def without_value():
    """The options of the program that have no value."""
    return set(re.findall(r'\bflag\(alloc, "(\w+)"', text_of(COMMANDS)))


def of_manual():
    """Those of its synopsis."""
    plain = text_of(MANUAL).replace("\\-", "-").partition(".SH SYNOPSIS\n")[2].partition(".SH ")[0]
    parts = re.split(r"^\.B automount_cli (\w+)$", plain, flags=re.M)
    return with_options(parts, r"--(\w+)")


def of_bash():
    text = text_of(COMPLETIONS["bash"])
    found = {it: set() for it in re.search(r'words="([^"-]+)"', text)[1].split()}
    for name, words in re.findall(r'(\w+)\) words="([^"]*)"', text):
        found[name] = set(re.findall(r"--(\w+)", words))
    return found


def of_zsh():
    text = text_of(COMPLETIONS["zsh"]).replace("\\\n", " ")
    found = {it: set() for it in re.findall(r"^ +'(\w+):", text, re.M)}
    for name, rest in re.findall(r"(\w+)\) _arguments (.*) ;;", text):
        found[name] = set(re.findall(r"'--(\w+)\[", rest))
    return found


def of_fish():
    text = text_of(COMPLETIONS["fish"])
    found = {it: set() for it in re.findall(r"__fish_use_subcommand -f -a (\w+) ", text)}
    for name, option in re.findall(r"__fish_seen_subcommand_from (\w+)' -l (\w+) ", text):
        found.setdefault(name, set()).add(option)
    return found


def all_offers():
    """What each file offers, by its path."""
    offered = {"bash": of_bash(), "zsh": of_zsh(), "fish": of_fish()}
    return {MANUAL: of_manual(), **{COMPLETIONS[shell]: found for shell, found in offered.items()}}
