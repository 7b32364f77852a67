#!/usr/bin/env python3
"""Writes docs/CONTRACTS.md off the sources: which definitions the contracts of each crate cite, and in which clauses.

usage: tools/contracts.py --write

A call counts that a crate above can make: a function, or a method of a type, that src/lib.rt exports. tools/check_pages
compares the page with what would be written.
"""

import collections
import functools
import glob
import os
import re
import sys
import textwrap

PAGE = "docs/CONTRACTS.md"
COLUMNS = 120
HEAD = """\
# Which definitions the contracts cite

A contract says no more than the definitions that it cites. Here they are of each crate, lowest first: a row is a file
of definitions that contracts of public calls cite, with what it is about, which of its definitions they cite, and in
which clauses. These are the files to read of a crate before its contracts. What each call does its doc comment tells,
in `src`; what follows of all contracts together is in [PROOF.md](PROOF.md).

- A file is one of the crate's own, as `Fold` for `specs/Fold.antt`, or of the crate that is named before it: what such
  a one is about stands in the section of that crate, if that has it. A crate without `am_` is one of the toolchain's.
  The last row has the clauses that cite no definition: they compare values and results as they are.
- Below a table stand the crate's other files: those that the files of some table import, one from another ("behind
  them"), and the rest. These say of what a type's value is made and what it keeps (its `impl Model`), or private
  contracts and proofs alone cite them.
- A public call is a function that `src/lib.rt` exports, or a method of a type that it exports. One without clauses
  behind a colon has a single clause, without a name. What is `asked by` a call stands in its `requires`.
- `tools/contracts.py --write` makes this page of the sources. `tools/check_pages` fails where it isn't theirs.
"""
COLUMN_NAMES = "| File | What it is about | Definitions | Calls, and their clauses |\n|---|---|---|---|\n"
# Where clauses stand that cite no definition.
NO_FILE = ("", "")
# A public function, with its clauses: of which kind each is, its name, and the definitions that it cites.
Call = collections.namedtuple("Call", ("name", "clauses"))
# A name that is no part of another and no field.
NAME = re.compile(r"(?<![\w.'-])([A-Za-z_][\w'-]*)")
BOUND = re.compile(r"λ ([^.]*)\.|\(([\w ]+?) :")
IMPORT = re.compile(r"^( *)(?:pub )?(?:ghost )?use ([\w.-]+?)(?:\.\{([^}]*)\}| as \w+)?;?$", re.M)
DEFINES = re.compile(r"^(?!--|pub mod |pub use |use |\s|$)", re.M)
FUNCTION = re.compile(r"^ *(pub |pub\([^)]*\) )?(?:const |unsafe )*(?:extern \"C\" )?fn (\w+)", re.M)
CLAUSE = re.compile(r"\s*(requires|ensures)\*?\s*([\w-]*)\s*\{")
BLOCK = re.compile(r"^(impl|pub trait)\b([^{;]*)\{.*?^\}", re.M | re.S)
EXPORT = re.compile(r"^pub use (?:crate::|self::)?((?:\w+::)+)(?:\{([^}]*)\}|(\w+));", re.M)


def text_of(path):
    with open(path, encoding="utf-8") as file:
        return file.read()


def crates():
    """The crates, lowest first."""
    return re.findall(r"^(\w+)[^:\n]*:", text_of("crates.txt"), re.M)


# The definitions

def imports_of(text, is_inner=False):
    """The names that a text imports, each with the path of its module and its own name there."""
    found = {}
    for indent, path, names in IMPORT.findall(text):
        if bool(indent) == is_inner:
            for name in filter(None, map(str.strip, names.split(","))):
                own, _, here = name.partition(" as ")
                found[here or own] = path, own
    return found


@functools.cache
def passed_on(crate):
    """The names that specs/Lib.antt of a crate passes on."""
    path = f"crates/{crate}/specs/Lib.antt"
    return imports_of(text_of(path)) if os.path.exists(path) else {}


def place_of(path, name):
    """The crate and the module of a definition; none of a type that code declares, and of what std has."""
    while True:
        crate, _, module = path.removeprefix("Rattle.").partition(".specs")
        module = module.lstrip(".")
        if not path.startswith("Rattle.") or crate == "std" or module.startswith(("declared.", "contracts.")):
            return None
        if module:
            return crate, module
        if name not in passed_on(crate):
            return None
        path, name = passed_on(crate)[name]
        path = path if path.startswith("Rattle.") else f"Rattle.{crate}.specs.{path}"


def path_of(crate, module):
    return f"crates/{crate}/specs/{module.replace('.', '/')}.antt"


@functools.cache
def about(crate, module):
    """The first sentence of a file of definitions."""
    path = path_of(crate, module)
    if not os.path.exists(path):
        return ""
    lines = []
    for line in text_of(path).splitlines():
        if not line.startswith("-- "):
            break
        lines.append(line.removeprefix("-- "))
    return first_sentence(" ".join(lines))


@functools.cache
def files_of(crate):
    """The files of definitions of a crate, but for those that only name others."""
    root = f"crates/{crate}/specs"
    paths = [it for it in glob.glob(f"{root}/**/*.antt", recursive=True) if DEFINES.search(text_of(it))]
    return {(crate, it[len(root) + 1:].removesuffix(".antt").replace("/", ".")) for it in paths} - {(crate, "Lib")}


def imported_by(crate, module):
    """The files of definitions that one imports."""
    path = path_of(crate, module)
    text = text_of(path) if os.path.exists(path) else ""
    names = [*imports_of(text).values(), *imports_of(text, True).values()]
    # A module that is imported whole has a name of its own.
    names += [(path, "") for _, path, names in IMPORT.findall(text) if not names]
    return {place_of(*it) for it in names} - {None}


def first_sentence(text):
    """The text up to the first full stop that no bracket holds."""
    depth = 0
    for at, sign in enumerate(text):
        depth += (sign == "(") - (sign == ")")
        if sign == "." and not depth and text[at + 1:at + 2] in ("", " "):
            return text[:at + 1]
    return text


# The calls

def behind(text, at, begin, end):
    """Where the bracket that begins here is closed."""
    depth = 0
    while True:
        depth += (text[at] == begin) - (text[at] == end)
        at += 1
        if not depth:
            return at


def clauses_at(text, at):
    """The clauses behind a function's name, as texts."""
    at, found = behind(text, text.index("(", at), "(", ")"), []
    while text[at] not in "{;":
        clause = CLAUSE.match(text, at)
        if clause:
            at = behind(text, clause.end() - 1, "{", "}")
            found.append((clause[1], clause[2], text[clause.end():at - 1]))
        elif text[at] == "[":
            at = behind(text, at, "[", "]")
        else:
            at = text.index("\n", at) if text.startswith("//", at) else at + 1
    return found


def cited(text, imports):
    """The definitions that the text of a clause cites, each with its place."""
    bound = {it for both in BOUND.findall(text) for it in " ".join(both).split()}
    names = [it for it in NAME.findall(text) if it in imports and it not in bound]
    found = [(place_of(*imports[it]), imports[it][1]) for it in dict.fromkeys(names)]
    return [it for it in found if it[0]]


def owner_of(header):
    """The type of an `impl`, or the name of a trait."""
    plain = header
    while re.search(r"<[^<>]*>", plain):
        plain = re.sub(r"<[^<>]*>", "", plain)
    plain = plain.partition(" where ")[0].partition(" for ")[2] or plain.partition(" where ")[0]
    return re.split(r"[:\s]", plain.strip().removeprefix("&"))[0]


def module_files(crate):
    """The source files of a crate by the names of their modules, and which of them are public."""
    root, found = f"crates/{crate}/src", {}
    for path in sorted(glob.glob(f"{root}/**/*.rt", recursive=True)):
        name = path.removeprefix(f"{root}/").removesuffix(".rt").replace("/", "::")
        found["" if name in ("lib", "main") else name] = path
    public = {""}
    for name in found:
        above, _, last = name.rpartition("::")
        if name and above in public and re.search(rf"^pub mod {last};", text_of(found[above]), re.M):
            public.add(name)
    return found, public


def exports(files, public):
    """The names that a crate exports of modules that aren't public."""
    found = set()
    for name in public:
        for path, several, one in EXPORT.findall(text_of(files[name])):
            if path.split("::")[0] in files:
                found |= {it.strip() for it in (several or one).split(",")}
    return found


@functools.cache
def calls_of(crate):
    """The public calls of a crate, in the order of its files."""
    files, public = module_files(crate)
    exported, found = exports(files, public), []
    types = set(exported)
    for module in public:
        types |= set(re.findall(r"^pub (?:struct|enum|trait|type) (\w+)", text_of(files[module]), re.M))
    for module, path in files.items():
        text = text_of(path)
        outer = imports_of(text)
        blocks = [(it.start(), it.end(), it[1], it[2]) for it in BLOCK.finditer(text)]
        for function in FUNCTION.finditer(text):
            at = next((it for it in blocks if it[0] < function.start() < it[1]), None)
            is_open = function[1] == "pub "
            clauses = clauses_at(text, function.end())
            if at:
                owner = owner_of(at[3])
                # What a trait promises stands at the trait, but for what one type promises besides.
                is_its = bool(clauses) if " for " in at[3] else is_open or at[2] != "impl"
                is_open = owner in types and is_its
                name = f"{owner}::{function[2]}"
                imports = {**outer, **imports_of(text[at[0]:at[1]], True)}
            else:
                name, imports = function[2], outer
                is_open = is_open and (name in exported or module in public)
            if is_open:
                found.append(Call(name, [(kind, its, cited(part, imports)) for kind, its, part in clauses]))
    return found


# The page

def spans(names):
    return ", ".join(f"`{it}`" for it in names)


def short(names):
    """Calls in code spans: functions, and then the methods of each type, the first with its name."""
    groups = {"": []}
    for name in dict.fromkeys(names):
        owner, _, own = name.rpartition("::")
        groups.setdefault(owner, []).append(own if groups.get(owner) or not owner else name)
    return spans(it for those in groups.values() for it in those)


def cell_of_calls(those):
    """Calls with their clauses; those that have the same stand together."""
    groups = {}
    for call, clauses in those.items():
        groups.setdefault(tuple(clauses), []).append(call)
    parts = [short(calls) + (f": {spans(clauses)}" if clauses else "") for clauses, calls in groups.items()]
    return "; ".join(parts)


def rows_of(crate):
    """The files of definitions that contracts of a crate cite, its own first, each with its definitions and calls; last
    the clauses that cite none."""
    found = {}
    for call in calls_of(crate):
        for kind, clause, definitions in call.clauses:
            for place, name in definitions or [(NO_FILE, "")]:
                names, those = found.setdefault(place, (set(), {"ensures": {}, "requires": {}}))
                names |= {name} - {""}
                its = those[kind].setdefault(call.name, {})
                if clause:
                    its[clause] = True
    return sorted(found.items(), key=lambda it: (it[0] == NO_FILE, it[0][0] != crate, it[0]))


@functools.cache
def own_files(crate):
    """The files of a crate that a row of its own section stands for."""
    return {place for place, _ in rows_of(crate) if place[0] == crate} if crate in crates() else set()


@functools.cache
def reached():
    """The files that contracts of public calls cite, and those that these import, one from another."""
    left = [place for crate in crates() for place, _ in rows_of(crate) if place != NO_FILE]
    found = set()
    while left:
        place = left.pop()
        if place not in found:
            found.add(place)
            left += imported_by(*place)
    return found


def slashed(module):
    return module.replace(".", "/")


def row(crate, place, names, those):
    file = slashed(place[1])
    where = f"`{file}`" if place[0] == crate else f"`{place[0]}`, `{file}`" if place[0] else ""
    says = "" if place[0] != crate and place in own_files(place[0]) else about(*place)
    says = says if place[0] else "what cites no definition"
    calls = [cell_of_calls(those["ensures"])] if those["ensures"] else []
    calls += [f"asked by {cell_of_calls(those['requires'])}"] if those["requires"] else []
    return f"| {where} | {says} | {spans(sorted(names))} | {'; '.join(calls)} |\n"


def wrapped(text):
    return "".join(f"{it}\n" for it in textwrap.wrap(text, COLUMNS, break_long_words=False, break_on_hyphens=False))


def section(crate):
    """What the page says of a crate."""
    calls, lib = calls_of(crate), f"crates/{crate}/src/lib.rt"
    if not any(it.clauses for it in calls):
        return ""
    says = " ".join(re.findall(r"^//! ?(.*)$", text_of(lib), re.M))
    text = f"\n## {crate}\n\n{wrapped(says)}\n{COLUMN_NAMES}"
    text += "".join(row(crate, place, *both) for place, both in rows_of(crate))
    others = files_of(crate) - own_files(crate)
    silent = [it.name for it in calls if not any(kind == "ensures" for kind, _, _ in it.clauses)]
    below = {
        "Behind them": spans(sorted(slashed(it) for _, it in others & reached())),
        "Behind no public contract": spans(sorted(slashed(it) for _, it in others - reached())),
        "Without a clause": short(silent),
    }
    told = " ".join(f"{words}: {those}." for words, those in below.items() if those)
    return text + ("\n" + wrapped(told) if told else "")


def page():
    return HEAD + "".join(map(section, crates()))


def faults():
    """Where the page isn't that of the sources."""
    ours, theirs = page().splitlines(), text_of(PAGE).splitlines() if os.path.exists(PAGE) else []
    wrong = next((at for at, (our, their) in enumerate(zip(ours, theirs), 1) if our != their), None)
    if wrong is None and len(ours) != len(theirs):
        wrong = min(len(ours), len(theirs)) + 1
    if wrong is not None:
        yield f"{PAGE}:{wrong}: it isn't what tools/contracts.py makes of the sources: run tools/contracts.py --write"


def main(words):
    if words != ["--write"]:
        print("contracts: expected --write", file=sys.stderr)
        return 2
    made = page()
    with open(PAGE, "w", encoding="utf-8") as file:
        file.write(made)
    return 0


if __name__ == "__main__":
    os.chdir(os.path.dirname(os.path.abspath(__file__)) + "/..")
    sys.exit(main(sys.argv[1:]))
