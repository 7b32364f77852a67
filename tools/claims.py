"""What the pages name of a crate, held to its sources: definitions, and in the tables of docs/PROOF.md calls with their
clauses. tools/check_pages asks it; nobody runs this file."""

import functools
import glob
import re

PAGE = "docs/PROOF.md"
SPAN = re.compile(r"`([^`]+)`")
FUNCTION = re.compile(r"\bfn (\w+)[<(]")
CLAUSE = re.compile(r"\bensures\*? (\w+) \{")
# Where a function's clauses are over.
BODY = re.compile(r"^ *\{$", re.M)
# A definition as pages name it, by its module; what stands for any such name, or for a file's, is none.
DEFINITION = re.compile(r"(?!NAME\.|Module\.name$|.*\.(?:antt|md)$)(?:[A-Z]\w*\.)+\w+")
# The parts whose tables tell calls by their crates.
OF_CALLS = ("Threads", "Laws of the two halves", "Texts and scripts", "Sessions, C and the program")


def text_of(path):
    with open(path, encoding="utf-8") as file:
        return file.read()


@functools.cache
def sources(crate, part):
    """All text of a part of a crate, `src` or `specs`."""
    return "\n".join(text_of(it) for it in sorted(glob.glob(f"crates/{crate}/{part}/**/*.*", recursive=True)))


@functools.cache
def clauses(crate):
    """The functions of a crate, each with the clauses that those of its name have."""
    parts, found = FUNCTION.split(sources(crate, "src")), {}
    for name, rest in zip(parts[1::2], parts[2::2]):
        found.setdefault(name, set()).update(CLAUSE.findall(BODY.split(rest, maxsplit=1)[0]))
    return found


def rows_below(heading, begin):
    """The rows of the tables below a heading that begin so."""
    part = text_of(PAGE).partition(f"\n{heading}\n")[2]
    part = re.split(r"^## ", part, maxsplit=1, flags=re.M)[0]
    found = False
    for line in part.splitlines():
        if line.startswith(begin):
            found = True
        elif found and line.startswith("|") and not line.startswith("|---"):
            yield [it.strip() for it in re.split(r"(?<!\\)\|", line)[1:-1]]


def is_type(crate, name):
    return re.search(rf"\b(?:struct|enum|trait|type) {name}\b", sources(crate, "src"))


def faults_of_group(crate, calls, named):
    """Calls of a crate, as `Type::call` or `call`, and the clauses that are told of them."""
    functions, known = clauses(crate), set()
    for call in calls:
        name = call.rpartition("::")[2]
        if name in functions:
            known |= functions[name]
        elif is_type(crate, name):
            known |= set().union(*functions.values())
        else:
            yield f"{crate} has no {call}"
    for clause in named:
        if clause not in (known if calls else set().union(*functions.values())):
            yield f"{crate}: no clause {clause} of {', '.join(calls) or 'a call'}"


def faults_of_calls(crate, cell):
    """A cell names calls, and after a colon their clauses, or clauses of any; a semicolon parts such groups."""
    for group in cell.split(";"):
        # A colon that stands in no code.
        colon = re.search(r":(?=(?:[^`]*`[^`]*`)*[^`]*$)", group)
        words, rest = (group[:colon.start()], group[colon.end():]) if colon else (group, "")
        calls = [it for it in SPAN.findall(words) if re.fullmatch(r"[\w:]+", it)]
        yield from faults_of_group(crate, calls, SPAN.findall(rest))


@functools.cache
def modules():
    """The files of definitions, by each end of their paths below `specs`, as `Events.Walkers` and `Walkers`."""
    found = {}
    for path in glob.glob("crates/*/specs/**/*.antt", recursive=True):
        names = path.partition("/specs/")[2].removesuffix(".antt").split("/")
        for at in range(len(names)):
            found.setdefault(".".join(names[at:]), []).append(path)
    return found


def is_defined(definition):
    """Whether a module has this name, or a record of definitions or a class in Python has it as its own."""
    module, _, name = definition.rpartition(".")
    texts = [text_of(it) for it in modules().get(module, [])]
    if not texts:
        owner = re.compile(rf"\b(?:record|class) {module}\b")
        paths = glob.glob("crates/*/specs/**/*.antt", recursive=True) + ["python/dalvicna.py"]
        texts = [owner.split(it, maxsplit=1)[1] for it in map(text_of, paths) if owner.search(it)]
    return any(re.search(rf"\b{name}\b", it) for it in texts)


def faults_of_definitions(page):
    """Each definition that a page names by its module, as `Walks.walk_outcome`, is there."""
    for number, line in enumerate(text_of(page).splitlines(), 1):
        for name in SPAN.findall(line):
            if DEFINITION.fullmatch(name) and not is_defined(name):
                yield f"{page}:{number}: no module of definitions has {name}"


def has(crate, name):
    """Whether a crate has a function, a type or a clause of this name, or this name itself."""
    functions = clauses(crate)
    return name in functions or name == crate or is_type(crate, name) or any(name in it for it in functions.values())


def faults():
    """What the page names, and the sources don't have."""
    for part in OF_CALLS:
        crate = ""
        for row in rows_below(f"## {part}", "| Crate |"):
            crate = (SPAN.findall(row[0]) or [crate])[0]
            for fault in faults_of_calls(crate, row[1]):
                yield f"{PAGE}: {part}: {fault}"
        if not crate:
            yield f"{PAGE}: there is no table of calls in {part}"
    for row in rows_below("## The public calls", "| Call |"):
        found = re.search(r"\(`(\w+)`\)", row[0])
        calls = [it for it in SPAN.findall(row[0]) if not it.startswith("am_")]
        for fault in faults_of_group(found[1] if found else "am_world", calls, SPAN.findall(row[1])):
            yield f"{PAGE}: The public calls: {fault}"
    for row in rows_below("## The machine", "| Definition |"):
        for name in SPAN.findall(row[0]):
            if not re.search(rf"\b{name.split()[0]}\b", sources("am_machine", "specs")):
                yield f"{PAGE}: The machine: am_machine has no definition {name}"
    for row in rows_below("## Nothing is stuck", "| Law "):
        for fault in faults_of_group("am_progress", SPAN.findall(row[0]), []):
            yield f"{PAGE}: Nothing is stuck: {fault}"
    for row in rows_below("## Crate by crate", "| Crates |"):
        crates = SPAN.findall(row[0])
        for call in SPAN.findall(row[1]):
            if re.fullmatch(r"[\w:]+", call) and not any(has(it, call.rpartition("::")[2]) for it in crates):
                yield f"{PAGE}: Crate by crate: none of {', '.join(crates)} has {call}"
