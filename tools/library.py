#!/usr/bin/env python3
"""The library for C: builds it, installs it, and tests it.

usage: tools/library.py build           writes out/library: libdalvicna.a, libdalvicna.so.1, dalvicna.h,
                                        dalvicna.pc, dalvicna.py
       tools/library.py install PREFIX  builds it, and copies it below a folder
       tools/library.py ready           says by its status whether it can be built without a proof
       tools/library.py header          compares c/dalvicna.h with the crate
       tools/library.py test            builds it and tests it; the last line counts the tests

The library is made of the archive of crates/am_c, which is proved and written where it is older than its
sources, over the libraries below it as the gate or `rt lib` has proved them; and of the toolchain's few functions that call
malloc, realloc and free. CC is the C compiler, cc where the environment doesn't tell it.
"""

import glob
import importlib.machinery
import importlib.util
import os
import re
import shutil
import subprocess
import sys
import tempfile

TOP = os.path.realpath(os.path.join(os.path.dirname(__file__), ".."))
OUT = os.path.join(TOP, "out", "library")
CRATE = os.path.join(TOP, "crates", "am_c")
ARCHIVE = os.path.join(CRATE, "out", "libam_c.a")
HEADER = os.path.join(TOP, "c", "dalvicna.h")
MODULE = os.path.join(TOP, "python", "dalvicna.py")
CC = os.environ.get("CC", "cc")
STRICT = ("-std=gnu11", "-O1", "-g", "-Wall", "-Wextra", "-Werror")


def stop(text):
    print(f"library: {text}", file=sys.stderr)
    sys.exit(2)


def text_of(path):
    with open(path, encoding="utf-8") as file:
        return file.read()


def bytes_of(path):
    with open(path, "rb") as file:
        return file.read()


# ---- The library

def crates_below(name):
    """The crates of which a crate of this repository is made, itself among them."""
    below = {}
    for line in text_of(os.path.join(TOP, "crates.txt")).splitlines():
        head, _, rest = line.partition(":")
        if head.strip() and not line.startswith("#"):
            below[head.split()[0]] = rest.split()
    found, ahead = set(), [name]
    while ahead:
        crate = ahead.pop()
        if crate in below and crate not in found:
            found.add(crate)
            ahead += below[crate]
    return sorted(found)


def is_up_to_date():
    if not os.path.exists(ARCHIVE):
        return False
    written = os.path.getmtime(ARCHIVE)
    for crate in crates_below("am_c"):
        for part in ("src", "specs", "proofs"):
            for path in glob.glob(f"{TOP}/crates/{crate}/{part}/**/*.*", recursive=True):
                if os.path.getmtime(path) > written:
                    return False
    return True


def kit():
    rt = shutil.which("rt")
    if not rt:
        stop("expected a machine with the toolchain, and there is no rt")
    return os.path.dirname(os.path.dirname(os.path.realpath(rt)))


def run(*words, **given):
    done = subprocess.run(words, **given)
    if done.returncode != 0:
        stop(f"this failed: {' '.join(words)}")
    return done


def tool_of_faults():
    """What tools/faults knows of crates and of the toolchain."""
    sys.dont_write_bytecode = True
    loader = importlib.machinery.SourceFileLoader("faults", f"{TOP}/tools/faults")
    made = importlib.util.module_from_spec(importlib.util.spec_from_loader("faults", loader))
    loader.exec_module(made)
    return made


def prove():
    """Proves the crate and writes its archive, over the libraries that stand, or else those that `rt lib` proves."""
    os.chdir(TOP)
    faults = tool_of_faults()
    crate = faults.crates()["am_c"]
    if not all(stands(faults.built(it), it.name) for it in crate.below()):
        run("rt", "lib", cwd=CRATE, stdout=subprocess.DEVNULL)
        return
    os.makedirs(os.path.dirname(ARCHIVE), exist_ok=True)
    words = faults.Kit().words(crate, faults.built)
    words[1] = "build"
    words += ["--toolchain", os.path.join(kit(), "toolchain"), "-o", ARCHIVE]
    done = subprocess.run(words, cwd=CRATE, stdout=subprocess.PIPE, stderr=subprocess.STDOUT, text=True, errors="replace", check=False)
    if done.returncode:
        print(done.stdout[-2000:], file=sys.stderr)
        stop("the crate am_c isn't proved")


def stands(library, name):
    """Whether a library is built and newer than its sources."""
    if not os.path.isdir(library):
        return False
    paths = [it for part in ("src", "specs", "proofs") for it in glob.glob(f"{TOP}/crates/{name}/{part}/**/*.*", recursive=True)]
    return all(os.path.getmtime(it) <= os.path.getmtime(library) for it in paths)


def build():
    if not shutil.which(CC):
        stop(f"expected a C compiler, and there is no {CC}")
    if not is_up_to_date():
        print("library: the archive is proved and built, in some minutes", file=sys.stderr)
        prove()
    shutil.rmtree(OUT, ignore_errors=True)
    os.makedirs(OUT)
    whole = os.path.join(OUT, "libdalvicna.a")
    shutil.copy(ARCHIVE, whole)
    run("ar", "x", os.path.join(kit(), "c", "liblibc_c.a"), "heap.pic.o", cwd=OUT)
    run("ar", "r", "libdalvicna.a", "heap.pic.o", cwd=OUT, stderr=subprocess.DEVNULL)
    os.remove(os.path.join(OUT, "heap.pic.o"))
    run(CC, "-shared", "-o", "libdalvicna.so.1", "-Wl,-soname,libdalvicna.so.1",
        f"-Wl,--version-script={TOP}/c/dalvicna.map", "-Wl,--no-undefined",
        "-Wl,--whole-archive", "libdalvicna.a", "-Wl,--no-whole-archive", cwd=OUT)
    os.symlink("libdalvicna.so.1", os.path.join(OUT, "libdalvicna.so"))
    shutil.copy(HEADER, OUT)
    shutil.copy(MODULE, OUT)
    write_pc(OUT, "", "")


def write_pc(folder, headers, libraries):
    """Writes dalvicna.pc into a folder, with the ways from there to header and libraries: all may be moved together."""
    version = re.search(r"#define AM_VERSION (\d+)", text_of(HEADER))[1]
    with open(os.path.join(folder, "dalvicna.pc"), "w", encoding="utf-8") as file:
        file.write(f"includedir=${{pcfiledir}}{headers}\nlibdir=${{pcfiledir}}{libraries}\n\n"
                   "Name: dalvicna\nDescription: a model of the Linux automounter\n"
                   f"Version: {version}\nCflags: -I${{includedir}}\nLibs: -L${{libdir}} -ldalvicna\n")


def install(prefix):
    prefix = os.path.abspath(prefix)
    build()
    headers, libraries = os.path.join(prefix, "include"), os.path.join(prefix, "lib")
    for folder in (headers, os.path.join(libraries, "pkgconfig")):
        os.makedirs(folder, exist_ok=True)
    shutil.copy(HEADER, headers)
    shutil.copy(os.path.join(OUT, "libdalvicna.a"), libraries)
    shutil.copy(os.path.join(OUT, "libdalvicna.so.1"), libraries)
    # It finds the library beside it.
    shutil.copy(MODULE, libraries)
    link = os.path.join(libraries, "libdalvicna.so")
    if not os.path.lexists(link):
        os.symlink("libdalvicna.so.1", link)
    write_pc(os.path.join(libraries, "pkgconfig"), "/../../include", "/..")


# ---- The header and the crate

TYPES = {"u8": "uint8_t", "u32": "uint32_t", "u64": "uint64_t", "usize": "size_t", "bool": "bool", "*mut u8": "void *"}


def snake(name):
    return re.sub(r"(?<!^)([A-Z])", r"_\1", name).lower()


def c_type(word):
    return TYPES.get(word) or f"struct {snake(word)}"


def c_parameter(word):
    """What a parameter of an export is in C, without its name."""
    kind = word.partition(":")[2].strip()
    if kind == "Global":
        return []
    found = re.fullmatch(r"&(mut )?\[(\w+)\]", kind)
    if found:
        return [f"{'' if found[1] else 'const '}{c_type(found[2])} *", "size_t"]
    found = re.fullmatch(r"&(mut )?(\w+)", kind)
    if found:
        return [f"{'' if found[1] else 'const '}{c_type(found[2])} *"]
    return [c_type(kind)]


def rattle_text():
    return "\n".join(text_of(path) for path in sorted(glob.glob(f"{CRATE}/src/**/*.rt", recursive=True)))


def exports():
    """The exports of the crate as C declares them: the result and the types of the parameters."""
    found = {}
    for name, words, gives in re.findall(
            r'pub extern "C" fn (\w+)\(([^)]*)\)(?: -> (\w+))?', rattle_text()):
        words = [it.strip() for it in words.split(",") if it.strip()]
        found[name] = (c_type(gives) if gives else "void", [it for word in words for it in c_parameter(word)])
    return found


def bare(text):
    return re.sub(r"/\*.*?\*/", "", text, flags=re.S)


def unnamed(parameter):
    parameter = re.sub(r"\s+", " ", parameter.strip())
    found = re.fullmatch(r"(.*?\*?)\s*\b\w+", parameter)
    return found[1].strip() if found else parameter


def declared():
    found = {}
    for gives, name, words in re.findall(r"^(\w+) (am_\w+)\(([^)]*)\);", bare(text_of(HEADER)), re.M):
        found[name] = (gives, [] if words == "void" else [unnamed(it) for it in words.split(",")])
    return found


def structs_of_crate():
    """The structs that are declared as C has them. One of another name than am_ has one field, and is that in C."""
    found = {}
    for name, body in re.findall(r"#\[repr\(C\)\][^{]*?pub(?:\(crate\))? struct (\w+) \{(.*?)\n\}", rattle_text(), re.S):
        fields = re.findall(r"^    (?:pub(?:\(crate\))? )?(\w+): ([\w* ]+),", body, re.M)
        found[snake(name)] = [(field, c_type(kind)) for field, kind in fields]
    inner = {f"struct {name}": fields[0][1] for name, fields in found.items() if not name.startswith("am_")}
    return {name: [(field, inner.get(kind, kind)) for field, kind in fields]
            for name, fields in found.items() if name.startswith("am_")}


def structs_of_header():
    found = {}
    for name, body in re.findall(r"^struct (\w+) \{(.*?)\};", bare(text_of(HEADER)), re.S | re.M):
        found[name] = [(field, kind + (" *" if "*" in star else "")) for kind, star, field in re.findall(r"(\w+)( \*|\s+)(\w+);", body.replace("  ", " "))]
    return found


# What the names of an enum begin with, and where its numbers stand.
NUMBERS = (("am_script_fault", "AM_SCRIPT_", "am_script/specs/Fault.antt", "kind_number"),
           ("am_trace_fault", "AM_TRACE_", "am_c/specs/Traces.antt", "fault_number"),
           ("am_expected", "AM_EXPECTED_", "am_c/specs/Traces.antt", "expected_number"),
           ("am_packet_fault", "AM_PACKET_", "am_wire/specs/Fault.antt", "fault_number"),
           ("am_map_fault", "AM_MAP_", "am_map/specs/Fault.antt", "fault_number"),
           ("am_master_fault", "AM_MASTER_", "am_master/specs/Fault.antt", "fault_number"))


def faults_of_numbers():
    """Each difference between an enum and the definition of its numbers."""
    for enum, start, path, word in NUMBERS:
        body = bare(re.search(rf"^enum {enum} \{{(.*?)\}};", text_of(HEADER), re.S | re.M)[1])
        theirs = [it.partition("=")[0].strip() for it in body.split(",")]
        definition = text_of(f"{TOP}/crates/{path}")
        found = re.findall(rf"^{word} \(?(\w+)[^=]*= (\d+)$", definition, re.M)
        ours = [start + snake(name).upper() for name, _ in sorted(found, key=lambda it: int(it[1]))]
        if ours != theirs:
            yield f"enum {enum}: the definition has {ours}, and the header {theirs}"


def faults_of_header():
    """Each difference between the header and the crate."""
    ours, theirs = exports(), declared()
    for name in sorted(set(ours) | set(theirs)):
        if ours.get(name) != theirs.get(name):
            yield f"{name}: the crate has {ours.get(name)}, and the header {theirs.get(name)}"
    ours, theirs = structs_of_crate(), structs_of_header()
    for name in sorted(set(ours) | set(theirs)):
        if ours.get(name) != theirs.get(name):
            yield f"struct {name}: the crate has {ours.get(name)}, and the header {theirs.get(name)}"
    yield from faults_of_numbers()
    text = text_of(HEADER)
    for name, fields in theirs.items():
        if f"sizeof(struct {name})" not in text:
            yield f"struct {name}: its size isn't asserted"
        for field, _ in fields:
            if not re.search(rf"AM_AT\({name}, {field}, \d+\);", text):
                yield f"struct {name}: the offset of {field} isn't asserted"


# ---- The tests

class Tests:
    def __init__(self):
        self.passed = self.failed = 0

    def tell(self, name, holds, said=""):
        if holds:
            self.passed += 1
        else:
            self.failed += 1
            print(f"failed: {name}\n{said}".rstrip())

    def runs(self, name, *words, **given):
        """A command that ends with status 0."""
        given.setdefault("stdin", subprocess.DEVNULL)
        done = subprocess.run(words, stdout=subprocess.PIPE, stderr=subprocess.STDOUT, check=False, **given)
        said = done.stdout.decode(errors="replace")
        self.tell(name, done.returncode == 0, said[-2000:])
        return done.returncode == 0


def refuses(tests, program, room):
    """Each allocation of the calls refused in turn."""
    shim = os.path.join(room, "refuse.so")
    run(CC, "-shared", "-fPIC", "-fno-builtin", "-w", "-O1", "-o", shim, os.path.join(TOP, "tools", "refuse.c"))
    count = 0
    while True:
        done = subprocess.run([program, "short"], stdin=subprocess.DEVNULL, capture_output=True, check=False,
                              env={**os.environ, "REFUSE": str(count + 1), "LD_PRELOAD": shim})
        if b"refused=1" not in done.stderr:
            break
        count += 1
        if done.returncode != 0:
            tests.tell(f"allocation {count} refused: status {done.returncode}", False, done.stderr.decode()[-300:])
    tests.tell("allocations that are refused", count > 10, f"{count} were refused")
    print(f"{count} allocations refused in turn")


def exported(path):
    said = run("nm", "-D", "--defined-only", path, capture_output=True, text=True).stdout
    return sorted(line.split()[-1] for line in said.splitlines())


def links(tests, room):
    """Compiles the tests with the archive, with the shared library, and with the archive twice."""
    source, archive = os.path.join(TOP, "c", "library_test.c"), os.path.join(OUT, "libdalvicna.a")
    plain = os.path.join(room, "plain")
    if not tests.runs("the tests with the archive", CC, *STRICT, f"-I{OUT}", "-o", plain, source, archive, "-pthread"):
        return None
    shared = os.path.join(room, "shared")
    if tests.runs("the tests with the shared library", CC, *STRICT, f"-I{OUT}", "-o", shared, source, f"-L{OUT}",
                  f"-Wl,-rpath,{OUT}", "-Wl,-Bdynamic", "-ldalvicna", "-pthread"):
        tests.runs("its own tests, shared", shared, "own", "20")
    twice = os.path.join(room, "twice")
    if tests.runs("the tests with both", CC, *STRICT, f"-I{OUT}", "-o", twice, source, archive, f"-L{OUT}",
                  f"-Wl,-rpath,{OUT}", "-Wl,--no-as-needed", "-ldalvicna", archive, "-pthread"):
        tests.runs("its own tests, linked twice", twice, "own", "20")
    names = exported(os.path.join(OUT, "libdalvicna.so.1"))
    tests.tell("what the shared library offers", names == sorted(declared()), str(names))
    return plain


def scripts_of_examples():
    return [it.removesuffix(".script") for it in sorted(glob.glob(f"{TOP}/examples/*.script"))]


def examples(tests, program):
    """All examples, byte for byte: with each room from 0 on, and pictures with some."""
    tests.runs("the examples", program, "example", "1", *scripts_of_examples())


def under_valgrind(tests, program):
    if not shutil.which("valgrind"):
        print("there is no valgrind")
        return
    around = ("valgrind", "-q", "--leak-check=full", "--error-exitcode=9")
    tests.runs("its own tests under valgrind", *around, program, "own", "10")
    tests.runs("the examples under valgrind", *around, program, "example", "1000000", *scripts_of_examples())


def with_sanitizer(tests, room):
    program = os.path.join(room, "sanitized")
    words = (CC, "-std=gnu11", "-O1", "-g", "-fsanitize=address,undefined", "-fno-sanitize-recover", f"-I{OUT}",
             "-o", program, os.path.join(TOP, "c", "library_test.c"), os.path.join(OUT, "libdalvicna.a"), "-pthread")
    done = subprocess.run(words, capture_output=True, check=False)
    if done.returncode != 0:
        print("there is no AddressSanitizer")
        return
    tests.runs("its own tests with AddressSanitizer", program, "own", "200")
    tests.runs("the examples with AddressSanitizer", program, "example", "97", *scripts_of_examples())


def installs(tests, room):
    install(os.path.join(room, "prefix"))
    # An installed library may be moved.
    prefix = os.path.join(room, "moved")
    os.rename(os.path.join(room, "prefix"), prefix)
    if not shutil.which("pkg-config"):
        print("there is no pkg-config")
        return
    given = {**os.environ, "PKG_CONFIG_PATH": os.path.join(prefix, "lib", "pkgconfig")}
    flags = run("pkg-config", "--cflags", "--libs", "dalvicna", env=given, capture_output=True, text=True).stdout.split()
    program = os.path.join(room, "installed")
    if tests.runs("a program by pkg-config", CC, *STRICT, "-o", program, os.path.join(TOP, "c", "library_test.c"),
                  *flags, "-pthread"):
        tests.runs("that runs", program, "own", "10", env={"LD_LIBRARY_PATH": os.path.join(prefix, "lib")})


def examples_in_c(tests, room):
    for source in sorted(glob.glob(f"{TOP}/examples/c/*.c")):
        name = os.path.basename(source)
        program = os.path.join(room, "example")
        if tests.runs(f"{name}", CC, *STRICT, f"-I{OUT}", "-o", program, source, os.path.join(OUT, "libdalvicna.a")):
            done = subprocess.run([program], capture_output=True, check=False)
            tests.tell(f"what {name} prints", done.stdout == bytes_of(source[:-1] + "out"), done.stdout.decode())


def with_module(folder):
    """The environment in which Python finds the module of this folder, and writes nothing beside it."""
    given = {**os.environ, "PYTHONPATH": folder, "PYTHONDONTWRITEBYTECODE": "1"}
    given.pop("DALVICNA_LIB", None)
    return given


def python_of_tests():
    """A Python that has the package hypothesis, this one or the system's, else this one."""
    for python in (sys.executable, "/usr/bin/python3"):
        if os.path.exists(python) and subprocess.run([python, "-c", "import hypothesis"], capture_output=True,
                                                     check=False).returncode == 0:
            return python
    print("there is no package hypothesis")
    return sys.executable


def tests_in_python(tests):
    """The tests of the module, with the library by its name; and each example, with the library beside it."""
    given = {**with_module(os.path.dirname(MODULE)), "DALVICNA_LIB": os.path.join(OUT, "libdalvicna.so.1")}
    done = subprocess.run([python_of_tests(), "-m", "unittest", "-v"], cwd=os.path.dirname(MODULE), env=given,
                          stdin=subprocess.DEVNULL, stdout=subprocess.PIPE, stderr=subprocess.STDOUT, check=False)
    said = done.stdout.decode(errors="replace")
    for name in re.findall(r"^(\w+ \(.*\)) \.\.\. ok$", said, re.M):
        tests.tell(name, True)
    tests.tell("the tests of the module", done.returncode == 0 and "Ran 0 tests" not in said, said[-2000:])
    for source in sorted(glob.glob(f"{TOP}/examples/python/*.py")):
        prints(tests, os.path.basename(source), [source], bytes_of(source[:-2] + "out"))
    prints(tests, "the example of USING.md", ["-c", block("python")], block("text").encode())


def block(language):
    """The first block of this language in the page's section on Python."""
    section = text_of(os.path.join(TOP, "docs", "USING.md")).partition("\n## From Python\n")[2]
    return re.search(rf"^```{language}\n(.*?)^```$", section, re.M | re.S)[1]


def prints(tests, name, words, expected):
    """A program in Python that finds the library beside the module, and what it prints."""
    done = subprocess.run([sys.executable, *words], env=with_module(OUT), stdin=subprocess.DEVNULL, capture_output=True,
                          check=False)
    tests.tell(f"what {name} prints", done.stdout == expected, (done.stdout + done.stderr).decode(errors="replace")[-2000:])


def test():
    tests = Tests()
    differences = list(faults_of_header())
    tests.tell("the header and the crate", not differences, "\n".join(differences))
    build()
    with tempfile.TemporaryDirectory() as room:
        program = links(tests, room)
        if program:
            tests.runs("its own tests", program, "own", "2000")
            examples(tests, program)
            refuses(tests, program, room)
            under_valgrind(tests, program)
            with_sanitizer(tests, room)
            installs(tests, room)
            examples_in_c(tests, room)
    tests_in_python(tests)
    print(f"{tests.passed} passed, {tests.failed} failed")
    return tests.failed == 0


def main(words):
    if words == ["build"]:
        build()
    elif len(words) == 2 and words[0] == "install":
        install(words[1])
    elif words == ["ready"]:
        return is_up_to_date()
    elif words == ["header"]:
        differences = list(faults_of_header())
        print("\n".join(differences), end="\n" if differences else "")
        return not differences
    elif words == ["test"]:
        return test()
    else:
        stop("expected build, install PREFIX, ready, header or test")
    return True


if __name__ == "__main__":
    sys.exit(0 if main(sys.argv[1:]) else 1)
