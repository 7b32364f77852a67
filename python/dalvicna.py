"""A model of the Linux automounter, kernel and daemon: scripts with their answers, traces, pictures and
worlds; whether a trace is lawful; packets, requests, maps and master maps.

    >>> import dalvicna
    >>> dalvicna.play("events\\nmount 0 /a\\nkind 0 /a\\n")
    ['mount 2', 'kind private']
    >>> world = dalvicna.World(master="/auto auto.home\\n", maps={"auto.home": "home srv:/home\\n"})
    >>> world.ask("attach /auto"), world.ask("walk 7 0 /auto/home 100 room")
    ('fs 2 attach 1 mount 2', 'wait 1')

This is the library for C (dalvicna.h) by ctypes, and needs nothing else. The library is the file that the
environment variable DALVICNA_LIB names, else libdalvicna.so.1 beside this file, else the one that the loader
finds. Formats of all texts, and the numbers of errors and faults: docs/FORMATS.md of the repository.

A text is a str or bytes. What comes back is a str; in both directions bytes that aren't UTF-8 are kept by
the error handler `surrogateescape`, as os.fsdecode does, and `text.encode(*ENCODING)` gives all bytes.
The only state between calls is that of a World: any thread may make any call, and two on one World are made one
after the other; other Python threads run meanwhile.
"""

from __future__ import annotations

import ctypes
import enum
import os
import threading
from dataclasses import dataclass
from typing import Callable, List, Mapping, NamedTuple, Optional, Tuple, Union

__all__ = ["ENCODING", "Entry", "Fault", "MapFault", "MasterFault", "MasterLine", "Packet", "PacketFault", "PacketKind",
           "Played", "Request", "ScriptFault", "TraceFault", "draw", "error_name", "first_breach", "look_up", "master", "packet", "play",
           "played", "request_number", "trace", "trace_holds", "World", "world_text"]

Text = Union[str, bytes]

#: How texts are encoded.
ENCODING = ("utf-8", "surrogateescape")
#: The version of dalvicna.h that this file is for.
VERSION = 1
#: The bytes of a packet, and where its name begins in them.
PACKET_SIZE, PACKET_NAME = 304, 44
#: What a call answers that is handed a closed world.
NO_WORLD = 254
_U64 = 2**64 - 1


# ---- Faults

class Fault(ValueError):
    """Something that was given isn't what is wanted, or there was no memory.

    number    the number of the fault (docs/FORMATS.md)
    word      its word, as "BadEvent"
    line      the line of the text at which it is told, from 1, or None
    column    the byte of the line at which it is told, from 1, or None where that isn't known
    expected  what was expected there
    """

    column: Optional[int] = None
    #: What was expected where each fault is, by its number from 1.
    WORDS: Tuple[Tuple[str, str], ...] = ()

    def __init__(self, number: int, line: Optional[int] = None, column: Optional[int] = None,
                 expected: Optional[str] = None) -> None:
        self.number, self.line, self.column = number, line or None, column or None
        self.word = self.WORDS[number - 1][0]
        self.expected = expected or self.WORDS[number - 1][1]
        place = f"line {line}, column {column}: " if line and column else f"line {line}: " if line else ""
        super().__init__(f"{place}{self.word}: expected {self.expected}")

    def __reduce__(self) -> tuple:
        return type(self), (self.number, self.line, self.column, self.expected)


class MapFault(Fault):
    """A text is no map; `map` is its name where several were given."""

    map: Optional[str] = None

    WORDS = (("BadKey", "a key of this kind of map"),
             ("BadOption", "options behind a dash, without a byte that no word may have"),
             ("NoLocation", "a location"),
             ("BadLocation", "one location HOST:PATH, and nothing behind it"),
             ("NoMemory", "memory"))


class MasterFault(Fault):
    """A text is no master map."""

    WORDS = (("BadPoint", "a mount point, which is /- or a path other than the root"),
             ("NoMap", "the name of a map"),
             ("BadType", "no type of a map, or file, or file,sun"),
             ("BadTimeout", "a timeout in seconds"),
             ("Twice", "a mount point that no line above has"),
             ("NoMemory", "memory"))


class PacketFault(Fault):
    """Bytes are no packet, or a packet can't be written."""

    WORDS = (("Length", "304 bytes, or 300 without the padding"),
             ("Version", "version 5 of the protocol"),
             ("Kind", "a kind from 3 to 6"),
             ("NameLength", "a name of at most 255 bytes, and of at least 1 in an indirect packet"),
             ("BadName", "a name without slash and zero byte other than . and .. in an indirect packet"))


class TraceFault(Fault):
    """A text is no trace; `column` is the byte of the line at which it doesn't go on as expected."""

    WORDS = (("BadLine", "a line of a trace"), ("NoMemory", "memory"))
    #: What is expected in a line, by its number from 1.
    EXPECTED = ("an observation behind two spaces", "a number", "a token", "an attachment", "a file system", "a mount",
                "ready or a failure", "the type of a packet", "a number of the packet", "the name in the packet",
                "direct or a name", "an entry of the book", "the end of the line")


class ScriptFault(Fault):
    """A script isn't played to its end.

    written  what was written up to the fault: answers, a trace or a picture
    cause    the fault of the map or master map, where a line of one is faulty, or None
    """

    WORDS = (("BadSection", "a line of the head, or the end of the section that begins here"),
             ("BadLimits", "limits and durations that are numbers in their ranges"),
             ("BadMaster", "a line of a master map"),
             ("BadMap", "a line of a map"),
             ("NoSuchMap", "the name of a map that has a section"),
             ("BadEvent", "an event"),
             ("LongLine", "a line of at most 8192 bytes"),
             ("NoMemory", "memory"),
             ("ReadFailed", "a script of at most 16 TiB"),
             ("WriteFailed", "memory for what is written"),
             ("NoSuchNamespace", "a namespace that is there"))

    def __init__(self, number: int, line: Optional[int], column: Optional[int] = None, expected: Optional[str] = None,
                 detail: int = 0, written: str = "") -> None:
        super().__init__(number, line, column, expected)
        self.written = written
        self.cause: Optional[Fault] = None
        if detail:
            self.cause = {3: MasterFault, 4: MapFault}[number](detail, line, column, expected)
            self.word, self.expected, self.args = self.cause.word, self.cause.expected, self.cause.args

    def __reduce__(self) -> tuple:
        return type(self), (self.number, self.line, self.column, self.expected, self.cause.number if self.cause else 0,
                            self.written)


# ---- The library

_U8, _U32, _U64C, _SIZE, _BYTES = ctypes.c_uint8, ctypes.c_uint32, ctypes.c_uint64, ctypes.c_size_t, ctypes.c_char_p


class _Played(ctypes.Structure):
    _fields_ = [("bytes", _U64C), ("lines", _U64C), ("refused", _U64C), ("line", _U64C), ("column", _U64C),
                ("fault", _U32), ("detail", _U32), ("expected", _U32)]


class _World(ctypes.Structure):
    _fields_ = [("held", _U64C), ("kept", ctypes.c_void_p)]


class _Judged(ctypes.Structure):
    _fields_ = [("line", _U64C), ("column", _U64C), ("expected", _U32), ("lawful", _U32), ("law", _U32)]


class _Packet(ctypes.Structure):
    _fields_ = [("kind", _U32), ("token", _U32), ("dev", _U32), ("uid", _U32), ("gid", _U32), ("pid", _U32),
                ("tgid", _U32), ("name_len", _U32), ("ino", _U64C)]


class _Place(ctypes.Structure):
    _fields_ = [("line", _U64C), ("column", _U64C), ("expected", _U32), ("pad", _U32)]


class _Entry(ctypes.Structure):
    _fields_ = [("bytes", _U64C), ("host_at", _U64C), ("path_at", _U64C), ("has_options", _U32), ("found", _U32)]


class _MasterLine(ctypes.Structure):
    _fields_ = [("bytes", _U64C), ("map_at", _U64C), ("line", _U64C), ("lines", _U64C), ("timeout", _U32),
                ("direct", _U32), ("found", _U32), ("pad", _U32)]


_TEXT, _OUT = (_BYTES, _SIZE), (_BYTES, _SIZE)
_PLAYED, _HELD = (ctypes.POINTER(_Played),), (ctypes.POINTER(_World),)
#: The calls of dalvicna.h: what each gives, and what it takes.
_CALLS = {
    "am_version": (_U32, ()),
    "am_play": (_U8, _TEXT + _OUT + _PLAYED),
    "am_trace": (_U8, _TEXT + _OUT + _PLAYED),
    "am_draw": (_U8, _TEXT + (_U64C, _U64C) + _OUT + _PLAYED),
    "am_world": (_U8, _TEXT + (ctypes.c_bool, _U32) + _OUT + _PLAYED),
    "am_expected_words": (_SIZE, (_U32,) + _OUT),
    "am_new": (_U8, _TEXT + _HELD + _PLAYED),
    "am_line": (_U8, _HELD + _TEXT + _OUT + _PLAYED),
    "am_answer": (_U8, _HELD + _OUT + _PLAYED),
    "am_observed": (_U8, _HELD + _OUT + _PLAYED),
    "am_text": (_U8, _HELD + (ctypes.c_bool, _U32) + _OUT + _PLAYED),
    "am_free": (None, _HELD),
    "am_trace_holds": (_U8, _TEXT + (ctypes.POINTER(_Judged),)),
    "am_law_sentence": (_SIZE, (_U32,) + _OUT),
    "am_packet_read": (_U8, _TEXT + (ctypes.POINTER(_Packet),)),
    "am_packet_write": (_U8, (ctypes.POINTER(_Packet),) + _TEXT + _OUT),
    "am_request_number": (_U32, (_U32,)),
    "am_map_look_up": (_U8, _TEXT + (ctypes.c_bool,) + _TEXT + _OUT + (ctypes.POINTER(_Entry), ctypes.POINTER(_Place))),
    "am_master_line": (_U8, _TEXT + (_SIZE,) + _OUT + (ctypes.POINTER(_MasterLine), ctypes.POINTER(_Place))),
    "am_error_name": (_SIZE, (_U32,) + _OUT),
}


def _path() -> str:
    beside = os.path.join(os.path.dirname(os.path.abspath(__file__)), "libdalvicna.so.1")
    return os.environ.get("DALVICNA_LIB") or (beside if os.path.exists(beside) else "libdalvicna.so.1")


def _load() -> ctypes.CDLL:
    try:
        library = ctypes.CDLL(_path())
        for name, (gives, takes) in _CALLS.items():
            call = getattr(library, name)
            call.restype, call.argtypes = gives, takes
    except (OSError, AttributeError) as error:
        raise ImportError(f"expected the library for C, by DALVICNA_LIB or beside this file: {error}") from error
    if library.am_version() < VERSION:
        raise ImportError(f"expected version {VERSION} of the library or a later one, not {library.am_version()}")
    return library


_library = _load()


def _bytes(text: Text) -> bytes:
    if isinstance(text, str):
        return text.encode(*ENCODING)
    if isinstance(text, (bytes, bytearray, memoryview)):
        return bytes(text)
    raise TypeError(f"expected a str or bytes, not {type(text).__name__}")


def _text(some: bytes) -> str:
    return some.decode(*ENCODING)


def _number(value: int, most: int, name: str) -> int:
    if not 0 <= value <= most:
        raise OverflowError(f"expected {name} from 0 to {most}")
    return value


def _filled(call: Callable[[ctypes.Array, int], int], room: int) -> bytes:
    """What a call writes into a buffer, of which it gives the size; it is made again where there is less room."""
    while True:
        out = ctypes.create_string_buffer(max(room, 1))
        size = call(out, room)
        if size <= room:
            return ctypes.string_at(out, size)
        room = size


# ---- Scripts

@dataclass(frozen=True)
class Played:
    """How a script went, and what was written of it.

    lines    how many events were answered, 0 at a fault
    refused  how many of these answers say that nothing was done
    fault    its fault, or None
    """

    text: str
    lines: int
    refused: int
    fault: Optional[ScriptFault]

    def whole(self) -> str:
        """The text of a script that was played to its end; else its fault is raised."""
        if self.fault:
            raise self.fault
        return self.text


def _expected(told: Union[_Played, _Place]) -> Optional[str]:
    """What was expected where the fault is, in words, if it is at a byte."""
    if not told.expected:
        return None
    return _text(_filled(lambda out, cap: _library.am_expected_words(told.expected, out, cap), 128))


def _script(name: str, script: Text, room: int, *words: int) -> Played:
    given, told = _bytes(script), _Played()

    def call(out: ctypes.Array, cap: int) -> int:
        getattr(_library, name)(given, len(given), *words, out, cap, ctypes.byref(told))
        return told.bytes

    text = _text(_filled(call, room))
    fault = ScriptFault(told.fault, told.line, told.column, _expected(told), told.detail, text) if told.fault else None
    return Played(text, told.lines, told.refused, fault)


def played(script: Text) -> Played:
    """Plays a script, and tells how it went; a fault is told and not raised."""
    return _script("am_play", script, 1024 + len(script))


def play(script: Text) -> List[str]:
    """The answers of a script, one for each event. Raises ScriptFault."""
    return played(script).whole().split("\n")[:-1]


def trace(script: Text) -> str:
    """The trace of a script: each event, its answer, and what is seen of it. Raises ScriptFault."""
    return _script("am_trace", script, 4096 + 16 * len(script)).whole()


def draw(script: Text, first: int = 1, last: int = _U64) -> str:
    """The picture (SVG) of a script's events from one number to another, which begin with 1. Raises ScriptFault."""
    words = _number(first, _U64, "first"), _number(last, _U64, "last")
    return _script("am_draw", script, 16384 + 64 * len(script), *words).whole()


def world_text(script: Text, namespace: Optional[int] = None) -> str:
    """The world that a script leaves, as /proc/PID/mountinfo tells the mounts of a namespace: of all of them, with
    what else there is in comments, or of one alone, which has to be there. Raises ScriptFault."""
    number = 0 if namespace is None else _number(namespace, 2**32 - 1, "a namespace")
    return _script("am_world", script, 16384, namespace is None, number).whole()


# ---- A world from event to event

def _section(first: bytes, text: Text) -> bytes:
    """A section of a head, which begins with this line."""
    some = _bytes(text)
    if b"end" in some.split(b"\n"):
        raise ValueError(f"expected no line `end` in the text behind `{_text(first)}`")
    return first + b"\n" + some + (b"\n" if some and not some.endswith(b"\n") else b"") + b"end\n"


def _word(name: Text) -> bytes:
    """The name of a map, as it stands in a head."""
    some = _bytes(name)
    if not some or any(it in b" \t\n" for it in some):
        raise ValueError(f"expected a word as the name of a map, not {name!r}")
    return some


class World:
    """A world that is asked event by event.

    limits    the greatest mount number, the most waits at one time and the greatest token, or None for the usual ones
    master    the master map
    maps      its maps by their names
    negative  for how many seconds a failed mount lasts, 0 for not at all

    The lines of events, their answers and the observations are those of a script and its trace (docs/FORMATS.md).
    Raises ScriptFault, MasterFault or MapFault, with the line of the map in which the fault is; ValueError where a map
    has a line `end` or a name of one is no word. A world holds memory until it is closed or collected, and is closed at
    the end of a `with` statement.
    """

    def __init__(self, limits: Optional[Tuple[int, int, int]] = None, master: Text = "",
                 maps: Optional[Mapping[str, Text]] = None, negative: Optional[int] = None) -> None:
        self._held, self._told, self._lock = _World(), _Played(), threading.Lock()
        self._out = ctypes.create_string_buffer(4096)
        head = b"".join(_bytes(" ".join([word, *map(str, numbers)]) + "\n")
                        for word, numbers in (("limits", limits), ("negative", negative and (negative,))) if numbers)
        sections = [(None, head.count(b"\n") + 1)]
        head += _section(b"master", master)
        for name, text in (maps or {}).items():
            sections.append((name, head.count(b"\n") + 1))
            head += _section(b"map " + _word(name), text)
        head += b"events\n"
        fault = _library.am_new(head, len(head), ctypes.byref(self._held), ctypes.byref(self._told))
        if fault:
            raise self._fault_of_head(sections)

    def _fault_of_head(self, sections: List[Tuple[Optional[str], int]]) -> Fault:
        """The fault that was told, at its line of the map."""
        told = self._told
        name, first = [it for it in sections if it[1] < told.line or it is sections[0]][-1]
        if told.fault == 3:
            return MasterFault(told.detail, told.line - first, told.column, _expected(told))
        if told.fault == 4:
            fault = MapFault(told.detail, told.line - first, told.column, _expected(told))
            fault.map = name
            return fault
        return ScriptFault(told.fault, told.line - first if told.fault == 5 else told.line, told.column, _expected(told))

    def _filled(self, name: str, *words: object) -> str:
        """What a call writes that changes nothing; it is made again where there is less room."""
        while True:
            fault = getattr(_library, name)(self._held, *words, self._out, len(self._out), self._told)
            if fault:
                raise self._fault(fault)
            if self._told.bytes <= len(self._out):
                return _text(ctypes.string_at(self._out, self._told.bytes))
            self._out = ctypes.create_string_buffer(self._told.bytes)

    def _fault(self, fault: int) -> Exception:
        if fault == NO_WORLD:
            return ValueError("expected a world that isn't closed")
        return ScriptFault(fault, self._told.line, self._told.column, _expected(self._told))

    def ask(self, event: Text) -> str:
        """The answer to one event, a line of a script without its line feed: "" to a blank line and a comment. Raises
        ScriptFault where the line is no event, and then nothing has changed."""
        line = _bytes(event)
        with self._lock:
            fault = _library.am_line(self._held, line, len(line), self._out, len(self._out), self._told)
            if fault:
                raise self._fault(fault)
            size = self._told.bytes
            text = _text(self._out[:size]) if size <= len(self._out) else self._filled("am_answer")
        return text[:-1]

    def observed(self) -> List[str]:
        """What the last event showed, an observation each, as a line of a trace says it behind its two spaces: of many
        such lists, `"".join(f"  {it}\n" for it in seen)` is a trace for `trace_holds`."""
        with self._lock:
            return [line[2:] for line in self._filled("am_observed").split("\n")[:-1]]

    def text(self, namespace: Optional[int] = None) -> str:
        """The world as it is, as /proc/PID/mountinfo tells the mounts of a namespace: of all of them, with what else
        there is in comments, or of one alone."""
        number = 0 if namespace is None else _number(namespace, 2**32 - 1, "a namespace")
        with self._lock:
            return self._filled("am_text", namespace is None, number)

    def close(self) -> None:
        """Lets the world go."""
        with self._lock:
            _library.am_free(self._held)

    def __enter__(self) -> World:
        return self

    def __exit__(self, *reason: object) -> None:
        self.close()

    def __del__(self) -> None:
        if hasattr(self, "_lock"):
            self.close()


# ---- Traces

class Breach(NamedTuple):
    """The first observation of a trace that breaks a law: its line, from 1, and the law, by its number and in a sentence."""

    line: int
    law: int
    sentence: str


def _judge(text: Text) -> _Judged:
    text, told = _bytes(text), _Judged()
    fault = _library.am_trace_holds(text, len(text), ctypes.byref(told))
    if fault:
        raise TraceFault(fault, told.line, told.column, TraceFault.EXPECTED[told.expected - 1] if told.expected else None)
    return told


def trace_holds(text: Text) -> bool:
    """Whether a trace is lawful (docs/MODEL.md, "The laws of a trace"), be it of `trace` or recorded elsewhere
    (docs/FORMATS.md, "Read back"). Only lines that begin with two spaces are observations; a text without any is lawful.
    Raises TraceFault where a line that begins with a space is no observation."""
    return _judge(text).lawful == 1


def first_breach(text: Text) -> Optional[Breach]:
    """Where a trace breaks a law first, and which (docs/FORMATS.md, "Judged"); None where it is lawful. Raises TraceFault
    as `trace_holds` does."""
    told = _judge(text)
    if told.lawful:
        return None
    sentence = _text(_filled(lambda out, cap: _library.am_law_sentence(told.law, out, cap), 128))
    return Breach(told.line, told.law, sentence)


# ---- Packets and requests

class PacketKind(enum.IntEnum):
    """The kinds of packets (linux/auto_fs.h, autofs_packet_type)."""

    MISSING_INDIRECT = 3
    EXPIRE_INDIRECT = 4
    MISSING_DIRECT = 5
    EXPIRE_DIRECT = 6


@dataclass(frozen=True)
class Packet:
    """A packet of the autofs protocol (linux/auto_fs.h, struct autofs_v5_packet)."""

    kind: PacketKind
    token: int
    dev: int
    ino: int
    uid: int
    gid: int
    pid: int
    tgid: int
    name: bytes

    def to_bytes(self) -> bytes:
        """Its 304 bytes. Raises PacketFault where kind or name isn't one of the format, and OverflowError where a number
        is out of its range."""
        told = _Packet(kind=self.kind)
        for field in ("token", "dev", "uid", "gid", "pid", "tgid", "ino"):
            setattr(told, field, _number(getattr(self, field), _U64 if field == "ino" else 2**32 - 1, field))
        out = ctypes.create_string_buffer(PACKET_SIZE)
        name = _bytes(self.name)
        fault = _library.am_packet_write(ctypes.byref(told), name, len(name), out, PACKET_SIZE)
        if fault:
            raise PacketFault(fault)
        return out.raw


def packet(some: bytes) -> Packet:
    """The packet that these bytes are. Raises PacketFault."""
    some, told = bytes(some), _Packet()
    fault = _library.am_packet_read(some, len(some), ctypes.byref(told))
    if fault:
        raise PacketFault(fault)
    name = some[PACKET_NAME:PACKET_NAME + told.name_len]
    return Packet(PacketKind(told.kind), told.token, told.dev, told.ino, told.uid, told.gid, told.pid, told.tgid, name)


class Request(enum.IntEnum):
    """The requests of a daemon."""

    READY = 1
    FAIL = 2
    CATATONIC = 3
    SETTIMEOUT = 4
    EXPIRE = 5
    SETPIPE = 6


def request_number(request: Request) -> int:
    """The number by which ioctl(2) takes a request on x86-64."""
    return _library.am_request_number(Request(request))


# ---- Maps

@dataclass(frozen=True)
class Entry:
    """An entry of a map; its options are None where the line has none (autofs(5), "SUN FORMAT")."""

    options: Optional[str]
    host: str
    path: str


def look_up(text: Text, key: Text, direct: bool = False) -> Optional[Entry]:
    """The entry that a map has for a key: of its line, else of the `*` line, else None. The keys of a direct map are
    paths. The key is compared as it stands: of a direct map the canonical text, as /srv for /srv//. Raises MapFault."""
    text, key, told, place = _bytes(text), _bytes(key), _Entry(), _Place()

    def call(out: ctypes.Array, cap: int) -> int:
        fault = _library.am_map_look_up(text, len(text), direct, key, len(key), out, cap, ctypes.byref(told),
                                        ctypes.byref(place))
        if fault:
            raise MapFault(fault, place.line, place.column, _expected(place))
        return told.bytes

    some = _filled(call, 1024)
    if not told.found:
        return None
    options = _text(some[:told.host_at]) if told.has_options else None
    return Entry(options, _text(some[told.host_at:told.path_at]), _text(some[told.path_at:]))


@dataclass(frozen=True)
class MasterLine:
    """A line of a master map (auto.master(5), "FORMAT").

    point    its mount point, None for /-
    map      the name of its map
    timeout  seconds without use after which a mount may expire, 0 for never by itself
    line     the first line of the text that it stands on, from 1
    """

    point: Optional[str]
    map: str
    timeout: int
    line: int


def _master_line(text: bytes, at: int) -> Tuple[int, Optional[MasterLine]]:
    """How many lines there are, and the one at this place, from 0."""
    told, place = _MasterLine(), _Place()

    def call(out: ctypes.Array, cap: int) -> int:
        fault = _library.am_master_line(text, len(text), at, out, cap, ctypes.byref(told), ctypes.byref(place))
        if fault:
            raise MasterFault(fault, place.line, place.column, _expected(place))
        return told.bytes

    some = _filled(call, 1024)
    if not told.found:
        return told.lines, None
    point = None if told.direct else _text(some[:told.map_at])
    return told.lines, MasterLine(point, _text(some[told.map_at:]), told.timeout, told.line)


def master(text: Text) -> List[MasterLine]:
    """The lines of a master map, in order. It is read once for each of them. Raises MasterFault."""
    text = _bytes(text)
    count = _master_line(text, _U64)[0]
    found = (_master_line(text, at)[1] for at in range(count))
    return [line for line in found if line]


# ---- Words

def error_name(number: int) -> str:
    """The word of the error that an answer `err N` tells, as "EBUSY"; empty where no error has this number."""
    number = _number(number, 2**32 - 1, "a number")
    return _text(_filled(lambda out, cap: _library.am_error_name(number, out, cap), 32))
