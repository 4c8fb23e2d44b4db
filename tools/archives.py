"""Archives, and which of their members a link takes: those that wasm-ld takes, in its order.

An archive is in the format of GNU or of BSD, with or without an index of symbols; a thin one names files. Places and
lengths are in bytes.
"""

from __future__ import annotations

import dataclasses
import pathlib

from wasm_object import BITCODE, MAGIC, Fault, Object, read_object

ARCHIVE, THIN = b"!<arch>\n", b"!<thin>\n"
HEADER = 60
# The names of GNU's tables: the index in numbers of four and of eight bytes, and the long names. BSD's index isn't
# read.
INDEXES = {"/": 4, "/SYM64/": 8}
LONG_NAMES = "//"
BSD_INDEX = "__.SYMDEF"
# What the linker defines before it reads any file: for a memory of one thread, and beside these for one that is shared.
MADE = ["__wasm_call_ctors", "__stack_pointer"]
MADE_FOR_THREADS = ["__wasm_init_tls", "__wasm_init_memory", "__tls_base", "__tls_size", "__tls_align"]


@dataclasses.dataclass
class Input:
    """An object of a link: where it is from, its bytes, and what the scripts need of it; `fault` says why that couldn't
    be read, and then it counts as one without symbols."""

    source: str
    content: bytes
    object: Object | None = None
    fault: str = ""

    def __post_init__(self):
        try:
            if self.content.startswith(BITCODE):
                raise Fault("it is bitcode: compile it to an object, without -flto")
            self.object = read_object(self.content)
        except Fault as fault:
            self.object, self.fault = Object([], [], 0, True, False, False), str(fault)


@dataclasses.dataclass
class Archive:
    """The members of an archive by their places, each with its name and its bytes; and its index, the names that
    members define with the places of these, or None where it has none. An object that is taken by need counts as an
    archive with one member, which has no name."""

    source: str
    members: dict
    index: list | None

    def input(self, place):
        """The member at a place."""
        name, content = self.members[place]
        return Input(f"{self.source}({name})" if name else self.source, content)

    def inputs(self):
        """All members that are objects."""
        return [self.input(place) for place, (_, content) in self.members.items() if is_object(content)]

    def lazy(self):
        """Each name that a member defines, with the member's place: by the index, or by reading the members."""
        if self.index is not None:
            return self.index
        places = [place for place, (_, content) in self.members.items() if is_object(content)]
        return [(name, place) for place in places for name in self.input(place).object.defined()]


def is_archive(content):
    """Whether these are the bytes of an archive."""
    return content.startswith((ARCHIVE, THIN))


def is_object(content):
    """Whether these may be the bytes of an object: archives of Rust hold other files too."""
    return content.startswith((MAGIC, *BITCODE))


def index_of(table, width):
    """The names in a GNU index with the places of their members; its numbers have `width` bytes."""
    count = int.from_bytes(table[:width], "big")
    if width * (count + 1) > len(table):
        raise Fault("the archive's index is cut off")
    places = [int.from_bytes(table[width * (i + 1) : width * (i + 2)], "big") for i in range(count)]
    names = table[width * (count + 1) :].split(b"\0")
    return [(name.decode("utf-8", "surrogateescape"), place) for name, place in zip(names, places)]


def long_name(table, place):
    """The name at a place of the table of long names."""
    return table[place:].split(b"\n")[0].removesuffix(b"/").decode("utf-8", "surrogateescape")


def entries(content):
    """Each entry of an archive: its place, its name as it is written, and its bytes; those of a thin archive's members
    lie elsewhere."""
    is_thin, place = content.startswith(THIN), len(ARCHIVE)
    while place < len(content):
        header = content[place : place + HEADER]
        if len(header) < HEADER or header[58:] != b"`\n":
            raise Fault(f"the archive has no header at byte {place}")
        name = header[:16].decode("utf-8", "surrogateescape").rstrip(" ")
        written, begin = header[48:58].rstrip(b" "), place + HEADER
        if not written.isdigit():
            raise Fault(f"the archive's entry at byte {place} has no size")
        size = int(written)
        if is_thin and name not in (*INDEXES, LONG_NAMES):
            size = 0
        if begin + size > len(content):
            raise Fault(f"the archive's entry at byte {place} is cut off")
        yield place, name, content[begin : begin + size]
        place = begin + size + size % 2


def member_of(name, content, names):
    """The name and the bytes of a member: a long name stands in the table, or before the bytes."""
    if name.startswith("#1/"):
        length = int(name[3:])
        return content[:length].rstrip(b"\0").decode("utf-8", "surrogateescape"), content[length:]
    if name.startswith("/"):
        return long_name(names, int(name[1:])), content
    return name.removesuffix("/"), content


def read_archive(source, content):
    """The archive that these bytes are; the members of a thin one are read beside it."""
    members, index, names = {}, None, b""
    try:
        for place, written, entry in entries(content):
            if written in INDEXES:
                index = index_of(entry, INDEXES[written])
            elif written == LONG_NAMES:
                names = entry
            else:
                name, entry = member_of(written, entry, names)
                if content.startswith(THIN):
                    entry = (pathlib.Path(source).parent / name).read_bytes()
                if not name.startswith(BSD_INDEX):
                    members[place] = (name, entry)
    except ValueError as fault:
        raise Fault("the archive has a number that isn't decimal") from fault
    if index is not None and not {place for _, place in index} <= members.keys():
        raise Fault("the archive's index leads to no member")
    return Archive(source, members, index)


class Selection:
    """The objects of a link in their order, while inputs are added.

    A name stands for one of: `defined`; `undefined` or `weak`, when objects only refer to it; or a member of an archive
    that defines it, which is added as soon as an object refers to the name other than weakly.
    """

    def __init__(self, made):
        self.objects, self.added = [], set()
        self.names = dict.fromkeys(made, "defined")

    def add(self, given):
        """Adds an object, or an archive of which members are taken by need."""
        self.run(self.adding_archive(given) if isinstance(given, Archive) else self.adding(given))

    def ask(self, name):
        """Adds what defines the name, if an archive has it."""
        if isinstance(self.names.get(name), tuple):
            self.run(iter([self.names[name]]))

    def run(self, work):
        """Does the work; each member that it comes to is added at once, with those which that one comes to."""
        stack = [work]
        while stack:
            member = next(stack[-1], None)
            if member is None:
                stack.pop()
            elif (key := (id(member[0]), member[1])) not in self.added:
                self.added.add(key)
                archive, place = member
                stack.append(self.adding(archive.input(place)))

    def adding(self, given):
        """Adds an object, symbol by symbol. It stands after the members that its own symbols ask for, as in wasm-ld."""
        for symbol in given.object.symbols:
            known = self.names.get(symbol.name)
            if symbol.is_local() or symbol.kind == "section" or known == "defined":
                continue
            if not symbol.is_undefined():
                self.names[symbol.name] = "defined"
            elif isinstance(known, tuple):
                if not symbol.is_weak():
                    yield known
            elif known is None or not symbol.is_weak():
                self.names[symbol.name] = "weak" if symbol.is_weak() else "undefined"
        self.objects.append(given)

    def adding_archive(self, archive):
        """Adds the names of an archive, in the order of its index or of its members."""
        for name, place in archive.lazy():
            known = self.names.get(name)
            if known == "undefined":
                yield archive, place
            elif known in (None, "weak"):
                self.names[name] = (archive, place)
