"""Reads of a WebAssembly file what the scripts of this folder need: its sections, the symbols of an object, and the
bytes of its data segments. The proved reader is `parse_wasm_module` of wl_linking; this one trusts its input.

Places and lengths are in bytes. Names are texts; bytes of them that aren't UTF-8 are kept as surrogates.
"""

from __future__ import annotations

import dataclasses

MAGIC = b"\0asm\1\0\0\0"
BITCODE = (b"BC\xc0\xde", b"\xde\xc0\x17\x0b")
CUSTOM, TYPE, IMPORT, CODE, DATA, DATA_COUNT = 0, 1, 2, 10, 11, 12
FUNCTION, GLOBAL, TABLE, TAG = "function", "global", "table", "tag"
# The kinds of imports, and those of symbols, by their bytes.
IMPORT_KINDS = {0: FUNCTION, 1: TABLE, 2: "memory", 3: GLOBAL, 4: TAG}
SYMBOL_KINDS = {0: FUNCTION, 1: "data", 2: GLOBAL, 3: "section", 4: TAG, 5: TABLE}
# The parts of a linking section that are read.
INIT_FUNCTIONS, SYMBOL_TABLE = 6, 8
WEAK, LOCAL, UNDEFINED, EXPLICIT_NAME = 0x01, 0x02, 0x10, 0x40


class Fault(Exception):
    """The bytes aren't what they should be."""


class Reader:
    """Takes items from the front of bytes."""

    def __init__(self, content):
        self.content, self.place = content, 0

    def is_done(self):
        """Whether all bytes are taken."""
        return self.place >= len(self.content)

    def take(self, count):
        """The next `count` bytes."""
        taken = self.content[self.place : self.place + count]
        if len(taken) < count:
            raise Fault("the file is cut off")
        self.place += count
        return taken

    def byte(self):
        """The next byte, as a number."""
        return self.take(1)[0]

    def number(self):
        """A number in LEB128, without a sign."""
        value, shift = 0, 0
        while True:
            byte = self.byte()
            value |= (byte & 0x7F) << shift
            shift += 7
            if byte < 0x80:
                return value

    def sized(self):
        """Bytes that follow their length."""
        return self.take(self.number())

    def name(self):
        """A name: its length and its bytes."""
        return self.sized().decode("utf-8", "surrogateescape")


@dataclasses.dataclass
class Symbol:
    """A symbol of an object. `index` is that of the function, global or other thing; data has none."""

    kind: str
    name: str
    flags: int
    index: int | None = None

    def is_undefined(self):
        """Whether another object has to define it."""
        return bool(self.flags & UNDEFINED)

    def is_weak(self):
        """Whether it gives way to a strong definition, or needs none."""
        return bool(self.flags & WEAK)

    def is_local(self):
        """Whether its object alone knows it."""
        return bool(self.flags & LOCAL)


@dataclasses.dataclass
class Object:
    """What the scripts need of one file."""

    symbols: list
    segments: list
    imported_functions: int
    is_relocatable: bool
    counts_segments: bool
    has_constructors: bool

    def defined(self):
        """The names that it defines for all objects, in the order of its symbols."""
        return [symbol.name for symbol in self.symbols if not symbol.is_undefined() and not symbol.is_local()]

    def function_names(self):
        """The name of each function that it defines, by its number among these; the first symbol's."""
        names = {}
        for symbol in self.symbols:
            if symbol.kind == FUNCTION and not symbol.is_undefined():
                names.setdefault(symbol.index - self.imported_functions, symbol.name)
        return names


def sections(content):
    """The sections of a file: the number of each, its name where it is a custom one, and its payload."""
    if content[: len(MAGIC)] != MAGIC:
        raise Fault("it is no WebAssembly file")
    reader, found = Reader(content), []
    reader.take(len(MAGIC))
    while not reader.is_done():
        number, payload = reader.byte(), Reader(reader.sized())
        name = payload.name() if number == CUSTOM else None
        found.append((number, name, payload.content[payload.place :]))
    return found


def skip_limits(reader):
    """Passes over the limits of a table or a memory."""
    has_maximum = reader.byte() & 1
    for _ in range(1 + has_maximum):
        reader.number()


def import_names(payload):
    """The names of the imports in an import section, by their kinds."""
    reader, names = Reader(payload), {kind: [] for kind in IMPORT_KINDS.values()}
    for _ in range(reader.number()):
        reader.name()
        name, kind = reader.name(), IMPORT_KINDS[reader.byte()]
        names[kind].append(name)
        if kind == FUNCTION:
            reader.number()
        elif kind == TABLE:
            reader.byte()
            skip_limits(reader)
        elif kind == "memory":
            skip_limits(reader)
        else:
            # A type and whether it varies, or an attribute and a type.
            reader.byte()
            reader.number()
    return names


def symbol_of(reader, imports):
    """The next symbol of a symbol table; one without a name has that of its import."""
    kind, flags = SYMBOL_KINDS[reader.byte()], reader.number()
    if kind == "section":
        return Symbol(kind, "", flags, reader.number())
    if kind == "data":
        symbol = Symbol(kind, reader.name(), flags)
        if not flags & UNDEFINED:
            for _ in range(3):
                reader.number()
        return symbol
    index = reader.number()
    is_named = not flags & UNDEFINED or flags & EXPLICIT_NAME
    return Symbol(kind, reader.name() if is_named else imports[kind][index], flags, index)


def linking_of(payload, imports):
    """The symbols in a linking section, and whether it lists constructors."""
    reader, symbols, has_constructors = Reader(payload), [], False
    reader.number()
    while not reader.is_done():
        kind, part = reader.byte(), Reader(reader.sized())
        if kind == SYMBOL_TABLE:
            symbols = [symbol_of(part, imports) for _ in range(part.number())]
        elif kind == INIT_FUNCTIONS:
            has_constructors = part.number() > 0
    return symbols, has_constructors


def skip_constant(reader):
    """Passes over a constant expression of integers, globals and sums, with its end."""
    while (operator := reader.byte()) != 0x0B:
        if operator in (0x23, 0x41, 0x42):
            reader.number()
        elif operator not in (0x6A, 0x6B, 0x6C, 0x7C, 0x7D, 0x7E):
            raise Fault(f"the place of a segment has the operator {operator:02x}")


def segments_of(payload):
    """The bytes of each segment in a data section."""
    reader, segments = Reader(payload), []
    for _ in range(reader.number()):
        flags = reader.number()
        if flags == 2:
            reader.number()
        if flags != 1:
            skip_constant(reader)
        segments.append(reader.sized())
    return segments


def read_object(content):
    """What the scripts need of a file."""
    imports, symbols, segments = import_names(b"\0"), [], []
    is_relocatable = counts_segments = has_constructors = False
    try:
        for number, name, payload in sections(content):
            if number == IMPORT:
                imports = import_names(payload)
            elif number == DATA:
                segments = segments_of(payload)
            elif number == DATA_COUNT:
                counts_segments = True
            elif name == "linking":
                is_relocatable = True
                symbols, has_constructors = linking_of(payload, imports)
    except (IndexError, KeyError) as fault:
        raise Fault("a number in it names nothing") from fault
    return Object(symbols, segments, len(imports[FUNCTION]), is_relocatable, counts_segments, has_constructors)
