"""Makes objects whose functions are to be run. Each field of their code that a link renumbers has a relocation."""

import dataclasses
import itertools

from made_objects import HEADER, leb128, listed, sized

# The types of relocations whose fields are five bytes in code.
FUNCTION_INDEX, TABLE_INDEX, ADDRESS, TYPE_INDEX, GLOBAL_INDEX = 0, 1, 3, 6, 7
FUNCTION, DATA, GLOBAL = 0, 1, 2
UNDEFINED, NO_STRIP = 0x10, 0x80
VALUE_TYPES = {"i32": b"\x7f", "i64": b"\x7e", "f32": b"\x7d", "f64": b"\x7c", "v128": b"\x7b", "funcref": b"\x70",
               "externref": b"\x6f"}
TABLE_IMPORT = sized(b"env") + sized(b"__indirect_function_table") + b"\x01\x70\x00\x01"
EMPTY_FIELD = b"\x80\x80\x80\x80\x00"


def signed(number):
    """A number with a sign in its shortest form."""
    low, rest = number & 0x7F, number >> 7
    return bytes([low]) if rest == -(low >> 6) else bytes([low | 0x80]) + signed(rest)


def constant(kind, number):
    """The operator of an integer constant, `i32` or `i64`, of a number modulo its width."""
    width = int(kind[1:])
    number %= 1 << width
    return {"i32": b"\x41", "i64": b"\x42"}[kind] + signed(number - (number >> (width - 1) << width))


class Code:
    """Operators, and the fields in them that relocations fill: for each its place, its type, and what it is of."""

    def __init__(self, *parts):
        self.content, self.fields = bytearray(b"".join(parts)), []

    def put(self, *parts):
        """Appends bytes."""
        self.content += b"".join(parts)
        return self

    def field(self, kind, index):
        """Appends a field for the index of a function, a type or a global, a slot, or the address of a segment."""
        self.fields.append((len(self.content), kind, index))
        return self.put(EMPTY_FIELD)

    def append(self, code):
        """Appends other code."""
        self.fields += [(len(self.content) + place, kind, index) for place, kind, index in code.fields]
        return self.put(bytes(code.content))

    def call(self, function):
        """Appends a call of the object's function of this number."""
        return self.put(b"\x10").field(FUNCTION_INDEX, function)

    def const(self, kind, number):
        """Appends an integer constant."""
        return self.put(constant(kind, number))


@dataclasses.dataclass
class Function:
    """A function of an object. `locals` has pairs of a count and a value type; the code has its last `end` too."""

    name: str
    type: int
    locals: list
    code: Code


@dataclasses.dataclass
class Object:
    """What an object has. A type is a pair of lists of value types, by their names. A global is its value type and the
    number that it begins with. A segment is whether it is active, which it is from the start of the data on, and its
    bytes. `pages` is the least size of the memory, where there is one."""

    types: list = dataclasses.field(default_factory=list)
    functions: list = dataclasses.field(default_factory=list)
    globals: list = dataclasses.field(default_factory=list)
    segments: list = dataclasses.field(default_factory=list)
    pages: int = None

    def type_of(self, params, results=()):
        """The number of the first type of these parameters and results, which is appended where there is none."""
        wanted = (tuple(params), tuple(results))
        if wanted not in self.types:
            self.types.append(wanted)
        return self.types.index(wanted)

    def add(self, name, params, results, code, locals_=()):
        """Appends a function, and answers its number. Its last `end` is appended to the code."""
        made = Function(name, self.type_of(params, results), list(locals_), code.put(b"\x0b"))
        self.functions.append(made)
        return len(self.functions) - 1

    def symbol_of(self, kind, index):
        """What a relocation's index is: the number of a symbol, or of a type."""
        if kind == GLOBAL_INDEX:
            return len(self.functions) + index
        if kind == ADDRESS:
            active = [place for place, (is_active, _) in enumerate(self.segments) if is_active]
            return len(self.functions) + len(self.globals) + active.index(index)
        return index

    def symbols(self):
        """The symbol table: each function, each global, and each active segment, which is always kept."""
        table = [
            bytes([FUNCTION]) + leb128(0) + leb128(place) + sized(function.name.encode())
            for place, function in enumerate(self.functions)
        ]
        for place in range(len(self.globals)):
            table.append(bytes([GLOBAL]) + leb128(0) + leb128(place) + sized(f"global{place}".encode()))
        for place, (is_active, content) in enumerate(self.segments):
            if is_active:
                where = leb128(place) + leb128(0) + leb128(len(content))
                table.append(bytes([DATA]) + leb128(NO_STRIP) + sized(f"data{place}".encode()) + where)
        return listed(table)

    def code(self):
        """The payload of the code section, and the relocations for it."""
        payload, relocations = leb128(len(self.functions)), []
        pieces, place = [payload], len(payload)
        for function in self.functions:
            declared = listed([leb128(count) + VALUE_TYPES[kind] for count, kind in function.locals])
            size = leb128(len(declared) + len(function.code.content))
            begin = place + len(size) + len(declared)
            for offset, kind, index in function.code.fields:
                addend = b"\0" if kind == ADDRESS else b""
                relocations.append(
                    bytes([kind]) + leb128(begin + offset) + leb128(self.symbol_of(kind, index)) + addend
                )
            pieces += [size, declared, bytes(function.code.content)]
            place = begin + len(function.code.content)
        return b"".join(pieces), relocations

    def segment(self, is_active, content):
        """A segment as the data section has it; the address of an active one is the link's."""
        return (b"\0\x41\0\x0b" if is_active else b"\1") + sized(content)

    def content(self):
        """The bytes of the object."""
        types = [
            b"\x60" + listed([VALUE_TYPES[kind] for kind in params]) + listed([VALUE_TYPES[kind] for kind in results])
            for params, results in self.types
        ]
        code, relocations = self.code()
        sections = [
            (1, listed(types)),
            (2, listed([TABLE_IMPORT])),
            (3, listed([leb128(function.type) for function in self.functions])),
            (5, None if self.pages is None else listed([b"\0" + leb128(self.pages)])),
            (6, listed([VALUE_TYPES[kind] + b"\1" + constant(kind, first) + b"\x0b" for kind, first in self.globals])),
            (12, leb128(len(self.segments))),
            (10, code),
            (11, listed([self.segment(*segment) for segment in self.segments])),
        ]
        sections = [(number, payload) for number, payload in sections if payload is not None]
        of_code = [number for number, _ in sections].index(10)
        names = listed([sized(f".data.{place}".encode()) + b"\0\0" for place in range(len(self.segments))])
        linking = sized(b"linking") + b"\2" + b"\5" + sized(names) + b"\x08" + sized(self.symbols())
        sections.append((0, linking))
        sections.append((0, sized(b"reloc.CODE") + leb128(of_code) + listed(relocations)))
        return HEADER + b"".join(bytes([number]) + sized(payload) for number, payload in sections)


def runs_of(kinds):
    """Value types as pairs of a count and a type."""
    return [(len(list(run)), kind) for kind, run in itertools.groupby(kinds)]
