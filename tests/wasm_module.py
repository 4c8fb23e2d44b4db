"""Reads of a finished module what tests compare: imports, exports, the memory, segments, globals and names."""

import dataclasses

KINDS = ["func", "table", "memory", "global", "tag"]


class Reader:
    """Bytes, and how far they are read."""

    def __init__(self, content, place=0):
        self.content, self.place = content, place

    def take(self, count):
        """The next bytes."""
        self.place += count
        return self.content[self.place - count : self.place]

    def number(self):
        """An unsigned number in LEB128."""
        value = shift = 0
        while True:
            byte = self.take(1)[0]
            value, shift = value | (byte & 0x7F) << shift, shift + 7
            if byte < 0x80:
                return value

    def signed(self):
        """A signed number in LEB128."""
        begun = self.place
        value = self.number()
        bits = 7 * (self.place - begun)
        return value - (1 << bits) if value >> (bits - 1) else value

    def name(self):
        """A name."""
        return self.take(self.number()).decode("utf-8", "replace")

    def constant(self):
        """The value of an `i32.const`, or None where an expression begins otherwise; it is read to its end."""
        operator = self.take(1)[0]
        value = self.signed() if operator == 0x41 else None
        while self.take(1)[0] != 0x0B:
            pass
        return value

    def limits(self):
        """The minimum and the maximum of a memory or a table."""
        flags = self.number()
        return self.number(), self.number() if flags & 1 else None


@dataclasses.dataclass
class Module:
    """What a module has: each list in the order of its section."""

    imports: list = dataclasses.field(default_factory=list)
    exports: list = dataclasses.field(default_factory=list)
    segments: list = dataclasses.field(default_factory=list)
    globals: list = dataclasses.field(default_factory=list)
    names: dict = dataclasses.field(default_factory=dict)
    sections: list = dataclasses.field(default_factory=list)
    memory: tuple = None
    table: int = None
    slots: int = 0

    def export(self, name):
        """The kinds and indices under which a name is exported."""
        return [(kind, index) for exported, kind, index in self.exports if exported == name]

    def exported_names(self):
        """The names of the exports, in order."""
        return [name for name, _, _ in self.exports]


def read_imports(module, reader):
    """The section of imports."""
    for _ in range(reader.number()):
        origin, name, kind = reader.name(), reader.name(), KINDS[reader.number()]
        module.imports.append((origin, name, kind))
        if kind == "func":
            reader.number()
        elif kind == "table":
            reader.take(1), reader.limits()
        elif kind == "memory":
            module.memory = reader.limits()
        else:
            reader.take(2)


def read_segments(module, reader):
    """The section of data: for each segment its address, or None, and its length."""
    for _ in range(reader.number()):
        flags = reader.number()
        address = reader.constant() if flags == 0 else None
        length = reader.number()
        reader.take(length)
        module.segments.append((address, length))


def read_names(module, reader, end):
    """The names of functions of the section `name`."""
    while reader.place < end:
        kind, size = reader.number(), reader.number()
        if kind == 1:
            module.names = {reader.number(): reader.name() for _ in range(reader.number())}
        else:
            reader.take(size)


def read_section(module, kind, reader, end):
    """What is asked for of a section."""
    if kind == 0:
        module.sections.append(reader.name())
        if module.sections[-1] == "name":
            read_names(module, reader, end)
    elif kind == 2:
        read_imports(module, reader)
    elif kind == 4:
        reader.number(), reader.take(1)
        module.table = reader.limits()[0]
    elif kind == 5:
        reader.number()
        module.memory = reader.limits()
    elif kind == 6:
        module.globals = [(reader.take(2), reader.constant())[1] for _ in range(reader.number())]
    elif kind == 7:
        module.exports = [(reader.name(), KINDS[reader.number()], reader.number()) for _ in range(reader.number())]
    elif kind == 9:
        module.slots = reader.number()
    elif kind == 11:
        read_segments(module, reader)
    elif kind == 13:
        module.sections.append("tag")


def read_module(content):
    """A finished module."""
    module, reader = Module(), Reader(content, 8)
    while reader.place < len(content):
        kind, size = reader.take(1)[0], reader.number()
        end = reader.place + size
        read_section(module, kind, reader, end)
        reader.place = end
    return module
