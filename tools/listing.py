#!/usr/bin/env python3
"""Reads the listings of wildplan. A build tool imports it; a shell gets JSON of it, an object a line.

    from listing import Export, Function, read_listing
    plan = read_listing(open("plan.txt", "rb").read())
    for export in plan.of(Export):
        print(export.name, export.kind, export.index)

    tools/listing.py [FILE]

Each kind of line has a class, whose fields stand in the order of the line: docs/LISTING.md says what they mean.
Names are as they are, without the quotes and marks of the listing; bytes that aren't UTF-8 are surrogates in
them, as in the names of files. The text of a line is `str` of it, and that of a listing `str` of that."""

from __future__ import annotations

import dataclasses
import json
import os
import re
import sys

VERSION = 1
VALUE_TYPE = "i32|i64|f32|f64|v128|funcref|externref"
VALUE_TYPES = f"(?:(?:{VALUE_TYPE})(?:,(?:{VALUE_TYPE}))*)?"


class ListingError(ValueError):
    """A text isn't a listing: the number of the first line that is wrong, from 1, and why."""

    def __init__(self, number, reason):
        super().__init__(f"line {number}: {reason}")
        self.number, self.reason = number, reason


def _plain(text):
    """A name without the marks of the listing."""
    content = text.encode("utf-8", "surrogateescape")
    content = re.sub(rb"\\([0-9a-f]{2})", lambda mark: bytes([int(mark[1], 16)]), content)
    return content.decode("utf-8", "surrogateescape")


def _marked(name):
    """A name as the listing writes it, without its quotes."""
    return re.sub(r'[\x00-\x1f"\\\x7f]', lambda found: f"\\{ord(found[0]):02x}", name)


def _bound(text):
    """A size, or None where there is none."""
    return None if text == "-" else int(text)


# What fields are: how one is written, what is read from that, and how it is written again.
_FIELDS = {
    "number": ("0|[1-9][0-9]*", int, str),
    "signed": ("0|-?[1-9][0-9]*", int, str),
    "bound": ("-|0|[1-9][0-9]*", _bound, lambda bound: "-" if bound is None else str(bound)),
    "name": (r'(?:[^"\\\x00-\x1f\x7f]|\\[0-9a-f]{2})*', _plain, _marked),
    "word": ("[A-Za-z_][A-Za-z0-9_]*", str, str),
    "bytes": ("(?:[0-9a-f]{2})*", bytes.fromhex, bytes.hex),
    "type": (VALUE_TYPE, str, str),
    "types": (VALUE_TYPES, lambda text: tuple(text.split(",")) if text else (), ",".join),
    "mutable": ("var|const", "var".__eq__, lambda is_mutable: "var" if is_mutable else "const"),
    "shared": ("shared|-", "shared".__eq__, lambda is_shared: "shared" if is_shared else "-"),
    "kind": ("func|table|memory|global", str, str),
}

# The classes of lines, in the order of docs/LISTING.md, and by the first word of the line.
KINDS = []
_BY_WORD = {}


class Line:
    """A line of a listing."""

    form = ""

    def __str__(self):
        return self.form.format_map({name: _FIELDS[kind][2](getattr(self, name)) for name, kind in self.kinds.items()})


def _line(form):
    """Makes a class one of lines, which are written in this form: a field is its name and what it is."""

    def made(cls):
        cls = dataclasses.dataclass(frozen=True)(cls)
        cls.kinds = dict(re.findall(r"\{(\w+):(\w+)\}", form))
        cls.form = re.sub(r"\{(\w+):\w+\}", r"{\1}", form)
        parts = re.split(r"\{(\w+):\w+\}", form)
        pattern = "".join(f"({_FIELDS[cls.kinds[p]][0]})" if k % 2 else re.escape(p) for k, p in enumerate(parts))
        cls.pattern = re.compile(pattern)
        cls.__str__ = Line.__str__
        KINDS.append(cls)
        _BY_WORD.setdefault(form.partition(" ")[0], []).append(cls)
        return cls

    return made


@_line("type {index:number} ({parameters:types})->({results:types})")
class FunctionType(Line):
    index: int
    parameters: tuple
    results: tuple


@dataclasses.dataclass(frozen=True)
class Import(Line):
    """What the host gives."""

    module: str
    name: str


@_line('import func "{module:name}" "{name:name}" {type:number}')
class ImportedFunction(Import):
    type: int


@_line('import global "{module:name}" "{name:name}" {value_type:type} {is_mutable:mutable}')
class ImportedGlobal(Import):
    value_type: str
    is_mutable: bool


@_line('import memory "{module:name}" "{name:name}" {minimum:number} {maximum:bound} {is_shared:shared}')
class ImportedMemory(Import):
    minimum: int
    maximum: int | None
    is_shared: bool


@dataclasses.dataclass(frozen=True)
class Function(Line):
    """A function of the module, but for imported ones."""

    index: int
    type: int


@_line("func {index:number} type {type:number} object {object:number} unit {unit:number}")
class DefinedFunction(Function):
    object: int
    unit: int


@_line("func {index:number} type {type:number} made {made:word}")
class MadeFunction(Function):
    made: str


@_line('func {index:number} type {type:number} stub "{name:name}"')
class StubFunction(Function):
    name: str


@_line('func {index:number} type {type:number} wrap "{name:name}"')
class WrapperFunction(Function):
    name: str


@_line("body {index:number} {code:bytes}")
class Body(Line):
    index: int
    code: bytes


@dataclasses.dataclass(frozen=True)
class Global(Line):
    """A global of the module, but for imported ones."""

    index: int
    value_type: str
    is_mutable: bool
    code: bytes


@_line("global {index:number} {value_type:type} {is_mutable:mutable} {code:bytes} "
       "object {object:number} unit {unit:number}")
class DefinedGlobal(Global):
    object: int
    unit: int


@_line("global {index:number} {value_type:type} {is_mutable:mutable} {code:bytes} made {made:word}")
class MadeGlobal(Global):
    made: str


@_line("memory {minimum:number} {maximum:bound} {is_shared:shared}")
class Memory(Line):
    minimum: int
    maximum: int | None
    is_shared: bool


@_line("table {minimum:number}")
class Table(Line):
    minimum: int


@_line("slot {slot:number} {function:number}")
class Slot(Line):
    slot: int
    function: int


@dataclasses.dataclass(frozen=True)
class Segment(Line):
    """A segment of data."""

    index: int
    object: int
    unit: int


@_line("segment {index:number} object {object:number} unit {unit:number} active {address:number} {length:number}")
class ActiveSegment(Segment):
    address: int
    length: int


@_line("segment {index:number} object {object:number} unit {unit:number} passive - {length:number}")
class PassiveSegment(Segment):
    length: int


@_line("segment {index:number} object {object:number} unit {unit:number} shared {address:number} {length:number}")
class SharedSegment(Segment):
    address: int
    length: int


@_line("segment {index:number} object {object:number} unit {unit:number} tls {offset:number} {length:number}")
class ThreadSegment(Segment):
    offset: int
    length: int


@_line('export "{name:name}" {kind:kind} {index:number}')
class Export(Line):
    name: str
    kind: str
    index: int


@_line("start {function:number}")
class Start(Line):
    function: int


@dataclasses.dataclass(frozen=True)
class Fix(Line):
    """A field of a relocation."""

    object: int
    unit: int
    position: int
    relocation: str


@_line("fix {object:number} code {unit:number} {position:number} {relocation:word} {value:number} {addend:signed}")
class CodeFix(Fix):
    value: int
    addend: int


@_line("fix {object:number} segment {unit:number} {position:number} {relocation:word} {value:number} {addend:signed}")
class SegmentFix(Fix):
    value: int
    addend: int


@_line("fix {object:number} segment {unit:number} {position:number} {relocation:word} deferred {offset:signed}")
class DeferredFix(Fix):
    offset: int


@_line('feature "{name:name}"')
class Feature(Line):
    name: str


@_line('debug {object:number} "{name:name}" {length:number}')
class DebugSection(Line):
    object: int
    name: str
    length: int


@dataclasses.dataclass(frozen=True)
class Listing:
    """The lines of a listing, without the first and the last."""

    lines: tuple

    def of(self, kind):
        """The lines of a class, in order: of `Function` those of all functions."""
        return [line for line in self.lines if isinstance(line, kind)]

    def __str__(self):
        return "".join(f"{line}\n" for line in [f"wildplan {VERSION}", *self.lines, "end"])


def read_line(text):
    """The line of a listing that a text is, or None where it is none."""
    for kind in _BY_WORD.get(text.partition(" ")[0], []):
        found = kind.pattern.fullmatch(text)
        if found:
            fields = zip(kind.kinds.items(), found.groups())
            return kind(**{name: _FIELDS[field][1](part) for (name, field), part in fields})
    return None


def read_listing(text):
    """The listing that a text is, which is given as `str` or as `bytes`.

    Raises `ListingError` where the first line isn't `wildplan 1`, the last one isn't `end`, as where the output was
    cut off, or a line between them isn't one of a listing."""
    text = text.decode("utf-8", "surrogateescape") if isinstance(text, bytes) else text
    written = text.split("\n")
    if written[0] != f"wildplan {VERSION}":
        raise ListingError(1, f"not a listing of version {VERSION}: {written[0]!r}")
    lines = []
    for number, each in enumerate(written[1:], 2):
        if each == "end":
            if written[number:] != [""]:
                raise ListingError(number + 1, "something follows the end")
            return Listing(tuple(lines))
        line = read_line(each)
        if line is None:
            raise ListingError(number, f"not a line of a listing: {each!r}")
        lines.append(line)
    raise ListingError(len(written), "the listing has no end")


def main():
    if len(sys.argv) > 2:
        sys.exit(__doc__)
    try:
        content = open(sys.argv[1], "rb").read() if sys.argv[1:] else sys.stdin.buffer.read()
        plan = read_listing(content)
    except (ListingError, OSError) as error:
        sys.exit(f"listing.py: {error}")
    try:
        for line in plan.lines:
            print(json.dumps({"line": type(line).__name__, **dataclasses.asdict(line)}, default=bytes.hex))
        sys.stdout.flush()
    except BrokenPipeError:
        # Nobody reads any more, as after `head`: what is left goes nowhere.
        os.dup2(os.open(os.devnull, os.O_WRONLY), sys.stdout.fileno())


if __name__ == "__main__":
    main()
