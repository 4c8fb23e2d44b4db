#!/usr/bin/env python3
"""Writes the module that a listing of wildplan plans: outside of what is proved; it is only tested.

    write_module.py LISTING [OBJECT..] -o MODULE

The objects are those of the plan, in its order; where none is given they are those that tools/wildplan-ld kept in the
folder LISTING.objects. Debug sections aren't written, since nothing relocates them. Zeros at the end of data are left
out where the module makes the memory. A section `name` has the names of functions, for those who read what it writes.
"""

from __future__ import annotations

import argparse
import pathlib
import sys

import listing
from wasm_object import Fault, read_object

TYPES = {"i32": 0x7F, "i64": 0x7E, "f32": 0x7D, "f64": 0x7C, "v128": 0x7B, "funcref": 0x70, "externref": 0x6F}
KINDS = {"func": 0, "table": 1, "memory": 2, "global": 3}
MAGIC, FUNCTION_TYPE, I32_CONST, END = b"\0asm\1\0\0\0", b"\x60", b"\x41", b"\x0b"
ACTIVE, PASSIVE = b"\0", b"\1"
CUSTOM, START, DATA_COUNT = 0, 8, 12
# A padded field has five bytes.
PADDED = 5


def leb128(number, is_signed=False, width=1):
    """A number in LEB128, in at least `width` bytes."""
    found = bytearray()
    while True:
        byte, number = number & 0x7F, number >> 7
        rest = -1 if is_signed and byte & 0x40 else 0
        if number == rest and len(found) + 1 >= width:
            return bytes([*found, byte])
        found.append(byte | 0x80)


def signed(number):
    """A number of 32 bits as one with a sign."""
    number &= 0xFFFFFFFF
    return number - (1 << 32) if number >> 31 else number


def constant(number):
    """The expression that is this number of 32 bits."""
    return I32_CONST + leb128(signed(number), True) + END


def sized(content):
    """Bytes after their length."""
    return leb128(len(content)) + content


def listed(items):
    """Items after their count."""
    return leb128(len(items)) + b"".join(items)


def named(name):
    """A name: its length and its bytes."""
    return sized(name.encode("utf-8", "surrogateescape"))


def field(relocation, number):
    """The bytes of a relocation's field that holds this number."""
    if relocation.endswith("_I32"):
        return (number & 0xFFFFFFFF).to_bytes(4, "little")
    if relocation.endswith("_SLEB"):
        return leb128(signed(number), True, PADDED)
    if relocation.endswith("_LEB"):
        return leb128(number & 0xFFFFFFFF, False, PADDED)
    raise Fault(f"the field of the relocation {relocation} isn't known")


def fixed(fixes, contents):
    """Puts the values of fields into contents, which are those of bodies or segments by objects and units."""
    for fix in fixes:
        content, value = contents[fix.object, fix.unit], field(fix.relocation, fix.value + fix.addend)
        if fix.position + len(value) > len(content):
            raise Fault(f"no such field: {fix}")
        content[fix.position : fix.position + len(value)] = value


def limits(minimum, maximum, is_shared=False):
    """Limits: `maximum` is None where there is none."""
    flags = (maximum is not None) | is_shared << 1
    return bytes([flags]) + leb128(minimum) + (b"" if maximum is None else leb128(maximum))


def import_of(given):
    """An import; the sizes of a memory are in pages of 65536 bytes."""
    if isinstance(given, listing.ImportedFunction):
        kind, content = "func", leb128(given.type)
    elif isinstance(given, listing.ImportedGlobal):
        kind, content = "global", bytes([TYPES[given.value_type], given.is_mutable])
    else:
        kind, content = "memory", limits(given.minimum, given.maximum, given.is_shared)
    return named(given.module) + named(given.name) + bytes([KINDS[kind]]) + content


def function_type(given):
    """A type of functions."""
    lists = [[bytes([TYPES[name]]) for name in names] for names in (given.parameters, given.results)]
    return FUNCTION_TYPE + listed(lists[0]) + listed(lists[1])


def global_of(given):
    """A global with its first value."""
    return bytes([TYPES[given.value_type], given.is_mutable]) + given.code + END


def export_of(given):
    """An export."""
    return named(given.name) + bytes([KINDS[given.kind]]) + leb128(given.index)


def bodies(plan):
    """The bodies of functions in their order, with the values of their fields."""
    contents = {body.index: bytearray(body.code) for body in plan.of(listing.Body)}
    units = {(made.object, made.unit): contents[made.index] for made in plan.of(listing.DefinedFunction)}
    fixed(plan.of(listing.CodeFix), units)
    return [sized(contents[made.index]) for made in plan.of(listing.Function)]


def bytes_of(segment, objects):
    """The bytes of a segment as they stand in its object."""
    segments = objects[segment.object].segments if segment.object < len(objects) else []
    if segment.unit >= len(segments) or len(segments[segment.unit]) != segment.length:
        raise Fault(f"the objects aren't those of the listing: {segment}")
    return bytearray(segments[segment.unit])


def data(plan, objects):
    """The data segments in their order, with the values of their fields."""
    units = {(segment.object, segment.unit): bytes_of(segment, objects) for segment in plan.of(listing.Segment)}
    fixed(plan.of(listing.SegmentFix), units)
    makes_memory, found = bool(plan.of(listing.Memory)), []
    for segment in plan.of(listing.Segment):
        content = bytes(units[segment.object, segment.unit])
        if isinstance(segment, listing.ActiveSegment):
            content = content.rstrip(b"\0") if makes_memory else content
            found.append(ACTIVE + constant(segment.address) + sized(content))
        else:
            found.append(PASSIVE + sized(content))
    return found


def elements(plan):
    """A segment for the functions in the table, if there are any. Their slots follow one another."""
    slots = plan.of(listing.Slot)
    if any(slot.slot != slots[0].slot + place for place, slot in enumerate(slots)):
        raise Fault("the slots of the table don't follow one another")
    return [ACTIVE + constant(slots[0].slot) + listed([leb128(slot.function) for slot in slots])] if slots else []


def name_of(made, given):
    """The name of a function: that of its symbol, or what the linker makes; `given` has the names by objects."""
    if isinstance(made, listing.DefinedFunction):
        return given[made.object].get(made.unit, "") if made.object < len(given) else ""
    if isinstance(made, listing.MadeFunction):
        return made.made
    return f"{made.name}.wrapper" if isinstance(made, listing.WrapperFunction) else made.name


def names_section(plan, objects):
    """A section with the names of functions."""
    given = [found.function_names() for found in objects]
    names = list(enumerate(imported.name for imported in plan.of(listing.ImportedFunction)))
    names += [(made.index, name_of(made, given)) for made in plan.of(listing.Function)]
    functions = b"\1" + sized(listed([leb128(index) + named(name) for index, name in names if name]))
    return section(CUSTOM, named("name") + functions)


def section(number, payload):
    """A section of a module."""
    return bytes([number]) + sized(payload)


def module_of(plan, objects):
    """The bytes of the module: its sections in their order."""
    segments = data(plan, objects)
    counts_segments = any(found.counts_segments for found in objects) or any(
        not isinstance(segment, listing.ActiveSegment) for segment in plan.of(listing.Segment)
    )
    tables = [bytes([TYPES["funcref"]]) + limits(table.minimum, table.minimum) for table in plan.of(listing.Table)]
    memories = [limits(memory.minimum, memory.maximum, memory.is_shared) for memory in plan.of(listing.Memory)]
    features = [b"+" + named(feature.name) for feature in plan.of(listing.Feature)]
    sections = [
        (1, [function_type(given) for given in plan.of(listing.FunctionType)]),
        (2, [import_of(given) for given in plan.of(listing.Import)]),
        (3, [leb128(made.type) for made in plan.of(listing.Function)]),
        (4, tables),
        (5, memories),
        (6, [global_of(given) for given in plan.of(listing.Global)]),
        (7, [export_of(given) for given in plan.of(listing.Export)]),
        (START, [leb128(start.function) for start in plan.of(listing.Start)]),
        (9, elements(plan)),
        (DATA_COUNT, [leb128(len(segments))] if segments and counts_segments else []),
        (10, bodies(plan)),
        (11, segments),
    ]
    found = [MAGIC]
    for number, items in sections:
        if items:
            found.append(section(number, b"".join(items) if number in (START, DATA_COUNT) else listed(items)))
    found.append(names_section(plan, objects))
    if features:
        found.append(section(CUSTOM, named("target_features") + listed(features)))
    return b"".join(found)


def main():
    parser = argparse.ArgumentParser(description=__doc__.splitlines()[0])
    parser.add_argument("listing", type=pathlib.Path, help="what wildplan printed")
    parser.add_argument("objects", nargs="*", type=pathlib.Path, help="the objects of the plan, in its order")
    parser.add_argument("-o", dest="module", type=pathlib.Path, required=True, help="the file that is written")
    given = parser.parse_intermixed_args()
    try:
        plan = listing.read_listing(given.listing.read_bytes())
        kept = pathlib.Path(f"{given.listing}.objects").glob("[0-9]*-*")
        paths = given.objects or sorted(kept, key=lambda path: int(path.name.partition("-")[0]))
        given.module.write_bytes(module_of(plan, [read_object(path.read_bytes()) for path in paths]))
    except (Fault, listing.ListingError, OSError) as fault:
        sys.exit(f"write_module.py: {fault}")
    except KeyError as fault:
        sys.exit(f"write_module.py: the listing doesn't define what it refers to: {fault}")


if __name__ == "__main__":
    main()
