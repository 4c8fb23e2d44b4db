#!/usr/bin/env python3
"""Tests tools/listing.py over the listings of the repository and over texts that are none.

The last line is `N passed, M failed`."""

import os
import pathlib
import re
import subprocess
import sys

ROOT = pathlib.Path(__file__).resolve().parent.parent
sys.path.insert(0, str(ROOT / "tools"))

import counting  # noqa: E402
import listing  # noqa: E402
from documents import table_of  # noqa: E402

SMALL = (ROOT / "examples" / "two_functions.plan").read_text()

# Texts that are no listing, each with the number of the line that is reported.
FAULTS = [
    ("", 1),
    ("wildplan 2\nend\n", 1),
    ("wildplan 1\r\nend\r\n", 1),
    ("wildplan 1", 1),
    ("wildplan 1\n", 2),
    (SMALL[:-4], len(SMALL.splitlines())),
    (SMALL[:-1], len(SMALL.splitlines()) + 1),
    (SMALL + "end\n", len(SMALL.splitlines()) + 1),
    ("wildplan 1\n\nend\n", 2),
    ("wildplan 1\nstart 01\nend\n", 2),
    ("wildplan 1\nstart +1\nend\n", 2),
    ("wildplan 1\nstart 1 \nend\n", 2),
    ("wildplan 1\ntable 1\nbody 0 0\nend\n", 3),
    ("wildplan 1\nbody 0 0B\nend\n", 2),
    ('wildplan 1\nfeature "a"b"\nend\n', 2),
    ('wildplan 1\nfeature "\\0A"\nend\n', 2),
    ("wildplan 1\ntype 0 (i32,)->()\nend\n", 2),
    ("wildplan 1\nfix 0 code 0 1 R 1 -0\nend\n", 2),
]

# Lines, and what is read from them.
LINES = [
    ("type 3 (i32,f64)->()", listing.FunctionType(3, ("i32", "f64"), ())),
    ('import func "a" "b\\22\\5c\\0a" 7', listing.ImportedFunction("a", 'b"\\\n', 7)),
    ('import global "" "g" i64 const', listing.ImportedGlobal("", "g", "i64", False)),
    ('import memory "env" "memory" 2 16 shared', listing.ImportedMemory("env", "memory", 2, 16, True)),
    ("func 1 type 0 object 2 unit 3", listing.DefinedFunction(1, 0, 2, 3)),
    ("func 1 type 0 made __wasm_call_ctors", listing.MadeFunction(1, 0, "__wasm_call_ctors")),
    ('func 1 type 0 stub "s"', listing.StubFunction(1, 0, "s")),
    ('func 1 type 0 wrap "w"', listing.WrapperFunction(1, 0, "w")),
    ("body 4 ", listing.Body(4, b"")),
    ("body 4 000b", listing.Body(4, b"\0\x0b")),
    ("global 0 i32 var 41808004 made stack_pointer",
     listing.MadeGlobal(0, "i32", True, bytes.fromhex("41808004"), "stack_pointer")),
    ("global 5 f32 const 43 object 0 unit 1", listing.DefinedGlobal(5, "f32", False, b"\x43", 0, 1)),
    ("memory 2 - -", listing.Memory(2, None, False)),
    ("table 3", listing.Table(3)),
    ("slot 1 9", listing.Slot(1, 9)),
    ("segment 0 object 1 unit 2 active 1024 4", listing.ActiveSegment(0, 1, 2, 1024, 4)),
    ("segment 0 object 1 unit 2 passive - 4", listing.PassiveSegment(0, 1, 2, 4)),
    ("segment 0 object 1 unit 2 shared 1024 4", listing.SharedSegment(0, 1, 2, 1024, 4)),
    ("segment 0 object 1 unit 2 tls 8 4", listing.ThreadSegment(0, 1, 2, 8, 4)),
    ('export "ä" global 1', listing.Export("ä", "global", 1)),
    ("start 6", listing.Start(6)),
    ("fix 0 code 1 2 R_WASM_MEMORY_ADDR_LEB 1024 -4", listing.CodeFix(0, 1, 2, "R_WASM_MEMORY_ADDR_LEB", 1024, -4)),
    ("fix 0 segment 1 2 R_WASM_TABLE_INDEX_I32 3 0", listing.SegmentFix(0, 1, 2, "R_WASM_TABLE_INDEX_I32", 3, 0)),
    ("fix 0 segment 1 2 R_WASM_MEMORY_ADDR_I32 deferred 12",
     listing.DeferredFix(0, 1, 2, "R_WASM_MEMORY_ADDR_I32", 12)),
    ('feature "+simd"', listing.Feature("+simd")),
    ('debug 1 ".debug_str" 75', listing.DebugSection(1, ".debug_str", 75)),
]

counts = counting.Counts("tools/listing.py: ")
note = counts.note


def fault_of(text):
    """The number of the line that is reported of a text, or none where it is a listing."""
    try:
        listing.read_listing(text)
    except listing.ListingError as error:
        return error.number
    return None


def documented():
    """The forms of the lines are those of docs/LISTING.md, in its order; a field has a name in capitals there."""
    cells = [row[0] for row in table_of(ROOT / "docs" / "LISTING.md", "| line | stands for |")]
    spans = [span for cell in cells for span in re.findall(r"`([^`]*)`", cell)]
    reported = [re.sub(r"\b[A-Z]+\b(,\.\.)?", "_", span) for span in spans]
    known = [re.sub(r"\{\w+\}", "_", kind.form) for kind in listing.KINDS]
    wanted = ["wildplan 1", *known, "end"]
    note(f"lines that only one of it and docs/LISTING.md has: {set(reported) ^ set(wanted)}", reported == wanted)


def main():
    documented()
    plans = sorted([*ROOT.glob("examples/**/*.plan"), *ROOT.glob("tests/objects/*.plan")])
    for path in plans:
        content = path.read_bytes()
        plan = listing.read_listing(content)
        note(f"{path.name} is written otherwise", str(plan).encode() == content)
        note(f"{path.name} lacks lines", len(plan.lines) == len(content.splitlines()) - 2)
    note("there are no listings", plans)
    for text, wanted in LINES:
        note(f"{text}: {listing.read_line(text)}", listing.read_line(text) == wanted and str(wanted) == text)
    note("a kind of line isn't tried", {type(wanted) for _, wanted in LINES} == set(listing.KINDS))
    for text, number in FAULTS:
        note(f"{text!r}: {fault_of(text)}", fault_of(text) == number)
    raw = listing.read_listing(b'wildplan 1\nfeature "\xff"\nend\n')
    note("a name that isn't UTF-8", raw.of(listing.Feature) == [listing.Feature("\udcff")])
    small = listing.read_listing(SMALL)
    note("lines of a class", [line.index for line in small.of(listing.Function)] == [0, 1])
    ended = subprocess.run([sys.executable, ROOT / "tools" / "listing.py"], input=SMALL.encode(), capture_output=True)
    note("the lines of JSON", ended.returncode == 0 and len(ended.stdout.splitlines()) == len(small.lines))
    reader, writer = os.pipe()
    os.close(reader)
    command = [sys.executable, ROOT / "tools" / "listing.py"]
    ended = subprocess.run(command, input=SMALL.encode(), stdout=writer, stderr=subprocess.PIPE)
    os.close(writer)
    note("nobody reads the JSON", ended.returncode == 0 and not ended.stderr)
    ended = subprocess.run([*command, ROOT / "none.plan"], capture_output=True, text=True)
    note("a file that there is not", ended.returncode == 1 and ended.stderr.startswith("listing.py: ") and
         "Traceback" not in ended.stderr)
    counts.end()


if __name__ == "__main__":
    main()
