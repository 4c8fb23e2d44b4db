#!/usr/bin/env python3
"""Counts the instructions that `--run` takes for an operator, by valgrind's callgrind.

    tests/run_speed.py [PROGRAM]

A loop of integer operators is run in two lengths, and the difference divided by that of the operators: so what
reading, planning and loading take isn't counted. Its seed is in the object's data, and what it returns is compared with
what the same loop in C returns. Then the loop is run in functions that are small and a thousand times as large in one
respect: an operator there may take at most 1.1 times as much. Counts are the same each time. The last line is
`N passed, M failed`. The program is the proved one unless another is named; valgrind and cc have to be there."""

import pathlib
import re
import shutil
import subprocess
import sys
import tempfile

import counting
from made_objects import leb128, listed
from run_objects import ADDRESS, Code, Object

ROOT = pathlib.Path(__file__).resolve().parent.parent
PROGRAM = ROOT / "crates" / "wildplan" / "out" / "wildplan"
SEED = 0x12345678
GOAL, GROWTH, TIMES = 80, 1.1, 1000
# How often the loop is run: for the first figure, and for those of growth.
LENGTHS, SHORTER = (2500, 22500), (1000, 11000)
IN_C = """
#include <stdint.h>
#include <stdio.h>
#include <stdlib.h>

static uint32_t looped(uint32_t x, uint32_t times)
{
    for (uint32_t i = 0; i != times; i++) {
        x *= 0x9e3779b1u;
        x ^= x << 13;
        x ^= x >> 17;
        x += i;
        x += x <= 0x7fffffffu;
        x = x << 5 | x >> 27;
        x = (x & 0x0f0f0f0fu) - x;
    }
    return x;
}

int main(int count, char **words)
{
    for (int i = 2; i < count; i++)
        printf("%u\\n", looped(strtoul(words[1], NULL, 0), strtoul(words[i], NULL, 0)));
}
"""
END, BLOCK, LOOP, IF, ELSE, NOP = b"\x0b", b"\x02\x40", b"\x03\x40", b"\x04\x40", b"\x05", b"\x01"
EQZ, NE, LE_U, ADD, SUB, MUL = b"\x45", b"\x47", b"\x4d", b"\x6a", b"\x6b", b"\x6c"
AND, XOR, SHL, SHR_U, ROTL = b"\x71", b"\x73", b"\x74", b"\x76", b"\x77"


class Loop:
    """The loop, over two locals from a number on. It counts its operators."""

    def __init__(self, times, local=0):
        self.times, self.x, self.i = times, leb128(local), leb128(local + 1)

    def operators(self):
        """The operators of one time through."""
        get, put, keep = b"\x20" + self.x, b"\x21" + self.x, b"\x22" + self.x
        count, kept = b"\x20" + self.i, b"\x22" + self.i
        return [
            *(get, number(0x9E3779B1), MUL, put),
            *(get, get, number(13), SHL, XOR, keep, get, number(17), SHR_U, XOR, put),
            *(get, count, ADD, put),
            *(get, number(0x7FFFFFFF), LE_U, get, ADD, number(5), ROTL, put),
            *(get, number(0x0F0F0F0F), AND, get, SUB, put),
            *(count, number(1), ADD, kept, number(self.times), NE, b"\x0d\x00"),
        ]

    def code(self, first=Code()):
        """The code: it loads the seed, and each time runs some other code first."""
        code = Code(number(0), b"\x28\x02").field(ADDRESS, 0).put(b"\x21" + self.x, LOOP)
        return code.append(first).put(*self.operators(), END)

    def result(self):
        """The operator that leaves the result."""
        return b"\x20" + self.x


def number(value):
    """The operator of a constant."""
    return bytes(Code().const("i32", value).content)


def with_seed():
    """An object without functions, whose data are the seed."""
    return Object(pages=1, segments=[(True, SEED.to_bytes(4, "little"))])


def plain(times, size=0):
    """The loop alone, and how many operators it takes each time besides its own."""
    made, loop = with_seed(), Loop(times)
    made.add("run", [], ["i32"], loop.code().put(loop.result()), [(2, "i32")])
    return made, 0


def in_blocks(times, size):
    """The loop in so many blocks."""
    made, loop = with_seed(), Loop(times)
    code = Code(BLOCK * size).append(loop.code()).put(END * size, loop.result())
    made.add("run", [], ["i32"], code, [(2, "i32")])
    return made, 0


def in_calls(times, size):
    """The loop in so many calls of one function, which takes how many there are still to be."""
    made, loop = with_seed(), Loop(times, local=1)
    code = Code(b"\x20\x00", EQZ, b"\x04\x7f").append(loop.code()).put(loop.result(), ELSE)
    code.put(b"\x20\x00", number(1), SUB).call(0).put(END)
    made.add("calls_itself", ["i32"], ["i32"], code, [(2, "i32")])
    made.add("run", [], ["i32"], Code(number(size)).call(0))
    return made, 0


def over_operators(times, size):
    """The loop, which each time passes over so many operators by a branch, and by an `if`."""
    made, loop = with_seed(), Loop(times)
    passed = NOP * size
    first = Code(BLOCK, b"\x0c\x00", passed, END, number(0), IF, passed, ELSE, NOP, END)
    made.add("run", [], ["i32"], loop.code(first).put(loop.result()), [(2, "i32")])
    return made, 6


def with_labels(times, size):
    """The loop, which each time takes a label of so many."""
    made, loop = with_seed(), Loop(times)
    first = Code(BLOCK, b"\x20" + loop.i, b"\x0e" + listed([b"\0"] * size) + b"\0", END)
    made.add("run", [], ["i32"], loop.code(first).put(loop.result()), [(2, "i32")])
    return made, 3


def with_locals(times, size):
    """The loop, over locals after so many others, each declared by itself."""
    made, loop = with_seed(), Loop(times, local=size)
    others = [(1, ("i64", "i32")[place % 2]) for place in range(size)]
    made.add("run", [], ["i32"], loop.code().put(loop.result()), [*others, (2, "i32")])
    return made, 0


def with_functions(times, size):
    """The loop, which each time calls the last of so many functions."""
    made, loop = with_seed(), Loop(times)
    for place in range(size):
        made.add(f"empty{place}", [], [], Code())
    made.add("run", [], ["i32"], loop.code(Code().call(size - 1)).put(loop.result()), [(2, "i32")])
    return made, 2


# What grows, the small size, and what makes the object.
SHAPES = [
    ("depth of blocks", 10, in_blocks),
    ("depth of calls", 10, in_calls),
    ("length of the body", 10, over_operators),
    ("labels of a br_table", 10, with_labels),
    ("declarations of locals", 10, with_locals),
    ("functions", 10, with_functions),
]


def results_in_c(folder, times):
    """What the loop in C returns, by how often it is run."""
    source, built = folder / "loop.c", folder / "loop"
    source.write_text(IN_C)
    subprocess.run(["cc", "-O1", "-o", built, source], check=True)
    words = [str(built), str(SEED), *map(str, times)]
    reported = subprocess.run(words, check=True, capture_output=True, text=True).stdout
    return dict(zip(times, reported.split()))


def instructions(program, folder, made):
    """How many instructions a run of an object takes, and the line that it writes."""
    path = folder / "made.o"
    path.write_bytes(made.content())
    words = ["--no-entry", "--no-gc-sections", "--export=run", "--run=run", path]
    counter = ["valgrind", "--tool=callgrind", f"--callgrind-out-file={folder / 'calls'}"]
    ended = subprocess.run([*counter, program, *words], stdin=subprocess.DEVNULL, capture_output=True, timeout=3600)
    found = re.search(rb"Collected : (\d+)", ended.stderr)
    if found is None:
        sys.exit(f"valgrind counts nothing: {ended.stderr.decode(errors='replace')}: 0 passed, 1 failed")
    return int(found[1]), ended.stdout.decode(errors="replace").strip()


def for_an_operator(title, tried, make, size, lengths, wanted, counts):
    """How many instructions an operator takes in an object of this size, by the loop in two lengths."""
    taken = []
    for times in lengths:
        made, besides = make(times, size)
        count, got = instructions(*tried, made)
        taken.append(count)
        due = f"done {wanted[times]}"
        counts.note(f"{title}, {size}, {times} times: wanted {due}, got {got}", got == due)
    operators = (len(Loop(0).operators()) + besides) * (lengths[1] - lengths[0])
    return (taken[1] - taken[0]) / operators, operators


def main():
    program = pathlib.Path(sys.argv[1] if sys.argv[1:] else PROGRAM).resolve()
    missing = [name for name in ("valgrind", "cc") if shutil.which(name) is None]
    if missing:
        print(f"skipped: it needs {' and '.join(missing)}\n0 passed, 0 failed")
        return
    if not program.exists():
        sys.exit(f"there is no program {program}: 0 passed, 1 failed")
    counts = counting.Counts()
    with tempfile.TemporaryDirectory() as name:
        tried = (program, pathlib.Path(name))
        wanted = results_in_c(tried[1], [*LENGTHS, *SHORTER])
        taken, operators = for_an_operator("the loop", tried, plain, 0, LENGTHS, wanted, counts)
        print(f"{taken:.1f} instructions for an operator, over {operators} operators; at most {GOAL}", flush=True)
        counts.note(f"more than {GOAL}", taken <= GOAL)
        print(f"{'what grows':24}{'small':>8}{'for an operator':>17}{'large':>8}{'for an operator':>17}{'growth':>8}")
        for title, small, make in SHAPES:
            sizes = (small, small * TIMES)
            figures = [for_an_operator(title, tried, make, size, SHORTER, wanted, counts)[0] for size in sizes]
            growth = figures[1] / figures[0] if figures[0] > 0 else float("inf")
            line = f"{title:24}{sizes[0]:8}{figures[0]:17.1f}{sizes[1]:8}{figures[1]:17.1f}{growth:8.3f}"
            print(line, flush=True)
            counts.note(f"{title}: it grows by more than {GROWTH}", growth <= GROWTH)
    counts.end()


if __name__ == "__main__":
    main()
