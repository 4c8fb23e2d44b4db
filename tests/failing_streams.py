#!/usr/bin/env python3
"""Lets each read and each write of the program fail in turn. Where a read fails it has to end with status 3 and
name the object, and where a write fails with status 4 and a front of what was due.

    tests/failing_streams.py [--program PATH]

It is no part of the gate: it takes a C compiler. The program is the proved one unless another is named. It has to
call the C library's read and write from its own code."""

import re
import sys

from out_of_memory import EXAMPLES, WHOLE, ended, tried

SOUND = EXAMPLES / "two_functions.o"
LISTING = SOUND.with_suffix(".plan").read_bytes()
READ_FAULT = re.compile(rb"error: ReadFault (\d+)\n")


def wrong_reads(program, refuser, words, answer):
    """What is wrong where reads fail, a line each. The object that is reported never goes back."""
    whole, count = ended(program, refuser, words, 0, "read")
    if whole != answer:
        return count, [f"wanted {answer}, got {whole}"]
    names_file = any(str(word).endswith(".o") for word in words)
    if answer[0] == 0 and names_file and not count:
        return 0, ["it reads by other calls"]
    wrong, last = [], 0
    for number in range(1, count + 1):
        (status, out, err), _ = ended(program, refuser, words, number, "read")
        reported = READ_FAULT.fullmatch(err)
        if status != 3 or out or not reported or int(reported[1]) < last:
            wrong.append(f"read {number}: status {status}, {len(out)} bytes, {err!r}")
        last = int(reported[1]) if reported else last
    return count, wrong


def wrong_writes(program, refuser, words, answer):
    """What is wrong where writes fail, a line each."""
    _, count = ended(program, refuser, words, 0, "write")
    wrong = []
    for number in range(1, count + 1):
        (status, *got), _ = ended(program, refuser, words, number, "write")
        fronts = all(len(had) <= len(due) and due.startswith(had) for had, due in zip(got, answer[1:]))
        if status != 4 or not fronts or got == list(answer[1:]):
            wrong.append(f"write {number}: status {status}, {[len(had) for had in got]} bytes")
    return count, wrong


def byte_by_byte(program, refuser, folder):
    """Each read gives one byte: one for each byte of the object, and one at its end. Whichever fails, nothing is
    written but the line."""
    whole, count = ended(program, refuser, [*WHOLE, SOUND], 0, "read", 1)
    wrong = [] if (whole, count) == ((0, LISTING, b""), len(SOUND.read_bytes()) + 1) else [f"{whole} by {count} reads"]
    for number in range(1, count + 1):
        got, _ = ended(program, refuser, [*WHOLE, SOUND], number, "read", 1)
        if got != (3, b"", b"error: ReadFault 0\n"):
            wrong.append(f"read {number}: {got}")
    return f"{count} reads", wrong


def piece_by_piece(program, refuser, folder):
    """Each write takes 16 bytes. Where one fails the output has what the ones before it took."""
    writes, wrong = 0, []
    for made in (SOUND, EXAMPLES / "bare_module.o"):
        listing = made.with_suffix(".plan").read_bytes()
        whole, count = ended(program, refuser, [*WHOLE, made], 0, "write", 16)
        if (whole, count) != ((0, listing, b""), -(-len(listing) // 16)):
            wrong.append(f"{whole} by {count} writes")
        for number in range(1, count + 1):
            got, _ = ended(program, refuser, [*WHOLE, made], number, "write", 16)
            if got != (4, listing[: 16 * (number - 1)], b""):
                wrong.append(f"write {number} of {made.name}: {got}")
        writes += count
    return f"{writes} writes", wrong


def nothing_is_taken(program, refuser, folder):
    """An output that takes no byte has failed, and so has one whose first write fails where a line is due."""
    got, _ = ended(program, refuser, [*WHOLE, SOUND], 0, "write", 0)
    wrong = [] if got == (4, b"", b"") else [f"no byte: {got}"]
    front = folder / "front.o"
    front.write_bytes(SOUND.read_bytes()[:7])
    got, _ = ended(program, refuser, [*WHOLE, front], 1, "write")
    return "2 runs", wrong + ([] if got == (4, b"", b"") else [f"no line: {got}"])


def main():
    def each(*case):
        reads, wrong = wrong_reads(*case)
        writes, more = wrong_writes(*case)
        if not writes:
            more.append("it writes by other calls")
        return f"{reads} reads and {writes} writes", wrong + more

    others = [
        ("an object byte by byte", byte_by_byte),
        ("a listing piece by piece", piece_by_piece),
        ("an output that takes nothing", nothing_is_taken),
    ]
    return tried("Lets each read and write of the program fail in turn.", each, others)


if __name__ == "__main__":
    sys.exit(main())
