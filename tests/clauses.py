#!/usr/bin/env python3
"""Prints each public function with its clauses and each public definition with its text, one a line and sorted,
whatever crate and file they stand in. So `diff` of what it prints before and after a change shows which
promise came, went or changed, and of what was only moved it shows nothing.

    tests/clauses.py [ROOT] [--all]

`fn NAME SIGNATURE | ensures NAME {..} | requires NAME {..}`, `fn law` where its body is empty or calls other
laws alone, and `def NAME | TEXT`. With --all private functions too, those of traits and their implementations
among them."""

import pathlib
import re
import sys

FUNCTION = re.compile(r"^ *(pub(?:\(crate\))? )?fn ([a-z_0-9]+)", re.M)
# What ends a function's signature.
HEAD = re.compile(r"\n\s*(requires|ensures|cost|\{)")
CLAUSE = re.compile(r"\s*(requires|ensures|cost)\s*([a-z_0-9]*)\s*\{")
LAW = re.compile(r"\s*\{\s*([a-z_]+\(\);\s*)*\}")
PUBLIC = re.compile(r"^\s*(abbrev pub|unfoldable pub|pub record|pub data)", re.M)
DEFINITION = re.compile(r"(?:abbrev pub|unfoldable pub|pub record|pub data) ([A-Za-z_0-9-]+)")


def files_of(root, part, ending):
    """The texts of that part of all crates, without the files that rt writes."""
    for path in sorted((root / "crates").glob(f"*/{part}/**/*{ending}")):
        if "declared" not in path.parts:
            yield path.read_text()


def one_line(text):
    """The text with one blank for each stretch of blanks and line ends."""
    return " ".join(text.split())


def closing_brace(text, place):
    """The place of the brace that closes the one at that place."""
    depth = 0
    for brace in re.finditer(r"[{}]", text[place:]):
        depth += 1 if brace[0] == "{" else -1
        if depth == 0:
            return place + brace.start()
    return len(text)


def clauses_from(text, place):
    """The clauses of a function that stand from that place on, and the place after them."""
    clauses = []
    while clause := CLAUSE.match(text, place):
        end = closing_brace(text, clause.end() - 1) + 1
        clauses.append(f"{clause[1]} {clause[2]} {one_line(text[clause.end() - 1 : end])}")
        place = end
    return clauses, place


def functions_in(text, every):
    """A line for each function of a file of code: for each public one, unless every one is asked for."""
    code = re.sub(r"//[^\n]*", "", text)
    for function in FUNCTION.finditer(code):
        head = HEAD.search(code, function.end())
        if head is None or not every and function[1] != "pub ":
            continue
        signature = one_line(code[function.end() : head.start()])
        clauses, end = clauses_from(code, head.start())
        is_law = LAW.match(code, end) and not signature.startswith("(&")
        yield f"fn{' law' if is_law else ''} {function[2]}{signature} | {' | '.join(sorted(clauses))}"


def definitions_in(text):
    """A line for each public definition of a file of specs: a block of lines between blank ones."""
    for block in re.split(r"\n\s*\n", re.sub(r"^--[^\n]*\n", "", text, flags=re.M)):
        name = DEFINITION.search(block) if PUBLIC.search(block) else None
        if name:
            yield f"def {name[1]} | {one_line(block)}"


def main():
    every = "--all" in sys.argv[1:]
    roots = [word for word in sys.argv[1:] if word != "--all"]
    root = pathlib.Path(roots[0] if roots else pathlib.Path(__file__).resolve().parent.parent)
    lines = [line for text in files_of(root, "src", ".rt") for line in functions_in(text, every)]
    lines += [line for text in files_of(root, "specs", ".antt") for line in definitions_in(text)]
    for line in sorted(lines):
        print(line)


if __name__ == "__main__":
    main()
