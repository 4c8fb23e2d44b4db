#!/usr/bin/env python3
"""Holds docs/CLAIMS.md against the repository: each function, definition and clause that a row of it names is there and
is public, and each wrong body that a row names is an edit in must-fail/ or tests/wrong/. No clause of a public
function speaks in the words of specs/steps/, which are those of proofs.

    tests/claims.py

It also says how many edits the page doesn't name. The last line is `N passed, M failed`."""

import pathlib
import re
import sys

ROOT = pathlib.Path(__file__).resolve().parent.parent
sys.path.insert(0, str(ROOT / "tools"))

import clauses  # noqa: E402
import counting  # noqa: E402
import documents  # noqa: E402

PAGE = documents.DOCS / "CLAIMS.md"
TITLE = ["promise", "clause", "refused"]
CRATES = {path.name for path in (ROOT / "crates").iterdir()}
# What the standard library has.
FOREIGN = {"Display", "YieldsFirst"}
IMPLEMENTED = re.compile(r"^(?:unsafe )?impl(?:<[^{]*?>)? (?:[\w:]+(?:<[^{]*?>)?) for [^{]*\{", re.M)
TYPE = re.compile(r"^ *pub (?:struct|enum|trait|const|static|type) (\w+)", re.M)
CASES = re.compile(r"^pub enum \w+[^{]*\{", re.M)
RECORD = re.compile(r"^pub record ([\w-]+)((?:\n(?!\n).*|.)*)", re.M)

counts = counting.Counts()
note = counts.note


def stretches(code, pattern):
    """The places at which the blocks of braces begin and end that begin so."""
    for block in pattern.finditer(code):
        yield block.end(), clauses.closing_brace(code, block.end() - 1)


class Public:
    """What is public in all crates: for each function the names of its clauses, types with their cases, definitions, and
    the fields of records."""

    def __init__(self):
        self.functions, self.names, self.fields = {}, set(FOREIGN), {}
        for path in sorted(ROOT.glob("crates/*/src/**/*.rt")):
            self.add_code(re.sub(r"//[^\n]*", "", path.read_text()))
        for path in sorted(ROOT.glob("crates/*/specs/**/*.antt")):
            if "declared" not in path.parts:
                self.add_definitions(re.sub(r"--[^\n]*", "", path.read_text()))

    def add_code(self, code):
        """A file of code. Functions of traits are as public as the trait."""
        shared = [*stretches(code, IMPLEMENTED), *stretches(code, re.compile(r"^pub trait [^{]*\{", re.M))]
        for function in clauses.FUNCTION.finditer(code):
            place = function.start()
            if function[1] != "pub " and not any(begin <= place < end for begin, end in shared):
                continue
            head = clauses.HEAD.search(code, function.end())
            found = clauses.clauses_from(code, head.start())[0] if head else []
            self.functions.setdefault(function[2], set()).update(clause.split()[1] for clause in found)
        self.names |= set(TYPE.findall(code))
        for begin, end in stretches(code, CASES):
            self.names |= set(re.findall(r"^    (\w+)", code[begin:end], re.M))

    def add_definitions(self, text):
        """A file of definitions."""
        self.names |= set(clauses.DEFINITION.findall(text))
        for record in RECORD.finditer(text):
            fields = re.findall(r"^\s+pub ([\w-]+)", record[2], re.M)
            self.fields.setdefault(record[1], set()).update(fields)

    def has(self, name):
        """Whether a function, a type, a case or a definition has this name; * stands for any letters."""
        if "*" in name:
            return any(re.fullmatch(name.replace("*", r"\w+"), known) for known in self.functions)
        return name in self.functions or name in self.names or name in CRATES


def edits():
    """The names of the wrong bodies that are tried, each with the crates that it is of."""
    found = {}
    for path in [*ROOT.glob("crates/*/must-fail/*.edit"), *ROOT.glob("tests/wrong/*/*.edit")]:
        crate = path.parent.parent.name if path.parent.name == "must-fail" else path.parent.name
        found.setdefault(path.stem, set()).add(crate)
    return found


def names_in(cell, public, spoken):
    """Sees that each name of a cell is public, or a clause of a function that this row or one before it names, or a field
    of a record that the cell names. Adds the functions of the cell to those."""
    spans = re.findall(r"`([^`]+)`", cell)
    names = [span.split("::")[-1] for span in spans]
    spoken |= set(names) & set(public.functions)
    records = {name.split(".")[0] for name in names}
    inner = set().union(*(public.functions[name] for name in spoken), *(public.fields.get(name, ()) for name in records))
    for name in names:
        owner, _, field = name.rpartition(".")
        if owner:
            note(f"{owner} has no field {field}", field in public.fields.get(owner, ()))
        else:
            note(f"{name} is neither public, nor a clause or a field of what is named", public.has(name) or name in inner)


def clauses_of_steps():
    """Sees that what specs/steps/ of a crate defines stands in no clause of a public function."""
    imported = re.compile(r"^ghost use Rattle\.\w+\.specs\.steps\.\w+\.\{([^}]*)\};", re.M)
    for path in sorted(ROOT.glob("crates/*/src/**/*.rt")):
        text = path.read_text()
        words = {name.split(" as ")[-1].strip() for names in imported.findall(text) for name in names.split(",")}
        for function in clauses.functions_in(text, every=False) if words else ():
            cited = words & set(re.findall(r"[\w-]+", function.partition(" | ")[2]))
            note(f"{path.relative_to(ROOT)}: {function.split('(')[0]} is said by {sorted(cited)}", not cited)


def main():
    clauses_of_steps()
    public, known, named = Public(), edits(), set()
    for part in documents.parts_of(PAGE):
        heading, spoken = part[0], set()
        for title, rows in part[1]:
            for _, clause, refused in rows if title == TITLE else ():
                names_in(clause, public, spoken)
                crates = {name for name in re.findall(r"`(\w+)`", heading + refused) if name in CRATES}
                for name in set(re.findall(r"`(\w+)`", refused)) - CRATES:
                    note(f"the wrong body {name} is no file of {sorted(crates)}", known.get(name, set()) & crates)
                    named.add(name)
    left = sorted(set(known) - named)
    print(f"wrong bodies that the page doesn't name: {len(left)}", *left, sep="\n    ")
    counts.end()


if __name__ == "__main__":
    main()
