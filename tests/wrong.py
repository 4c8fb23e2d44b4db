#!/usr/bin/env python3
"""Tries the wrong bodies of tests/wrong, which the proofs must refuse: those of crates whose proof takes too
long for the gate.

    tests/wrong.py [CRATE | CRATE/NAME]..

tests/wrong/CRATE/NAME.edit has the form of an edit of must-fail/. Each is made in a copy of the repository,
where `rt check --only` then asks for the functions that it changes, over what `rt check` has kept here, so run
that first: what isn't kept is proved anew. It prints a row for each edit, with the goal that the refusal names.
A refusal that names no goal of a contract shows nothing, and counts as none. The last line is `N refused, M not`,
and the status 1 where M isn't 0."""

import pathlib
import re
import shutil
import subprocess
import sys
import tempfile

ROOT = pathlib.Path(__file__).resolve().parent.parent
WRONG = ROOT / "tests" / "wrong"
# What `rt check` keeps of a crate: what the crates above it read of it, and its own work.
LIBRARY, WORK = "rlib", "incremental"
# What the prover says of a file of proofs that merely lacks a name.
NAME_ALONE = re.compile(r"(\./)?proofs/.*(has no field|is not in scope|has no `|was not admitted)")
REASON = re.compile(r"(note: \S+:\d+:\d+:|\S+:\d+:\d+: error)")


def copy_repository(to, crates):
    """Copies all crates with their libraries, and of those that are asked for what `rt check` has kept."""

    def unwanted(folder, names):
        place = pathlib.Path(folder).relative_to(ROOT / "crates").parts
        if len(place) == 1:
            return {"must-fail"} & set(names)
        if len(place) == 2 and place[1] == "out":
            return set(names) - {LIBRARY, *([WORK] if place[0] in crates else [])}
        return set()

    shutil.copytree(ROOT / "crates", to / "crates", ignore=unwanted)
    for name in ("crates.txt", "HANDLES"):
        if (ROOT / name).exists():
            shutil.copy(ROOT / name, to)


def function_at(path, text, place):
    """The end of the name by which `rt check` knows the function at that place of a file of src/, if one begins before it."""
    heads = re.finditer(r"^( *)(?:pub(?:\(\w+\))? )?fn (\w+)", text[:place], re.M)
    head = max(heads, key=lambda found: found.start(), default=None)
    if head is None:
        return None
    if head[1]:
        # A method is known by the module of its type, which may be another file.
        impls = re.finditer(r"^impl(?:<.*?>)? (?:(\w+)(?:<.*>)? for )?(\w+)", text[: head.start()], re.M)
        trait, name = max(impls, key=lambda found: found.start()).groups()
        return f"{name}{trait or ''}::{head[2]}"
    modules = pathlib.PurePath(path).with_suffix("").parts[1:]
    return "::".join([part for part in modules if part not in ("lib", "main")] + [head[2]])


def apply(edit, folder):
    """Makes the edit in the crate. Answers the texts that were there, by file, and the functions changed."""
    before, functions, path = {}, [], None
    for line in edit.read_text(encoding="utf-8").splitlines():
        word, _, rest = line.partition(": ")
        if word == "file":
            path = folder / rest
            before.setdefault(path, path.read_text(encoding="utf-8"))
        elif word == "old":
            old = rest
        elif word == "new":
            text = path.read_text(encoding="utf-8")
            name = function_at(path.relative_to(folder), text, text.index(old))
            functions += [] if name is None or name in functions else [name]
            path.write_text(text.replace(old, rest), encoding="utf-8")
    return before, functions


def verdict_of(ended):
    """What a check of a wrong body came to, and the goal that it names."""
    lines = ended.stdout.splitlines()
    if ended.returncode == 0:
        return "not refused", ""
    if not any(re.match(r"fn \S+: (not proved|no proof)", line) for line in lines):
        return "not read", next((line for line in lines if "error" in line), lines[-1] if lines else "")
    reasons = [line for line in lines if REASON.match(line)]
    goal = next((line for line in reasons if not NAME_ALONE.match(line)), None)
    return ("refused", goal.removeprefix("note: ")) if goal else ("by a name alone", reasons[0] if reasons else "")


def tried(edit, folder):
    """What a try of the edit in a copy of its crate came to, and the goal."""
    before, functions = apply(edit, folder)
    words = [word for name in functions for word in ("--only", name)]
    # What rt says on standard error goes to the caller's.
    streams = {"stdin": subprocess.DEVNULL, "stdout": subprocess.PIPE}
    ended = subprocess.run(["rt", "check", *words], cwd=folder, text=True, errors="replace", **streams)
    for path, text in before.items():
        path.write_text(text, encoding="utf-8")
    return verdict_of(ended)


def edits_of(words):
    """The edits that are asked for, by crate; all of them where none is named."""
    found = sorted(WRONG.glob("*/*.edit"))
    for word in words:
        if not any(word in (edit.parent.name, f"{edit.parent.name}/{edit.stem}") for edit in found):
            sys.exit(f"tests/wrong has no {word}")
    return [edit for edit in found if not words or {edit.parent.name, f"{edit.parent.name}/{edit.stem}"} & set(words)]


def main():
    edits = edits_of(sys.argv[1:])
    refused = 0
    with tempfile.TemporaryDirectory() as name:
        copy = pathlib.Path(name)
        copy_repository(copy, {edit.parent.name for edit in edits})
        for edit in edits:
            crate = edit.parent.name
            verdict, goal = tried(edit, copy / "crates" / crate)
            print(f"{crate:12}{edit.stem:60}{verdict:18}{goal[:200]}", flush=True)
            refused += verdict == "refused"
    print(f"{refused} refused, {len(edits) - refused} not")
    return 1 if refused < len(edits) else 0


if __name__ == "__main__":
    sys.exit(main())
