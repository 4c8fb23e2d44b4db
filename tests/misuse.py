#!/usr/bin/env python3
"""Sees that a program which changes objects while a plan of them lives doesn't compile: a plan borrows its objects.

    tests/misuse.py

It is no part of the gate: it compiles a copy of the program, which takes some minutes. The last line is
`N passed, M failed`."""

import pathlib
import shutil
import subprocess
import sys
import tempfile

ROOT = pathlib.Path(__file__).resolve().parent.parent
WRONG = """//! Changes objects while a plan of them lives.

use std::alloc::Global;
use wl_plan::{ObjectList, plan_link};
use wl_words::WasmArgs;

/// Whether a plan has no fields, asked once another object was added.
pub(crate) fn changed_under_a_plan(
    alloc: Global,
    objects: &mut ObjectList,
    args: &WasmArgs,
    more: Vec<u8>,
) -> bool {
    match plan_link(alloc, objects, args) {
        Ok(plan) => {
            let _pushed = objects.push(more);
            plan.fixups.as_slice().is_empty()
        }
        Err(_) => false,
    }
}
"""
WANTED = "src/misuse.rt:16:17: error[borrow-e0502]: cannot borrow `*objects` as mutable"


def reported(copy):
    """What rt says of a copy of the program that has the wrong function."""
    shutil.copytree(ROOT / "crates", copy / "crates", ignore=shutil.ignore_patterns("out"))
    for name in ("crates.txt", "HANDLES"):
        shutil.copy(ROOT / name, copy)
    source = copy / "crates" / "wildplan" / "src"
    (source / "misuse.rt").write_text(WRONG)
    main = source / "main.rt"
    main.write_text(main.read_text().replace("\nmod ", "\nmod misuse;\nmod ", 1))
    command = ["rt", "try", "--", "--version"]
    ended = subprocess.run(command, cwd=source.parent, stdin=subprocess.DEVNULL, capture_output=True, text=True)
    return ended.stdout + ended.stderr


def main():
    with tempfile.TemporaryDirectory() as name:
        said = reported(pathlib.Path(name))
    is_refused = WANTED in said
    if not is_refused:
        print(said)
    print("1 passed, 0 failed" if is_refused else "0 passed, 1 failed")
    sys.exit(0 if is_refused else 1)


if __name__ == "__main__":
    main()
