#!/usr/bin/env python3
"""Counts the lines of each crate: of its code, its definitions and its proofs.

    tests/lines.py [ROOT]

Beside each number stands, after +, how many lines are imports (with the lines that name a crate's files),
comments or blank, and aren't in it."""

import pathlib
import re
import sys

# Each part of a crate, how its files end, and how a comment begins in them.
PARTS = [("src", ".rt", "//"), ("specs", ".antt", "--"), ("proofs", ".antt", "--")]
IMPORT = re.compile(r"(pub(\(crate\))? )?((ghost |unfoldable )?use |mod [^{]*$)")


def count_lines(lines, comment):
    """How many lines say something, and how many are imports, comments or blank."""
    own = apart = 0
    # How many braces of an import are open: it goes on over lines until they close.
    depth = 0
    for line in map(str.strip, lines):
        is_import = depth > 0 or IMPORT.match(line)
        if is_import or not line or line.startswith(comment):
            apart += 1
        else:
            own += 1
        if is_import:
            depth += line.count("{") - line.count("}")
    return own, apart


def count_part(folder, ending, comment):
    """The two counts over all files of a part of a crate."""
    texts = [path.read_text() for path in sorted(folder.rglob("*" + ending))]
    counts = [count_lines(text.splitlines(), comment) for text in texts]
    return tuple(map(sum, zip(*counts))) or (0, 0)


def main():
    root = pathlib.Path(sys.argv[1] if sys.argv[1:] else pathlib.Path(__file__).resolve().parent.parent)
    crates = sorted(folder for folder in (root / "crates").iterdir() if folder.is_dir())
    counted = {crate.name: [count_part(crate / part, *how) for part, *how in PARTS] for crate in crates}
    counted["all"] = [tuple(map(sum, zip(*column))) for column in zip(*counted.values())]
    print(f"{'crate':12}" + "".join(f"{part:>16}" for part, *_ in PARTS))
    for name, numbers in counted.items():
        print(f"{name:12}" + "".join(f"{own:9} {f'+{apart}':>6}" for own, apart in numbers))


if __name__ == "__main__":
    main()
