#!/usr/bin/env python3
"""Makes each object of this folder from its bytes in hexadecimal: NAME.o from NAME.hex.

With --check it writes nothing, and fails where an object isn't what its bytes say.
"""

import pathlib
import sys


def object_bytes(source):
    """The bytes that a file in hexadecimal stands for, without what follows #."""
    lines = source.read_text().splitlines()
    return bytes.fromhex(" ".join(line.split("#")[0] for line in lines))


def main():
    check = sys.argv[1:] == ["--check"]
    for source in sorted(pathlib.Path(__file__).parent.glob("*.hex")):
        wanted = object_bytes(source)
        made = source.with_suffix(".o")
        if not check:
            made.write_bytes(wanted)
        elif not made.exists() or made.read_bytes() != wanted:
            sys.exit(f"{made} isn't what {source} says")


if __name__ == "__main__":
    main()
