#!/usr/bin/env python3
"""No chain of crates is longer than eight: each waits for the proof of the one that it stands on.

It goes by crates.txt. Crates of the kit don't count, nor do those that hold tests alone. Prints the longest
chain, from the lowest crate up, and ends with status 1 where it is longer."""

import pathlib
import sys

ROOT = pathlib.Path(__file__).resolve().parent.parent
LONGEST = 8
# Crates that hold tests alone: no crate waits for one.
TESTS = {"wl_tests"}


def read_crates(text):
    """For each crate, those that it stands on, as the lines of crates.txt say."""
    lines = [line.partition("#")[0].strip() for line in text.splitlines()]
    named = [line.partition(":")[::2] for line in lines if line]
    return {name.split()[0]: uses.replace(",", " ").split() for name, uses in named}


def longest_chain(crates):
    """The longest list of crates, each of which stands on the one before it. Of equal ones it is the first."""
    chains = {}

    def chain_to(name):
        if name not in chains:
            below = [chain_to(use) for use in crates[name] if use in crates]
            chains[name] = max(below, key=len, default=[]) + [name] * (name not in TESTS)
        return chains[name]

    return max(map(chain_to, crates), key=len, default=[])


def main():
    chain = longest_chain(read_crates((ROOT / "crates.txt").read_text()))
    print(f"the longest chain of crates, {len(chain)} of at most {LONGEST}: {', '.join(chain)}")
    if len(chain) > LONGEST:
        sys.exit("the chain of crates is too long: 0 passed, 1 failed")


if __name__ == "__main__":
    main()
