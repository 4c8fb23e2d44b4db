"""Counts what the scripts of tests/ find."""

import sys


class Counts:
    """How many comparisons held and how many didn't. Those that didn't are printed, each after the prefix."""

    def __init__(self, prefix=""):
        self.prefix = prefix
        self.passed = self.failed = 0

    def note(self, title, sound):
        """Counts a comparison."""
        if sound:
            self.passed += 1
        else:
            self.failed += 1
            print(f"{self.prefix}{title}")

    def end(self):
        """Prints the last line of a script, and ends it with status 1 where a comparison didn't hold."""
        print(f"{self.passed} passed, {self.failed} failed")
        sys.exit(1 if self.failed else 0)
