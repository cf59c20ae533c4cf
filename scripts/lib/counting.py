"""How what is written in Python here counts what passed."""
import os
import sys

# How many offences are shown.
SHOWN = 50


class Counts:
    """How much passed, and how much failed."""

    def __init__(self):
        self.passed = self.failed = 0

    def add(self, done, offences):
        """Counts what was done, in which there were these offences."""
        self.passed += max(done - len(offences), 0)
        for it in offences:
            self.failed += 1
            if self.failed <= SHOWN:
                print(f"{os.path.basename(sys.argv[0])}: {it}")

    def holds(self, is_so, what):
        """Counts whether something is so, and says what isn't."""
        self.add(1, [] if is_so else [what])

    def needs(self, is_so, what):
        """Counts what isn't so, and nothing where it is."""
        self.add(0, [] if is_so else [what])

    def same(self, name, wanted, got):
        """Compares what is there with what should be."""
        self.holds(wanted == got, f"{name}\n  wanted: {wanted!r}\n  got:    {got!r}")

    def end(self):
        """Prints the last line, `N passed, M failed`, and answers the status, which is 1 where
        something failed or nothing passed."""
        print(f"{self.passed} passed, {self.failed} failed")
        return 1 if self.failed or not self.passed else 0
