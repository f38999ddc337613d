"""Counts checks, and names those that fail."""
import threading


class Checks:
    """The checks of a module, by what it calls itself. Several threads may count at once."""

    def __init__(self, title):
        self.title, self.passed, self.failed, self.counting = title, 0, 0, threading.Lock()

    def __call__(self, name, holds, seen=None):
        """Counts a check, and names one that fails, with what was seen, if that is given."""
        self.add(1, holds)
        if not holds:
            print("%s: %s%s" % (self.title, name, "" if seen is None else ": %.300r" % (seen,)))

    def add(self, count, holds):
        """So many that passed, or one that failed."""
        with self.counting:
            self.passed, self.failed = self.passed + count * bool(holds), self.failed + (not holds)

    def status(self):
        """Prints the counts. The status is 0 where something passed and nothing failed."""
        print("%s: %d passed, %d failed" % (self.title, self.passed, self.failed))
        return 1 if self.failed or not self.passed else 0


def count_calls(title, what, calls):
    """Of calls with their names, whether each was right, and how many things it counts for: names the wrong ones, and prints the counts. Gives the status."""
    checks = Checks(title)
    for name, is_right, count in calls:
        checks.add(count, is_right)
        if not is_right:
            print("%s: %s: wrong" % (title, name))
    print("%s: %d %s passed, %d calls failed" % (title, checks.passed, what, checks.failed))
    return 1 if checks.failed or not checks.passed else 0
