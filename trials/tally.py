"""Counts what is tried, and says what fails."""
import time

# So many failures of one subject are shown; more are counted.
SHOWN = 10


class NoCase(Exception):
    """A case is asked for that the subject does not have."""


class Tally:
    """The trials of one subject, or one case of them."""

    def __init__(self, subject, commands, case=None):
        self.subject, self.commands, self.case, self.cases = subject, commands, case, []
        self.passed, self.failed, self.runs, self.since, self.seconds = 0, 0, 0, time.monotonic(), 0

    def chosen(self, cases):
        """Of cases by their names, or of functions `try_NAME`, those that are tried: all, or the one that is asked for."""
        named = {it if isinstance(it, str) else it.__name__.removeprefix("try_"): it for it in cases}
        self.cases += named
        self.look()
        return [it for name, it in named.items() if self.case in (None, name)]

    def look(self):
        """Ends the trials where a case is asked for that is not there."""
        if self.case not in (None, *self.cases):
            raise NoCase(f"no case is named {self.case}; there are {' '.join(self.cases) or 'none'}")

    def count(self, runs):
        """So many runs of the program were made."""
        self.look()
        self.runs += runs

    def hold(self, name, wrong):
        """One trial, with what is wrong, or None."""
        self.look()
        if wrong is None:
            self.passed += 1
        else:
            self.fail(f"{name}: {wrong}")

    def fail(self, text):
        self.failed += 1
        if self.failed <= SHOWN:
            self.note(f"FAILED {text}")

    def note(self, text):
        print(f"{self.subject}: {text}", flush=True)

    def close(self):
        """The subject's line."""
        self.seconds = time.monotonic() - self.since
        self.note(f"{self.passed} passed, {self.failed} failed, in {self.runs} runs of the program, {self.seconds:.0f} s")
