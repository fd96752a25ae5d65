"""Counts cases and prints those that fail."""

from supplier.fault import Fault


class Tally:
    def __init__(self):
        self.ran = 0
        self.failed = 0

    def true(self, name, held, about=""):
        self.ran += 1
        if not held:
            self.failed += 1
            print(f"FAILED {name}: {about}", flush=True)

    def equal(self, name, found, expected):
        self.true(name, found == expected, f"{found!r} instead of {expected!r}")

    def holds(self, name, text, *words):
        """The text holds each of the words."""
        lost = [word for word in words if word not in text]
        self.true(name, not lost, f"{lost!r} not in {text!r}")

    def refuses(self, name, words, call, *given):
        """The call ends in a fault whose message holds the words."""
        try:
            found = f"no fault, but {call(*given)!r}"
        except Fault as fault:
            found = str(fault)
        self.holds(name, found, *([words] if isinstance(words, str) else words))
