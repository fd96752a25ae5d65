"""A line on standard error for whatever takes longer than a second."""

import sys
import time


class Progress:
    def __init__(self):
        self.last = time.monotonic()

    def say(self, text):
        now = time.monotonic()
        if now - self.last >= 1:
            self.last = now
            print(text, file=sys.stderr, flush=True)
