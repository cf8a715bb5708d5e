"""What a run tells: how far it is, meanwhile, and what it did, at the end."""
import os
import sys
import time
from collections import Counter, defaultdict


class Progress:
    """Tells on standard error how far a run is: in one line of a terminal, or else in some lines."""

    def __init__(self, name, total):
        self.name = name
        self.total = total
        self.number = 0
        self.is_terminal = sys.stderr.isatty()
        self.next_time = time.monotonic() + self.pause()

    def pause(self):
        return 0.2 if self.is_terminal else 10

    def show(self, what, steps=1):
        self.number += steps
        if time.monotonic() < self.next_time and self.number < self.total:
            return
        self.next_time = time.monotonic() + self.pause()
        line = f"{self.name}: {self.number:,} of {self.total:,}: {what}"
        if self.is_terminal:
            print(f"\r\x1b[K{line}", end="", file=sys.stderr, flush=True)
        else:
            print(line, file=sys.stderr, flush=True)

    def end(self):
        if self.is_terminal and self.number:
            print("\r\x1b[K", end="", file=sys.stderr, flush=True)


class Report:
    """What was done, in the order in which it is printed: one line a crate, or a thing left."""

    def __init__(self):
        self.crates = defaultdict(lambda: defaultdict(list))
        self.left = []
        self.notes = defaultdict(Counter)

    def add(self, word, name, what=""):
        """`what`, such as a version, of a crate was brought, or was there already, and so on."""
        self.crates[word][name].append(what)

    def leave(self, what, reason):
        self.left.append((str(what), str(reason)))

    def note(self, word, what):
        """Something that is counted only."""
        self.notes[word][what] += 1

    def is_empty(self):
        return not (self.crates or self.left or self.notes)

    def count(self, word):
        return sum(map(len, self.crates.get(word, {}).values()))

    def lines(self):
        for word, crates in self.crates.items():
            for name, found in crates.items():
                yield " ".join([f"{word}: {name}", *filter(None, found)])
        for word, counts in self.notes.items():
            for what, number in sorted(counts.items()):
                yield f"{word}: {what} ({number:,})"
        for what, reason in self.left:
            yield f"not brought: {what}: {reason}"

    def print(self, last):
        """All lines and the last one, for whoever reads them."""
        try:
            for line in [*self.lines(), last]:
                print(line)
            sys.stdout.flush()
        except BrokenPipeError:
            # What is still buffered goes nowhere, and not into a second fault at the exit.
            os.dup2(os.open(os.devnull, os.O_WRONLY), sys.stdout.fileno())
