#!/usr/bin/env python3
"""Makes journals of three nodes and times their audit. Status 1 where it isn't a yes, or not within the goal.

Usage: bench/journal.py --program FILE --lines N --folder DIR

Node 0 leads and proposes noops, all vote for each, and each vote comes to all three. Each node releases after each
hundred places.
"""
import argparse
import os
import sys
import time

MEMBERS, BALLOT, NOOP, EACH = range(3), 8, "00", 100
PREPARE, PROMISE, ACCEPT, VOTED = range(1, 5)
LONGEST, MOST = 60, 1e9


def letter(kind, sender, to, place, value=None):
    """The digits of a letter; a promise has no votes."""
    digits = f"{kind:02x}{sender:02x}{to:02x}{BALLOT:016x}{place:016x}"
    if kind == PROMISE:
        return digits + f"{0:016x}"
    return digits if value is None else digits + f"{len(value) // 2:016x}{value}"


def sent(letters):
    return [f"sent {len(letters)}"] + [f"letter {int(digits[4:6], 16)} {digits}" for digits in letters]


class Journals:
    """The lines of each node, which begin with those of a life."""

    def __init__(self):
        self.lines = [["", f"node {node} of {len(MEMBERS)} fresh"] for node in MEMBERS]
        self.released = 0

    def ask(self, node, line, letters=()):
        """The node replies with these letters, which are given back by receiver."""
        self.lines[node] += [line, *sent(letters)]
        return letters

    def lead(self):
        prepares = self.ask(0, "lead", [letter(PREPARE, 0, to, 1) for to in MEMBERS])
        promises = [self.ask(node, f"letter {prepares[node]}", [letter(PROMISE, node, 0, 1)]) for node in MEMBERS]
        for promise in promises:
            self.ask(0, f"letter {promise[0]}")

    def place(self, place):
        accepts = self.ask(0, f"offer {NOOP}", [letter(ACCEPT, 0, to, place, NOOP) for to in MEMBERS])
        votes = [
            self.ask(node, f"letter {accepts[node]}", [letter(VOTED, node, to, place, NOOP) for to in MEMBERS])
            for node in MEMBERS
        ]
        for vote in votes:
            for node in MEMBERS:
                self.ask(node, f"letter {vote[node]}")
        if place % EACH == 0:
            self.release(place)

    def release(self, place):
        for lines in self.lines:
            lines += ["release 0", f"released {place - self.released}"]
            lines += [f"place {it} nothing" for it in range(self.released + 1, place + 1)]
        self.released = place

    def count(self):
        return sum(map(len, self.lines))


def audit(program, paths):
    """What is printed, and the seconds and the bytes that it took."""
    output, inner = os.pipe()
    began, child = time.perf_counter(), os.fork()
    if child == 0:
        os.dup2(inner, 1)
        os.execv(program, [program, "audit", "--members", str(len(MEMBERS)), *paths])
    os.close(inner)
    _, _, usage = os.wait4(child, 0)
    taken = time.perf_counter() - began
    with os.fdopen(output) as file:
        return file.read().strip(), taken, usage.ru_maxrss * 1024


def main():
    words = argparse.ArgumentParser()
    words.add_argument("--program", required=True)
    words.add_argument("--lines", type=int, default=1_000_000)
    words.add_argument("--folder", required=True)
    given = words.parse_args()
    journals, places = Journals(), 0
    journals.lead()
    while journals.count() < given.lines:
        places += 1
        journals.place(places)
    paths = [os.path.join(given.folder, f"{node}.journal") for node in MEMBERS]
    for path, lines in zip(paths, journals.lines):
        with open(path, "w") as file:
            file.writelines(f"{line}\n" for line in lines)
    size = sum(map(os.path.getsize, paths))
    line, taken, memory = audit(given.program, paths)
    print(f"{journals.count()} lines of {size / 1e6:.0f} MB, {places} places: {line}")
    print(f"{taken:.1f} s (goal {LONGEST}), {memory / 1e6:.0f} MB (goal {MOST / 1e6:.0f})")
    return line != "audit yes" or taken > LONGEST or memory > MOST


if __name__ == "__main__":
    sys.exit(main())
