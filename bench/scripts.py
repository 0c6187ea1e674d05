#!/usr/bin/env python3
"""Prints a script of about so many events over three nodes.

Usage: bench/scripts.py KIND COUNT
"""
import sys


class Script:
    """Events, and the numbers of the letters that they send."""

    def __init__(self):
        self.sent = 0
        print("members = 3")

    def event(self, kind, letters, **keys):
        """Prints an event, and answers the number of the first of so many letters that it sends."""
        print("[[event]]\nkind = \"%s\"" % kind)
        for key, value in keys.items():
            print(key, "=", '"%s"' % value if isinstance(value, str) else value)
        first = self.sent
        self.sent += letters
        return first

    def lead(self, node):
        """The node leads, with the promises of itself and of the next node, which report nothing."""
        prepares = self.event("lead", 3, node=node)
        promises = [self.event("deliver", 1, letter=prepares + to) for to in (node, (node + 1) % 3)]
        for letter in promises:
            self.event("deliver", 0, letter=letter)

    def offer(self, node):
        """A value, as a noop; the first of its three Accepts."""
        return self.event("offer", 3, node=node, value="00")


def places(count):
    """Values that one node voted for: node 0 counts its vote at each, and none is learned."""
    script = Script()
    script.lead(0)
    for _ in range(count // 3):
        accepts = script.offer(0)
        voted = script.event("deliver", 3, letter=accepts + 1)
        script.event("deliver", 0, letter=voted)


def leads(count):
    """Values that node 0 learns, then as many leads of it."""
    script = Script()
    script.lead(0)
    for _ in range(count // 6):
        accepts = script.offer(0)
        votes = [script.event("deliver", 3, letter=accepts + to) for to in (0, 1)]
        for letter in votes:
            script.event("deliver", 0, letter=letter)
    for _ in range(count // 6):
        script.event("lead", 3, node=0)


def prepares(count):
    """Values that node 2 learns and never voted for, then Prepares from place 1 on.

    Each is answered with Known of 64 places.
    """
    script = Script()
    script.lead(0)
    learned = count // 6
    for _ in range(learned):
        accepts = script.offer(0)
        votes = [script.event("deliver", 3, letter=accepts + to) for to in (0, 1)]
        for letter in votes:
            script.event("deliver", 0, letter=letter + 2)
    for _ in range(count // 60):
        letters = script.event("lead", 3, node=1)
        script.event("deliver", min(64, learned) + 1, letter=letters + 2)


def takeover(count):
    """So many votes of node 1, which one Promise reports to node 2; node 2 proposes all of them again."""
    script = Script()
    script.lead(0)
    for _ in range(count):
        accepts = script.offer(0)
        script.event("deliver", 3, letter=accepts + 1)
    letters = script.event("lead", 3, node=2)
    promises = [script.event("deliver", 1, letter=letters + to) for to in (1, 2)]
    for letter in promises:
        script.event("deliver", 0, letter=letter)


kind, count = sys.argv[1], int(sys.argv[2])
{"places": places, "leads": leads, "prepares": prepares, "takeover": takeover}[kind](count)
