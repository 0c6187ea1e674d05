"""A life of `upsched host` that is asked a line at a time, and lines by which host 1 of 3 works by itself: those that
hosts 0 and 2 would send it. bench/host_kills.py and bench/host_folders.py use them."""
import argparse
import os
import re
import shutil
import subprocess
import sys
import tempfile

ROOT = os.path.dirname(os.path.dirname(os.path.abspath(__file__)))
sys.path.insert(0, os.path.join(ROOT, "cluster"))
sys.dont_write_bytecode = True
from node_process import HostReply, host_words
from process import CHANNEL, CUT, FLOW
from strace import letter
from supervisor import bytes_of

ME, MEMBERS, PLACES = 1, 3, 2
ACCEPT, VOTED = 3, 4
BALLOT = 8
REQUEST = dict(kind="request", ch=1, sid=1, n=20, sent=990)
FIRST = re.compile(r"host 1 of 3 places \d+ (fresh|waits|restarted (\d+) ([0-9a-f]{16}))")


def main_of(usage, make, needs=()):
    """Reads the words, and has what `make` makes of them do all; the status. It has a count `wrong`."""
    words = argparse.ArgumentParser(description=usage, formatter_class=argparse.RawDescriptionHelpFormatter)
    words.add_argument("program", nargs="?", default=os.path.join(ROOT, "crates/upsched/out/upsched"))
    words.add_argument("--each", type=int, default=1, metavar="N")
    given = words.parse_args()
    for needed in (given.program, *needs):
        if not shutil.which(needed):
            words.exit(1, f"{words.prog}: {needed} isn't there\n")
    if given.each < 1:
        words.error("N is 1 or more")
    with tempfile.TemporaryDirectory(prefix="hosts-") as room:
        made = make(os.path.abspath(given.program), os.path.realpath(room), given.each)
        made.all()
    print(f"{made.wrong} wrong")
    return 1 if made.wrong else 0


class Wrong(Exception):
    """Something that must not be."""


class Life:
    """One process. `prefix` are the words of a program that starts it."""

    def __init__(self, program, folder, word=None, prefix=(), **other):
        who = dict(host=ME, members=MEMBERS, places=PLACES) | other
        words = host_words(program, who["host"], who["members"], who["places"], folder, word)
        pipes = dict(stdin=subprocess.PIPE, stdout=subprocess.PIPE, stderr=subprocess.PIPE)
        self.child = subprocess.Popen([*prefix, *words], **pipes)
        lines = self.read(None)
        self.first = lines[0].decode() if lines else None

    def read(self, asked):
        """The lines of a reply; None where the process ended within it."""
        reply = HostReply(asked)
        while line := self.child.stdout.readline():
            if reply.takes(line.rstrip(b"\n")):
                return reply.lines
        return None

    def ask(self, line):
        try:
            self.child.stdin.write(line.encode() + b"\n")
            self.child.stdin.flush()
        except BrokenPipeError:
            return None
        return self.read(line)

    def end(self):
        """Its status, and what it wrote to standard error."""
        try:
            self.child.stdin.close()
        except BrokenPipeError:
            pass
        self.child.stdout.read()
        errors = self.child.stderr.read().decode(errors="replace")
        return self.child.wait(), errors


def value(number):
    """The value of the place with this number over all epochs."""
    return bytes_of([CHANNEL, FLOW, REQUEST][number - 1] if number < 4 else CUT | dict(ack=1000 + number))


def place_lines(epoch, place, places, what):
    """The lines by which host 1 votes for a place's value, learns it and releases its output."""
    yield f"{epoch}/{places} {letter(ACCEPT, 0, BALLOT, place, value=what)}"
    for voter in (0, 2):
        yield f"{epoch}/{places} {letter(VOTED, voter, BALLOT, place, value=what)}"
    yield "release 0"


def work_lines(first, last):
    """Lines that fill the epochs from the first to the last one, and go on behind it."""
    for epoch in range(first, last + 1):
        for place in range(1, PLACES + 1):
            yield from place_lines(epoch, place, PLACES, value((epoch - 1) * PLACES + place))
        yield "release 0"


class Seen:
    """What lives over one folder gave: outputs by number, and how they began."""

    def __init__(self, known=None):
        self.outputs, self.digests, self.state, self.known = {}, {}, None, known

    def begins(self, life):
        """Takes its first line; whether it is there."""
        said = FIRST.fullmatch(life.first or "")
        if life.first is not None and not said:
            raise Wrong(f"began with {life.first!r}")
        if said and said[2]:
            self.agree("digests", int(said[2]), said[3])
        return said is not None

    def agree(self, kind, key, found):
        """The same as before in these lives, and in those without a fault, if there were some."""
        for seen in (self, self.known) if self.known else (self,):
            if getattr(seen, kind).get(key, found) != found:
                raise Wrong(f"{kind} {key}: {getattr(seen, kind)[key]!r} before, {found!r} now")
        getattr(self, kind)[key] = found

    def drive(self, life, lines):
        """Asks all lines; whether it lived on. Faults and refusals that came are gathered."""
        came = set()
        for line in lines:
            if (reply := life.ask(line)) is None:
                return False, came
            head = reply[0].decode()
            if "fault" in head or "error" in head:
                came.add(head.partition(" ")[2] if "/" in head else head)
            for one in (it.decode() for it in reply):
                if one.startswith("place "):
                    _, number, text = one.split(" ", 2)
                    self.agree("outputs", int(number), text)
                elif one.startswith("state "):
                    self.state = one
        return True, came

    def check_whole(self, known):
        """All that lives without a fault gave is there."""
        if self.outputs != known.outputs or self.state != known.state:
            lacks = sorted(set(known.outputs) - set(self.outputs))
            raise Wrong(f"lacks outputs {lacks}; its state is{' not' * (self.state != known.state)} as it should be")
