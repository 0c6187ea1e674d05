#!/usr/bin/env python3
"""Carries what a node replies, from standard input to named pipes.

Usage: carry.py K FOLDER

A line `letter TO HEX` goes to the pipe FOLDER/TO, as `letter HEX`, and with it the number before it, if there is one.
Each line goes to FOLDER/replies too, as `K LINE`.
It never waits for a pipe: a line that finds more than 64 MiB waiting there is lost, as letters may be. So a node can
always write, and goes on reading.
"""
import os
import selectors
import sys

MOST = 64 << 20


class Pipe:
    """A named pipe, and what waits for it. It is open for reading too, so that no reader has to be there."""

    def __init__(self, path):
        self.end = os.open(path, os.O_RDWR | os.O_NONBLOCK)
        self.unsent = bytearray()

    def put(self, line):
        if len(self.unsent) < MOST:
            self.unsent += line + b"\n"

    def write_some(self):
        sent = os.write(self.end, self.unsent[: 1 << 16])
        del self.unsent[:sent]


class Source:
    """Where lines come from, and what is done with each."""

    def __init__(self, end, take):
        self.end, self.take, self.rest = end, take, b""

    def read_some(self):
        """Whether there may be more to read."""
        chunk = os.read(self.end, 1 << 16)
        *lines, self.rest = (self.rest + chunk).split(b"\n")
        for line in lines:
            self.take(line)
        return bool(chunk)


class Carrier:
    def __init__(self, folder):
        self.folder, self.pipes = folder, {}
        self.ready = selectors.DefaultSelector()

    def reads(self, end, take):
        """Has each line that comes there taken so."""
        self.ready.register(end, selectors.EVENT_READ, Source(end, take))

    def put(self, name, line):
        if name not in self.pipes:
            self.pipes[name] = Pipe(os.path.join(self.folder, name))
        pipe = self.pipes[name]
        if not pipe.unsent:
            self.ready.register(pipe.end, selectors.EVENT_WRITE, pipe)
        pipe.put(line)

    def take(self, node, line):
        """A line that a node, or a host, wrote."""
        number, is_letter, rest = line.partition(b"letter ")
        if is_letter:
            to, digits = rest.split(b" ")
            self.put(to.decode(), number + is_letter + digits)
        self.put("replies", node + b" " + line)

    def turn(self):
        """Whether there may be more to read."""
        for key, _ in self.ready.select():
            if isinstance(key.data, Source):
                if not key.data.read_some():
                    return False
                continue
            key.data.write_some()
            if not key.data.unsent:
                self.ready.unregister(key.data.end)
        return True


def words_in(usage, count):
    """The words of a program, which takes so many. With --help, and with others, it prints its usage and ends."""
    words = sys.argv[1:]
    if words in (["-h"], ["--help"]):
        print(usage.strip())
        sys.exit(0)
    if len(words) != count or any(it.startswith("-") for it in words):
        print(usage.strip(), file=sys.stderr)
        sys.exit(2)
    return words


def run(main):
    """Without a traceback where a pipe can't be used, or somebody stops it."""
    try:
        main()
    except (OSError, KeyboardInterrupt) as why:
        print(f"{os.path.basename(sys.argv[0])}: {why or 'interrupted'}", file=sys.stderr)
        sys.exit(1)


def main():
    node, folder = words_in(__doc__, 2)
    carrier, node = Carrier(folder), node.encode()
    carrier.reads(0, lambda line: carrier.take(node, line))
    while carrier.turn():
        pass


if __name__ == "__main__":
    run(main)
