#!/usr/bin/env python3
"""Carries what hosts on this machine reply, and what a supervisor asks them, among named pipes.

Usage: host_carry.py MEMBERS FOLDER

From FOLDER/from-K come the lines that host K writes, of so many hosts, or of none. A letter goes to the pipe FOLDER/TO,
without the node's number, and each line to FOLDER/replies too, as `K LINE`. From FOLDER/asked come lines `K LINE` of
the supervisor, which go to FOLDER/K. So each pipe has one writer, and no line is too long. It never waits for a pipe,
as carry.py.
"""
import os
import sys

sys.dont_write_bytecode = True
from carry import Carrier, run, words_in


def main():
    members, folder = words_in(__doc__, 2)
    if members not in ("0", "3", "5"):
        print(f"host_carry.py: MEMBERS is '{members}', not 0, 3 or 5", file=sys.stderr)
        sys.exit(2)
    carrier = Carrier(folder)

    def reads(name, take):
        carrier.reads(os.open(os.path.join(folder, name), os.O_RDWR | os.O_NONBLOCK), take)

    for host in range(int(members)):
        reads(f"from-{host}", lambda line, host=b"%d" % host: carrier.take(host, line))

    def asks(line):
        host, _, rest = line.partition(b" ")
        carrier.put(host.decode(), rest)

    reads("asked", asks)
    while carrier.turn():
        pass


if __name__ == "__main__":
    run(main)
