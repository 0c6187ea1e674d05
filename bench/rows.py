#!/usr/bin/env python3
"""Times the tables of a scheduler as bytes, read and written by the shared library of the tree (`make -C c shared`).

On each of so many channels there are so many best-effort flows, whose leases have begun at different minislots, and 118
requests wait, if there are as many flows. Of ten reads and ten writes the fastest counts. The memory is what the process
grew by in the first read, at its most, with the tables that were made.

Usage: bench/rows.py [CHANNELS FLOWS]   8 channels of 8191 flows, where nothing is said
"""
import os
import struct
import sys
import time

sys.path.insert(0, os.path.join(os.path.dirname(os.path.dirname(os.path.abspath(__file__))), "python"))
NEXT_START = 1_000_000
LAST_TIME = 1 << 62
MOST_WAITING = 118


def channel(ch, flows):
    """The bytes of a channel's table (docs/formats.md, "Tables as bytes")."""
    sids = range(1, flows + 1)
    yield bytes([1, ch, 7]) + struct.pack(">H", 16) + bytes([2, 5, 3, 8]) + struct.pack(">Q", 1000)
    yield struct.pack(">QQ", NEXT_START, NEXT_START - 1)
    yield struct.pack(">H", flows)
    for sid in sids:
        yield struct.pack(">IIQQ", sid, ch, sid, LAST_TIME)
    yield struct.pack(">H", flows)
    for sid in sids:
        yield struct.pack(">HBBQBQ", sid, 0, sid % 8, 0, 1, NEXT_START + sid)
    waiting = sids[:MOST_WAITING]
    yield bytes([len(waiting)])
    for sid in waiting:
        yield struct.pack(">HHQ", sid, 1 + sid % 255, NEXT_START + sid)


def kib_of(name):
    """A number of KiB in what the system says of the process."""
    with open("/proc/self/status", encoding="ascii") as lines:
        return next(int(line.split()[1]) for line in lines if line.startswith(name))


def fastest(call):
    best = None
    for _ in range(10):
        start = time.process_time()
        made = call()
        taken = time.process_time() - start
        best = taken if best is None else min(best, taken)
    return 1000 * best, made


def main():
    words = sys.argv[1:] or ["8", "8191"]
    if len(words) != 2 or not all(word.isdigit() for word in words):
        sys.exit(__doc__)
    channels, flows = map(int, words)
    if channels > 256 or not 1 <= flows <= 8191:
        sys.exit(__doc__)
    from upsched import Machine
    tables = struct.pack(">H", channels) + b"".join(part for ch in range(channels) for part in channel(ch, flows))
    before = kib_of("VmRSS:")
    machine = Machine.open(tables)
    grown = kib_of("VmHWM:") - before
    read, _ = fastest(lambda: Machine.open(tables))
    write, saved = fastest(machine.save)
    print(f"{channels} channels of {flows} flows: {len(tables)} bytes")
    print(f"read {read:.1f} ms, written {write:.1f} ms, memory {grown / 1024:.1f} MiB")
    sys.exit(0 if saved == tables else "other bytes are written")


main()
