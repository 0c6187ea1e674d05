"""The upstream channel with 100 modems of c/sim.cpp, which says what it simulates: this prints what that prints. The
processor time goes to standard error.

Usage: sim.py [SECONDS] [LOAD]
"""
import sys
import time
from collections import deque
from functools import reduce
from operator import add

from mersenne import WORD, Mersenne
from upsched import (
    BestEffort, Channel, Cut, EventKind, Iuc, Machine, Map, Modem, Refused, Request, SendingKind, Ugs, decode,
)

CHANNEL, SLOTS, VOICES, MODEMS, SLOT_MS = 1, 160, 20, 100, 0.0125
AHEAD = 2 * SLOTS


def drawn(modem, slot):
    """The number from which a modem draws its back-off at a minislot (splitmix64)."""
    x = ((modem << 48) + slot + 0x9E3779B97F4A7C15) & WORD
    x = (x ^ (x >> 30)) * 0xBF58476D1CE4E5B9 & WORD
    x = (x ^ (x >> 27)) * 0x94D049BB133111EB & WORD
    return x ^ (x >> 31)


class Station:
    """A modem, and of one that asks the packets that come to it: when each came, and its minislots."""

    def __init__(self, number, mean_gap):
        self.modem, self.number, self.asks, self.packets = Modem(number + 1), number, number >= VOICES, deque()
        self.random, self.rate = Mersenne(number + 1), 1 / mean_gap
        self.comes = int(self.random.exponential(self.rate)) if self.asks else sys.maxsize

    def want(self, slot):
        """Packets that have come by a minislot are wanted, one after another."""
        while self.comes <= slot:
            self.packets.append((self.comes, 4 + self.random.next() % 17))
            self.comes += 1 + int(self.random.exponential(self.rate))
        if self.packets:
            self.modem.want(CHANNEL, self.sid, self.packets[0][1])

    def send(self, start, open_until, owners, asked):
        """What the modem does in the minislots of a MAP: those it sends data in, and where it asks."""
        end, slot = start + SLOTS, start
        self.want(slot)
        while slot < end:
            event = self.modem.next(CHANNEL, slot)
            at = event.slot if event else end
            slot = min(at, self.comes)
            if slot >= end:
                break
            if self.comes <= at:
                self.want(slot)
            elif event.kind == EventKind.GRANT:
                owners.extend(range(slot, min(event.last + 1, end)))
                slot = min(event.last + 1, end)
                self.want(slot - 1)
            else:
                sending, until = None, min(open_until.get(slot, 0), end)
                while not sending and (slot < until or slot == at):
                    sending, slot = self.modem.tick(CHANNEL, slot, drawn(self.number, slot)), slot + 1
                if sending and sending.kind == SendingKind.REQUEST:
                    asked.setdefault(slot - 1, []).append(sending)
                self.want(slot - 1)


def account(output, stations, delays, open_until):
    """How many minislots a MAP grants, how long their packets waited, and which ones are open to all."""
    used, elements = 0, decode(output.body).elements
    for one, behind in zip(elements, elements[1:]):
        at, until = output.start + one.offset, output.start + behind.offset
        if one.iuc == Iuc.NULL:
            break
        if one.iuc == Iuc.REQUEST:
            open_until.update(dict.fromkeys(range(at, until), until))
            continue
        used += until - at
        station = stations[one.sid - 1]
        if not station.asks:
            delays["voice"].append((at - (AHEAD + 80 * (one.sid - 1))) % 1600 * SLOT_MS)
        elif station.packets:
            delays["best effort"].append((at - station.packets.popleft()[0]) * SLOT_MS)
    return used


def main(seconds=2.0, load=0.5):
    """Simulates so many seconds of the channel, and prints what became of them."""
    machine, delays, open_until = Machine(), {"best effort": [], "voice": []}, {}
    channel = machine.apply(Channel(CHANNEL, ucd=7, base=AHEAD))
    stations = [Station(number, (MODEMS - VOICES) * 12 / load) for number in range(MODEMS)]
    for i, one in enumerate(stations):
        flow = BestEffort(CHANNEL, i + 1, 1, priority=i % 3) if one.asks else None
        lease = machine.apply(flow or Ugs(CHANNEL, i + 1, 1, 8, interval=1600, jitter=80, base=AHEAD + 80 * i))
        one.sid = lease.sid
        one.modem.hear(channel, 0), one.modem.hear(lease, 0)
    waiting, maps, used, requests, collisions, refused, twice = [], 0, 0, 0, 0, 0, 0
    for now in range(0, int(seconds * 1000 / SLOT_MS), SLOTS):
        refused += sum(isinstance(machine.apply(request), Refused) for request in waiting)
        output = machine.apply(Cut(CHANNEL, SLOTS, ack=now))
        maps, used = maps + 1, used + account(output, stations, delays, open_until)
        owners, asked = [], {}
        with Map(output) as heard:
            for one in stations:
                one.modem.hear(heard, now)
                one.send(now, open_until, owners, asked)
        open_until = {at: until for at, until in open_until.items() if at >= now + SLOTS}
        twice += len(owners) - len(set(owners))
        requests, collisions = requests + sum(map(len, asked.values())), collisions + sum(
            len(who) > 1 for who in asked.values())
        waiting = [Request(CHANNEL, who[0].sid, who[0].minislots, at) for at, who in sorted(asked.items())
                   if len(who) == 1]
    print(f"{maps} MAPs, {requests} requests sent, {collisions} collisions, {refused} refused, minislots with two "
          f"owners {twice}")
    for name, found in delays.items():
        if found:
            found.sort()
            print(f"{name:12} {len(found):8} grants, delay mean {reduce(add, found) / len(found):7.3f} ms, 99th "
                  f"percentile {found[len(found) * 99 // 100]:7.3f} ms")
    print(f"utilisation  {used / (maps * SLOTS):.3f} of the minislots")
    return twice != 0


if __name__ == "__main__":
    words = [float(word) for word in sys.argv[1:]]
    failed = main(*words)
    took, simulated = time.process_time(), words[0] if words else 2.0
    print(f"events: {took:.3f} s, {simulated / took:.1f} times real time", file=sys.stderr)
    sys.exit(failed)
