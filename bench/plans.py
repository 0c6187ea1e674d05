#!/usr/bin/env python3
"""Prints a plan of so many commands, or for `flows` one over so many flows.

Usage: bench/plans.py KIND COUNT
"""
import sys


def channel(ch):
    return {"kind": "channel", "ch": ch, "ucd": 1, "short_max": 16, "ranging": [2, 5], "data": [3, 8], "base": 1000}


def flow(ch, modem, **service):
    return {"kind": "flow", "ch": ch, "modem": modem, "tag": 1, **service}


def best_effort(ch, modem):
    return flow(ch, modem, service="best_effort", priority=modem % 8)


def request(ch, sid, n, sent):
    return {"kind": "request", "ch": ch, "sid": sid, "n": n, "sent": sent}


def cut(ch, len):
    return {"kind": "cut", "ch": ch, "len": len, "not_before": 0, "ack": 0}


def any_kind(ch, modem):
    if modem % 3 == 0:
        return flow(ch, modem, service="ugs", size=1 + modem % 7, interval=600 + modem, jitter=300, base=1000 + modem)
    if modem % 3 == 1:
        return flow(ch, modem, service="poll", interval=500 + modem, jitter=200, base=1000 + modem)
    return best_effort(ch, modem)


def mixed(count):
    """Flows of all kinds on 8 channels; a cut of 4096 minislots after each 8 requests."""
    for ch in range(8):
        yield channel(ch)
        for modem in range(30):
            yield any_kind(ch, modem)
    sids = [sid for sid in range(1, 31) if (sid - 1) % 3 != 0]
    for turn in range(count):
        ch, round = turn % 8, turn // 8
        for k in range(8):
            sid = sids[(8 * round + k) % len(sids)]
            yield request(ch, sid, 1 + (k * 37) % 255, turn + 1)
        yield cut(ch, 4096)


def full(count):
    """Flows of unsolicited grants on one channel: each cut of 4096 minislots has 60 placements."""
    yield channel(1)
    for modem in range(20):
        yield flow(1, modem, service="ugs", size=4, interval=1024, jitter=1000, base=1000 + modem)
    for _ in range(count):
        yield cut(1, 4096)


def waiting(count):
    """118 requests that wait beside unsolicited grants, which take all placements of each cut of 4096 minislots."""
    yield channel(1)
    yield flow(1, 0, service="ugs", size=1, interval=64, jitter=0, base=1002)
    for modem in range(1, 119):
        yield best_effort(1, modem)
    for sid in range(2, 120):
        yield request(1, sid, 1, 1)
    for _ in range(count):
        yield cut(1, 4096)


def channels(count):
    """255 channels in turn, each with two flows: a request, and a cut of 64 minislots."""
    for ch in range(255):
        yield channel(ch)
        yield best_effort(ch, 1)
        yield flow(ch, 2, service="ugs", size=2, interval=64, jitter=32, base=1000)
    for turn in range(count):
        yield request(turn % 255, 1, 4, turn + 1)
        yield cut(turn % 255, 64)


def flows(count):
    """So many best-effort flows on one channel; 20,000 requests, and a cut of 4096 minislots after each 118."""
    yield channel(1)
    for modem in range(count):
        yield best_effort(1, modem)
    for k in range(20000):
        yield request(1, 1 + (k * 631) % count, 1 + k % 40, k + 1)
        if k % 118 == 117:
            yield cut(1, 4096)


def shown(value):
    return '"%s"' % value if isinstance(value, str) else str(value)


kind, count = sys.argv[1], int(sys.argv[2])
made = {"mixed": mixed, "full": full, "waiting": waiting, "channels": channels, "flows": flows}[kind](count)
for number, command in enumerate(made):
    if number == count and kind != "flows":
        break
    print("[[command]]")
    for key, value in command.items():
        print(key, "=", shown(value))
