#!/usr/bin/env python3
"""What calls of the Python package cost, in microseconds of processor time: the least of three runs of each.

A plan's commands are made as dataclasses and applied, and so are their bytes.

Usage: bench/python.py PLAN
"""
import sys
import time
import tomllib
from pathlib import Path

TOP = Path(__file__).resolve().parent.parent
sys.path.insert(0, str(TOP / "python"))

import upsched
from tests.plans import command_of

RUNS = 3


def least(work, count):
    """Processor time of one of so many, in microseconds."""
    times = []
    for _ in range(RUNS):
        began = time.process_time()
        work()
        times.append(time.process_time() - began)
    return min(times) / count * 1e6


def apply_all(makers):
    """Makes each command by its class and its fields, and applies it to one scheduler."""
    with upsched.Machine() as machine:
        for made, fields in makers:
            machine.apply(made(**fields))


def hear_all(bodies):
    """100 modems hear MAPs that are read once, and are asked what comes next."""
    modems = [upsched.Modem(number) for number in range(100)]
    for modem in modems:
        modem.hear(upsched.ChannelSet(1, 1), 0)
    for output in bodies:
        with upsched.Map(output) as heard:
            for modem in modems:
                modem.hear(heard, output.start)
                modem.next(1, output.start)


def main():
    commands = [command_of(table) for table in tomllib.loads(Path(sys.argv[1]).read_text())["command"]]
    makers = [(type(command), vars(command)) for command in commands]
    print(f"{len(commands)} commands, each made and applied: {least(lambda: apply_all(makers), len(makers)):.2f} us")
    with upsched.Machine() as machine:
        machine.apply(upsched.Channel(1, 1, 1000))
        bodies = [machine.apply(upsched.Cut(1, 160)) for _ in range(200)]
    count = 100 * len(bodies)
    print(f"{count} times a modem hears a MAP and says what is next: {least(lambda: hear_all(bodies), count):.2f} us")
    body = bodies[0].body
    print(f"decode of a body: {least(lambda: [upsched.decode(body) for _ in range(10000)], 10000):.2f} us")


main()
