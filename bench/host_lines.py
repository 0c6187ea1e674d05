#!/usr/bin/env python3
"""Makes the lines of three or five hosts that work on a plan's commands, and what each of them replies to these.

Usage: bench/host_lines.py PLAN --places P --members M [--joins E TABLES] [--outputs FILE] [--into FOLDER]

Into FOLDER (the plan's) it writes for each host K.lines, what the host reads, and K.stdout, what it prints. The
replies are those of a model of hosts (node_model.py), not of the program. FILE is what `upsched maps PLAN` prints
(PLAN with .stdout in place of .toml): the outputs of the hosts have to be these.

Each epoch has another leader, which is asked to lead while the epoch before still has a place left. In each second
epoch the last host gets no letter until its end: then it is told. A command is offered to an epoch until the reply is
`Ended`, and then to the next one. Letters come in the order in which they were sent, each once.

With --joins the last host gets nothing but letters, and nobody tells it anything, until the others are in epoch E. Then
it is asked for its own state, goes to that of host 0, whose tables at the start of epoch E are TABLES (in digits), and
works with the others.
"""
import argparse
import collections
import os
import sys

ROOT = os.path.dirname(os.path.dirname(os.path.abspath(__file__)))
sys.path.insert(0, os.path.join(ROOT, "cluster"))
sys.dont_write_bytecode = True
from node_model import TOLD_AT_ONCE, Host
from supervisor import PlanFault, values_of


def in_turn(outputs):
    """The outputs of values, one after another."""
    left = iter(outputs)
    return lambda value: next(left)


class Hosts:
    """Hosts with one scheduler's outputs, and what each of them read and wrote."""

    def __init__(self, members, places, outputs, joins=None):
        self.places, self.epoch, self.joins = places, 1, joins
        tables = {joins[0]: joins[1]} if joins else {}
        self.hosts = [Host(me, members, places, in_turn(outputs), tables) for me in range(members)]
        if joins:
            self.hosts[-1].output_of = in_turn(outputs[(joins[0] - 1) * places :])
        self.read = [[] for _ in self.hosts]
        self.wrote = [[it.first_line()] for it in self.hosts]
        self.letters = collections.deque()

    def ask(self, host, line):
        reply = self.hosts[host].reply(line)
        self.read[host].append(line)
        self.wrote[host] += reply
        for number, word, *rest in (it.split(" ") for it in reply):
            if word == "letter":
                self.letters.append((int(rest[0]), int(number.split("/")[0]), f"{number} letter {rest[1]}"))
        return reply

    def ask_in(self, epoch, host, words):
        return self.ask(host, f"{epoch}/{self.places} {words}")

    def is_behind(self, host):
        """Whether it lags, and has to join."""
        return bool(self.joins) and host == len(self.hosts) - 1 and self.hosts[host].number < self.joins[0]

    def is_dark(self, epoch, host):
        return not self.joins and epoch % 2 == 0 and host == len(self.hosts) - 1 and host != self.leader(epoch)

    def leader(self, epoch):
        return (epoch - 1) % (len(self.hosts) - bool(self.joins))

    def carry(self):
        while self.letters:
            host, epoch, line = self.letters.popleft()
            if not self.is_dark(epoch, host) or line.split(" ")[2].startswith("06"):
                self.ask(host, line)

    def lead(self, epoch):
        self.ask_in(epoch, self.leader(epoch), "lead")

    def release(self):
        for host in range(len(self.hosts)):
            if not self.is_behind(host):
                self.ask(host, "release 0")

    def join(self):
        """The last host goes to the state of host 0, once that is where it joins."""
        last = len(self.hosts) - 1
        if self.is_behind(last) and self.hosts[0].number == self.joins[0]:
            self.ask(last, "state")
            (state,) = self.ask(0, "state")
            self.ask(last, f"join {state.removeprefix('state ')}")
            self.ask(last, "release 0")

    def offer(self, value):
        """Offers a value to its epoch, and where that has ended, to the next one."""
        reply = self.ask_in(self.epoch, self.leader(self.epoch), f"offer {value.hex()}")
        if not reply[0].endswith("fault 8 Ended"):
            return
        self.end_epoch(self.places)
        self.epoch += 1
        self.offer(value)

    def end_epoch(self, offered):
        """Tells who lags, and has all release what is there; the next release of a full epoch goes on."""
        for host in range(len(self.hosts)):
            if self.is_dark(self.epoch, host):
                for first in range(1, offered + 1, TOLD_AT_ONCE):
                    self.ask_in(self.epoch, self.leader(self.epoch), f"tell {host} {first}")
                    self.carry()
        self.release()
        self.release()
        self.join()

    def work(self, values):
        self.lead(1)
        self.carry()
        for count, value in enumerate(values):
            left = self.places - count % self.places
            if left == 1:
                self.lead(self.epoch + 1)
            self.offer(value)
            self.carry()
            if left % 2 == 0:
                self.release()
        self.end_epoch((len(values) - 1) % self.places + 1)


def outputs_in(path):
    """The outputs that `maps` printed, without their numbers."""
    with open(path, encoding="utf-8") as file:
        return [line.rstrip("\n").partition(" ")[2] for line in file]


def write(folder, name, lines):
    with open(os.path.join(folder, name), "w", encoding="utf-8") as file:
        file.writelines(line + "\n" for line in lines)


def main():
    words = argparse.ArgumentParser(description=__doc__, formatter_class=argparse.RawDescriptionHelpFormatter)
    words.add_argument("plan")
    words.add_argument("--places", type=int, required=True)
    words.add_argument("--members", type=int, choices=(3, 5), required=True)
    words.add_argument("--joins", nargs=2, metavar=("E", "TABLES"))
    words.add_argument("--outputs")
    words.add_argument("--into")
    given = words.parse_args()
    if not 1 <= given.places <= 999000:
        words.error("places are 1 to 999000")
    try:
        values = values_of(given.plan, 0)
        outputs = outputs_in(given.outputs or os.path.splitext(given.plan)[0] + ".stdout")
        joins = (int(given.joins[0]), bytes.fromhex(given.joins[1])) if given.joins else None
    except (OSError, ValueError, PlanFault) as fault:
        words.exit(1, f"host_lines.py: {fault}\n")
    if len(outputs) != len(values) or not values:
        words.exit(1, f"host_lines.py: {len(outputs)} outputs of {len(values)} commands\n")
    it = Hosts(given.members, given.places, outputs, joins)
    it.work(values)
    assert all(host.given == len(values) for host in it.hosts)
    folder = given.into or os.path.dirname(os.path.abspath(given.plan))
    for host in range(given.members):
        write(folder, f"{host}.lines", it.read[host])
        write(folder, f"{host}.stdout", it.wrote[host])


if __name__ == "__main__":
    main()
