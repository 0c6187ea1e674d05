#!/usr/bin/env python3
"""Has three or five `upsched node` processes lead, work on a plan, and cut on a timer. It knows of no transport.

Usage: supervisor.py MEMBERS PLAN [CUTS [SECONDS]]

On standard output it writes `K LINE`: this line is for node K. On standard input it reads `K LINE`: a line of a reply
of node K. The transport carries the letters among these by itself; here they only show what is proposed at each place.
It offers the plan's commands in order, one after another, and then CUTS cuts like the plan's last one (none). A plan
with an unknown kind, or without a key that its kind needs, is refused with status 1. It looks every SECONDS (0.1).
What the nodes release goes to standard error, each place once a node, and whom it asks to lead; the last
line there is `all PLACES`, when every node has released all that was offered.

It asks each node to release, and again when it answered. It asks node 0 to lead, and the next one where no place is
released for a second (SILENCE in the environment, which has to be longer than a slow disk or network takes for a
place). It asks the node that is furthest to tell one that lags. A node that says that its log is full has done its
work: the supervisor ends with status 2. A node that forgot what it promised must never come back: so a process that
ended is started again over its file, and without `--new`.
"""
import collections
import os
import select
import sys
import time
import tomllib


def silence():
    """How many seconds of silence are too many."""
    word = os.environ.get("SILENCE", "1")
    try:
        seconds = float(word)
    except ValueError:
        seconds = 0
    if not 0 < seconds < float("inf"):
        print(f"supervisor: SILENCE is '{word}', no number of seconds", file=sys.stderr)
        sys.exit(2)
    return seconds


SILENCE = silence()


class PlanFault(Exception):
    """Why a plan's commands have no bytes."""


def number(value, size):
    if type(value) is not int or not 0 <= value < 256**size:
        raise PlanFault(f"{value!r} is no whole number below {256**size}")
    return value.to_bytes(size, "big")


def pair(value):
    if not isinstance(value, list) or len(value) != 2:
        raise PlanFault(f"{value!r} is no pair of back-offs")
    return b"".join(number(it, 1) for it in value)


def flow_bytes(command):
    kind = bytes([7 if "last" in command else 2])
    last = number(command["last"], 8) if "last" in command else b""
    head = kind + number(command["ch"], 1) + number(command["modem"], 4) + number(command["tag"], 4) + last
    if command["service"] == "best_effort":
        return head + b"\0" + number(command["priority"], 1)
    due = number(command["interval"], 4) + number(command["jitter"], 4) + number(command["base"], 8)
    if command["service"] == "poll":
        return head + b"\2" + due
    sized = {"ugs": b"\1", "station": b"\3", "initial": b"\4"}
    if command["service"] not in sized:
        raise PlanFault(f'service is "{command["service"]}", none of: best_effort ugs poll station initial')
    return head + sized[command["service"]] + number(command["size"], 2) + due


def cut_bytes(command):
    ch, times = number(command["ch"], 1), number(command["not_before"], 8) + number(command["ack"], 8)
    kept, own = number(command.get("keep", 0), 2), [255, 255]
    settings = kept + pair(command.get("ranging", own)) + pair(command.get("data", own))
    if settings == b"\0\0\xff\xff\xff\xff":
        return b"\5" + ch + number(command["len"], 2) + times
    return b"\x09" + ch + number(command["len"], 2) + times + settings


def bytes_of(command):
    """A plan's command as docs/formats.md has its bytes."""
    kind, ch = command["kind"], number(command.get("ch", 0), 1)
    if kind == "channel":
        backoffs = pair(command["ranging"]) + pair(command["data"])
        first = bytes([6 if command.get("phy") == "advanced" else 1])
        first += ch + number(command["ucd"], 1) + number(command["short_max"], 2)
        return first + backoffs + number(command["base"], 8)
    if kind == "flow":
        return flow_bytes(command)
    if kind == "drop":
        return b"\3" + ch + number(command["sid"], 2)
    if kind == "request":
        return b"\4" + ch + number(command["sid"], 2) + number(command["n"], 2) + number(command["sent"], 8)
    if kind == "cut":
        return cut_bytes(command)
    if kind == "change":
        phy = number(1 if command["phy"] == "advanced" else 0, 1)
        backoffs = pair(command["ranging"]) + pair(command["data"])
        return b"\x0a" + ch + number(command["ucd"], 1) + phy + number(command["short_max"], 2) + backoffs
    if kind == "noop":
        return b"\0"
    raise PlanFault(f'kind is "{kind}", none of: noop channel flow drop request cut change')


def values_of(plan, cuts):
    """A plan's commands as bytes, and behind them so many cuts like its last one."""
    with open(plan, "rb") as file:
        commands = tomllib.load(file).get("command", [])
    values, last = [], None
    if not isinstance(commands, list) or not all(isinstance(it, dict) for it in commands):
        raise PlanFault("command is no array of tables")
    for i, command in enumerate(commands, 1):
        try:
            values.append(bytes_of(command))
        except KeyError as lacks:
            raise PlanFault(f"command {i} lacks {lacks}") from None
        except (PlanFault, TypeError, ValueError) as fault:
            raise PlanFault(f"command {i}: {fault}") from None
        if command["kind"] == "cut":
            last = values[-1]
    if cuts and last is None:
        raise PlanFault("no command is a cut, so none can follow")
    return values + [last] * cuts


class Supervisor:
    def __init__(self, members, values):
        self.members, self.values = members, values
        self.leader, self.heard, self.offered = 0, time.monotonic(), None
        self.proposed = {}  # by place: the greatest ballot and its value
        self.outputs = {}
        self.released = [set() for _ in range(members)]
        # By node: when it was asked to release, if it has not answered that yet.
        self.waiting = [0.0] * members

    def ask(self, node, line):
        print(node, line, flush=True)

    def lead(self, node):
        self.leader, self.heard, self.offered = node, time.monotonic(), None
        print(f"lead {node}", file=sys.stderr, flush=True)
        self.ask(node, "lead")

    def take_letter(self, letter):
        """An Accept says which value is proposed at a place."""
        if letter[0] == 3:
            ballot, place = [int.from_bytes(letter[at : at + 8], "big") for at in (3, 11)]
            self.proposed[place] = max(self.proposed.get(place, (0, b"")), (ballot, letter[27:]))

    def take_place(self, node, place, text):
        if self.outputs.setdefault(place, text) != text:
            sys.exit(f"supervisor: nodes differ at place {place}")
        if place not in self.released[node]:
            self.released[node].add(place)
            self.heard = time.monotonic()
            print(f"node {node} place {place} {text}", file=sys.stderr, flush=True)

    def take(self, node, words):
        """A line of a reply."""
        if words[0] == "letter":
            self.take_letter(bytes.fromhex(words[2]))
        elif words[0] == "place":
            self.take_place(node, int(words[1]), " ".join(words[2:]))
        elif words[0] == "released":
            self.waiting[node] = 0.0
        elif words[:2] == ["fault", "2"]:
            print("supervisor: the log is full: a new group of nodes has to begin", file=sys.stderr)
            sys.exit(2)
        elif words[:2] == ["fault", "1"] and node == self.leader:
            # It doesn't lead yet, or no longer. Silence will tell.
            self.offered = None

    def prefix(self, node):
        """The first place that a node hasn't released."""
        return next(place for place in range(1, len(self.outputs) + 2) if place not in self.released[node])

    def left(self):
        """The commands that no released place has."""
        done = collections.Counter(self.proposed[place][1] for place in self.outputs if place in self.proposed)
        left = []
        for value in self.values:
            done[value] -= 1
            if done[value] < 0:
                left.append(value)
        return left

    def look(self):
        """Asks for what is due; whether all is done."""
        firsts = [self.prefix(node) for node in range(self.members)]
        furthest = firsts.index(max(firsts))
        left = self.left()
        if not left and min(firsts) == max(firsts):
            return True
        now = time.monotonic()
        for node, first in enumerate(firsts):
            if now - self.waiting[node] > SILENCE:
                self.waiting[node] = now
                self.ask(node, "release 0")
                if first < max(firsts):
                    self.ask(furthest, f"tell {node} {first}")
        if now - self.heard > SILENCE:
            self.lead((self.leader + 1) % self.members)
        elif left and self.offered != len(left):
            self.offered = len(left)
            self.ask(self.leader, f"offer {left[0].hex()}")
        return False


def lines_there(seconds, kept=[b""]):
    """The lines that have come on standard input, within so many seconds."""
    if not select.select([0], [], [], seconds)[0]:
        return []
    chunk = sys.stdin.buffer.raw.read(1 << 16)
    if not chunk:
        sys.exit("supervisor: no node is there any more")
    *whole, kept[0] = (kept[0] + chunk).split(b"\n")
    return whole


def lines_until(end):
    """The lines that come on standard input until a moment."""
    while (left := end - time.monotonic()) > 0:
        for line in lines_there(left):
            yield line.decode().split()


def read_plan(plan, cuts):
    """Its values; a plan that can't be used ends the program."""
    try:
        return values_of(plan, cuts)
    except (OSError, ValueError, PlanFault) as fault:
        print(f"supervisor: {plan}: {fault}", file=sys.stderr)
        sys.exit(1)


def words_in(usage, count, seconds):
    """The words of a supervisor: so many whole numbers, first that of the members, a plan, and perhaps how many cuts
    and seconds. With --help, and with others, the program prints its usage and ends."""
    words = sys.argv[1:]
    if words in (["-h"], ["--help"]):
        print(usage.strip())
        sys.exit(0)
    try:
        numbers, plan, more = [int(it) for it in words[:count]], words[count], words[count + 1 :]
        cuts = int(more[0]) if more else 0
        seconds = float(more[1]) if len(more) > 1 else seconds
        if len(more) > 2 or numbers[0] not in (3, 5) or min(numbers) < 1 or cuts < 0 or not seconds > 0:
            raise ValueError
    except (ValueError, IndexError):
        print(usage.strip(), file=sys.stderr)
        sys.exit(2)
    return numbers, plan, cuts, seconds


def main():
    (members,), plan, cuts, seconds = words_in(__doc__, 1, 0.1)
    it = Supervisor(members, read_plan(plan, cuts))
    it.lead(0)
    while not it.look():
        for node, *words in lines_until(time.monotonic() + seconds):
            it.take(int(node), words)
    print(f"all {len(it.outputs)}", file=sys.stderr)


def run(main):
    """Without a traceback where somebody stops it, or nobody reads any more."""
    try:
        main()
    except (BrokenPipeError, KeyboardInterrupt) as why:
        print(f"supervisor: {type(why).__name__}", file=sys.stderr)
        # What is left to write finds nobody either.
        os._exit(1)


if __name__ == "__main__":
    run(main)
