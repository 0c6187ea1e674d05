"""What has to hold of all that the nodes of one run printed, and of the files that they left."""
import collections
import contextlib
import sqlite3
import subprocess

PREPARE, PROMISE, ACCEPT, VOTED, HIGHER, KNOWN = range(1, 7)
BACKWARD = "a ballot went back"


class Difference(Exception):
    """Something that must not be."""


def number(octets, at, size=8):
    return int.from_bytes(octets[at : at + size], "big")


def agree(table, key, value, what):
    """Notes the value, or tells that another is there."""
    if table.setdefault(key, value) != value:
        raise Difference(f"{what} {key}: {table[key]!r} and {value!r}")


class Printed:
    """All that the processes of a run printed, in all their lives."""

    def __init__(self, members):
        self.members = members
        self.proposed, self.voted, self.known = {}, {}, {}
        self.voters = collections.defaultdict(set)
        self.promised = [0] * members
        self.last_votes = [{} for _ in range(members)]
        self.outputs = {}
        self.released = [set() for _ in range(members)]
        self.letters = collections.Counter()

    def take_letter(self, node, to, letter):
        """A letter that this node gave out for that one."""
        if (letter[1], letter[2]) != (node, to):
            raise Difference(f"node {node} gave out for {to} a letter from {letter[1]} to {letter[2]}")
        self.letters[letter[0]] += 1
        ballot, place = number(letter, 3), number(letter, 11)
        if letter[0] in (PREPARE, ACCEPT) and ballot % 8 != node:
            raise Difference(f"node {node} proposes in ballot {ballot}")
        if letter[0] == PROMISE:
            self.promised[node] = max(self.promised[node], ballot)
        elif letter[0] == ACCEPT:
            agree(self.proposed, (ballot, place), letter[27:], "proposed in ballot and at place")
        elif letter[0] == VOTED:
            self.take_vote(node, ballot, place, letter[27:])
        elif letter[0] == KNOWN:
            agree(self.known, ballot, letter[19:], "told as known at place")

    def take_vote(self, node, ballot, place, value):
        agree(self.voted, (ballot, place), value, "voted in ballot and at place")
        if self.proposed.get((ballot, place), value) != value:
            raise Difference(f"node {node} voted at place {place} for what wasn't proposed")
        self.voters[ballot, place].add(node)
        self.promised[node] = max(self.promised[node], ballot)
        last = self.last_votes[node]
        last[place] = max(last.get(place, (0, b"")), (ballot, value))

    def take_output(self, node, place, text):
        agree(self.outputs, place, text, "output at place")
        self.released[node].add(place)

    def chosen(self):
        """What a majority was seen to vote for: the value by place."""
        chosen = {}
        for (ballot, place), voters in self.voters.items():
            if 2 * len(voters) > self.members:
                agree(chosen, place, self.voted[ballot, place], "chosen at place")
        for place, value in self.known.items():
            agree(chosen, place, value, "chosen or known at place")
        return chosen

    def check_all_released(self):
        """Each node released each place up to the last one of which any node said that it is chosen."""
        last = max([*self.chosen(), *self.outputs], default=0)
        wanted = set(range(1, last + 1))
        for node, released in enumerate(self.released):
            if released != wanted:
                raise Difference(f"node {node} released not all {last} places: {sorted(wanted ^ released)[:9]}")
        return last


class File:
    """What a node's file holds once its process has ended."""

    def __init__(self, path):
        with contextlib.closing(sqlite3.connect(path)) as base:
            self.ballots = dict(base.execute("SELECT id, number FROM ballot"))
            self.votes = {row[0]: row[1:] for row in base.execute("SELECT place, ballot, value FROM vote")}
            self.learned = dict(base.execute("SELECT place, value FROM learned"))
            self.sound = base.execute("PRAGMA integrity_check").fetchone()[0]
            self.owner = dict(base.execute("SELECT id, bytes FROM fact")).get(0)


def check_file(printed, node, file, last, offered):
    """The file keeps what its node printed, and has learned what is chosen."""
    if sorted(file.learned) != list(range(1, last + 1)):
        raise Difference(f"file of node {node}: {len(file.learned)} places learned, where {last} are chosen")
    check_kept(printed, node, file, offered)


def check_kept(printed, node, file, offered):
    """The file is this node's, and keeps what it printed."""
    if file.sound != "ok" or file.owner != bytes([node, printed.members]):
        raise Difference(f"file of node {node}: {file.sound}, owner {file.owner!r}")
    promise = max([file.ballots.get(1, 0), *(ballot for ballot, _ in file.votes.values())])
    if promise < printed.promised[node]:
        raise Difference(f"{BACKWARD}: node {node} promised {printed.promised[node]}, its file has {promise}")
    for place, (ballot, value) in printed.last_votes[node].items():
        kept = file.votes.get(place, (0, b""))
        if kept[0] < ballot or (kept[0] == ballot and kept[1] != value):
            raise Difference(f"{BACKWARD}: node {node} voted in {ballot} at place {place}, its file has {kept}")
    for place, value in file.learned.items():
        if value not in offered:
            raise Difference(f"place {place} has a value that nobody offered: {value.hex()}")


def check_votes(files, learned):
    """What a majority of files has a vote for in one ballot is what was learned."""
    votes = collections.defaultdict(int)
    for file in files:
        for place, (ballot, value) in file.votes.items():
            votes[place, ballot, value] += 1
    for (place, _, value), count in votes.items():
        if 2 * count > len(files) and learned.get(place) != value:
            raise Difference(f"place {place}: chosen is {value.hex()}, and {learned.get(place)} was learned")


def check_maps(outputs):
    """Reads each MAP's body: its minislots are in no other MAP of its channel. How many MAPs, minislots and grants."""
    given, grants = collections.defaultdict(list), 0
    for place, text in outputs.items():
        words = text.split()
        if words[0] != b"map":
            continue
        channel, start, length = int(words[2]), int(words[4]), int(words[6])
        body = bytes.fromhex(words[7].decode())
        elements = [number(body, at, 4) for at in range(16, len(body), 4)]
        offsets = [element & 0x3FFF for element in elements]
        uses = [element >> 14 & 15 for element in elements]
        null = uses.index(7)
        whole = body[0] == channel and body[2] == len(elements) and number(body, 4, 4) == start % 2**32
        if not whole or offsets[null] != length or offsets[: null + 1] != sorted(offsets[: null + 1]) or offsets[0]:
            raise Difference(f"the MAP at place {place} isn't what it says: {text}")
        grants += sum(use in (5, 6, 9, 10, 11) for use in uses[:null])
        given[channel].append((start, start + length, place))
    for channel, intervals in given.items():
        intervals.sort()
        for (_, end, place), (start, _, other) in zip(intervals, intervals[1:]):
            if start < end:
                raise Difference(f"channel {channel}: the MAPs of places {place} and {other} give a minislot twice")
    flat = [interval for intervals in given.values() for interval in intervals]
    return len(flat), sum(end - start for start, end, _ in flat), grants


def check_outputs(program, outputs, learned, table_of):
    """One scheduler alone, given the learned commands in order, gives the same outputs."""
    plan = "command = [\n" + "".join(f"  {table_of(learned[place])},\n" for place in sorted(learned)) + "]\n"
    printed = subprocess.run([program, "maps", "/dev/stdin"], input=plan.encode(), capture_output=True)
    if printed.returncode != 0:
        raise Difference(f"`maps` of what was learned ends with {printed.returncode}: {printed.stderr!r}")
    alone = dict(line.split(b" ", 1) for line in printed.stdout.splitlines())
    for place, text in outputs.items():
        if alone.get(b"%d" % place) != text:
            raise Difference(f"place {place}: one scheduler alone gives {alone.get(b'%d' % place)}, the nodes {text}")


def check_journals(program, journals):
    """The audit says yes to the journals. How many lines they have."""
    words = [program, "audit", "--members", str(len(journals)), *journals]
    printed = subprocess.run(words, capture_output=True)
    if printed.stdout != b"audit yes\n":
        raise Difference(f"the journals: {printed.stdout!r} {printed.stderr!r}")
    lines = 0
    for journal in journals:
        with open(journal, "rb") as file:
            lines += sum(1 for _ in file)
    return lines
