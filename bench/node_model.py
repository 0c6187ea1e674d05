"""A node, and a host, as docs/node.md and docs/cli.md have their rules: in Python, and without the program.

It serves lines and expected replies of examples, and scripts that are tried without a program. A node here has no
records but its memory, and none of its faults of memory or of a store.
"""

import hashlib

PREPARE, PROMISE, ACCEPT, VOTED, HIGHER, KNOWN = range(1, 7)
MOST_PLACES, LONGEST_VALUE, TOLD_AT_ONCE = 1_000_000, 64, 64
# What a host's line may begin with: two numbers of 64 bits, without a zero too many.
MOST = 1 << 64


def u64(value):
    return value.to_bytes(8, "big")


def sized(value):
    return u64(len(value)) + value


class Fields:
    """The fields of a letter, one behind another."""

    def __init__(self, letter):
        self.letter, self.at = letter, 3

    def number(self):
        self.at += 8
        return int.from_bytes(self.letter[self.at - 8 : self.at], "big")

    def value(self):
        size = self.number()
        self.at += size
        return self.letter[self.at - size : self.at]


class Node:
    def __init__(self, me, members):
        self.me, self.members, self.majority = me, members, members // 2 + 1
        self.tried, self.heard = 0, 0
        self.promise = 0  # the greatest of what it promised and of its votes' ballots
        self.votes, self.learned = {}, {}  # by place: ballot and value; a value
        self.gapless = 1  # the first place that it hasn't learned
        self.role, self.ballot, self.first, self.next = "idle", 0, 0, 0
        self.counted, self.reported, self.tally = set(), {}, {}

    def learn(self, place, value):
        self.learned.setdefault(place, value)
        while self.gapless in self.learned:
            self.gapless += 1

    def letter(self, kind, to, fields):
        return to, bytes([kind, self.me, to]) + fields

    def to_all(self, kind, fields):
        return [self.letter(kind, to, fields) for to in range(self.members)]

    def known(self, to, first):
        told = [place for place in sorted(self.learned) if place >= first][:TOLD_AT_ONCE]
        return [self.letter(KNOWN, to, u64(place) + sized(self.learned[place])) for place in told]

    def lead(self):
        if self.gapless > MOST_PLACES:
            return "fault 2 LogFull"
        above = max(self.tried, self.promise, self.heard)
        self.tried = 8 * (above // 8) + self.me
        if self.tried <= above or self.tried < 8:
            self.tried += 8
        self.role, self.ballot, self.first = "prepares", self.tried, self.gapless
        self.counted, self.reported = set(), {}
        return self.to_all(PREPARE, u64(self.ballot) + u64(self.first))

    def offer(self, value):
        if self.role != "leads":
            return "fault 1 NotLeading"
        if len(value) > LONGEST_VALUE:
            return "fault 4 ValueTooLong"
        if self.next > MOST_PLACES:
            return "fault 2 LogFull"
        self.next += 1
        return self.to_all(ACCEPT, u64(self.ballot) + u64(self.next - 1) + sized(value))

    def tell(self, to, first):
        return self.known(to, first) if to < self.members else []

    def receive(self, letter):
        kind, sender, to = letter[:3]
        if sender >= self.members or to != self.me:
            return []
        takes = (None, self.prepare, self.promised_by, self.accept, self.voted, self.higher, self.told)[kind]
        return takes(sender, Fields(letter))

    def prepare(self, sender, fields):
        ballot, first = fields.number(), fields.number()
        if ballot % 8 != sender:
            return []
        told = self.known(sender, first)
        if ballot <= self.promise:
            return told + [self.letter(HIGHER, sender, u64(self.promise))]
        self.promise = ballot
        votes = [(place, *self.votes[place]) for place in sorted(self.votes) if place >= first]
        spelt = b"".join(u64(place) + u64(voted) + sized(value) for place, voted, value in votes)
        return told + [self.letter(PROMISE, sender, u64(ballot) + u64(first) + u64(len(votes)) + spelt)]

    def promised_by(self, sender, fields):
        ballot, first, count = fields.number(), fields.number(), fields.number()
        if self.role != "prepares" or (ballot, first) != (self.ballot, self.first) or sender in self.counted:
            return []
        self.counted.add(sender)
        for _ in range(count):
            place, voted, value = fields.number(), fields.number(), fields.value()
            if voted > self.reported.get(place, (0, b""))[0]:
                self.reported[place] = (voted, value)
        if len(self.counted) < self.majority:
            return []
        self.role, self.next = "leads", max([self.first - 1, *self.reported]) + 1
        sent = []
        for place in range(self.first, self.next):
            value = self.reported.get(place, (0, b"\0"))[1]
            sent += self.to_all(ACCEPT, u64(self.ballot) + u64(place) + sized(value))
        return sent

    def accept(self, sender, fields):
        ballot, place, value = fields.number(), fields.number(), fields.value()
        if ballot % 8 != sender or not 1 <= place <= MOST_PLACES or len(value) > LONGEST_VALUE:
            return []
        if ballot < self.promise:
            return [self.letter(HIGHER, sender, u64(self.promise))]
        if self.votes.get(place, (0, b""))[0] != ballot:
            self.votes[place], self.promise = (ballot, value), ballot
        return self.to_all(VOTED, u64(ballot) + u64(place) + sized(self.votes[place][1]))

    def voted(self, sender, fields):
        ballot, place, value = fields.number(), fields.number(), fields.value()
        if place not in self.learned and 1 <= place <= MOST_PLACES and len(value) <= LONGEST_VALUE:
            voters = self.tally.setdefault((place, ballot, value), set())
            voters.add(sender)
            if len(voters) >= self.majority:
                self.learn(place, value)
        return []

    def higher(self, sender, fields):
        self.heard = max(self.heard, fields.number())
        if self.role != "idle" and self.ballot < self.heard:
            self.role = "idle"
        return []

    def told(self, sender, fields):
        place, value = fields.number(), fields.value()
        if 1 <= place <= MOST_PLACES and len(value) <= LONGEST_VALUE:
            self.learn(place, value)
        return []


def numbered(line):
    """The number before a host's line, and what is behind it; None where it has none."""
    number, blank, rest = line.partition(" ")
    digits = number.split("/")
    if not blank or len(digits) != 2 or not all(it.isascii() and it.isdigit() for it in digits):
        return None
    both = [int(it) if len(it) < 21 else MOST for it in digits]
    if max(both) >= MOST or [str(it) for it in both] != digits:
        return None
    return *both, rest


STATE = b"upsched state 1\n"
NO_TABLES = bytes(2)


def state_of(epoch, places, before, me, members, tables):
    """The bytes of a state, with its sum."""
    told = STATE + u64(epoch) + u64(places) + u64(before) + bytes([me, members]) + tables
    return told + hashlib.sha256(told).digest()[:8]


class Host:
    """`output_of` gives the output of the next value: the first of epoch 1 first, and so on. `tables` are the bytes of
    the tables at the start of each epoch from 2 on, where they are known."""

    def __init__(self, me, members, places, output_of, tables=None):
        self.me, self.members, self.places, self.output_of = me, members, places, output_of
        self.tables = {1: NO_TABLES} | (tables or {})
        self.number, self.taken, self.waiting, self.given = 1, 0, [], 0
        self.nodes = {1: Node(me, members), 2: Node(me, members)}

    def first_line(self):
        return f"host {self.me} of {self.members} places {self.places}"

    def reply(self, line):
        """The lines of the reply to a line."""
        found = numbered(line)
        if found is not None:
            return self.reply_in(*found)
        if line == "state":
            return [f"state {self.state().hex()}"]
        if line.startswith("join "):
            return self.join(line.removeprefix("join "))
        word, _, time = line.partition(" ")
        if word != "release" or not line.startswith("release "):
            return ["error 1 NoLine"]
        if not (time.isascii() and time.isdigit() and int(time) < MOST):
            return ["error 3 NoNumber"]
        return self.release()

    def reply_in(self, epoch, places, rest):
        if places != self.places:
            return ["error 10 OtherPlaces"]
        if epoch == 0 or epoch + 1 < self.number or epoch < self.number and epoch not in self.nodes:
            return ["error 9 Gone"]
        if epoch > self.number + 1:
            return ["error 8 Ahead"]
        node, said, words = self.nodes[epoch], f"{epoch}/{places} ", rest.split(" ")
        offers = words[0] == "offer" and len(words) == 2
        if offers and node.role == "leads" and node.next > places:
            return [said + "fault 8 Ended"]
        if rest == "lead":
            told = node.lead()
        elif offers:
            told = node.offer(bytes.fromhex(words[1]))
        elif words[0] == "letter" and len(words) == 2:
            told = node.receive(bytes.fromhex(words[1]))
        elif words[0] == "tell" and len(words) == 3:
            told = node.tell(int(words[1]), int(words[2]))
        else:
            return ["error 1 NoLine"]
        if isinstance(told, str):
            return [said + told]
        return [f"{said}sent {len(told)}"] + [f"{said}letter {to} {letter.hex()}" for to, letter in told]

    def state(self):
        before = (self.number - 1) * self.places
        return state_of(self.number, self.places, before, self.me, self.members, self.tables[self.number])

    def join(self, digits):
        """It goes to a state of which it knows the tables. Of the nodes that it has it keeps those that it still needs."""
        try:
            state = bytes.fromhex(digits)
        except ValueError:
            return ["error 2 NoHex"]
        epoch, teller = int.from_bytes(state[16:24], "big"), state[40] if len(state) > 40 else self.members
        before = (epoch - 1) * self.places
        tables = self.tables.get(epoch, NO_TABLES)
        if epoch <= self.number or teller >= self.members or epoch not in self.tables:
            return ["error 11 NoState"]
        if state != state_of(epoch, self.places, before, teller, self.members, tables):
            return ["error 11 NoState"]
        kept = {number: node for number, node in self.nodes.items() if number + 1 >= epoch}
        new = {number: Node(self.me, self.members) for number in (epoch, epoch + 1)}
        self.number, self.taken, self.waiting, self.given, self.nodes = epoch, 0, [], before, new | kept
        return [f"joined {epoch}"]

    def release(self):
        if self.taken == self.places and self.given == (self.number - 1) * self.places + self.taken:
            self.nodes.pop(self.number - 1, None)
            self.number, self.taken = self.number + 1, 0
            self.nodes[self.number + 1] = Node(self.me, self.members)
        learned = self.nodes[self.number].learned
        while self.taken < self.places and self.taken + 1 in learned:
            self.taken += 1
            self.waiting.append(self.output_of(learned[self.taken]))
        lines = [f"place {self.given + at} {output}" for at, output in enumerate(self.waiting, 1)]
        self.given, self.waiting = self.given + len(lines), []
        next_line = f"next {self.number}/{self.places} {self.taken + 1}"
        return [f"released {len(lines)}", *lines, next_line]
