#!/usr/bin/env python3
"""Runs three or five processes of `upsched host` over folders, with faults, and compares what they print.

Usage: bench/host_chaos.py --seconds T --seed S [--members 3|5] [--places P] [--runs N] [--journal] [--folder DIR]
           [--program FILE]

Begins one short run after another, as bench/chaos.py, in epochs of P places (50). It loses, repeats, delays and
reorders letters, kills hosts and starts them over their folders, stops them, parts them, and fills disks. Some hosts
get no letter for so long that they are epochs behind: then they are told, or they join by another host's state. Once in
a run one host's folder is deleted. It waits, with `--join`, until another is four epochs beyond the furthest one of its
time, and goes to that one's state. Each host is also asked for what it can't do, and given states that are none.

Each output is once at its number, the same on all hosts in all their lives: a life has none too few and none twice, and
begins where its first line says. States of an epoch are the same but for whose they are, and so are their digests. What
a host gives `again` was given before. Each folder has what it should, and its databases keep what was printed. One
scheduler alone gives the same outputs, and no minislot is in two MAPs. With --journal cluster/epoch_journals.py splits
the hosts' journals, and `upsched audit` has to say yes to those of each epoch. A run that differs prints its seed and
why, and keeps its lines in a folder. The last line counts what happened, and the status is 1 where one differs.
"""
import collections
import hashlib
import os
import sys

sys.dont_write_bytecode = True
import chaos
from chaos_checks import Difference, File, Printed, agree, check_journals, check_kept, check_outputs, check_votes
from chaos_commands import table_of
from host_member import HostMember
from epoch_journals import split

# By how many epochs a host has to be beyond the furthest one of the time at which a folder was lost.
BEYOND = 4
NO_LINES = [b"", b"lead", b"release", b"release x", b"join", b"state 1", b"1/0 lead", b"01/50 lead", b"0/50 lead"]
NO_LINES += [b"\xff", b"host 0 of 3 places 50 waits", b"join 0"]
ANSWERS = {
    b"release": (b"released", b"fault"),
    b"state": (b"state",),
    b"join": (b"joined", b"error", b"fault"),
    b"again": (b"again",),
}
# Where a state's bytes have its epoch, and whose it is, and how many bytes its sum has.
EPOCH, OWNER, SUM = slice(16, 24), 40, 8


def framed(told):
    return told + hashlib.sha256(told).digest()[:SUM]


def owned(state, host):
    """The same state as this host's."""
    return framed(state[:OWNER] + bytes([host]) + state[OWNER + 1 : -SUM])


class Leading:
    """Who leads an epoch, and for how many ticks nobody else is asked."""

    def __init__(self):
        self.leader, self.rest, self.has_ended = None, 0, False


class HostRun(chaos.Run):
    def __init__(self, program, members, seed, folder, has_journals, places):
        self.places = places
        super().__init__(program, members, seed, folder, has_journals)
        pick = self.random.choice
        # A border of epochs takes many letters one after another, so these troubles are rarer than those of nodes.
        self.kills, self.heap, self.delay = pick([0.005, 0.02, 0.04]), pick([1, 1, 1, 5]), pick([0, 1, 5])
        self.ticks, self.batch = self.random.randrange(200, 800), pick([8, 16, 32])
        self.darks, self.ahead = pick([0, 0.003, 0.01]), pick([0, 0.1, 0.5])
        self.epochs = collections.defaultdict(lambda: Printed(members))
        self.leading = collections.defaultdict(Leading)
        self.outputs, self.states, self.digests, self.again = {}, {}, {}, []
        # When a folder is to be deleted, and whose; when it was, and where others said since that they are.
        self.loses_at, self.lost = self.random.randrange(20, self.ticks // 2), None
        self.lost_at, self.heard = None, {}

    def member(self, number, disk, journal):
        return HostMember(self.program, number, len(self.disks), disk, self.counts, journal, self.places)

    # Troubles.

    def is_leader(self, it):
        return any(leading.leader is it for leading in self.leading.values())

    def may_start(self, it):
        if it.process or it is self.lost and self.lost_at is None:
            return False
        return not it.is_lost or self.may_come_back()

    def may_come_back(self):
        """The rule: behind the loss a majority said where they are, and now one is four epochs beyond these."""
        if 2 * len(self.heard) <= len(self.members):
            return False
        return max(it.epoch for it in self.members if not it.is_lost) >= max(self.heard.values()) + BEYOND

    def trouble(self):
        super().trouble()
        if self.random.random() < self.darks:
            it = self.random.choice(self.members)
            it.dark_until = it.dark_until or self.now + self.random.randrange(20, 150)
            self.counts["hosts without letters"] += 1
        for it in self.members:
            if it.dark_until is not None and it.dark_until <= self.now:
                it.dark_until = None
        self.lose()

    def lose(self):
        """The folder of a host is deleted, once it was killed."""
        if self.lost is None and self.now >= self.loses_at:
            self.lost = self.random.choice([it for it in self.members if it.epoch] or self.members)
            if self.lost.process and not self.lost.was_killed:
                self.strikes.append((0, self.lost, chaos.signal.SIGKILL))
                self.lost.was_killed = True
        elif self.lost and self.lost.process is None and self.lost_at is None:
            self.counts["lost folders"] += 1
            self.lost_at = self.now
            self.lost.lose()

    def post(self, node, to, line):
        if self.members[to].dark_until is None:
            super().post(node, to, line)
        else:
            self.counts["lost"] += 1

    # What is asked.

    def ask(self, it, line, **kind):
        it.ask(line, **kind)
        it.process.waiting[-1].asked_at = self.now

    def ask_in(self, epoch, it, words, **kind):
        self.ask(it, b"%d/%d %s" % (epoch, self.places, words), **kind)

    def working(self):
        """The hosts that are there, and get letters."""
        return [it for it in self.members if it.is_ready and not it.waits and it.dark_until is None]

    def feed(self):
        alive = self.working()
        if alive:
            front = max(it.epoch for it in alive)
            for epoch in range(front, front + 2):
                near = [it for it in alive if abs(it.epoch - epoch) <= 1]
                self.feed_epoch(epoch, near, self.leading[epoch], epoch > front)
        for it in alive:
            self.feed_host(it, alive)
        for it in self.members:
            if it.is_ready and it.waits:
                self.feed_waiting(it, alive)

    def feed_epoch(self, epoch, near, it, is_next):
        """Has one lead, and offers. In the next epoch that is ahead of time, or once this one has no place left."""
        if is_next and not self.leading[epoch - 1].has_ended and self.random.random() >= self.ahead:
            return
        if it.leader not in near:
            it.leader = None
        it.rest -= 1
        is_over = it.has_ended and not is_next
        if it.rest <= 0 and (it.leader is None or is_over) or self.random.random() < 0.005:
            self.ask_in(epoch, self.random.choice(near), b"lead")
            it.rest, it.has_ended = 3 * (1 + self.delay + self.heap), False
        for _ in range(self.random.randrange(self.batch) if it.leader else 1):
            if not it.has_ended:
                value = self.work.value()
                self.offered.add(value)
                self.ask_in(epoch, it.leader or self.random.choice(near), b"offer " + value.hex().encode())

    def feed_host(self, it, alive):
        random = self.random
        if random.random() < 0.2:
            self.ask(it, b"release 0")
        if random.random() < 0.1:
            self.tell(it, random.choice(self.members))
        if random.random() < 0.05:
            self.ask(it, random.choice([b"state", b"state", b"again"]))
        if random.random() < 0.02:
            self.ask(it, random.choice(NO_LINES), is_hostile=True)
        if random.random() < 0.01:
            self.ask_in(it.epoch, it, random.choice(chaos.NO_LINES[1:]), is_hostile=True)
        if self.states and random.random() < 0.02:
            self.ask(it, b"join " + self.no_state(it).hex().encode(), is_hostile=True)
        furthest = max(self.states, default=0)
        if furthest > it.epoch + 1 and random.random() < 0.1 or furthest > it.epoch and random.random() < 0.01:
            self.ask(it, b"join " + self.states[furthest].hex().encode())

    def feed_waiting(self, it, alive):
        """One that waits gets bytes that are no state, and the state of one that is far enough."""
        if self.random.random() < 0.2:
            line = self.random.choice([b"release 0", b"state", b"again", b"%d/%d lead" % (self.places, self.places)])
            self.ask(it, line, is_hostile=True)
        furthest = max(alive, key=lambda other: other.epoch, default=None)
        if furthest and self.may_come_back() and furthest.epoch >= max(self.heard.values()) + BEYOND:
            if furthest.epoch in self.states:
                self.ask(it, b"join " + self.states[furthest.epoch].hex().encode())
            else:
                self.ask(furthest, b"state")

    def tell(self, it, to):
        if to.epoch and abs(to.epoch - it.epoch) <= 1:
            self.ask_in(to.epoch, it, b"tell %d %d" % (to.number, to.lacks))

    def no_state(self, it):
        """Bytes of no state to which this host goes."""
        random, state = self.random, self.states[self.random.choice(list(self.states))]
        at = random.randrange(len(state))
        ahead = (it.epoch + 1).to_bytes(8, "big")
        return random.choice([
            state[:at],
            state[:at] + bytes([state[at] ^ random.randrange(1, 256)]) + state[at + 1 :],
            framed(state[:16] + ahead + (self.places + 1).to_bytes(8, "big") + state[32:-SUM]),
            framed(state[:16] + ahead + state[24:41] + bytes([8 - len(self.members)]) + state[42:-SUM]),
            framed(state[:16] + it.epoch.to_bytes(8, "big") + state[24:-SUM]),
            owned(state, len(self.members)),
        ])  # fmt: skip

    # Replies.

    def heed(self, it, reply):
        head, line = reply.lines[0], reply.asked
        if line is None:
            digest = it.take_first(head)
            if digest:
                agree(self.digests, (it.number, it.epoch), digest, "digest of a host's epoch")
        elif reply.is_hostile:
            self.counts["hostile lines"] += 1
            is_refused = head.startswith(b"error ") or b"/%d error " % self.places in head
            if not is_refused and not head.endswith(b" sent 0"):
                raise Difference(f"host {it.number} took {line!r}: {head!r}")
        elif b"/" in line:
            self.heed_in(it, reply, *line.split(b" ", 2)[:2])
        else:
            kind = line.split(b" ", 1)[0]
            if head.split()[0] not in ANSWERS[kind]:
                raise Difference(f"host {it.number} answered {line[:80]!r} by {head!r}")
            getattr(self, "heed_" + kind.decode())(it, reply, head)

    def heed_in(self, it, reply, number, kind):
        """The reply of an epoch's node; behind one that isn't near any more it is a refusal."""
        head, epoch = reply.lines[0], int(number.split(b"/")[0])
        if it.is_crash(head):
            # It may be that of another epoch's commit.
            return
        if head in (b"error 8 Ahead", b"error 9 Gone") or it.waits and head == b"error 11 NoState":
            self.counts["lines of other epochs"] += 1
            return
        said = head.split(b" ", 2)
        if said[0] != number or said[1] not in chaos.ANSWERS[kind]:
            raise Difference(f"host {it.number} answered {reply.asked[:80]!r} by {head!r}")
        leading = self.leading[epoch]
        if kind == b"offer" and said[1] == b"sent":
            leading.leader = it
        elif kind == b"offer" and said[2] == b"8 Ended":
            leading.leader, leading.has_ended = it, True
            self.counts["offers behind an epoch"] += 1
        elif kind == b"offer" and said[2].startswith(b"1 ") and it is leading.leader:
            leading.leader = None
        for one in reply.lines[1:]:
            _, _, to, digits = one.split(b" ")
            self.epochs[epoch].take_letter(it.number, int(to), bytes.fromhex(digits.decode()))
            self.post(it.number, int(to), number + b" letter " + digits)

    def heed_release(self, it, reply, head):
        for line in reply.lines[1:]:
            word, number, text = line.split(b" ", 2)
            if word == b"place":
                it.give(int(number))
                agree(self.outputs, int(number), text, "output")
                continue
            epoch, prefix = int(number.split(b"/")[0]), it.prefix
            self.counts["epochs passed"] += epoch > it.epoch
            it.be_at(epoch, int(text))
            if it.prefix != prefix:
                raise Difference(f"host {it.number} says {line!r} behind output {prefix}")
            if self.lost_at is not None and it is not self.lost and reply.asked_at >= self.lost_at:
                self.heard.setdefault(it.number, it.epoch)

    def heed_state(self, it, reply, head):
        state = bytes.fromhex(head.split(b" ")[1].decode())
        epoch = int.from_bytes(state[EPOCH], "big")
        if epoch != it.epoch or state != owned(state, it.number):
            raise Difference(f"host {it.number} in epoch {it.epoch} gave the state {state.hex()}")
        agree(self.states, epoch, owned(state, 0), "state of epoch")
        self.counts["states"] += 1

    def heed_join(self, it, reply, head):
        epoch = int.from_bytes(bytes.fromhex(reply.asked[5:].decode())[EPOCH], "big")
        if head == b"joined %d" % epoch and (it.waits or epoch > it.epoch):
            self.counts["hosts that came back" if it.waits else "joins"] += 1
            it.join(epoch)
        elif head != b"error 11 NoState" or it.waits or epoch > it.epoch:
            if not (head.startswith(b"fault ") and it.was_full):
                raise Difference(f"host {it.number} in epoch {it.epoch} was to join epoch {epoch}: {head!r}")

    def heed_again(self, it, reply, head):
        self.again += [(it, it.prefix, line) for line in reply.lines[1:]]

    # A run's end.

    def lead(self):
        """Works on until whose folder was lost is back; then one leads, and all come to the same place."""
        for it in self.members:
            it.dark_until = None
        for _ in range(100000):
            if self.lost_at is not None and not self.lost.is_lost:
                break
            self.tick([self.lose, self.feed])
            for it in self.members:
                if self.may_start(it):
                    it.start()
        else:
            raise Difference("healed, and nobody comes back")
        self.catch_up()
        for _ in range(50):
            epoch, it = self.members[0].epoch, self.random.choice(self.members)
            self.ask_in(epoch, it, b"lead")
            self.settle()
            self.leading[epoch].leader = None
            self.ask_in(epoch, it, b"offer 00")
            self.settle()
            is_led = self.leading[epoch].leader is it
            self.catch_up()
            if is_led and epoch == self.members[0].epoch:
                return
        raise Difference("healed, and no host leads after 50 were asked")

    def catch_up(self):
        """All release until nothing comes; who lags is told, or joins."""
        for _ in range(10000):
            before = [it.prefix for it in self.members]
            for it in self.members:
                self.ask(it, b"release 0")
            self.settle()
            furthest = max(self.members, key=lambda it: it.prefix)
            lagging = [it for it in self.members if it.prefix < furthest.prefix]
            if not lagging and before == [it.prefix for it in self.members]:
                return
            self.ask(furthest, b"state")
            self.settle()
            for it in lagging:
                tellers = [other for other in self.members if other.knows(it)]
                if tellers:
                    self.tell(self.random.choice(tellers), it)
                else:
                    self.ask(it, b"join " + self.states[furthest.epoch].hex().encode())
            self.settle()
        raise Difference("healed, and a host still lags")

    def learned(self):
        """The value of each output's place, by what the hosts were seen to vote for."""
        chosen = {epoch: printed.chosen() for epoch, printed in self.epochs.items()}
        learned = {}
        for number in self.outputs:
            epoch, place = divmod(number - 1, self.places)
            if place + 1 not in chosen.get(epoch + 1, {}):
                raise Difference(f"output {number}: no majority was seen to vote at its place")
            learned[number] = chosen[epoch + 1][place + 1]
        return learned

    def check_numbers(self):
        last = self.members[0].prefix
        wanted = set(range(1, last + 1))
        if set(self.outputs) != wanted:
            raise Difference(f"outputs that nobody gave: {sorted(wanted ^ set(self.outputs))[:9]}")
        for it in self.members:
            if it.prefix != last or it.given | it.skipped != wanted:
                raise Difference(f"host {it.number} lacks outputs {sorted(wanted - it.given - it.skipped)[:9]}")
            self.counts["released"] += len(it.given)
        first = {text: number for number, text in sorted(self.outputs.items(), reverse=True)}
        for it, prefix, line in self.again:
            if first.get(line, last + 1) > prefix:
                raise Difference(f"host {it.number} gave again what wasn't given: {line!r}")
        self.counts["lines given again"] += len(self.again)

    def check_digests(self):
        """The digest of each life is the sum of the state of its epoch, where one was told."""
        for (host, epoch), digest in self.digests.items():
            if epoch in self.states and owned(self.states[epoch], host)[-SUM:].hex().encode() != digest:
                raise Difference(f"host {host} began in epoch {epoch} with the digest {digest!r}")
        self.counts["digests"] += len(self.digests)

    def check_folder(self, it):
        """It has the files of its epochs and no older one, and they keep what was printed."""
        there = {os.path.basename(path).removesuffix("-wal") for path in it.files()}
        numbers = {int(name[:-3]) for name in there if name.endswith(".db")}
        others = {name for name in there if not name.endswith(".db")} - {f"{it.epoch}.state"}
        if self.counts["full disks"]:
            others = {name for name in others if not name.endswith(".state.part")}
        is_whole = len(there) > len(numbers) and numbers >= {it.epoch, it.epoch + 1}
        if others or not is_whole or min(numbers) < it.epoch - 1:
            raise Difference(f"folder of host {it.number} in epoch {it.epoch}: {sorted(there)}")
        near = numbers & {it.epoch - 1, it.epoch, it.epoch + 1}
        bases = {epoch: File(os.path.join(it.folder, f"{epoch}.db")) for epoch in near}
        for epoch, base in bases.items():
            check_kept(self.epochs[epoch], it.number, base, self.offered)
        return bases

    def check_journals(self, folder):
        for number, parts in split(self.journals, folder).items():
            self.counts["journal lines"] += check_journals(self.program, parts)
            self.counts["audits"] += 1

    def end(self):
        self.close()
        self.check_numbers()
        self.check_digests()
        folders = [self.check_folder(it) for it in self.members]
        learned, epoch = self.learned(), self.members[0].epoch
        before = (epoch - 1) * self.places
        check_votes([it[epoch] for it in folders], {n - before: value for n, value in learned.items() if n > before})
        check_outputs(self.program, self.outputs, learned, table_of)
        self.count(self.outputs)
        self.counts["epochs"] += epoch
        if self.journals:
            self.check_journals(os.path.join(os.path.dirname(self.journals[0]), "epochs"))


def main():
    words = chaos.words_of(__doc__)
    words.add_argument("--places", type=int, default=50)
    given = words.parse_args()
    if not 1 <= given.places <= 999000:
        words.error("places are 1 to 999000")

    def begin(members, seed, room):
        return HostRun(given.program, members, seed, room, given.journal, given.places)

    return chaos.runs(given, begin)


if __name__ == "__main__":
    sys.exit(main())
