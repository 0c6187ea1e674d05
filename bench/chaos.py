#!/usr/bin/env python3
"""Runs three or five processes of `upsched node` over files, with faults, and compares what they print.

Usage: bench/chaos.py --seconds T --seed S [--members 3|5] [--runs N] [--journal] [--folder DIR] [--program FILE]

Begins one short run after another, each with new files, until T seconds are over or N runs are done. Run I has the
seed S + I, so `--seed S+I --runs 1` repeats it, as far as processes allow: the plan is the seed's, the moment within a
call at which a signal comes is not. Runs of even seeds have three members and those of odd seeds five.

A run loses, repeats, delays and reorders letters, and some give them in heaps. It kills processes, the leader before
others, and starts them over their files; stops them for a while; parts the members; and fills disks: of a file system
of its own for each node where one may be mounted, else by a limit of files' sizes. It asks for things that are no
lines, and gives letters to the wrong node or cut. Then all is healed: each node is up, one leads, and who lags is told.

At the end each node has to have released each chosen place, with one output at each place in all lives of all nodes;
one scheduler alone has to give the same outputs; no minislot of a channel may be in two MAPs; and the files have to
keep what was printed before each kill. With --journal each node also keeps a journal, and `upsched audit` has to
say yes to them. A run that differs prints its seed and why, and keeps its lines in a folder;
then the status is 1.
"""
import argparse
import collections
import heapq
import os
import random
import select
import shutil
import signal
import sqlite3
import sys
import tempfile
import time

ROOT = os.path.dirname(os.path.dirname(os.path.abspath(__file__)))
sys.path[:0] = [os.path.join(ROOT, "bench"), os.path.join(ROOT, "cluster")]
sys.dont_write_bytecode = True
from chaos_checks import Difference, File, Printed, check_file, check_journals, check_maps, check_outputs, check_votes
from chaos_commands import Workload, table_of
from chaos_member import Disk, Member
from supervisor import bytes_of

# How long a process may take to answer all that it was asked in a tick, in seconds.
PATIENCE = 600
# The least time of a tick while a process is stopped, in seconds.
PACE = 0.01
NO_LINES = [b"", b"lead ", b"letter 0g", b"letter 070000", b"offer 0", b"release x", b"release 18446744073709551616"]
NO_LINES += [b"tell 5 1", b"\xff\xfe", b"letter 0200000000000000000008", b"command = 3", b"lead\r", b"x" * 100000]
NO_LINES += [b"command ", b"command = {kind = 'cut'}", b"command = {kind = 'noop'} #" + b"x" * 4096]
ANSWERS = {
    b"lead": (b"sent", b"fault"),
    b"offer": (b"sent", b"fault"),
    b"letter": (b"sent", b"fault"),
    b"tell": (b"sent", b"fault"),
    b"release": (b"released", b"fault"),
}


class Run:
    def __init__(self, program, members, seed, folder, has_journals):
        self.random, self.counts = random.Random(seed), collections.Counter()
        self.printed, self.program = Printed(members), program
        may_mount = self.random.random() < 0.5
        self.disks = [Disk(os.path.join(folder, str(k)), may_mount) for k in range(members)]
        self.journals = [os.path.join(folder, f"{k}.journal") for k in range(members)] if has_journals else []
        own = self.journals or [None] * members
        self.members = [self.member(k, disk, own[k]) for k, disk in enumerate(self.disks)]
        pick = self.random.choice
        self.loss, self.repeat, self.delay = pick([0, 0.02, 0.1, 0.2]), pick([0, 0.1, 0.3]), pick([0, 2, 10])
        self.kills, self.stops = pick([0.01, 0.03, 0.06]), pick([0, 0.01, 0.02])
        self.parts, self.fills = pick([0, 0.01, 0.03]), pick([0, 0.01, 0.02])
        self.ticks, self.batch = self.random.randrange(150, 400), pick([4, 8, 16])
        self.now, self.order, self.mail, self.strikes = 0, 0, [], []
        self.leader, self.rest, self.sides, self.parted_until = None, 0, None, None
        self.work, self.offered = Workload(self.random, bytes_of), {b"\0"}
        # Letters are given each so many ticks, all that have come together.
        self.heap = pick([1, 1, 8, 40])

    def member(self, number, disk, journal):
        return Member(self.program, number, len(self.disks), disk, self.counts, journal)

    # Troubles.

    def is_leader(self, it):
        return it is self.leader

    def may_start(self, it):
        return it.process is None

    def victim(self):
        """The leader before others, of those that run."""
        alive = [it for it in self.members if it.process and it.stopped_until is None and not it.was_killed]
        leading = [it for it in alive if self.is_leader(it)]
        return self.random.choice(leading if leading and self.random.random() < 0.6 else alive or [None])

    def strike(self, number):
        it = self.victim()
        if it is None:
            return
        self.strikes.append((self.random.random() * self.random.choice([0, 0.001, 0.005, 0.02]), it, number))
        if number == signal.SIGKILL:
            self.counts["kills"] += 1
            self.counts["kills of leaders"] += self.is_leader(it)
            it.was_killed = True
        else:
            self.counts["stops"] += 1
            self.counts["stopped ticks"] += (ticks := self.random.randrange(20, 300))
            it.will_stop = self.now + ticks

    def part(self):
        """Two sides whose letters don't reach each other."""
        self.sides = [self.random.random() < 0.5 for _ in self.members]
        self.parted_until = self.now + self.random.randrange(5, 60)
        self.counts["partitions"] += 1

    def fill(self):
        it = self.random.choice(self.members)
        if it.full_until is None:
            self.counts["full disks"] += 1
            it.fill(self.now + self.random.randrange(5, 50), self.random.choice([0, 5000, 40000]))

    def trouble(self):
        for rate, happens in [
            (self.kills, lambda: self.strike(signal.SIGKILL)),
            (self.stops, lambda: self.strike(signal.SIGSTOP)),
            (self.parts, self.part),
            (self.fills, self.fill),
        ]:
            if self.random.random() < rate:
                happens()
        self.mend(lambda until: until is not None and until <= self.now)
        for it in self.members:
            if self.may_start(it) and self.random.random() < 0.15:
                it.start()
                if self.random.random() < 0.1:
                    self.counts["kills at a start"] += 1
                    self.strikes.append((self.random.random() * 0.03, it, signal.SIGKILL))
                    it.was_killed = True

    def mend(self, is_over):
        """Ends each trouble whose time is over."""
        if is_over(self.parted_until):
            self.sides = self.parted_until = None
        for it in self.members:
            if is_over(it.full_until):
                it.empty()
            if is_over(it.stopped_until):
                it.stopped_until = None
                it.process.signal(signal.SIGCONT)

    # Letters.

    def post(self, node, to, line):
        """The line of a letter goes its way, once, more than once, or never."""
        if self.sides and self.sides[node] != self.sides[to] and self.random.random() < 0.7:
            self.counts["lost"] += 1
            return
        if self.random.random() < self.loss:
            self.counts["lost"] += 1
            return
        copies = 2 if self.random.random() < self.repeat else 1
        self.counts["repeated"] += copies - 1
        for _ in range(copies):
            due = self.now + 1 + int(self.random.expovariate(1 / self.delay) if self.delay else 0)
            if self.sides and self.sides[node] != self.sides[to]:
                due = max(due, self.parted_until)
            self.order += 1
            heapq.heappush(self.mail, (due, self.random.random() if self.delay else self.order, to, line))

    def deliver(self):
        if self.now % self.heap:
            return
        while self.mail and self.mail[0][0] <= self.now:
            to, line = heapq.heappop(self.mail)[2:]
            it = self.members[to]
            if not it.is_ready:
                self.counts["lost"] += 1
                continue
            it.ask(line)
            self.counts["letters"] += 1
            self.counts["letters in heaps"] += self.heap > 1
            if self.random.random() < 0.01:
                other = self.random.choice(self.members)
                cut = self.random.choice([2, 4, 16, 18])
                if other.is_ready and other is not it and not self.journals:
                    other.ask(line, is_hostile=True)
                it.ask(line[:-cut], is_hostile=True)

    def feed(self):
        """Asks for work: to lead, to propose, to release and to tell."""
        alive = [it for it in self.members if it.is_ready]
        if not alive:
            return
        if self.leader not in alive:
            self.leader = None
        if self.rest <= 0 and self.leader is None or self.random.random() < 0.005:
            self.random.choice(alive).ask(b"lead")
            self.rest = 3 + self.delay
        self.rest -= 1
        leader = self.leader or self.random.choice(alive)
        for _ in range(self.random.randrange(self.batch) if self.leader else 1):
            value = self.work.value()
            self.offered.add(value)
            leader.ask(b"offer " + value.hex().encode())
        for it in alive:
            if self.random.random() < 0.2:
                it.ask(b"release 0")
            if self.random.random() < 0.02:
                it.ask(self.random.choice(NO_LINES), is_hostile=True)
            if self.random.random() < 0.1:
                to = self.random.choice(self.members)
                it.ask(b"tell %d %d" % (to.number, to.prefix + 1))

    # Replies.

    def collect(self):
        """Waits until all that run have answered, and those that are to be killed are dead."""
        began = time.monotonic()
        while True:
            passed = time.monotonic() - began
            for strike in [it for it in self.strikes if it[0] <= passed]:
                self.strikes.remove(strike)
                self.send_signal(*strike[1:])
            busy = [it for it in self.members if it.is_busy()]
            if not busy and not self.strikes:
                break
            if passed > PATIENCE:
                raise Difference(f"no answer of {[it.number for it in busy]} within {PATIENCE} s")
            reads = [it.process.output for it in busy]
            writes = [it.process.input for it in busy if it.process.unsent]
            soonest = min([strike[0] for strike in self.strikes], default=passed + 1) - passed
            select.select(reads, writes, [], max(0, min(soonest, 1)))
            for it in busy:
                it.process.write_some()
                it.read()
        for it in self.members:
            replies, it.replies = it.replies, []
            for reply in replies:
                self.heed(it, reply)

    def send_signal(self, it, number):
        if it.process is None:
            return
        it.note("=", signal.Signals(number).name.encode())
        it.process.signal(number)
        it.stopped_until = it.will_stop if number == signal.SIGSTOP else None

    def heed(self, it, reply):
        """Compares a reply with what was printed before, and posts its letters."""
        head, line = reply.lines[0], reply.asked
        if line is None:
            if head != it.hello:
                raise Difference(f"node {it.number} began with {head!r}, not {it.hello!r}")
            it.was_answered = True
            it.is_ready = it.process is not None
            return
        kind = line.split(b" ", 1)[0]
        if reply.is_hostile:
            self.counts["hostile lines"] += 1
            if not head.startswith(b"error ") and head != b"sent 0":
                raise Difference(f"node {it.number} took {line!r}: {head!r}")
            return
        if head.split()[0] not in ANSWERS[kind]:
            raise Difference(f"node {it.number} answered {line!r} by {head!r}")
        if kind == b"offer" and (it is self.leader or head.startswith(b"sent")):
            self.leader = it if head.startswith(b"sent") else None if head.startswith(b"fault 1") else self.leader
        for one in reply.lines[1:]:
            self.take(it, *one.split(b" ", 2))

    def take(self, it, word, first, rest):
        if word == b"letter":
            self.printed.take_letter(it.number, int(first), bytes.fromhex(rest.decode()))
            self.post(it.number, int(first), b"letter " + rest)
            return
        it.prefix += 1
        if int(first) != it.prefix:
            raise Difference(f"node {it.number} released place {int(first)} where {it.prefix} is next")
        self.printed.take_output(it.number, it.prefix, rest)

    # A run.

    def tick(self, steps):
        self.now += 1
        began = time.monotonic()
        for step in [*steps, self.deliver, self.collect]:
            step()
        if any(it.stopped_until is not None for it in self.members):
            time.sleep(max(0, began + PACE - time.monotonic()))

    def settle(self):
        """Ticks until no letter is under way."""
        self.tick([])
        while self.mail:
            self.tick([])

    def heal(self):
        self.loss = self.repeat = self.delay = 0
        self.heap = 1
        self.mend(lambda until: until is not None)
        self.mail = [(self.now, *letter[1:]) for letter in self.mail]
        heapq.heapify(self.mail)
        # A node that crashed as its disk was full is seen to be down once its last reply is read.
        self.settle()
        for it in self.members:
            if self.may_start(it):
                it.start()
        self.settle()
        self.lead()

    def lead(self):
        """One leads, and then all are told what they lack."""
        for _ in range(20):
            it = self.random.choice(self.members)
            it.ask(b"lead")
            self.settle()
            it.ask(b"offer 00")
            self.leader = None
            self.settle()
            if self.leader is it:
                return self.catch_up()
        raise Difference("healed, and no node leads after 20 were asked")

    def catch_up(self):
        """Who lags is told until all have released the same."""
        for _ in range(10000):
            for it in self.members:
                it.ask(b"release 0")
            self.settle()
            furthest = max(self.members, key=lambda it: it.prefix)
            lagging = [it for it in self.members if it.prefix < furthest.prefix]
            if not lagging:
                return
            for it in lagging:
                furthest.ask(b"tell %d %d" % (it.number, it.prefix + 1))
            self.settle()
        raise Difference("healed, and a node still lags")

    def close(self):
        for it in self.members:
            life, it.process = it.process, None
            status, errors = life.close()
            if status or errors:
                raise Difference(f"node {it.number} ended with status {status} and {errors!r} at the end of its lines")

    def end(self):
        """Ends the processes, and compares what is left of them."""
        self.close()
        last = self.printed.check_all_released()
        files = [File(it.file) for it in self.members]
        for node, file in enumerate(files):
            check_file(self.printed, node, file, last, self.offered)
            if file.learned != files[0].learned:
                raise Difference(f"nodes 0 and {node} learned different values")
        learned = files[0].learned
        if any(learned[place] != value for place, value in self.printed.chosen().items()):
            raise Difference("what was chosen isn't what was learned")
        check_votes(files, learned)
        check_outputs(self.program, self.printed.outputs, learned, table_of)
        if self.journals:
            self.counts["journal lines"] += check_journals(self.program, self.journals)
        self.count(self.printed.outputs)
        self.counts["released"] += last * len(files)

    def count(self, outputs):
        maps, minislots, grants = check_maps(outputs)
        self.counts.update({"places": len(outputs), "maps": maps, "grants": grants, "minislots": minislots})

    def go(self):
        for it in self.members:
            it.start()
        while self.now < self.ticks:
            self.tick([self.trouble, self.feed])
        self.heal()
        self.end()

    def leave(self, kept=None):
        """Ends what is left; keeps the lines and the files in a folder, if one is given."""
        for it in self.members:
            if it.process:
                it.process.kill()
                it.process.close()
            if kept:
                with open(os.path.join(kept, f"node-{it.number}.lines"), "wb") as file:
                    file.writelines(b"%s %s\n" % (mark.encode(), line) for mark, line in it.lines)
                shutil.copytree(it.disk.folder, os.path.join(kept, str(it.number)))
                if it.journal:
                    shutil.copy(it.journal, kept)
        for disk in self.disks:
            disk.leave()


def told(counts):
    return " ".join(f"{name.replace(' ', '-')} {count}" for name, count in sorted(counts.items()))


def one_run(begin, members, seed, folder):
    """The counts of a run, or None where it differs. `begin` makes one of so many members, a seed and a folder."""
    room = tempfile.mkdtemp(prefix=f"chaos-{seed}-", dir=folder)
    run, kept, began = begin(members, seed, room), None, time.monotonic()
    try:
        run.go()
        print(f"seed {seed} members {members} seconds {time.monotonic() - began:.1f} {told(run.counts)}", flush=True)
        return run.counts
    except (Difference, ValueError, sqlite3.Error) as why:
        kept = tempfile.mkdtemp(prefix=f"chaos-lines-{seed}-", dir=folder)
        print(f"seed {seed} members {members} DIFFERS: {why}; its lines are in {kept}", flush=True)
        return None
    finally:
        run.leave(kept)
        shutil.rmtree(room, ignore_errors=True)


def words_of(usage):
    words = argparse.ArgumentParser(description=usage, formatter_class=argparse.RawDescriptionHelpFormatter)
    words.add_argument("--seconds", type=float, required=True)
    words.add_argument("--seed", type=int, required=True)
    words.add_argument("--members", type=int, choices=(3, 5))
    words.add_argument("--runs", type=int, default=1 << 30)
    words.add_argument("--journal", action="store_true")
    words.add_argument("--folder")
    words.add_argument("--program", default=os.path.join(ROOT, "crates/upsched/out/upsched"))
    return words


def runs(given, begin):
    """Run after run, as the words say; the status."""
    if not os.access(given.program, os.X_OK):
        sys.exit(f"{sys.argv[0]}: no proved program: ./upsched --build makes it")
    end, totals, sizes, differ = time.monotonic() + given.seconds, collections.Counter(), collections.Counter(), 0
    for index in range(given.runs):
        if time.monotonic() > end:
            break
        seed = given.seed + index
        members = given.members or (3 if seed % 2 == 0 else 5)
        counts = one_run(begin, members, seed, given.folder)
        sizes[members] += 1
        differ += counts is None
        totals.update(counts or {})
    done = " ".join(f"runs-of-{members} {count}" for members, count in sorted(sizes.items()))
    last = given.seed + sum(sizes.values()) - 1
    print(f"all: seeds {given.seed} to {last} {done} {told(totals)} differ {differ}", flush=True)
    return 1 if differ or not totals["places"] else 0


def main():
    given = words_of(__doc__).parse_args()
    return runs(given, lambda members, seed, room: Run(given.program, members, seed, room, given.journal))


if __name__ == "__main__":
    sys.exit(main())
