#!/usr/bin/env python3
"""Has three or five `upsched host` processes lead, work on a plan, and go on from epoch to epoch. It knows of no
transport.

Usage: host_supervisor.py MEMBERS PLACES PLAN [CUTS [SECONDS]]

On standard output it writes `K LINE`: this line is for host K. On standard input it reads `K LINE`: a line that host
K wrote. The transport carries the letters among these by itself. It offers the plan's commands in order, one after
another, and then CUTS cuts like the plan's last one (none), 64 at a time. A host that releases nothing is asked again
after SECONDS (0.01). What the hosts release goes to standard error, each place once a host, and whom it asks to lead,
who goes on, and who lags. The last line there is `all PLACES`, when every host that isn't away has released all that
was offered.

It asks host 0 to lead epoch 1, and the next epoch before this one is full. It offers to an epoch until this has no
place left, and then to the next one. Where no place is released for a second (SILENCE in the environment), and from
leader to leader for twice as long, it asks the next host to lead the epoch that lacks one. What was proposed there
may come out, or not: so it offers a noop that it knows again, and behind it the commands that weren't proposed anew.
Where the commands are over, and a later epoch has places, it fills an epoch with noops.

A host that lags is told by one that is further, and where that does nothing by another one: who joined behind an epoch
has nothing of it. No host is asked to go on while another one is an epoch behind, but for one that is away, which said
nothing for ten times that second; and a majority goes on with it. A host that is two epochs behind all others, or that
none can tell what it lacks, is left behind: they go on without it. Once it answers a release it gets the state of the
furthest one, and joins.

A host over a folder may end and begin again: it releases its epoch from the start, which isn't shown again. One that
waits (`--join`) is taken for a new machine in the place of one that died. It says so first, and where that is lost, by
its answer to a release. Once it is there, as many others as are a majority of all members say in which epochs they are.
It joins as soon as one is four epochs further than all of these.

It begins when each host is there, or a majority is and ten times that second is over. Hosts that it doesn't hear of are
asked to release.
"""
import collections
import heapq
import sys
import time

sys.dont_write_bytecode = True
from supervisor import SILENCE, lines_there, read_plan, run, words_in

AWAY = 10 * SILENCE
IN_FLIGHT = 64
# By how much the time of silence grows with each new leader and shrinks with each place that is released.
GROWS, SHRINKS, LONGEST_SILENCE = 2, 0.999, 8 * SILENCE
# By how many epochs a host has to be beyond the others' of the time at which one waits that lost its folder.
BEYOND = 4
# How many places a host may be behind the first one that released them: then offers wait.
MOST_BEHIND = 1024
# How often each that is further tells one in vain before that one joins.
MOST_VAIN = 4
PREPARE, ACCEPT = b"01", b"03"
# Faults of an offer: the host doesn't lead the epoch, or its places are used.
NOT_LEADING, ENDED = b"1", b"8"


class HostState:
    """What a host said of itself."""

    def __init__(self, now):
        self.is_there, self.is_behind, self.said = False, False, now
        self.epoch, self.lacks, self.given = 1, 1, 0
        # When it last answered a release, and when such an answer last had something.
        self.answered, self.moved = now, now
        # When it was asked to release, if it hasn't answered, and before when it isn't asked again.
        self.waiting, self.again, self.count = 0.0, 0.0, 0
        # Whether it lags, and from which place of which epoch on it was told, when, and how often in vain.
        self.lags, self.told, self.told_at, self.vain = False, None, 0.0, 0
        # When a state was last asked for it, which is left behind, or waits; how many it was given and hasn't answered;
        # when it was last asked whether it is there as it was, and when it last said so.
        self.joins_at, self.joins_given, self.checks_at, self.checked = 0.0, 0, 0.0, 0.0
        # Since when it waits, and from which epoch on it may join, once that is known.
        self.waits_since, self.joins_from = None, None
        # When the last release was asked that it answered, and up to which place its outputs were shown.
        self.seen, self.shown = 0.0, 0


class Epoch:
    """Who leads it, and at which of its places which offer is proposed. Offers are numbered as what is offered."""

    def __init__(self):
        self.leader, self.ballot, self.top = None, None, 0
        self.asked = collections.deque()  # offers that nobody has answered
        self.proposed = {}  # by place; released nowhere
        self.doubtful = {}  # the same, of leaders before
        self.votable = {}  # by place: the greatest ballot in which a value was proposed, and that value
        self.is_led, self.has_ended = False, False

    def used(self):
        return self.top + len(self.asked)

    def in_flight(self):
        return len(self.asked) + len(self.proposed) + len(self.doubtful)


class HostSupervisor:
    """`ordered` of the values are offered one after another."""

    def __init__(self, members, places, values, ordered, seconds):
        self.now = time.monotonic()
        self.members, self.places, self.seconds = members, places, seconds
        self.values, self.ordered = values, ordered
        self.fresh, self.back = 0, []  # the first offer that wasn't made, and those to be made again
        self.noops = 0
        self.epochs = collections.defaultdict(Epoch)
        self.hosts = [HostState(self.now) for _ in range(members)]
        self.leader, self.heard, self.silence, self.furthest = 0, self.now, SILENCE, 0
        self.outputs, self.compared = {}, 0
        self.lines, self.shown = [], []

    # What goes out.

    def ask(self, host, line):
        self.lines.append(f"{host} {line}\n")

    def ask_in(self, epoch, host, words):
        self.ask(host, f"{epoch}/{self.places} {words}")

    def show(self, line):
        self.shown.append(line + "\n")

    def write_out(self):
        for lines, output in ((self.lines, sys.stdout), (self.shown, sys.stderr)):
            if lines:
                output.write("".join(lines))
                output.flush()
                lines.clear()

    # What comes.

    def take(self, line):
        """A line of a host."""
        host, word, rest = line.split(b" ", 2)
        me = int(host)
        self.hosts[me].said = self.now
        if b"/" in word:
            self.take_in(me, word, rest)
        elif word == b"place":
            place, _, text = rest.partition(b" ")
            self.take_place(me, int(place), text.decode())
        elif word == b"released":
            self.hosts[me].count = int(rest)
        elif word == b"next":
            number, _, place = rest.partition(b" ")
            self.take_next(self.hosts[me], me, int(number.split(b"/")[0]), int(place))
        elif word == b"state":
            self.take_state(rest.decode())
        elif word == b"joined":
            self.take_joined(self.hosts[me], me, int(rest))
        elif word == b"host":
            self.take_first(self.hosts[me], me, rest.decode())
        elif line.endswith(b" error 11 NoState"):
            self.take_no_state(self.hosts[me], me)

    def take_first(self, it, host, words):
        who, begins = words.split(), words.split()[5:]
        if who[:5] != f"{host} of {self.members} places {self.places}".split():
            sys.exit(f"supervisor: host {host} says: host {words}")
        it.is_there, it.joins_given = True, 0
        if begins == ["waits"]:
            self.take_waiting(it, host)
        elif begins[:1] == ["restarted"]:
            self.take_restarted(it, host, int(begins[1]))

    def take_no_state(self, it, host):
        """The answer to a state that it was given; else to a release: it waits, and its first line was lost."""
        if it.joins_given:
            it.joins_given -= 1
        else:
            self.take_waiting(it, host)

    def take_waiting(self, it, host):
        if it.waits_since is None:
            it.is_there, it.is_behind, it.waits_since, it.joins_from = True, True, self.now, None
            it.joins_at = 0.0
            self.show(f"host {host} waits for a state")

    def take_restarted(self, it, host, epoch):
        """It leads nothing any more, and gives its epoch from the start."""
        self.begins_at(it, epoch)
        self.show(f"host {host} restarted in epoch {epoch}")
        if host == self.leader:
            self.heard = self.now - LONGEST_SILENCE - 1

    def begins_at(self, it, epoch):
        it.is_behind, it.lags, it.told, it.waiting, it.moved = False, False, None, 0.0, self.now
        it.waits_since, it.again = None, 0.0
        it.epoch, it.lacks, it.given = epoch, 1, (epoch - 1) * self.places

    def take_in(self, host, number, words):
        """A line of an epoch's node. Of the letters to all it looks at the one to the sender."""
        word, _, rest = words.partition(b" ")
        if word == b"letter":
            if rest[2:4] in (ACCEPT, PREPARE) and rest[:1] == b"%d" % host:
                self.take_letter(int(number.split(b"/")[0]), host, bytes.fromhex(rest[2:].decode()))
        elif word == b"fault" and rest[:1] in (NOT_LEADING, ENDED):
            self.take_fault(self.epochs[int(number.split(b"/")[0])], host, rest[:1])

    def take_letter(self, number, host, letter):
        epoch, ballot = self.epochs[number], int.from_bytes(letter[3:11], "big")
        if letter[0] == 1:
            epoch.ballot = ballot if host == epoch.leader else epoch.ballot
            return
        place, value = int.from_bytes(letter[11:19], "big"), letter[27:]
        is_open = (number - 1) * self.places + place > self.furthest
        if is_open:
            epoch.votable[place] = max(epoch.votable.get(place, (0, b"")), (ballot, value))
        if host == epoch.leader and ballot == epoch.ballot:
            epoch.top = max(epoch.top, place)
            if is_open:
                self.take_proposal(epoch, place, value)

    def take_proposal(self, epoch, place, value):
        """An offer that was answered, or what a new leader proposes again. While some are doubtful, a noop is asked."""
        if epoch.asked and self.value(epoch.asked[0]) == value:
            offer = epoch.asked.popleft()
            self.is_led(epoch)
            if offer >= 0:
                epoch.proposed[place] = offer
        elif place in epoch.doubtful:
            offer = epoch.doubtful.pop(place)
            if self.value(offer) == value:
                epoch.proposed[place] = offer
            else:
                self.give_back([offer])

    def is_led(self, epoch):
        """All that a new leader proposes again was seen: what is doubtful now is offered again."""
        epoch.is_led = True
        self.give_back(epoch.doubtful.values())
        epoch.doubtful.clear()

    def take_fault(self, epoch, host, fault):
        if host != epoch.leader or not epoch.asked:
            return
        self.give_back([epoch.asked.popleft()])
        if fault == ENDED:
            epoch.has_ended = True
            self.is_led(epoch)

    def take_place(self, host, place, text):
        if place > self.compared and self.outputs.setdefault(place, text) != text:
            sys.exit(f"supervisor: hosts differ at place {place}")
        if place > self.hosts[host].shown:
            self.hosts[host].shown = place
            self.show(f"host {host} place {place} {text}")
        if place > self.furthest:
            self.furthest, self.heard, self.silence = place, self.now, max(SILENCE, SHRINKS * self.silence)
            self.is_chosen(self.epochs[(place - 1) // self.places + 1], (place - 1) % self.places + 1)

    def is_chosen(self, epoch, place):
        """A place is released. What is chosen there was proposed in each greater ballot too."""
        _, value = epoch.votable.pop(place, (0, b""))
        for offers in (epoch.proposed, epoch.doubtful):
            if place in offers and self.value(offers[place]) != value:
                self.give_back([offers[place]])
            offers.pop(place, None)

    def take_next(self, it, host, epoch, place):
        """The last line of a release."""
        it.is_there, it.seen, it.checked = True, it.waiting or it.seen, self.now
        it.waiting, it.answered, it.again = 0.0, self.now, self.now + (0.0 if it.count else self.seconds)
        if epoch > it.epoch:
            self.show(f"host {host} epoch {epoch}")
        if (epoch, place) != (it.epoch, it.lacks):
            it.moved = self.now
        it.epoch, it.lacks, it.given = epoch, place, (epoch - 1) * self.places + place - 1
        self.furthest = max(self.furthest, it.given)

    def take_state(self, digits):
        """A state goes to all that were left behind and are there as they were, and to those that wait for it."""
        for host, it in enumerate(self.hosts):
            if it.is_behind and self.joins_by(it, host, int(digits[32:48], 16)):
                it.joins_given += 1
                self.ask(host, f"join {digits}")

    def joins_by(self, it, host, epoch):
        """Whether it may go to a state of that epoch. Who waits goes by where a majority was behind that. Another one
        has just answered a release: who hasn't may be a new machine, of which nothing is known yet."""
        if it.waits_since is None:
            return self.now - it.checked < SILENCE
        seen = [other for other in self.hosts if not other.is_behind and other.seen > it.waits_since]
        if it.joins_from is None and 2 * len(seen) > self.members:
            it.joins_from = max(other.epoch for other in seen) + BEYOND
            self.show(f"host {host} waits for epoch {it.joins_from}")
        return it.joins_from is not None and it.joins_from <= epoch

    def take_joined(self, it, host, epoch):
        it.joins_given = max(0, it.joins_given - 1)
        self.begins_at(it, epoch)
        self.show(f"host {host} joined epoch {epoch}")

    # What is left to offer.

    def value(self, offer):
        """The bytes of an offer. Those below 0 are noops, no two of which are equal."""
        return self.values[offer] if offer >= 0 else b"\0" + (-offer).to_bytes(8, "big")

    def give_back(self, offers):
        for offer in offers:
            if offer >= 0:
                heapq.heappush(self.back, offer)

    def left(self):
        return len(self.back) + len(self.values) - self.fresh

    def first_left(self):
        return self.back[0] if self.back else self.fresh

    def next_offer(self):
        """The next of what is left, or a noop."""
        if self.back:
            return heapq.heappop(self.back)
        if self.fresh < len(self.values):
            self.fresh += 1
            return self.fresh - 1
        return self.noop()

    def noop(self):
        self.noops += 1
        return -self.noops

    def in_flight(self):
        return sum(it.in_flight() for it in self.epochs.values())

    # What is asked.

    def there(self):
        return [it for it in self.hosts if not it.is_behind]

    def is_away(self, it):
        return self.now - it.said > AWAY

    def next_leader(self):
        """The next host that is there and not away, if there is one."""
        order = [(self.leader + behind) % self.members for behind in range(1, self.members + 1)]
        good = [host for host in order if not (self.hosts[host].is_behind or self.is_away(self.hosts[host]))]
        return (good or order)[0]

    def is_ahead(self, number):
        """Whether one that is there has no node of that epoch yet: it would refuse its letters, and lag on and on."""
        return any(it.epoch + 1 < number for it in self.there() if not self.is_away(it))

    def leads(self, number):
        """Whether an epoch has this leader. It is asked to lead where it and a majority have a node of that epoch."""
        if self.epochs[number].leader != self.leader:
            near = [host for host, it in enumerate(self.hosts) if it.epoch - 1 <= number <= it.epoch + 1]
            if self.leader not in near or 2 * len(near) <= self.members:
                return False
            self.lead(number)
        return True

    def lead(self, number):
        epoch = self.epochs[number]
        self.give_back(epoch.asked)
        epoch.asked.clear()
        epoch.doubtful |= epoch.proposed
        epoch.proposed = {}
        epoch.leader, epoch.ballot, epoch.top = self.leader, None, 0
        epoch.is_led = epoch.has_ended = False
        self.show(f"lead {self.leader} epoch {number}")
        self.ask_in(number, self.leader, "lead")

    def offer(self, number, offer):
        self.epochs[number].asked.append(offer)
        self.ask_in(number, self.leader, f"offer {self.value(offer).hex()}")

    def room(self):
        """How many offers may be made now."""
        live = [it.given for it in self.there() if not self.is_away(it)]
        if self.furthest - min(live, default=0) > MOST_BEHIND:
            return 0
        return (1 if self.first_left() < self.ordered else IN_FLIGHT) - self.in_flight()

    def offers(self):
        """Offers in the first epoch that has places left. The next one is led before it has none."""
        number = max(it.epoch for it in self.hosts)
        while self.left() or any(it.in_flight() for n, it in self.epochs.items() if n >= number):
            if self.is_ahead(number) or not self.leads(number) or not self.fills(number, self.epochs[number]):
                return
            number += 1

    def fills(self, number, epoch):
        """Whether an epoch has no place left."""
        is_later = any(it.in_flight() for n, it in self.epochs.items() if n > number)
        if not epoch.is_led:
            if not epoch.asked and (epoch.doubtful or self.left() or is_later):
                self.offer(number, self.noop() if epoch.doubtful else self.next_offer())
            return False
        for _ in range(min(self.room(), self.places - epoch.used())):
            if epoch.has_ended or not (self.left() or is_later):
                break
            self.offer(number, self.next_offer())
        if self.left() and epoch.used() + max(self.places // 10, IN_FLIGHT) >= self.places:
            self.leads(number + 1)
        return epoch.has_ended or epoch.used() >= self.places

    def waits(self, it):
        """Whether this host has passed its epoch, and one that isn't away is an epoch behind, or a majority is."""
        behind = [other for other in self.hosts if other.epoch < it.epoch]
        is_awaited = any(not (other.is_behind or self.is_away(other)) for other in behind)
        return it.lacks > self.places and (is_awaited or 2 * len(behind) > self.members)

    def releases(self):
        """Asks no host twice at once, since the second time might have it go on."""
        for host, it in enumerate(self.hosts):
            if it.is_behind or self.now < it.again or it.waiting and self.now - it.waiting < AWAY:
                continue
            if self.waits(it):
                self.heard = self.now
                continue
            it.waiting = self.now
            self.ask(host, "release 0")

    def tells(self):
        """Has those told that lag. Who is two epochs behind all others can't be told any more, and joins."""
        for host, it in enumerate(self.hosts):
            if it.is_behind or it.given == self.furthest:
                continue
            further = [k for k, other in enumerate(self.hosts) if other.given > it.given and not other.is_behind]
            near = [k for k in further if self.hosts[k].epoch <= it.epoch + 1]
            if further and not near:
                it.is_behind = True
                self.show(f"host {host} is two epochs behind all others")
            elif near and self.lags(host, it):
                self.tell(host, it, sorted(near, key=lambda k: -self.hosts[k].given))

    def checks(self):
        """Asks those that were left behind whether they are there as they were. Who waits is asked too: so what carries
        lines to it has found it before a state goes there."""
        for host, it in enumerate(self.hosts):
            if it.is_behind and self.now - it.checks_at > SILENCE:
                it.checks_at = it.waiting = self.now
                self.ask(host, "release 0")

    def joins(self):
        """Asks the furthest host for its state, for those that were left behind and are there, or wait."""
        furthest = max(range(self.members), key=lambda k: (not self.hosts[k].is_behind, self.hosts[k].given))
        epoch = self.hosts[furthest].epoch
        due = [it for host, it in enumerate(self.hosts) if it.is_behind and self.joins_by(it, host, epoch)]
        due = [it for it in due if self.now - it.joins_at > SILENCE]
        if due:
            self.ask(furthest, "state")
        for it in due:
            it.joins_at = self.now

    def lags(self, host, it):
        """Whether it answers, and for a second has had nothing that others have; and then until it has caught up."""
        has_nothing = it.answered - it.moved > SILENCE
        if has_nothing and not it.lags:
            self.show(f"host {host} lags: it lacks place {it.lacks} of epoch {it.epoch}")
        it.lags = has_nothing or it.lags and self.furthest - it.given > IN_FLIGHT
        return it.lags

    def tell(self, host, it, near):
        """Once for each place that it lacks first, and again where that did nothing, by another one: who joined the
        next epoch may have no node of this one. Where all are in the next epoch, and nothing helps, it joins."""
        if (it.epoch, it.lacks) != it.told:
            it.vain = 0
        elif self.now - it.told_at > SILENCE:
            it.vain += 1
        else:
            return
        if it.vain >= MOST_VAIN * len(near) and all(self.hosts[k].epoch > it.epoch for k in near):
            it.is_behind = True
            self.show(f"host {host} can't catch up")
            return
        it.told, it.told_at = (it.epoch, it.lacks), self.now
        self.ask_in(it.epoch, near[it.vain % len(near)], f"tell {host} {it.lacks}")

    def forgets(self):
        """Outputs that all have given, and epochs that all have passed."""
        lowest = min(it.given for it in self.there())
        while self.compared < lowest:
            self.compared += 1
            self.outputs.pop(self.compared, None)
        passed = min(it.epoch for it in self.there()) - 1
        for number in [n for n in self.epochs if n < passed]:
            del self.epochs[number]

    def look(self):
        """Asks for what is due; whether all is done."""
        is_over = not (self.left() or self.in_flight())
        if is_over and all(it.given == self.furthest or self.is_away(it) for it in self.there()):
            return True
        if not is_over and self.now - self.heard > self.silence:
            self.leader, self.heard = self.next_leader(), self.now
            self.silence = min(LONGEST_SILENCE, GROWS * self.silence)
        self.offers()
        self.releases()
        self.tells()
        self.checks()
        self.joins()
        self.forgets()
        self.write_out()
        return False

    def reads(self):
        """Takes what has come."""
        lines = lines_there(self.seconds)
        self.now = time.monotonic()
        for line in lines:
            self.take(line)

    def begin(self):
        """Waits until each host has said that it is there, or a majority has and the others are away."""
        while not all(it.is_there for it in self.hosts):
            absent = [host for host, it in enumerate(self.hosts) if not it.is_there]
            if 2 * len(absent) < self.members and all(self.is_away(self.hosts[host]) for host in absent):
                break
            for host in absent:
                if self.now - self.hosts[host].waiting > SILENCE:
                    self.hosts[host].waiting = self.now
                    self.ask(host, "release 0")
            self.write_out()
            self.reads()
        self.heard = self.now


def main():
    (members, places), plan, cuts, seconds = words_in(__doc__, 2, 0.01)
    values = read_plan(plan, cuts)
    it = HostSupervisor(members, places, values, len(values) - cuts, seconds)
    it.begin()
    while not it.look():
        it.reads()
    it.show(f"all {it.furthest}")
    it.write_out()


if __name__ == "__main__":
    run(main)
