"""A member of a run of bench/host_chaos.py: its folder, and one process after another over it."""
import os
import re
import shutil

from chaos_checks import Difference
from chaos_member import Member
from node_process import HostReply, LineProcess, host_words

FIRST = re.compile(rb"host (\d) of (\d) places (\d+) (?:(fresh)|(waits)|restarted (\d+) ([0-9a-f]{16}))")


class HostMember(Member):
    """`epoch` and `lacks` are the host's own epoch and the first place of it that it lacks, as it said last, and
    `first` is the first epoch of which it may have a node. `given` are the numbers of its outputs in all its lives, and
    `skipped` those that it never gives, since it joined behind them."""

    def __init__(self, program, number, members, disk, counts, journal, places):
        super().__init__(program, number, members, disk, counts, journal)
        self.places = places
        self.folder = os.path.join(disk.folder, "host")
        # With which word it starts, until a process over this folder said that it is there.
        self.word, self.is_unheard = "--new", False
        self.epoch = self.lacks = self.furthest = self.first = 0
        self.waits, self.is_lost, self.dark_until = False, False, None
        self.given, self.skipped = set(), set()
        os.makedirs(self.folder)

    def start(self):
        words = host_words(self.program, self.number, self.members, self.places, self.folder, self.word, self.journal)
        self.waits = False
        self.live(LineProcess(words, HostReply), b" " + self.word.encode() if self.word else b"")

    def files(self):
        return [os.path.join(self.folder, name) for name in os.listdir(self.folder)]

    def is_crash(self, line):
        return re.match(rb"\d+/\d+ fault [567] ", line) is not None

    def lose(self):
        """Its machine is gone, with the folder. What is there next is another one, which waits for a state."""
        shutil.rmtree(self.folder)
        os.makedirs(self.folder)
        self.word, self.is_unheard, self.is_lost = "--join", False, True
        self.note("=", b"the folder is gone")

    def take_first(self, line):
        """The first line of a life: the digest of the state over which it goes on, if there is one."""
        said = FIRST.fullmatch(line)
        who = (self.number, self.members, self.places)
        wanted = {"--new": 4, "--join": 5, None: 6}[self.word]
        if not said or tuple(map(int, said.groups()[:3])) != who or said[wanted] is None:
            raise Difference(f"host {self.number} began with {line!r}, started with {self.word}")
        self.is_ready = self.process is not None
        if said[5]:
            self.waits = True
            return None
        self.word, self.is_unheard = None, False
        self.be_at(int(said[6] or 1), 1)
        return said[7]

    def be_at(self, epoch, lacks):
        if epoch < self.furthest:
            raise Difference(f"host {self.number} is in epoch {epoch}, and was in epoch {self.furthest}")
        self.epoch, self.lacks, self.furthest = epoch, lacks, epoch
        self.prefix = (epoch - 1) * self.places + lacks - 1

    def join(self, epoch):
        """It is at the start of that epoch now, and never gives what it lacks before it."""
        last = (epoch - 1) * self.places
        self.skipped.update(range(1, last + 1))
        if self.waits or epoch > self.epoch + 2:
            self.first = epoch
        self.be_at(epoch, 1)
        self.waits, self.word, self.is_unheard, self.is_lost = False, None, False, False

    def knows(self, other):
        """Whether it has a node of the other's epoch, and more of that."""
        return self.first <= other.epoch <= self.epoch <= other.epoch + 1 and self.prefix > other.prefix

    def give(self, number):
        self.prefix += 1
        if number != self.prefix:
            raise Difference(f"host {self.number} gave output {number} where {self.prefix} is next")
        self.given.add(number)

    def tells_cause(self, errors):
        """Whether a host that ended while its disk was full says so, by whichever of its files."""
        return errors.startswith("upsched: ")

    def bury(self):
        was_ready = self.is_ready
        super().bury()
        self.is_unheard |= not was_ready or self.waits

    def is_refused(self, status, errors):
        """A start that was stopped behind its last write: over what it left no host begins, and this one goes on."""
        refused = f"upsched: store not fresh: {self.folder}/"
        is_known = status == 1 and errors.startswith(refused) and errors.count("\n") == 1
        if not (self.word and self.is_unheard and is_known):
            return False
        self.counts["starts that nobody heard of"] += 1
        self.word = None
        return True
