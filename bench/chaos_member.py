"""A member of a run of bench/chaos.py: its file, and one process after another over it."""
import contextlib
import os
import resource
import subprocess

from chaos_checks import Difference
from node_process import LineProcess, node_words

DISK = 32 << 20
FREE = resource.RLIM_INFINITY


class Disk:
    """The folder of a member's file. It is a file system of its own where one may be mounted."""

    def __init__(self, folder, may_mount):
        self.folder = folder
        os.makedirs(folder)
        words = ["mount", "-t", "tmpfs", "-o", f"size={DISK}", "upsched-chaos", folder]
        self.is_own = may_mount and subprocess.run(words, capture_output=True).returncode == 0
        self.ballast = os.path.join(folder, "ballast")

    def fill(self, spare):
        """Leaves this file system so many bytes, roughly."""
        free = os.statvfs(self.folder)
        size = free.f_bavail * free.f_frsize - spare
        with contextlib.suppress(OSError), open(self.ballast, "wb", buffering=0) as file:
            os.posix_fallocate(file.fileno(), 0, max(size, 4096))

    def empty(self):
        with contextlib.suppress(FileNotFoundError):
            os.unlink(self.ballast)

    def leave(self):
        if self.is_own:
            subprocess.run(["umount", "-l", self.folder], check=True)


class Member:
    """Counts what happened to it in `counts`, and keeps in `lines` what its processes read and wrote."""

    def __init__(self, program, number, members, disk, counts, journal=None):
        self.program, self.number, self.members, self.disk, self.counts = program, number, members, disk, counts
        self.journal = journal
        self.file = os.path.join(disk.folder, f"node-{number}.db")
        self.process, self.was_answered, self.lines = None, False, []
        self.full_until = self.stopped_until = None
        self.was_full = self.was_killed = self.crashes = False
        self.replies, self.prefix = [], 0
        self.is_ready = False

    def note(self, mark, line):
        self.lines.append((mark, bytes(line)))

    def start(self):
        """A new life. It is a new node's as long as no process over this file said anything: nothing stays then."""
        new = not self.was_answered
        if new:
            self.remove()
        words = node_words(self.program, self.number, self.members, self.file, new, self.journal)
        self.hello = b"node %d of %d %s" % (self.number, self.members, b"fresh" if new else b"restarted")
        self.live(LineProcess(words), b" --new" * new)

    def live(self, process, words):
        self.process, self.is_ready = process, False
        self.note("=", b"started" + words)
        self.was_full = self.full_until is not None
        self.was_killed = self.crashes = False
        self.prefix = 0
        if self.was_full and not self.disk.is_own:
            self.limit()

    def remove(self):
        """Nobody heard of what a start left that was killed before its first line."""
        for path in self.files():
            with contextlib.suppress(FileNotFoundError):
                os.unlink(path)

    def files(self):
        return [self.file, self.file + "-wal"]

    def tells_cause(self, errors):
        """Whether a node that ended while its disk was full says why, where that was its database."""
        cause = "no room" if self.disk.is_own else "a read or write failed"
        if errors.startswith(("upsched: crashed: ", "upsched: store: ")):
            return errors.endswith(f": {self.file}: {cause}\n")
        return errors.startswith("upsched: ")

    def limit(self):
        """No file may grow beyond its size now."""
        sizes = [os.path.getsize(path) for path in self.files() if os.path.exists(path)]
        if self.process:
            with contextlib.suppress(ProcessLookupError):
                resource.prlimit(self.process.process.pid, resource.RLIMIT_FSIZE, (max([0, *sizes]), FREE))

    def fill(self, until, spare):
        """Its disk is full until then."""
        self.full_until = until
        self.was_full = True
        self.note("=", b"full")
        if self.disk.is_own:
            self.disk.fill(spare)
        else:
            self.limit()

    def empty(self):
        self.full_until = None
        self.note("=", b"no longer full")
        self.disk.empty()
        if self.process:
            with contextlib.suppress(ProcessLookupError):
                resource.prlimit(self.process.process.pid, resource.RLIMIT_FSIZE, (FREE, FREE))

    def ask(self, line, is_hostile=False):
        self.process.ask(line)
        self.process.waiting[-1].is_hostile = is_hostile
        self.note("<", line)

    def is_busy(self):
        """Whether something is to come of its process."""
        life = self.process
        if life is None or self.stopped_until is not None:
            return False
        return bool(life.waiting or life.unsent or self.was_killed or self.crashes)

    def is_crash(self, line):
        """Whether this is the fault of a node that is down."""
        return line[:8] in (b"fault 5 ", b"fault 6 ", b"fault 7 ")

    def read(self):
        whole = self.process.read_some()
        for reply in whole:
            for line in reply.lines:
                self.note(">", line)
            self.crashes |= self.is_crash(reply.lines[0])
        self.replies += whole
        if self.process.ended:
            self.bury()

    def bury(self):
        """The end of a life, and whether it may end so."""
        life, self.process, self.stopped_until, self.is_ready = self.process, None, None, False
        cut = life.cut_off()
        if cut:
            for line in cut.lines:
                self.note("> (cut off)", line)
            self.replies.append(cut)
        self.counts["kills in a call"] += self.was_killed and any(reply.asked is not None for reply in life.waiting)
        status, errors = life.close()
        self.note("=", f"ended {status} {errors!r}".encode())
        if self.was_killed and status == -9:
            return
        if self.is_refused(status, errors):
            return
        self.counts["crashes of full disks"] += self.was_full
        if not self.was_full or status != 1 or errors.count("\n") != 1 or not self.tells_cause(errors):
            raise Difference(f"node {self.number} ended with status {status} and {errors!r}")

    def is_refused(self, status, errors):
        """Whether a life may end so that had no beginning."""
        return False
