#!/usr/bin/env python3
"""Kills a host over a folder before each system call that changes a file there, and fills its disk at each step. Each
time it starts the host again by the same words, and compares what it gives with what one gives without a fault.

Usage: bench/host_kills.py [PROGRAM] [--each N]

A host begins with `--new` and works through epochs of two places; goes on over a folder in which a host was stopped
while it let go; begins with `--join` and goes to a state; and joins where it lags. strace (Debian's package) kills it
before the call. Where `--new` or `--join` did all that it has to and was killed before its first line, or the reply, it
refuses the same words, since the state is there: then the host starts without them.

A disk is full where the folder is a file system of so many pages (root may mount one); then what the host says has to
be a fault or a line of its own. With room again the same process goes on where it lives, and the same words start it.

It prints a line for each of these, and ends with status 1 where something was otherwise. With --each only each N-th
call and each N-th size of a disk is tried, for a slow program.
"""
import collections
import os
import re
import shutil
import subprocess
import sys

sys.dont_write_bytecode = True
from host_life import PLACES, Life, Seen, Wrong, main_of, place_lines, value, work_lines

CHANGES = ["open", "openat", "creat", "write", "writev", "pwrite64", "pwritev", "pwritev2", "ftruncate", "fallocate"]
CHANGES += ["fsync", "fdatasync", "sync_file_range", "rename", "renameat", "renameat2", "unlink", "unlinkat", "msync"]
CALL = re.compile(r"^(?:\d+ +)?(\w+)\((.*)\) += (-?\d+|\?)")
PAGE, MOST_PAGES, LAST = 4096, 4096, 2


class Case:
    """What a host does: the word with which it starts, the folder over which, or none, and the lines that it gets."""

    def __init__(self, name, word, lines, folder=None):
        self.name, self.word, self.lines, self.folder = name, word, [*lines, "state"], folder


class Kills:
    def __init__(self, program, room, each):
        self.program, self.room, self.each, self.wrong, self.count = program, room, each, 0, 0

    def folder_of(self, case):
        """A folder of its own, as it is there at first."""
        self.count += 1
        folder = os.path.join(self.room, str(self.count), "host")
        if case.folder:
            shutil.copytree(case.folder, folder)
        else:
            os.makedirs(folder)
        return folder

    def without_fault(self, case):
        """What is given without a fault; of each call that changes the folder its name and its number of that name."""
        folder, seen = self.folder_of(case), Seen()
        trace = os.path.join(self.room, "trace")
        words = ["strace", "-f", "-y", "-s", "64", "-e", "trace=" + ",".join(CHANGES), "-o", trace]
        life = Life(self.program, folder, case.word, words)
        if not seen.begins(life) or not seen.drive(life, case.lines)[0]:
            raise Wrong(f"{case.name}: no host without a fault: {life.end()}")
        if life.end() != (0, "") or not seen.outputs:
            raise Wrong(f"{case.name}: ended otherwise without a fault")
        return seen, list(self.calls(trace, folder))

    def calls(self, trace, folder):
        counts = collections.Counter()
        with open(trace, errors="replace") as text:
            for line in text:
                if not (found := CALL.match(line)):
                    continue
                name, words, _ = found.groups()
                counts[name] += 1
                is_change = "O_CREAT" in words or "O_TRUNC" in words or not name.startswith("open")
                if folder in words and is_change:
                    yield name, counts[name]

    def start(self, case, folder, seen):
        """A life by the same words, or without the first one, where all that it does was done."""
        life = Life(self.program, folder, case.word)
        if life.first is None and case.word:
            status, errors = life.end()
            if status != 1 or not re.fullmatch(rf"upsched: store not fresh: {re.escape(folder)}/\d+\.state\n", errors):
                raise Wrong(f"the same words end with {status} and {errors!r}")
            life = Life(self.program, folder)
        if not seen.begins(life):
            raise Wrong(f"no start again: {life.end()}")
        return life

    def again(self, case, folder, seen, known):
        """Starts it again, has it do the same, and compares."""
        life = self.start(case, folder, seen)
        alive, _ = seen.drive(life, case.lines)
        status, errors = life.end()
        if not alive or status or errors:
            raise Wrong(f"it ended with {status} and {errors!r}")
        seen.check_whole(known)

    def kill(self, case, known, name, number):
        """What is left is given, too."""
        folder, seen = self.folder_of(case), Seen(known)
        inject = f"inject={name}:signal=KILL:when={number}"
        words = ["strace", "-f", "-e", f"trace={name}", "-e", inject, "-o", os.path.join(self.room, "killed")]
        life = Life(self.program, folder, case.word, words)
        if seen.begins(life):
            seen.drive(life, case.lines)
        status, errors = life.end()
        if status not in (-9, 137):
            raise Wrong(f"it wasn't killed: {status}, {errors!r}")
        left = folder + "-left"
        shutil.copytree(folder, left)
        self.again(case, folder, seen, known)
        return left

    def kills(self, case):
        """One kill before each call; the folders that they left, by the call."""
        known, calls = self.without_fault(case)
        calls = calls[:: self.each]
        lefts, wrong, names = {}, 0, collections.Counter(name for name, _ in calls)
        for name, number in calls:
            try:
                lefts[name, number] = self.kill(case, known, name, number)
            except Wrong as why:
                wrong += 1
                print(f"{case.name}, killed before {name} {number}: {why}", flush=True)
        self.wrong += wrong
        said = " ".join(f"{name} {count}" for name, count in sorted(names.items()))
        print(f"{case.name}: killed before each of {len(calls)} calls ({said}): {wrong} wrong", flush=True)
        return known, lefts

    # Full disks.

    def full(self, case, known, folder, pages, said):
        seen = Seen(known)
        life = Life(self.program, folder, case.word)
        alive, came = seen.drive(life, case.lines) if seen.begins(life) else (False, set())
        said.update(it for it in came if "fault" in it)
        self.mount(folder, MOST_PAGES, "remount,")
        if alive:
            seen.drive(life, case.lines)
        status, errors = life.end()
        if not alive:
            said[re.sub(rf"{re.escape(folder)}\S*", "PATH", errors.strip())] += 1
        if (status, errors) != (0, "") and not (status == 1 and re.fullmatch(r"upsched: .*\n", errors)):
            raise Wrong(f"it ended with {status} and {errors!r}")
        self.again(case, folder, seen, known)
        return alive and not came

    def mount(self, folder, pages, how=""):
        words = ["mount", "-t", "tmpfs", "-o", f"{how}size={pages * PAGE}", "upsched-kills", folder]
        return subprocess.run(words, capture_output=True).returncode == 0

    def disks(self, case, known):
        """A disk of so many pages, of one more, and so on, up to one that is never full."""
        said, wrong, had_room, pages, tried = collections.Counter(), 0, False, 1, 0
        least = sum(-(-os.path.getsize(it.path) // PAGE) for it in os.scandir(case.folder)) + 1 if case.folder else 1
        while not had_room and pages < MOST_PAGES:
            folder = os.path.join(self.room, "disk")
            os.makedirs(folder, exist_ok=True)
            if not self.mount(folder, least + pages):
                print(f"{case.name}: no full disks, since nothing may be mounted")
                return
            try:
                if case.folder:
                    shutil.copytree(case.folder, folder, dirs_exist_ok=True)
                had_room = self.full(case, known, folder, pages, said)
            except Wrong as why:
                wrong += 1
                print(f"{case.name}, a disk of {least + pages} pages: {why}", flush=True)
            finally:
                subprocess.run(["umount", "-l", folder], check=True)
            pages, tried = pages + self.each, tried + 1
        self.wrong += wrong
        print(f"{case.name}: {tried - 1} full disks: {wrong} wrong; said was {dict(said)}", flush=True)

    # All cases.

    def all(self):
        new = Case("new", "--new", work_lines(1, LAST))
        known, lefts = self.kills(new)
        self.disks(new, known)
        unlinks = [left for (name, _), left in lefts.items() if name.startswith("unlink")]
        begun = next(left for left in lefts.values() if os.path.exists(os.path.join(left, "1.state")))
        for at, left in enumerate([begun, *unlinks[:2], *unlinks[-1:]]):
            name = f"start {at + 1} over {' '.join(sorted(os.listdir(left)))}"
            start = Case(name, None, work_lines(1, LAST + 1), left)
            self.kills(start)
        join = f"join {known.state.removeprefix('state ')}"
        behind = [join, *work_lines(LAST + 1, LAST + 2)]
        known, _ = self.kills(Case("join", "--join", behind))
        self.disks(Case("join", "--join", behind), known)
        lags = Case("lags", None, [*place_lines(1, 1, PLACES, value(1)), *behind], begun)
        known, _ = self.kills(lags)
        self.disks(lags, known)


if __name__ == "__main__":
    sys.exit(main_of(__doc__, Kills, ["strace"]))
