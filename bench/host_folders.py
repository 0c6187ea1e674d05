#!/usr/bin/env python3
"""Starts hosts over folders that aren't as they should be, and has hosts join by bytes that are no state.

Usage: bench/host_folders.py [PROGRAM] [--each N]

A state is cut at each byte, and has each byte changed: then the one before counts, and the host gives the same outputs
from there, or no state does and the start says so. Folders lack databases or logs, are another host's, of other members
or places, in use, or have what they shouldn't. A host that works and one that waits get states that are cut, changed,
of other members or places, or of an epoch that isn't above the host's own: they stay where they are. No start that is
refused changes a folder. It prints a line for each kind, and ends with status 1 where something was otherwise. With
--each only each N-th byte is tried, for a slow program.
"""
import os
import shutil
import sys

sys.dont_write_bytecode = True
from host_chaos import SUM, framed
from host_life import MEMBERS, PLACES, Life, Seen, Wrong, main_of, work_lines

# The epochs at whose starts the folders are that hosts left.
BEFORE, LAST = 2, 3
# How many characters are printed of what is otherwise.
LONGEST = 300


def contents(folder):
    """Each file of a folder, with its bytes."""
    found = {}
    for name in sorted(os.listdir(folder)):
        with open(os.path.join(folder, name), "rb") as file:
            found[name] = file.read()
    return found


def write(folder, name, octets):
    with open(os.path.join(folder, name), "wb") as file:
        file.write(octets)


def short(found):
    """What was found, cut where it is long."""
    return text if len(text := repr(found)) <= LONGEST else text[:LONGEST] + " .."


def spoiled(octets, each):
    """These bytes cut at each so-manyth place, and with each of these bytes changed."""
    for at in range(0, len(octets), each):
        yield f"cut at {at}", octets[:at]
        yield f"changed at {at}", octets[:at] + bytes([octets[at] ^ 1 << at % 8]) + octets[at + 1 :]


class Folders:
    def __init__(self, program, room, each):
        self.program, self.room, self.each, self.wrong, self.count = program, room, each, 0, 0

    def new_folder(self, *parts):
        """A folder with what these have, a later one before an earlier one."""
        self.count += 1
        folder = os.path.join(self.room, str(self.count))
        os.makedirs(folder)
        for part in parts:
            shutil.copytree(part, folder, dirs_exist_ok=True)
        return folder

    def check(self, what, found, wanted):
        if found != wanted:
            self.wrong += 1
            print(f"{what}: {short(found)}, not {short(wanted)}", flush=True)

    def made(self, last):
        """A folder that a host left at the start of the epoch behind the last one; what it gave, and its state."""
        folder, seen = self.new_folder(), Seen()
        life = Life(self.program, folder, "--new")
        if not seen.begins(life) or not seen.drive(life, [*work_lines(1, last), "state"])[0] or life.end() != (0, ""):
            raise SystemExit(f"bench/host_folders.py: no host over {folder}")
        return folder, seen, bytes.fromhex(seen.state.removeprefix("state "))

    def refused(self, what, folder, line, word=None, **other):
        """A start ends with this line, and changes nothing."""
        before = contents(folder) if os.path.isdir(folder) else None
        life = Life(self.program, folder, word, **other)
        said = (life.first, *life.end())
        self.check(what, said, (None, 1, f"upsched: {line.replace('DIR', folder)}\n"))
        self.check(f"{what}: the folder", contents(folder) if os.path.isdir(folder) else None, before)

    def first(self, what, folder, wanted, word=None):
        life = Life(self.program, folder, word)
        said = (life.first, *life.end())
        self.check(what, said, (f"host 1 of {MEMBERS} places {PLACES} {wanted}", 0, ""))

    # States that are spoiled.

    def spoils(self):
        name, count = f"{LAST}.state", 0
        for what, octets in spoiled(self.state, self.each):
            folder = self.new_folder(self.last)
            write(folder, name, octets)
            self.refused(f"{name} {what}, alone", folder, f"store: DIR/{name}: damaged")
            shutil.rmtree(folder)
            folder = self.new_folder(self.before, self.last)
            write(folder, name, octets)
            life, seen = Life(self.program, folder), Seen(self.seen)
            self.check(f"{name} {what}", (life.first or "").split()[-3:-1], ["restarted", str(BEFORE)])
            try:
                seen.begins(life)
                seen.drive(life, [*work_lines(1, LAST - 1), "state"] if count % 16 < 2 else ["state"])
                if count % 16 < 2:
                    self.check(f"{name} {what}: state", seen.state, self.seen.state)
            except Wrong as why:
                self.check(f"{name} {what}", str(why), "")
            self.check(f"{name} {what}: its end", life.end(), (0, ""))
            shutil.rmtree(folder)
            count += 1
        print(f"states cut and changed: {count}, each alone and with the one before", flush=True)

    # Folders that are otherwise.

    def lacks(self):
        digest = f"restarted {LAST} {self.state[-SUM:].hex()}"
        for name, line in [
            (f"{LAST}.db", f"no store: DIR/{LAST}.db"),
            (f"{LAST + 1}.db", f"no store: DIR/{LAST + 1}.db"),
            (f"{LAST}.db-wal", f"log missing: DIR/{LAST}.db-wal: isn't there"),
            (f"{LAST + 1}.db-wal", f"log missing: DIR/{LAST + 1}.db-wal: isn't there"),
            (f"{LAST - 1}.db-wal", f"log missing: DIR/{LAST - 1}.db-wal: isn't there"),
        ]:
            folder = self.new_folder(self.last)
            os.remove(os.path.join(folder, name))
            self.refused(f"without {name}", folder, line)
        folder = self.new_folder(self.last)
        for name in (f"{LAST - 1}.db", f"{LAST - 1}.db-wal"):
            os.remove(os.path.join(folder, name))
        self.first("without the database of the epoch before", folder, digest)
        folder = self.new_folder(self.before, self.last)
        for name in (f"{LAST + 2}.state.part", "0.db", "01.state", "x.db"):
            write(folder, name, b"x")
        self.first("with files of other names", folder, digest)
        left = {name.removesuffix("-wal") for name in os.listdir(folder)}
        own = {f"{LAST}.state", "0.db", "01.state", "x.db", *(f"{epoch}.db" for epoch in range(LAST - 1, LAST + 2))}
        self.check("files behind a start", sorted(left), sorted(own))
        print("folders that lack files, and with others: 7", flush=True)

    def words(self):
        state = f"DIR/{LAST}.state"
        for what, line, word, other in [
            ("another host", f"store of another node: {state}: node 1 of 3", None, dict(host=0)),
            ("other members", f"store of other members: {state}: 1 of 3", None, dict(members=5)),
            ("other places", f"store of other places: {state}: {PLACES}", None, dict(places=PLACES + 1)),
            ("--new over a state", f"store not fresh: {state}", "--new", {}),
            ("--join over a state", f"store not fresh: {state}", "--join", {}),
        ]:
            self.refused(what, self.new_folder(self.last), line, word, **other)
        self.refused("nothing, over an empty folder", self.new_folder(), "no store: DIR")
        folder = self.new_folder(self.last)
        for name in (f"{LAST}.state", f"{LAST}.db", f"{LAST}.db-wal", f"{LAST + 1}.db", f"{LAST + 1}.db-wal"):
            os.remove(os.path.join(folder, name))
        self.refused("--new over a database", folder, f"store not fresh: DIR/{LAST - 1}.db", "--new")
        self.refused("nothing, over a database", folder, "no store: DIR")
        for word in (None, "--new", "--join"):
            self.refused(f"{word} over no folder", os.path.join(self.room, "nowhere"), "store: DIR: no folder", word)
        for kind in ("state", "db"):
            name = f"{LAST}.{kind}"
            line = f"store of another node: DIR/{name}: node 0 of 3"
            self.refused(f"the {kind} of another host", self.foreign(name), line)
        folder = self.new_folder(self.last)
        life = Life(self.program, folder)
        self.refused("in use", folder, f"store in use: DIR/{LAST - 1}.db")
        life.end()
        print("words that don't fit a folder, and folders that don't fit the words: 14", flush=True)

    def foreign(self, name):
        """A folder with one file of host 0, and of its log, where it has one."""
        other = self.new_folder()
        life = Life(self.program, other, "--new", host=0)
        life.ask(f"1/{PLACES} lead")
        life.end()
        folder = self.new_folder(self.last)
        if name.endswith(".state"):
            told = self.state[:40] + bytes([0]) + self.state[41:-SUM]
            write(folder, name, framed(told))
        else:
            for end in ("", "-wal"):
                shutil.copy(os.path.join(other, f"1.db{end}"), os.path.join(folder, name + end))
        return folder

    # States that are none.

    def no_states(self, epoch):
        """Bytes by which a host in this epoch goes nowhere."""
        ahead, told = (epoch + 1).to_bytes(8, "big"), self.state[:-SUM]
        higher = framed(told[:16] + ahead + told[24:])
        yield from spoiled(higher, 1)
        yield "with a byte more", higher + b"\0"
        yield "of the host's own epoch", framed(told[:16] + epoch.to_bytes(8, "big") + told[24:]) if epoch else b""
        yield "of epoch 0", framed(told[:16] + bytes(8) + told[24:])
        yield "of other places", framed(told[:16] + ahead + (PLACES + 1).to_bytes(8, "big") + told[32:])
        yield "of five members", framed(told[:16] + ahead + told[24:41] + b"\5" + told[42:])
        yield "of member 3", framed(told[:16] + ahead + told[24:40] + b"\3" + told[41:])
        more = (epoch * PLACES + 1).to_bytes(8, "big")
        yield "with other outputs before it", framed(told[:16] + ahead + told[24:32] + more + told[40:])

    def joins(self):
        for word, folder, epoch in ((None, self.new_folder(self.last), LAST), ("--join", self.new_folder(), 0)):
            life, count = Life(self.program, folder, word), 0
            before = contents(folder)
            for what, octets in self.no_states(epoch):
                self.check(f"join of a state {what}", life.ask(f"join {octets.hex()}"), [b"error 11 NoState"])
                count += 1
            if word is None:
                self.check("join of half a byte", life.ask("join 0"), [b"error 2 NoHex"])
                self.check("the state behind all that", life.ask("state"), [self.seen.state.encode()])
            self.check("the folder behind all that", contents(folder), before)
            self.check("the end", life.end(), (0, ""))
            print(f"joins of what is no state, {'of one that waits' if word else 'over a folder'}: {count}", flush=True)

    def all(self):
        self.before, _, _ = self.made(BEFORE - 1)
        self.last, self.seen, self.state = self.made(LAST - 1)
        self.spoils()
        self.lacks()
        self.words()
        self.joins()


if __name__ == "__main__":
    sys.exit(main_of(__doc__, Folders))
