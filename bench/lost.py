#!/usr/bin/env python3
"""Takes files of nodes apart, and looks at what `upsched check --store` and a start say of them: never that they are
fresh, and no ballot that was tried before, but where the loss can't be seen.

Usage: bench/lost.py [PROGRAM] [--cuts N] [--pairs N] [--makings N] [--seed S]

Five nodes of five lead again and again, over files, and both files of each are copied behind many of their replies,
up to behind a checkpoint. Then: a log cut at N places (20,000); N pairs (2,000) of a database and a log of two times,
which have to be seen where the transactions that each counts tell; the log of another node; a database without tables
beside such a log; a log without commits, which standard error has to say; one file that isn't there, or is empty; a
link and a folder in a file's place; files without rights; a file that can't grow, and a full disk where
one may be mounted; databases that SQLite made, each with another fault; and N new nodes (200) that are killed at any
moment: behind a first line the database alone says whose it is, as SQLite reads it. Of each it says how many were
tried, how many were seen, and how many were answered otherwise than they should be; each of these is a line. It ends
with status 1 where there is one.

What is expected of a cut goes by the frames of the log (SQLite's fileformat2.html, section 4), read here by
themselves.
"""
import argparse
import collections
import contextlib
import os
import random
import re
import shutil
import sqlite3
import subprocess
import sys
import tempfile
import time
import types

ROOT = os.path.dirname(os.path.dirname(os.path.abspath(__file__)))
MEMBERS, FRAME, HEAD, PAGE = 5, 24, 32, 4096
NOBODY = 65534
# What a case is: its loss has to be seen, or can't be, or may be; or nothing that was answered is lost.
SEEN, UNSEEN, EITHER, WHOLE = "seen", "unseen", "either", "whole"

# What makes the tables of a node, and rows of one that did nothing.
BALLOT = "CREATE TABLE ballot (id INTEGER PRIMARY KEY, number INTEGER NOT NULL) STRICT"
VOTE = "CREATE TABLE vote (place INTEGER PRIMARY KEY, ballot INTEGER NOT NULL, value BLOB NOT NULL) STRICT"
LEARNED = "CREATE TABLE learned (place INTEGER PRIMARY KEY, value BLOB NOT NULL) STRICT"
FACT = "CREATE TABLE fact (id INTEGER PRIMARY KEY, bytes BLOB NOT NULL) STRICT"
NUMBERS = "INSERT INTO ballot VALUES (0, 0), (1, 0), (2, 2)"
# Databases that no node wrote, by what makes them, and what is wrong of each.
FOREIGN = [
    ("table ballot isn't there", ["CREATE TABLE note (text)"]),
    ("table vote isn't there", [BALLOT]),
    ("table vote isn't there", [BALLOT, LEARNED]),
    ("table ballot isn't there", [VOTE, LEARNED]),
    ("table learned isn't there", [BALLOT, VOTE, FACT]),
    ("table vote isn't a node's", [BALLOT, VOTE.replace("BLOB", "TEXT"), LEARNED]),
    ("table ballot isn't a node's", [VOTE, BALLOT, LEARNED]),
    ("table learned isn't a node's", [BALLOT, VOTE, LEARNED.replace(" STRICT", "")]),
    ("table fact isn't a node's", [BALLOT, VOTE, LEARNED, FACT.replace("bytes", "text")]),
    ("more than a node's tables", [BALLOT, VOTE, "CREATE TABLE note (text)"]),
    ("more than a node's tables", [BALLOT, VOTE, LEARNED, "CREATE INDEX numbers ON ballot (number)"]),
    ("rows of table vote aren't a node's", [BALLOT, VOTE, LEARNED, NUMBERS, "INSERT INTO vote VALUES (0, 8, x'00')"]),
    ("rows of table learned aren't a node's", [BALLOT, VOTE, LEARNED, NUMBERS, "INSERT INTO learned VALUES (0, x'')"]),
    ("rows of table ballot or fact aren't a node's", [BALLOT, VOTE, LEARNED, NUMBERS.replace("(2, 2)", "(2, 7)")]),
]


# Ignores the signal of a file beyond its limit, sets it, and becomes a program.
LIMITED = """
import os, resource, signal, sys
signal.signal(signal.SIGXFSZ, signal.SIG_IGN)
resource.setrlimit(resource.RLIMIT_FSIZE, (int(sys.argv[1]),) * 2)
os.execv(sys.argv[2], sys.argv[2:])
"""


class Moment:
    """Both files of a node behind a reply, the last ballot that it tried, and what they count, as SQLite reads it: the
    database by itself, and both. None where there is no count."""

    def __init__(self, node, path, ballot):
        self.node, self.ballot = node, ballot
        self.database, self.log = (read(path), read(path + "-wal"))
        self.alone, self.both = counted(self.database), counted(self.database, self.log)


class Case:
    """Two files, None where one isn't there; what is expected, and where it is to be seen, which states and faults."""

    def __init__(self, kind, moment, database, log, states=(), faults=None):
        self.kind, self.node, self.ballot = kind, moment.node, moment.ballot
        self.files, self.states, self.what = (database, log), states, ""
        self.faults = [it.replace("PATH-wal ", "PATH-wal: ") for it in states] if faults is None else faults


def read(path):
    with open(path, "rb") as file:
        return file.read()


def counted(database, log=None):
    """The transactions that a copy of these files counts."""
    with tempfile.TemporaryDirectory(prefix="count-") as room:
        path = os.path.join(room, "copy.db")
        for name, held in ((path, database), (path + "-wal", log)):
            if held is not None:
                with open(name, "wb") as file:
                    file.write(held)
        with contextlib.closing(sqlite3.connect(path)) as found:
            try:
                rows = found.execute("SELECT bytes FROM fact WHERE id = 1").fetchall()
            except sqlite3.DatabaseError:
                rows = []
    return int.from_bytes(rows[0][0], "big") if rows else None


def frames(log):
    """Of each frame of this log's own salts whether it commits. Behind them are those of a log before, or nothing."""
    found = []
    for at in range(HEAD, len(log) - FRAME - PAGE + 1, FRAME + PAGE):
        if log[at + 8 : at + 16] != log[16:24]:
            break
        found.append(log[at + 4 : at + 8] != bytes(4))
    return found


def cut(moment, place):
    """A log cut at a place of its own, or behind its last frame: then nothing is lost, but it may show."""
    own, log = frames(moment.log), moment.log[:place]
    number, within = divmod(place - HEAD, FRAME + PAGE)
    state = rf"log missing: PATH-wal is cut at byte {place}"
    if place < HEAD:
        kind = SEEN
    elif number >= len(own):
        # Of a frame that has begun behind them nothing tells that it is none, up to its salts.
        kind = WHOLE if number > len(own) or not 0 < within < 16 else SEEN if within <= 8 else EITHER
    elif within == 0:
        kind = UNSEEN if number == 0 or own[number - 1] else SEEN
    else:
        kind = SEEN if within >= FRAME or number > 0 and not own[number - 1] else EITHER
    return Case(kind, moment, moment.database, log, [state] if place else [state, "log missing: PATH-wal isn't there"])


def paired(one, other):
    """The database of one time with the log of another one. It shows where what the database counts is neither right
    before what the log's commits do nor among that."""
    commits = sum(frames(other.log))
    first, count = (other.both or 0) - commits + 1, one.alone or 0
    numbers = f"log missing: PATH-wal has commits {first} to {other.both}, PATH has {count}"
    kind = EITHER
    if commits and not first - 1 <= count <= other.both:
        kind = SEEN
    elif one.database == other.database or one.log[:HEAD] == other.log[:HEAD] and one.ballot < other.ballot:
        kind = WHOLE
    return Case(kind, other, one.database, other.log, [numbers, "log missing: PATH-wal has commits that don't fit PATH"])


class Lost:
    def __init__(self, program, room):
        self.program = program
        self.folder = os.path.join(room, "files")
        self.wrong = 0

    def path(self, node):
        return os.path.join(self.folder, f"node-{node}.db")

    # What is there at first.

    def moments(self, node, leads):
        """Files of a node behind some of its replies. It leads again and again, and promises itself each ballot."""
        os.makedirs(self.folder, exist_ok=True)
        words = [self.program, "node", str(node), "--members", str(MEMBERS), "--store", self.path(node), "--new"]
        kept = []
        with subprocess.Popen(words, stdin=subprocess.PIPE, stdout=subprocess.PIPE) as it:
            it.stdout.readline()
            for count in range(leads):
                letters = ask(it, b"lead")
                ballot = int.from_bytes(letters[node][3:11], "big")
                ask(it, b"letter " + letters[node].hex().encode())
                if count % (1 + leads // 40) == 0 or count > leads - 3:
                    kept.append(Moment(node, self.path(node), ballot))
            it.stdin.close()
        shutil.rmtree(self.folder)
        return kept

    # What is said.

    def lay(self, case):
        for path, held in zip((self.path(case.node), self.path(case.node) + "-wal"), case.files):
            if os.path.lexists(path):
                os.unlink(path)
            if held is not None:
                with open(path, "wb") as file:
                    file.write(held)

    def run(self, words, given=b"", **more):
        return subprocess.run([self.program, *words], input=given, capture_output=True, timeout=600, **more)

    def states(self, **more):
        """What `check --store` says of each file, and its status."""
        said = self.run(["check", "--store", self.folder], **more)
        lines = said.stdout.decode().splitlines()
        return {path: state for path, _, state in (line.partition(": ") for line in lines)}, said.returncode

    def start(self, node, *words, given=b"lead\n", **more):
        """The first line of a start and the ballot that it tries, or None and what it says on standard error."""
        said = self.run(
            ["node", str(node), "--members", str(MEMBERS), "--store", self.path(node), *words], given, **more
        )
        lines = said.stdout.split(b"\n")
        if not lines[0]:
            return None, said.stderr.decode().strip()
        letters = [line.split()[2].decode() for line in lines if line.startswith(b"letter ")]
        return lines[0].decode(), int.from_bytes(bytes.fromhex(letters[0])[3:11], "big") if letters else 0

    def differs(self, case, what, found):
        self.wrong += 1
        print(f"{case.what}: {what}: {found}", flush=True)

    # What it should be.

    def looks(self, case, state, status_is_bad):
        """The state that `check --store` told."""
        path = re.escape(self.path(case.node))
        is_seen = any(re.fullmatch(it.replace("PATH", path), state or "") for it in case.states)
        is_good = state in ("used", "begun")
        if case.kind == SEEN and not is_seen or case.kind in (UNSEEN, WHOLE) and not is_good:
            self.differs(case, f"check --store, {case.kind}", state)
        elif case.kind == EITHER and not (is_seen or is_good):
            self.differs(case, "check --store", state)
        elif is_seen and not status_is_bad:
            self.differs(case, "the status of check --store", 0)
        return is_seen

    def starts(self, case):
        self.lay(case)
        line, found = self.start(case.node)
        went_on = line == f"node {case.node} of {MEMBERS} restarted"
        if case.kind == SEEN and (line is not None or not self.says(case, found)):
            self.differs(case, "a start", (line, found))
        elif case.kind in (UNSEEN, WHOLE) and not went_on:
            self.differs(case, f"a start, {case.kind}", (line, found))
        elif went_on and case.kind == WHOLE and found <= case.ballot:
            self.differs(case, f"a start behind ballot {case.ballot} tries", found)
        self.lay(case)
        line, found = self.start(case.node, "--new")
        if line is not None or case.kind == SEEN and not self.says(case, found):
            self.differs(case, "a start with --new", (line, found))

    def says(self, case, fault):
        path = re.escape(self.path(case.node))
        return any(re.fullmatch("upsched: " + it.replace("PATH", path), fault) for it in case.faults)

    def tries(self, name, cases):
        """Looks at five files at a time, and starts a node over each."""
        before, kinds, seen = self.wrong, collections.Counter(), 0
        by_node = collections.defaultdict(collections.deque)
        for number, case in enumerate(cases):
            case.what = f"{name} {number} of node {case.node}"
            kinds[case.kind] += 1
            by_node[case.node].append(case)
        while any(by_node.values()):
            os.makedirs(self.folder, exist_ok=True)
            some = [it.popleft() for it in by_node.values() if it]
            for case in some:
                self.lay(case)
            states, status = self.states()
            for case in some:
                seen += self.looks(case, states.get(self.path(case.node)), status == 1)
                self.starts(case)
            shutil.rmtree(self.folder)
        told = " ".join(f"{count} {kind}" for kind, count in sorted(kinds.items()))
        print(f"{name}: {sum(kinds.values())} tried ({told}), {seen} told, {self.wrong - before} wrong", flush=True)


    # Files that aren't cut.

    def is_refused(self, case, **more):
        """Whether no start goes on over files that stay as they are, nor begins."""
        for words in ([], ["--new"]):
            line, found = self.start(case.node, *words, **more)
            if line is not None or not found.startswith("upsched: "):
                self.differs(case, f"a start {words}", (line, found))

    def tries_shut(self, name, moment, shut, states, **more):
        """Looks at a pair of files behind what `shut` does to one of them."""
        for suffix in ("", "-wal"):
            case = Case(SEEN, moment, moment.database, moment.log, states)
            case.what = f"{name} of node-{moment.node}.db{suffix}"
            os.makedirs(self.folder, exist_ok=True)
            os.chmod(self.folder, 0o777)
            self.lay(case)
            shut(self.path(moment.node) + suffix)
            found, status = self.states(**more)
            seen = self.looks(case, found.get(self.path(moment.node)), status == 1)
            self.is_refused(case, **more)
            print(f"{case.what}: {'told' if seen else 'WRONG'}", flush=True)
            shutil.rmtree(self.folder)

    def tries_full(self, moment):
        """A log that can't grow, long before a checkpoint: the node ends, and goes on once it may."""
        case = Case(WHOLE, moment, moment.database, moment.log)
        case.what = f"a file of node {moment.node} that can't grow"
        os.makedirs(self.folder, exist_ok=True)
        self.lay(case)
        wrong, size = self.wrong, max(len(it) for it in case.files)
        tried, fault = self.leads_until(moment.node, 2000, limit=[sys.executable, "-c", LIMITED, str(size)])
        if fault != f"upsched: crashed: {self.path(moment.node)}: a read or write failed":
            self.differs(case, "standard error", fault)
        tried = max(moment.ballot, tried)
        state = self.states()[0].get(self.path(moment.node))
        line, found = self.start(moment.node)
        if state != "used" or line is None or found <= tried:
            self.differs(case, f"behind ballot {tried} it is {state}, and a start", (line, found))
        print(f"{case.what}: {'told' if self.wrong == wrong else 'WRONG'}", flush=True)
        shutil.rmtree(self.folder)

    def leads_until(self, node, most, limit=()):
        """The last ballot that a node tried before it ended, and what it said on standard error."""
        words = [*limit, self.program, "node", str(node), "--members", str(MEMBERS), "--store", self.path(node)]
        pipes = dict(stdin=subprocess.PIPE, stdout=subprocess.PIPE, stderr=subprocess.PIPE)
        ballot = 0
        with subprocess.Popen(words, **pipes) as it:
            it.stdout.readline()
            with contextlib.suppress(BrokenPipeError, SystemExit):
                for _ in range(most):
                    ballot = int.from_bytes(ask(it, b"lead")[node][3:11], "big")
            return ballot, it.communicate()[1].decode().strip()

    def tries_full_disk(self, node):
        """A node on a disk of its own that becomes full says so, and goes on once there is room; none begins there."""
        case = types.SimpleNamespace(what=f"a full disk of node {node}")
        os.makedirs(self.folder)
        mount = ["mount", "-t", "tmpfs", "-o", "size=8m", "upsched-lost", self.folder]
        if subprocess.run(mount, capture_output=True).returncode != 0:
            print(f"{case.what}: not tried, since none may be mounted", flush=True)
            return
        before, ballast, path = self.wrong, os.path.join(self.folder, "ballast"), self.path(node)
        try:
            self.start(node, "--new")
            with contextlib.suppress(OSError), open(ballast, "wb", buffering=0) as file:
                while file.write(bytes(PAGE)):
                    pass
            tried, fault = self.leads_until(node, 2000)
            if fault != f"upsched: crashed: {path}: no room":
                self.differs(case, "standard error", fault)
            other = (node + 1) % MEMBERS
            line, fault = self.start(other, "--new")
            if line is not None or fault != f"upsched: store: {self.path(other)}: no room":
                self.differs(case, "a start with --new", (line, fault))
            os.unlink(ballast)
            states, (line, found) = self.states()[0], self.start(node)
            if states != {path: "used"} or line is None or found <= tried:
                self.differs(case, f"behind ballot {tried} there are {states}, and a start", (line, found))
        finally:
            subprocess.run(["umount", "-l", self.folder], check=True)
        print(f"{case.what}: {'told' if self.wrong == before else 'WRONG'}", flush=True)
        shutil.rmtree(self.folder)

    def tries_commitless(self, bases):
        """A log that is cut to its header has no commit. Standard error says so, of no other, and all else goes on."""
        before, tried = self.wrong, 0
        for moment in (kept[-1] for kept in bases):
            for log in (moment.log, moment.log[:HEAD]):
                case, path = Case(UNSEEN, moment, moment.database, log), self.path(moment.node)
                case.what = f"a log of {len(log)} bytes of node {moment.node}"
                line = "" if any(frames(log)) else f"upsched: log without commits: {path}-wal\n"
                words = ["node", str(moment.node), "--members", str(MEMBERS), "--store", path]
                os.makedirs(self.folder, exist_ok=True)
                for call, first in ((["check", "--store", self.folder], path), (words, f"node {moment.node} of")):
                    self.lay(case)
                    said, tried = self.run(call), tried + 1
                    if said.stderr.decode() != line or said.returncode or not said.stdout.decode().startswith(first):
                        self.differs(case, " ".join(call), (said.returncode, said.stdout, said.stderr))
                shutil.rmtree(self.folder)
        print(f"logs without commits, and with some: {tried} tried, {self.wrong - before} wrong", flush=True)

    def tries_foreign(self):
        """Databases that no node wrote: it is told of each what is wrong, and no start goes on there or begins. Of
        tables that may be nobody's a start says that."""
        before = self.wrong
        for cause, texts in FOREIGN:
            case = types.SimpleNamespace(what=f"a database by {texts}", node=0)
            made, path = os.path.join(os.path.dirname(self.folder), "made.db"), self.path(0)
            os.makedirs(self.folder, exist_ok=True)
            with contextlib.closing(sqlite3.connect(made, isolation_level=None)) as database:
                for text in ["PRAGMA journal_mode = WAL", *texts]:
                    database.execute(text)
                for end in ("", "-wal"):
                    shutil.copy(made + end, path + end)
            os.unlink(made)
            states, status = self.states()
            if states != {path: f"foreign: {cause}"} or status != 1:
                self.differs(case, "check --store", (states, status))
            for words in ([], ["--new"]):
                line, fault = self.start(0, *words)
                due = [f"upsched: store: {path}: no database of a node: {cause}", f"upsched: store of nobody: {path}"]
                if line is not None or fault not in due:
                    self.differs(case, f"a start {words}", (line, fault))
            shutil.rmtree(self.folder)
        print(f"foreign databases: {len(FOREIGN)} tried, {self.wrong - before} wrong", flush=True)


    # Files that are made.

    def owner_alone(self, node):
        """Whose the database file is by itself, as SQLite reads a copy of it without its log."""
        alone = os.path.join(os.path.dirname(self.folder), "alone.db")
        shutil.copy(self.path(node), alone)
        with contextlib.closing(sqlite3.connect(alone)) as database:
            found = database.execute("SELECT bytes FROM fact WHERE id = 0").fetchall()
        os.unlink(alone)
        return [tuple(it[0]) for it in found]

    def makes(self, node, delay):
        """What a new node said that was killed so many seconds later."""
        words = [self.program, "node", str(node), "--members", str(MEMBERS), "--store", self.path(node), "--new"]
        with subprocess.Popen(words, stdin=subprocess.PIPE, stdout=subprocess.PIPE) as it:
            time.sleep(delay)
            it.kill()
            return it.stdout.read()

    def tries_makings(self, count, numbers):
        """A start that was killed leaves files that a start takes, and a first line only behind whole ones."""
        before, told = self.wrong, collections.Counter()
        for number in range(count):
            node = number % MEMBERS
            case = types.SimpleNamespace(what=f"making {number} of node {node}")
            os.makedirs(self.folder, exist_ok=True)
            first = self.makes(node, numbers.random() * 0.02)
            state = self.states()[0].get(self.path(node), "no file")
            told[state] += 1
            if state not in ("no file", "fresh", "begun") or first and state != "begun":
                self.differs(case, f"behind {first!r}, check --store", state)
            if first and self.owner_alone(node) != [(node, MEMBERS)]:
                self.differs(case, "the owner of the database alone", self.owner_alone(node))
            for words, is_right in ([], state == "begun"), (["--new"], state != "begun"):
                line, found = self.start(node, *words, given=b"")
                if (line is not None) != is_right:
                    self.differs(case, f"a start {words} over {state}", (line, found))
            shutil.rmtree(self.folder)
        kinds = " ".join(f"{count} {state}" for state, count in sorted(told.items()))
        print(f"makings killed: {count} tried ({kinds}), {self.wrong - before} wrong", flush=True)


def linked(path):
    os.rename(path, path + ".kept")
    os.symlink(path + ".kept", path)


def replaced(path):
    os.unlink(path)
    os.mkdir(path)


def ask(process, line):
    """The letters of the reply to a line."""
    process.stdin.write(line + b"\n")
    process.stdin.flush()
    head = process.stdout.readline().split()
    if head[0] != b"sent":
        raise SystemExit(f"lost.py: {line!r} was answered by {head}")
    return [bytes.fromhex(process.stdout.readline().split()[2].decode()) for _ in range(int(head[1]))]


def cuts(bases, count, numbers):
    """Logs cut at places of their own, one in four near the end of a frame, and one in eight behind the last one."""
    for number in range(count):
        moment = numbers.choice(bases[number % MEMBERS])
        end = HEAD + (len(frames(moment.log)) + 1) * (FRAME + PAGE)
        place = numbers.randrange(len(moment.log) if number % 8 == 0 else min(end, len(moment.log)))
        if number % 4 == 1:
            place += (HEAD - place) % (FRAME + PAGE) + numbers.choice((-1, 0, 1, 8, 23, 24, 25))
        if number % 64 == 2:
            place = numbers.choice((0, 1, 31, 32, 40, 56))
        yield cut(moment, min(place, len(moment.log)))


def pairs(bases, count, numbers):
    for number in range(count):
        yield paired(*numbers.choices(bases[number % MEMBERS], k=2))


def halves(bases):
    """One of both files isn't there, or has nothing."""
    no_log = "log missing: PATH-wal isn't there"
    states = ["database missing", "database missing: PATH isn't there"]
    no_database = states, ["no store: PATH", "database missing: PATH"]
    for moment in (kept[-1] for kept in bases):
        yield Case(SEEN, moment, moment.database, None, [no_log])
        yield Case(SEEN, moment, moment.database, b"", [no_log, "log missing: PATH-wal is cut at byte 0"])
        yield Case(SEEN, moment, None, moment.log, *no_database)
        yield Case(SEEN, moment, b"", moment.log, *no_database)


def tableless(bases, room):
    """A database without tables beside a log. What a log with commits makes of it may be no database. Without one the
    header tells it, where that counts a checkpoint behind the first."""
    path = os.path.join(room, "tableless.db")
    with contextlib.closing(sqlite3.connect(path, isolation_level=None)) as database:
        for text in ("PRAGMA journal_mode = WAL", "CREATE TABLE note (text)", "DROP TABLE note", "VACUUM"):
            database.execute(text)
    blank, told = read(path), "database missing: PATH has no tables"
    for moment in (moment for kept in bases for moment in kept[::-10]):
        faults = ["database missing: PATH: has no tables"]
        if any(frames(moment.log)):
            states = [told, r"log missing: PATH-wal .*", "foreign.*"]
            others = [r"log missing: PATH-wal: .*", r"store: PATH: no database of a node.*"]
            yield Case(SEEN, moment, blank, moment.log, states, faults + others)
        if int.from_bytes(moment.log[12:16], "big") > 0:
            yield Case(SEEN, moment, blank, moment.log[:HEAD], [told], faults)


def exchanged(bases):
    """The log of another node, which needn't show: the database says whose it is."""
    for kept, others in zip(bases, bases[1:] + bases[:1]):
        for one, other in zip(kept[::10], others[::10]):
            whose = f"node {other.node} of {MEMBERS}"
            states = [f"of another node: {whose}", r"log missing: PATH-wal .*", "foreign"]
            faults = [f"store of another node: PATH: {whose}", r"log missing: PATH-wal: .*", r"store: PATH: .*"]
            yield Case(EITHER, one, one.database, other.log, states, faults)


def main():
    words = argparse.ArgumentParser(description=__doc__, formatter_class=argparse.RawDescriptionHelpFormatter)
    words.add_argument("program", nargs="?", default=os.path.join(ROOT, "crates/upsched/out/upsched"))
    words.add_argument("--cuts", type=int, default=20000)
    words.add_argument("--pairs", type=int, default=2000)
    words.add_argument("--makings", type=int, default=200)
    words.add_argument("--leads", type=int, default=400, help="how often each node leads; 260 pass a checkpoint")
    words.add_argument("--seed", type=int, default=1)
    given = words.parse_args()
    if not os.access(given.program, os.X_OK):
        words.exit(1, f"lost.py: {given.program} isn't there\n")
    numbers = random.Random(given.seed)
    with tempfile.TemporaryDirectory(prefix="lost-") as room:
        os.chmod(room, 0o755)
        program = shutil.copy(given.program, os.path.join(room, "upsched"))
        os.chmod(program, 0o755)
        it = Lost(program, room)
        bases = [it.moments(node, given.leads) for node in range(MEMBERS)]
        sizes = {len(moment.database) for kept in bases for moment in kept}
        print(f"{sum(map(len, bases))} moments of {MEMBERS} nodes, databases of {sorted(sizes)} bytes", flush=True)
        it.tries("cut logs", cuts(bases, given.cuts, numbers))
        it.tries("two times", pairs(bases, given.pairs, numbers))
        it.tries("a file missing or empty", halves(bases))
        it.tries("the log of another node", exchanged(bases))
        it.tries("a database without tables", tableless(bases, room))
        it.tries_commitless(bases)
        last = bases[0][-1]
        it.tries_shut("a link in place", last, linked, ["unusable: no regular file"])
        it.tries_shut("a folder in place", last, replaced, ["unusable: no regular file"])
        user = {"user": NOBODY} if os.getuid() == 0 else {}
        it.tries_shut("no rights", last, lambda path: os.chmod(path, 0), ["unusable: permission denied"], **user)
        it.tries_full(bases[0][1])
        it.tries_full_disk(0)
        it.tries_foreign()
        it.tries_makings(given.makings, numbers)
    print(f"{it.wrong} wrong")
    sys.exit(it.wrong > 0)


if __name__ == "__main__":
    main()
