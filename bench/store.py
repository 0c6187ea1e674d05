"""Runs sqlite3 through the statements of the records, beside what a program says of its own calls.

It reads lines `DISK VOTES CALL CALLS` (calls a second) and prints each with what sqlite3 makes in a second, and how
many times its wall time a call takes. It ends with 1 where a write to a file takes more than 3 times sqlite3's."""

import os
import sqlite3
import sys
import tempfile
import time

WRITES, READS, LAST = 300, 3000, 10
VALUE = bytes.fromhex("0501006400000000000000000000000000000003")
TABLES = """CREATE TABLE ballot (id INTEGER PRIMARY KEY, number INTEGER NOT NULL) STRICT;
CREATE TABLE vote (place INTEGER PRIMARY KEY, ballot INTEGER NOT NULL, value BLOB NOT NULL) STRICT;
INSERT INTO ballot (id, number) VALUES (0, 8), (1, 8);"""


def opened(path, votes):
    conn = sqlite3.connect(path, isolation_level=None)
    conn.execute("PRAGMA journal_mode = WAL").fetchall()
    conn.execute("PRAGMA synchronous = FULL")
    conn.executescript(TABLES)
    conn.execute("BEGIN")
    conn.executemany("INSERT INTO vote (place, ballot, value) VALUES (?, 8, ?)", ((p + 1, VALUE) for p in range(votes)))
    conn.execute("COMMIT")
    return conn


def rate(calls, call):
    start = time.perf_counter()
    for k in range(calls):
        call(k)
    return calls / (time.perf_counter() - start)


def rates(path, votes):
    conn = opened(path, votes)
    one = "SELECT place, ballot, value FROM vote WHERE place = ?1 ORDER BY place"
    some = "SELECT place, ballot, value FROM vote WHERE place >= ?1 ORDER BY place"
    promise = "INSERT OR REPLACE INTO ballot (id, number) VALUES (1, ?1)"
    put = "INSERT OR REPLACE INTO vote (place, ballot, value) VALUES (?1, ?2, ?3)"
    return {
        "vote": rate(READS, lambda k: conn.execute(one, (votes - k % 900,)).fetchall()),
        "votes_from": rate(READS, lambda k: conn.execute(some, (votes - LAST + 1,)).fetchall()),
        "put_promised": rate(WRITES, lambda k: conn.execute(promise, (8 * k + 9,))),
        "put_vote": rate(WRITES, lambda k: conn.execute(put, (votes + k + 1, 9, VALUE))),
    }


def main():
    slow = False
    found = {}
    print("disk votes call calls-a-second sqlite3 times")
    with tempfile.TemporaryDirectory(dir=os.environ.get("STORE_BENCH_DIR")) as folder:
        for line in sys.stdin:
            words = line.split()
            if len(words) != 4 or words[0] not in ("memory", "file"):
                continue
            disk, votes, call, ours = words[0], int(words[1]), words[2], int(words[3])
            if (disk, votes) not in found:
                path = ":memory:" if disk == "memory" else os.path.join(folder, "votes-%d.db" % votes)
                found[disk, votes] = rates(path, votes)
            theirs = found[disk, votes][call]
            times = theirs / max(ours, 1)
            print(disk, votes, call, ours, round(theirs), "%.2f" % times)
            slow |= disk == "file" and call.startswith("put") and times > 3
    sys.exit(slow or not found)


main()
