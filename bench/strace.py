"""Reads from a trace of system calls that a node's replies go out behind the syncs of their writes.

Usage: bench/strace.py PROGRAM FOLDER

The node gets its lines twice, each time with a new file: one at a time, the next one when the reply is there; and all
at once. A reply goes out only when nothing that was written to the file or its log still waits for a sync. A reply
that tells of something that is kept has a write and a sync since the replies before it went out. One at a time no write
to standard output has parts of two replies, so each is flushed before the next line is waited for. All at once the
lines share syncs: there are at most a third as many as replies that tell of something that is kept. Syncs before the
node's first line make its database, and don't count.
"""
import os
import re
import subprocess
import sys

MEMBERS, PLACES = 3, 30
CALL = re.compile(r"^(?:\d+ +)?(\w+)\((\d+)(?:<(.*?)>)?(?:, \"((?:[^\"\\]|\\.)*)\")?.*\) += (-?\d+)")
TRACED = "read,readv,write,writev,pwrite64,pwritev,pwritev2,fsync,fdatasync,sync_file_range,msync,ftruncate"
WRITES = ("write", "writev", "pwrite64", "pwritev", "pwritev2", "ftruncate")


def letter(kind, sender, *numbers, value=None):
    text = bytes([kind, sender, 1]) + b"".join(number.to_bytes(8, "big") for number in numbers)
    if value is not None:
        text += len(value).to_bytes(8, "big") + value
    return "letter " + text.hex()


def lines():
    """Lines for node 1, each with whether something is kept before its reply."""
    value = bytes.fromhex("05010064" + 8 * "00" + "00000000000003e3")
    yield letter(1, 0, 8, 1), True
    yield letter(1, 0, 8, 1), False
    for place in range(1, PLACES + 1):
        yield letter(3, 0, 8, place, value=value), True
        yield letter(3, 0, 8, place, value=value), False
        yield letter(4, 0, 8, place, value=value), False
        yield letter(4, 2, 8, place, value=value), True
        yield "release 0", False
    yield "lead", True
    yield letter(2, 0, 9, PLACES + 1, 0), False
    yield letter(2, 2, 9, PLACES + 1, 0), False
    yield "offer 00", False
    yield letter(3, 1, 9, PLACES + 1, value=b"\0"), True
    yield letter(6, 2, PLACES + 2, value=b"\0"), True
    yield "tell 0 1", False
    yield "no line", False


def read_reply(stream):
    """A whole reply, as text."""
    head = stream.readline()
    words = head.split()
    more = int(words[1]) if len(words) == 2 and words[0] in (b"sent", b"released") else 0
    return head + b"".join(stream.readline() for _ in range(more))


def traced(program, folder, name, at_once):
    """The replies, the first line before them, and the trace's file."""
    file, trace = (os.path.join(folder, name + ending) for ending in (".db", ".trace"))
    words = ["strace", "-f", "-y", "-s", "100000", "-e", f"trace={TRACED}", "-o", trace, program]
    words += ["node", "1", "--members", str(MEMBERS), "--store", file, "--new"]
    child = subprocess.Popen(words, stdin=subprocess.PIPE, stdout=subprocess.PIPE)
    asked = [line.encode() + b"\n" for line, _ in lines()]
    if at_once:
        child.stdin.write(b"".join(asked))
        child.stdin.close()
    replies = [child.stdout.readline()]
    for line in asked:
        if not at_once:
            child.stdin.write(line)
            child.stdin.flush()
        replies.append(read_reply(child.stdout))
    if not at_once:
        child.stdin.close()
    if child.stdout.read() or child.wait() != 0:
        sys.exit(f"bench/strace.py: the node ended with status {child.returncode}")
    return replies, trace


def events(trace, file):
    """What the trace has, in order: `out` with so many bytes, `in`, and a `write` or `sync` of a path."""
    with open(trace) as text:
        for line in text:
            found = CALL.match(line)
            if not found or int(found[5]) < 0:
                continue
            call, end, path = found[1], found[2], found[3] or ""
            if end == "1" and call in WRITES:
                yield "out", int(found[5])
            elif end == "0" and call.startswith("read"):
                yield "in", int(found[5])
            elif path.startswith(file):
                yield ("write" if call in WRITES else "sync" if "sync" in call else "read"), path


def check(name, replies, wanted, trace):
    """Walks through the trace and the replies side by side; how many syncs there were behind the first line."""
    unsynced, wrote, synced, syncs, number, left = set(), False, False, 0, 0, len(replies[0])
    for event, what in events(trace, trace.removesuffix("trace") + "db"):
        if event == "write":
            unsynced.add(what)
            wrote = True
        elif event == "sync":
            unsynced.discard(what)
            synced, syncs = True, syncs + (number > 0)
        elif event == "out":
            if unsynced:
                sys.exit(f"{name}: reply {number} went out, and {unsynced} waited for a sync")
            if what > left:
                sys.exit(f"{name}: one write has parts of reply {number} and of the next")
            if wanted[number] and not (wrote and synced):
                sys.exit(f"{name}: reply {number} ({replies[number]!r}) went out without a synced write")
            left -= what
            if not left:
                wrote = synced = False
                number += 1
                left = len(replies[number]) if number < len(replies) else 0
        elif event == "in" and what and 0 < number < len(replies) and left < len(replies[number]):
            sys.exit(f"{name}: a line was read within reply {number}")
    if number != len(replies):
        sys.exit(f"{name}: the trace has {number} of {len(replies)} replies")
    return syncs


def check_together(name, replies, wanted, trace):
    """The same where replies may go out together: those between two writes to the file share what was synced before."""
    unsynced, wrote, synced, syncs, number, left = set(), False, False, 0, 0, len(replies[0])
    goes_out = False
    for event, what in events(trace, trace.removesuffix("trace") + "db"):
        if event == "write":
            if goes_out:
                wrote = synced = goes_out = False
            unsynced.add(what)
            wrote = True
        elif event == "sync":
            unsynced.discard(what)
            synced, syncs = True, syncs + (number > 0)
        elif event == "out":
            goes_out = True
            if unsynced:
                sys.exit(f"{name}: reply {number} went out, and {unsynced} waited for a sync")
            while what:
                if wanted[number] and not (wrote and synced):
                    sys.exit(f"{name}: reply {number} ({replies[number]!r}) went out without a synced write")
                part = min(what, left)
                what, left = what - part, left - part
                if not left:
                    number += 1
                    left = len(replies[number]) if number < len(replies) else 0
    if number != len(replies):
        sys.exit(f"{name}: the trace has {number} of {len(replies)} replies")
    if syncs * 3 > sum(wanted):
        sys.exit(f"{name}: {syncs} syncs for {sum(wanted)} replies that tell of something kept")
    return syncs


def main():
    program, folder = sys.argv[1:]
    wanted = [True] + [keeps for _, keeps in lines()]
    for name, at_once in (("one-at-a-time", False), ("all-at-once", True)):
        replies, trace = traced(program, folder, name, at_once)
        syncs = (check_together if at_once else check)(name, replies, wanted, trace)
        print(f"{name}: {len(replies)} replies, {sum(wanted)} behind a synced write; {syncs} syncs")


if __name__ == "__main__":
    main()
