#!/usr/bin/env python3
"""Splits journals of hosts into those of nodes, an epoch each, for `upsched audit`.

Usage: epoch_journals.py JOURNAL.. --into DIR

JOURNAL.. are what `upsched host --journal` wrote, that of host 0 first, of all three hosts or all five. DIR must not be
there. For each epoch E and host K it gets E/K.journal, which may be empty. A line with an epoch's number goes there
without it, and so does its reply. Refusals by the host itself are left out with their lines: of other epochs, of other
places, and of an offer behind the last place. A life of a host is one of each node to which a line came in it. For each
epoch it prints a line: `epoch E lines N`, in all its journals. Each journal is read into memory.
"""
import argparse
import collections
import os
import re

# A life begins so behind an empty line, or behind one that was cut off. Whoever wrote such a line got a refusal.
FIRST = rb"\nhost %d of %d places \d+(?: fresh| waits| restarted \d+ [0-9a-f]{16})\n(?!error )"
NUMBER = re.compile(rb"(\d+)/\d+ ")
# The first line of a reply that has so many lines more, and by how many more than it says.
COUNTED = ((re.compile(rb"\d+/\d+ sent (\d+)\n"), 0), (re.compile(rb"released (\d+)\n"), 1))
COUNTED += ((re.compile(rb"again (\d+)\n"), 0),)
ENDED = b"fault 8 Ended\n"


class JournalFault(Exception):
    """Why journals can't be split."""


def lives(text, host, members):
    """What is behind the first line of each life, up to the next one."""
    found, head = list(re.finditer(FIRST % (host, members), text)), b"host %d of %d places " % (host, members)
    # Before it there may be lives that were killed within their first line.
    killed = text[: found[0].start() if found else len(text)].split(b"\n")
    if not all(head.startswith(line) or line.startswith(head) for line in killed):
        raise JournalFault(f"no life of host {host} of {members} begins in lines 1 and 2")
    for first, last in zip(found, [it.start() for it in found[1:]] + [len(text)]):
        yield text[first.end() : last]


def turns(life):
    """Each line with the lines of its reply, all with their ends, where these are there."""
    lines, at = life.splitlines(keepends=True), 0
    while at < len(lines):
        more = 0
        for form, further in COUNTED if at + 1 < len(lines) else ():
            if found := form.fullmatch(lines[at + 1]):
                more = int(found[1]) + further
        yield lines[at], lines[at + 1 : at + 2 + more]
        at += 2 + more


def of_node(line, reply):
    """The epoch of a line, and what its node read and wrote; None where that is nothing."""
    found = NUMBER.match(line)
    if not found or not line.endswith(b"\n"):
        return None
    number, text = found[0], line[found.end() :]
    for one in reply:
        if one.startswith(number):
            text += one[len(number) :]
        elif one.endswith(b"\n") or not number.startswith(one):
            return None
    return None if reply and reply[0] == number + ENDED else (int(found[1]), text)


def split(journals, into):
    """Writes the journals of each epoch into a folder that is made; their paths by epoch, in its order."""
    texts = collections.defaultdict(lambda: [bytearray() for _ in journals])
    for host, path in enumerate(journals):
        with open(path, "rb") as file:
            whole = file.read()
        try:
            for life in lives(whole, host, len(journals)):
                take(life, texts, host, len(journals))
        except JournalFault as fault:
            raise JournalFault(f"{path}: {fault}") from None
    os.makedirs(into)
    return {epoch: write(os.path.join(into, str(epoch)), texts[epoch]) for epoch in sorted(texts)}


def take(life, texts, host, members):
    """Appends a life of a host to what its nodes read and wrote."""
    begun = set()
    for line, reply in turns(life):
        if (found := of_node(line, reply)) is None:
            continue
        epoch, text = found
        if epoch not in begun:
            begins = b"restarted" if texts[epoch][host] else b"fresh"
            texts[epoch][host] += b"\nnode %d of %d %s\n" % (host, members, begins)
            begun.add(epoch)
        texts[epoch][host] += text


def write(folder, texts):
    os.makedirs(folder)
    paths = [os.path.join(folder, f"{host}.journal") for host in range(len(texts))]
    for path, text in zip(paths, texts):
        with open(path, "wb") as file:
            file.write(text)
    return paths


def lines_in(path):
    with open(path, "rb") as file:
        return sum(1 for _ in file)


def main():
    words = argparse.ArgumentParser(description=__doc__, formatter_class=argparse.RawDescriptionHelpFormatter)
    words.add_argument("journals", nargs="+", metavar="JOURNAL")
    words.add_argument("--into", required=True, metavar="DIR")
    given = words.parse_args()
    if len(given.journals) not in (3, 5):
        words.error(f"there are {len(given.journals)} journals, not three or five")
    if os.path.lexists(given.into):
        words.error(f"{given.into} is there already")
    try:
        for epoch, paths in split(given.journals, given.into).items():
            print(f"epoch {epoch} lines {sum(map(lines_in, paths))}")
    except (OSError, JournalFault) as fault:
        words.exit(1, f"epoch_journals.py: {fault}\n")


if __name__ == "__main__":
    main()
