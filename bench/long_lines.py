#!/usr/bin/env python3
"""Gives processes of `upsched node` the longest lines there are: too long ones, and a takeover's.

Usage: bench/long_lines.py [--megabytes N] [--votes N] [--program FILE]

First a node reads lines of so many megabytes (400): one with its end, which it has to refuse as TooLong and go on; and
one without, which asks nothing. Then the same with twice as many. The memory that it took at most is printed, and may
be a quarter higher for the longer line at most, and never as much as the line has.

Then node 0 of three leads, and so many (10,000) values are voted for, while no vote comes to anyone. Node 1 leads: the
others report all of these votes to it in a line each, and it proposes them again. How long it takes until each node
has released each place is printed, in memory and over files. Status 1 where anything is otherwise.
"""
import argparse
import os
import subprocess
import sys
import tempfile
import time

ROOT = os.path.dirname(os.path.dirname(os.path.abspath(__file__)))
sys.path.insert(0, os.path.join(ROOT, "cluster"))
sys.dont_write_bytecode = True
from process_carrier import MEMBERS, Cluster
from supervisor import bytes_of

CHUNK = b"0" * (1 << 20)
CUT = bytes_of(dict(kind="cut", ch=1, len=100, not_before=0, ack=995)).hex().encode()


def peak(process):
    """The most memory that a process had, in MB."""
    with open(f"/proc/{process.pid}/status") as file:
        return next(int(line.split()[1]) for line in file if line.startswith("VmHWM")) * 1024 / 1e6


def answers(program, megabytes, ending):
    """The replies behind the first line to a line of so many megabytes with this behind it, and the memory it took."""
    words = [program, "node", "0", "--members", "3"]
    node = subprocess.Popen(words, stdin=subprocess.PIPE, stdout=subprocess.PIPE)
    node.stdout.readline()
    node.stdin.write(b"letter ")
    for _ in range(0, megabytes * 1_000_000, len(CHUNK)):
        node.stdin.write(CHUNK)
    node.stdin.write(ending)
    node.stdin.flush()
    replies = [node.stdout.readline() for _ in range(ending.count(b"\n"))]
    if not replies:
        time.sleep(1)
    memory = peak(node)
    node.stdin.close()
    replies += node.stdout.readlines()
    if node.wait() != 0:
        sys.exit(f"the node ended with status {node.returncode}")
    return replies, memory


def expect(what, found, wanted):
    if found != wanted:
        sys.exit(f"{what}: {found!r} and not {wanted!r}")


def too_long(program, megabytes):
    """A line that is too long, with an end and without one; the memory that it took."""
    replies, memory = answers(program, megabytes, b"\nrelease 0\n")
    expect("a line that is too long", replies, [b"error 7 TooLong\n", b"released 0\n"])
    replies, without = answers(program, megabytes, b"")
    expect("a line without an end", replies, [])
    held = f"memory at most {memory:.0f} and {without:.0f} MB"
    print(f"a line of {megabytes} MB: error 7 TooLong; without its end: nothing; {held}")
    if max(memory, without) > megabytes * 0.98:
        sys.exit("the line was read into memory")
    return max(memory, without)


class Takeover(Cluster):
    """While `is_mute`, no vote comes to anyone."""

    is_mute = True

    def carry(self, node, text):
        if self.is_mute:
            self.votes += sum(line.startswith(b"letter 0 04") for line in text.split(b"\n"))
            text = b"".join(line for line in text.splitlines(True) if not line.split(b" ")[-1].startswith(b"04"))
        promises = [line for line in text.split(b"\n") if line.split(b" ")[-1].startswith(b"02")]
        self.longest = max([self.longest, *map(len, promises)])
        super().carry(node, text)

    def __init__(self, program, files):
        super().__init__(program, files)
        self.votes, self.longest = 0, 0

    def take_over(self, votes):
        self.lead(0)
        for _ in range(votes):
            self.ask(0, b"offer " + CUT)
        self.until(lambda: self.votes >= MEMBERS * votes)
        self.is_mute, began = False, time.perf_counter()
        self.lead(1)
        reported = time.perf_counter() - began
        self.until(lambda: self.lowest() >= votes)
        return reported, time.perf_counter() - began


def takes_over(program, kind, votes, files):
    cluster = Takeover(program, files)
    reported, taken = cluster.take_over(votes)
    memory = max(it.mebibytes() for it in cluster.nodes)
    times = f"reported in {reported:.2f} s, each released by all in {taken:.2f} s"
    print(f"{kind}: a takeover behind {votes} open votes: {times}")
    print(f"  the longest line of a promise: {cluster.longest} bytes; {memory:.0f} MiB of a node at most")
    cluster.end()


def main():
    words = argparse.ArgumentParser()
    words.add_argument("--megabytes", type=int, default=400)
    words.add_argument("--votes", type=int, default=10_000)
    words.add_argument("--program", default=os.path.join(ROOT, "crates/upsched/out/upsched"))
    given = words.parse_args()
    print(f"load {os.getloadavg()[0]:.1f} of {os.cpu_count()} processors", flush=True)
    first, second = [too_long(given.program, times * given.megabytes) for times in (1, 2)]
    if second > first * 1.25:
        sys.exit("memory grows with the line")
    takes_over(given.program, "in memory", given.votes, [None] * MEMBERS)
    with tempfile.TemporaryDirectory(dir=os.environ.get("PROCESS_BENCH_DIR")) as folder:
        files = [os.path.join(folder, f"node-{k}.db") for k in range(MEMBERS)]
        takes_over(given.program, "over files", given.votes, files)


if __name__ == "__main__":
    main()
