#!/usr/bin/env python3
"""Copies lines from standard input to the named pipe INTO of the environment, each whole, however many of these write
to that pipe at a time. A line that isn't ended isn't copied.

Usage: INTO=PIPE whole_lines.py
"""
import fcntl
import os
import sys

sys.dont_write_bytecode = True
from carry import run, words_in


def main():
    words_in(__doc__, 0 if "INTO" in os.environ else -1)
    pipe = os.open(os.environ["INTO"], os.O_WRONLY)
    for line in sys.stdin.buffer:
        left = memoryview(line if line.endswith(b"\n") else b"")
        fcntl.flock(pipe, fcntl.LOCK_EX)
        while left:
            left = left[os.write(pipe, left) :]
        fcntl.flock(pipe, fcntl.LOCK_UN)


if __name__ == "__main__":
    run(main)
