#!/usr/bin/env python3
"""Times each kind of work of a folder of shapes by two programs in turns, and prints a table of medians.

Usage: plain.py PLAIN SIDE FOLDER RUNS ROUNDS [instructions]

FOLDER has the file `names`, a line for each shape: the name of its file, and what it is called.
"""

import re
import statistics
import subprocess
import sys

# What a run of callgrind counted, in what it says at its end.
COUNTED = re.compile(r"Collected : (\d+)")


def run(words, path):
    """What a program writes, its output and its errors, given a file."""
    with open(path, "rb") as given:
        done = subprocess.run(words, stdin=given, capture_output=True, check=True, text=True)
    return done.stdout, done.stderr


def timed(program, path, rounds):
    """How many calls a program timed, and the nanoseconds of one."""
    calls, nanos = run([program, "time", str(rounds)], path)[0].split()[:2]
    return int(calls), int(nanos) / int(calls)


def counted(program, word, path):
    """The instructions of a whole run of one round."""
    callgrind = ["valgrind", "--tool=callgrind", "--callgrind-out-file=/dev/null"]
    return int(COUNTED.search(run(callgrind + [program, word, "1"], path)[1])[1])


def instructions(program, path):
    """The instructions of one call: those of a run less those of what comes before the timed calls."""
    calls, _ = timed(program, path, 1)
    return (counted(program, "time", path) - counted(program, "before", path)) / calls


def medians(programs, path, runs, rounds):
    """The median nanoseconds of a call, of each of two programs, run by turns."""
    nanos = [[], []]
    for _ in range(runs):
        for which, program in enumerate(programs):
            nanos[which].append(timed(program, path, rounds)[1])
    return [statistics.median(each) for each in nanos]


def columns(pair):
    """Two figures, plain Rust's and upsched's, and how many times the first the second is."""
    plain, proved = pair
    ratio = f"{proved / plain:.2f}" if plain > 0 else "-"
    return f"{plain:,.0f} | {proved:,.0f} | {ratio}"


def main(words):
    programs, folder, runs, rounds = words[0:2], words[2], int(words[3]), int(words[4])
    has_instructions = words[5:] == ["instructions"]
    print("| kind of work | plain ns | upsched ns | ratio |", end="")
    print(" plain instructions | upsched instructions | ratio |" if has_instructions else "")
    print("|---|---|---|---|" + ("---|---|---|" if has_instructions else ""))
    with open(f"{folder}/names", encoding="utf-8") as names:
        shapes = [line.rstrip("\n").split(" ", 1) for line in names]
    for number, name in shapes:
        path = f"{folder}/{number}"
        row = f"| {name} | {columns(medians(programs, path, runs, rounds))} |"
        if has_instructions:
            row += f" {columns([instructions(program, path) for program in programs])} |"
        print(row, flush=True)


main(sys.argv[1:])
