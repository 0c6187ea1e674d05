#!/usr/bin/env python3
"""Compares what upsched holds in memory, and a run of it, with plain Rust.

Usage: beside.py held PLAIN SIDE SHIM FOLDER   bytes of the heap for one thing of each kind
       beside.py run PLAIN PROGRAM FOLDER      processor time of runs of 1,000, 10,000 and 100,000 events

`held` makes two files of records for each kind of thing: equal, but that so many more things remain of the first. What
both hold in the heap behind them differs by these things. SHIM is bench/plain/held.c as a library.

`run` runs the script of one leader by PROGRAM, and compares its lines with plain Rust's. Then it times both. From each
it takes what comes before the run: of PROGRAM the reading of the text, which is timed by the same script with a bad
event at its end. Each time is the least of five.
"""

import os
import subprocess
import sys

SIZES = [1_000, 10_000, 100_000]


def held_by(program, shim, path, told):
    """How many bytes a program holds in the heap, behind the records of a file."""
    with open(path, "rb") as given:
        beside = {**os.environ, "LD_PRELOAD": shim, "HELD": told}
        subprocess.run([program, "time", "1"], stdin=given, stdout=subprocess.DEVNULL, env=beside, check=True)
    with open(told, encoding="utf-8") as file:
        return int(file.read())


def held(plain, side, shim, folder):
    names = subprocess.run([plain, "held", folder], capture_output=True, check=True, text=True).stdout
    print("| held | plain Rust, bytes | upsched, bytes | ratio |\n|---|---|---|---|")
    for line in names.splitlines():
        number, count, name = line.split(" ", 2)
        many, one = [[held_by(it, shim, f"{folder}/{number}.{which}", f"{folder}/told") for it in (plain, side)]
                     for which in ("many", "one")]
        each = [(more - less) / int(count) for more, less in zip(many, one)]
        print(f"| {name} | {each[0]:.1f} | {each[1]:.1f} | {each[1] / each[0]:.2f} |", flush=True)


def taken(words, status=0):
    """The least processor time of five calls, in seconds."""
    least = None
    for _ in range(5):
        child = os.fork()
        if child == 0:
            nothing = os.open(os.devnull, os.O_WRONLY)
            os.dup2(nothing, 1)
            os.dup2(nothing, 2)
            os.execv(words[0], words)
        _, ended, usage = os.wait4(child, 0)
        if os.waitstatus_to_exitcode(ended) != status:
            sys.exit(f"bench/beside.py: {words} ended with {ended}")
        used = usage.ru_utime + usage.ru_stime
        least = used if least is None else min(least, used)
    return least


def run(plain, program, folder):
    print("| events | plain Rust, ns each | upsched, ns each | ratio | reading of the text, ns each |")
    print("|---|---|---|---|---|")
    for size in SIZES:
        good, bad = f"{folder}/good.toml", f"{folder}/bad.toml"
        made = subprocess.run([plain, "script", str(size)], capture_output=True, check=True, text=True).stdout
        for path, text in ((good, made), (bad, f'{made}[[event]]\nkind = "none"\n')):
            with open(path, "w", encoding="utf-8") as file:
                file.write(text)
        wanted, given = [subprocess.run(words, capture_output=True, check=True).stdout
                         for words in ([plain, "run", str(size)], [program, "run", good])]
        if wanted != given:
            sys.exit(f"bench/beside.py: the lines of a run of {size} events differ")
        reading = taken([program, "run", bad], 1)
        times = [taken([plain, "run", str(size)]) - taken([plain, "unrun", str(size)]),
                 taken([program, "run", good]) - reading]
        each = [time * 1e9 / size for time in times]
        print(f"| {size:,} | {each[0]:,.0f} | {each[1]:,.0f} | {each[1] / each[0]:.2f} | {reading * 1e9 / size:,.0f} |",
              flush=True)


if __name__ == "__main__":
    {"held": held, "run": run}[sys.argv[1]](*sys.argv[2:])
