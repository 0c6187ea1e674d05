#!/usr/bin/env python3
"""Sees where want of memory is made by hand: made_by_hand.py

A contract can't forbid it where a call may want memory: `encode` could give up above 240 elements. So `AllocError` and
`OutOfMemory` are made in `From` impls, and else only in the functions of bench/made_by_hand.txt: a path of a source,
the function, how often, and why no memory was there. Told is each place that isn't listed, and each line that no place
needs. The status is 0 where there is none.
"""
import collections
import os
import re
import sys

ROOT = os.path.dirname(os.path.dirname(os.path.realpath(__file__)))
LIST = "bench/made_by_hand.txt"
WORD = re.compile(r"(?:\w+::)*(?:AllocError|OutOfMemory)\b(?!::)")
# Lines that state, declare or import, and make nothing.
STATES = re.compile(r"\s*(//|#\[|use |pub use |ghost |ensures |requires |impl\b|pub struct |[×⊎→(]|(pub )?fn |\) ->)")
DECLARES = re.compile(r"\s*OutOfMemory( = \d+)?,$")


def is_made(line, at):
    """Whether a name on a line is a value that is made there, and neither a type nor a pattern."""
    before, after = line[: at.start()].rstrip(), line[at.end() :]
    is_value = before == "" or before.endswith(("(", "=>", "=", "{"))
    is_pattern = re.match(r"\)*\s*(=>|\||=[^=])", after) is not None
    return is_value and not is_pattern and re.match(r"\s*([),}]|$)", after) is not None


def made_in(text):
    """The function round each place of a source that makes it, but for `From` impls."""
    function, is_from = "", False
    for line in text.split("\n"):
        head = re.match(r"\s*(?:pub(?:\(\w+\))? )?fn (\w+)", line)
        function = head[1] if head else function
        if re.match(r"impl\b", line):
            is_from = re.search(r"\bFrom<", line) is not None
        if STATES.match(line) or DECLARES.match(line):
            continue
        for at in WORD.finditer(line.partition(" //")[0]):
            if is_made(line, at) and not (is_from and function == "from"):
                yield function


def sources():
    for crate in sorted(os.listdir(f"{ROOT}/crates")):
        if not crate.endswith("_tests"):
            for at, _, names in sorted(os.walk(f"{ROOT}/crates/{crate}/src")):
                yield from (os.path.join(at, name) for name in sorted(names) if name.endswith(".rt"))


def listed():
    """The places of the list, with how often each makes it."""
    found = {}
    with open(f"{ROOT}/{LIST}", encoding="utf-8") as file:
        for line in file:
            if line.strip() and not line.startswith("#"):
                path, function, count, _ = line.split(None, 3)
                found[path, function] = int(count)
    return found


def main():
    found = collections.Counter()
    for path in sources():
        with open(path, encoding="utf-8") as file:
            found.update((os.path.relpath(path, ROOT), function) for function in made_in(file.read()))
    known, told = listed(), 0
    for path, function in sorted({*found, *known}):
        made, may = found[path, function], known.get((path, function), 0)
        if made != may:
            told += 1
            print(f"{path}: {function} makes want of memory {made} times, and {LIST} has {may}")
    print(f"{sum(found.values())} places make want of memory, {told} of them not as listed")
    return int(told > 0)


if __name__ == "__main__":
    sys.exit(main())
