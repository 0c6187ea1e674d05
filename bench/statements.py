#!/usr/bin/env python3
"""Proves the library of this folder from nothing, and leaves its statements alone for the crates above.

  bench/statements.py [--jobs N]

A crate over statements loads no proof of the libraries below it, as in `rt ci`, which calls the kit's own module
likewise. The libraries below have to be there. The status is 3 where the kit has no such libraries: use `rt lib`.
"""
import os
import shutil
import sys

sys.dont_write_bytecode = True
import kit  # noqa: E402
NOT_HERE = 3


def build(rt, jobs):
    """Builds the library, and notes as `rt` does what it is made of."""
    rt.guarded()
    crate = kit.crate_here(rt)
    if not all(it.is_built() for it in crate.below()):
        sys.exit("statements: a library below isn't built")
    made, stamp = os.path.dirname(crate.rlib), crate.stamp()
    shutil.rmtree(made, ignore_errors=True)
    os.makedirs(made)
    status = crate.call(rt.RATTLE, "build", *crate.words(jobs, keeps=False), "--statements", "-o", crate.rlib)
    if not status:
        for name, text in (("stamp", stamp), ("statements", "")):
            with open(f"{made}/{name}", "w", encoding="utf-8") as file:
                file.write(text)
    return status


def main():
    rt = kit.module("rtlib.py")
    # an older kit may not tell what its build can do
    has_statements = hasattr(rt, "help_of") and "--statements" in rt.help_of("build")
    return build(rt, sys.argv[1:]) if has_statements else NOT_HERE


if __name__ == "__main__":
    sys.exit(main())
