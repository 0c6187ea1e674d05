#!/usr/bin/env python3
"""What a library shows to the crates above it, and its fit to the libraries below it. `./check` uses both.

  bench/shown.py    fits the library of this folder to those below it, which show what they did when it was proved

What a proof left names the libraries that it was over by their sums, which another body changes. `rt` and the prover
take it with no others, though a proof reads nothing of a body below. So the sums are written anew.
"""
import functools
import hashlib
import json
import os
import re
import sys

sys.dont_write_bytecode = True
import kit  # noqa: E402
# Lines of a library's format that are sums, or tell whether it leaves its proofs or its statements alone.
OF_BUILD = rb"(sum|checked|over|needs|carries) |incremental"
# The modules of a function that tell what it is compiled to and how that is proved, as they are made and written.
OF_BODY = re.compile(r"proofs/.+/(Code|Goals|Lts|Proof|Tie)(/.*)?")
OF_PROOF = re.compile(r"proofs/.+/(Answers|Invariants|Proof)\.antt")


def read(path):
    with open(path, "rb") as file:
        return file.read()


def files_below(folder):
    """The files below a folder, by their paths from there, in order."""
    found = [os.path.join(at, name) for at, _, names in os.walk(folder) for name in names]
    return sorted(os.path.relpath(it, folder) for it in found)


@functools.cache
def shown(rlib):
    """A sum over what the proofs of crates above a library read of it: contracts, types, definitions and lemmas.

    None where this kit's libraries are made otherwise.
    """
    try:
        name = re.escape(os.path.basename(rlib).removesuffix(".rlib").encode())
        # statements tell what is free of the libraries below too
        of_build = re.compile(OF_BUILD + rb"|free Rattle-(?!%s\b)" % name)
        parts = [line for line in read(f"{rlib}/format").splitlines() if not of_build.match(line)]
        for line in read(f"{rlib}/toolchain/made.json").splitlines():
            name, _, _, digest, _ = json.loads(line)
            parts += [f"{name} {digest}".encode()] * (not OF_BODY.fullmatch(name))
        for folder in ("interface", "lang/antt"):
            for name in files_below(f"{rlib}/{folder}"):
                is_body = folder != "interface" and (name == "made.json" or OF_PROOF.fullmatch(name))
                parts += [] if is_body else [name.encode(), read(f"{rlib}/{folder}/{name}")]
    except (OSError, ValueError):
        return None
    return sum_of(*parts)


@functools.cache
def code(rlib):
    """A sum over what programs and tests above a library run of it, likewise."""
    try:
        return sum_of(read(f"{rlib}/toolchain/mir.json"))
    except OSError:
        return None


def sum_of(*parts):
    return hashlib.sha256(b"".join(hashlib.sha256(it).digest() for it in parts)).hexdigest()


def replace(path, text):
    """Writes a file anew. Links to the one that it was keep that."""
    with open(f"{path}.new", "wb") as file:
        file.write(text)
    os.replace(f"{path}.new", path)


def fit():
    crate = kit.crate_here(kit.module("rtlib.py"))
    sums = {it.name.encode(): hashlib.sha256(read(f"{it.rlib}/format")).hexdigest().encode() for it in crate.below()}
    lines = read(f"{crate.rlib}/format").splitlines(keepends=True)
    for at, line in enumerate(lines):
        word, name, *_ = [*line.split(), b"", b""]
        if word == b"over" and name in sums:
            lines[at] = b"over %s %s\n" % (name, sums[name])
    replace(f"{crate.rlib}/format", b"".join(lines))
    replace(f"{os.path.dirname(crate.rlib)}/stamp", crate.stamp().encode())


if __name__ == "__main__":
    fit()
