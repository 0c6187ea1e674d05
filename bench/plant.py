#!/usr/bin/env python3
"""`rt plant`, over enums whose variants have comments: plant.py [WORD..], as `rt plant` takes them.

The kit copies the comment of an enum's variant into the bodies that it writes, where it ends their line.
"""
import sys

sys.dont_write_bytecode = True
import kit  # noqa: E402


def without_comments(words):
    while words[:1] and words[0].startswith("//"):
        words = words[1:]
    return words


def main():
    plant = kit.module("rt-plant")
    of_kit = plant.bodies.without_attributes
    plant.bodies.without_attributes = lambda words: without_comments(of_kit(without_comments(words)))
    return plant.main(*sys.argv[1:])


if __name__ == "__main__":
    sys.exit(main())
