#!/usr/bin/env python3
"""Keeps a process of `upsched host` over a folder: starts it again when it ends.

Usage: host_keeper.py FOLDER COMMAND..

COMMAND starts the host over FOLDER, with --new or --join where it is to begin so. Whole lines go to it from standard
input; what it writes goes to this program's standard output by itself. Behind its end the same words start it again, a
second later, but without --new and --join once the folder has a state. Lines that the host was given and didn't read
are lost, as letters may be. A first start that is refused, within ten seconds, ends this program too, with the status
of the host. So does the end of standard input.
"""
import os
import select
import subprocess
import sys
import time

PAUSE = 1.0
# How long a first start may take that is refused.
REFUSED = 10.0


def has_state(folder):
    return os.path.isdir(folder) and any(name.endswith(".state") for name in os.listdir(folder))


class Keeper:
    def __init__(self, folder, words):
        self.folder, self.words, self.starts = folder, words, 0
        self.start()

    def start(self):
        begins = ("--new", "--join") if has_state(self.folder) and self.starts else ()
        words = [it for it in self.words if it not in begins]
        self.starts, self.began = self.starts + 1, time.monotonic()
        try:
            self.child = subprocess.Popen(words, stdin=subprocess.PIPE, bufsize=0)
        except OSError as why:
            sys.exit(f"host_keeper.py: {why}")

    def give(self, lines):
        try:
            while lines:
                lines = lines[os.write(self.child.stdin.fileno(), lines) :]
        except BrokenPipeError:
            pass

    def looks_after(self):
        """Starts the host again where it ended; a first start that was refused ends this program."""
        status = self.child.poll()
        if status is None:
            return
        if self.starts == 1 and status > 0 and time.monotonic() - self.began < REFUSED:
            sys.exit(status)
        print(f"host_keeper.py: the host ended with status {status}, and is started again", file=sys.stderr, flush=True)
        self.child.stdin.close()
        time.sleep(PAUSE)
        self.start()

    def end(self):
        self.child.stdin.close()
        return self.child.wait()


def main():
    if sys.argv[1:] in (["-h"], ["--help"]):
        return print(__doc__.strip())
    if len(sys.argv) < 3:
        print(__doc__.strip(), file=sys.stderr)
        return 2
    keeper, rest = Keeper(sys.argv[1], sys.argv[2:]), b""
    while True:
        if select.select([0], [], [], 0.2)[0]:
            chunk = os.read(0, 1 << 16)
            if not chunk:
                return keeper.end()
            whole, end, behind = (rest + chunk).rpartition(b"\n")
            rest = behind
            keeper.give(whole + end)
        keeper.looks_after()


if __name__ == "__main__":
    try:
        sys.exit(main())
    except KeyboardInterrupt:
        sys.exit(1)
