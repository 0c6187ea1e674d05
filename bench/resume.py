#!/usr/bin/env python3
"""Compares `upsched resume` of the parts of a plan with what `maps` prints of the whole, and gives it files of tables
that were cut or changed.

Usage: bench/resume.py PROGRAM [COMMANDS [CUTS]]

- Each plan of examples/plans is cut into two at each of its places, and a made plan of COMMANDS commands (60000, where
  nothing is said) at CUTS places (100). What `resume` prints of the second part has numbers from 1 on.
- The file of examples/parts/day_one.rows is cut at each of its bytes, and each of its bytes becomes 0, 1 and 255. Such
  a file is refused by a line that names its fault, or is read; then the same bytes are left of it by an empty plan.
- What is at the path of `--to` stays where it can't be written: at a folder, at a pipe, with no room for the file.

Prints a line for each that differs, and how many runs there were.
"""
import glob
import json
import os
import re
import resource
import subprocess
import sys
import tempfile
import tomllib

HERE = os.path.dirname(os.path.dirname(os.path.abspath(__file__)))
FIRST_LINE = b"upsched rows 1\n"
FAULT = re.compile(
    rb"upsched: (no rows|rows (1 Short|2 Trailing|3 NoChannel|4 NoFlow|5 NoRequest|6 NotFirm \d+))\n"
)


def inline(value):
    """A value as TOML has it within a line."""
    if isinstance(value, dict):
        return "{ " + ", ".join(f"{key} = {inline(item)}" for key, item in value.items()) + " }"
    return json.dumps(value)


def made_commands(count):
    """Channels, flows of each service, requests, cuts, drops and changes, in turn."""
    channel = {"ucd": 1, "short_max": 16, "ranging": [2, 5], "data": [3, 8]}
    made = [{"kind": "channel", "ch": ch, "base": 1000, **channel} for ch in range(8)]
    services = [{"service": "best_effort", "priority": 3}]
    services += [{"service": "poll", "interval": 500, "jitter": 200, "base": 1000}]
    due = {"size": 2, "interval": 900, "jitter": 300, "base": 1010}
    services += [{"service": name, **due} for name in ("ugs", "station", "initial")]
    for turn in range(count - len(made)):
        ch, round = turn % 8, turn // 8
        if round % 40 == 0:
            end = {"last": 1000 + 4000 * (round + 50)} if turn % 3 == 0 else {}
            made.append({"kind": "flow", "ch": ch, "modem": turn, "tag": 1, **services[turn // 7 % 5], **end})
        elif round % 97 == 0:
            made.append({"kind": "change", "ch": ch, "phy": "tdma", **channel, "data": [round % 9, 9]})
        elif round % 61 == 0:
            made.append({"kind": "drop", "ch": ch, "sid": 1 + turn % 13})
        elif round % 5 == 0:
            made.append({"kind": "cut", "ch": ch, "len": 400, "not_before": 0, "ack": 0, "keep": turn % 50})
        else:
            asked = {"sid": 1 + turn * 7 % 90, "n": 1 + turn % 90, "sent": 100 * round}
            made.append({"kind": "request", "ch": ch, **asked})
    return made


class Runs:
    def __init__(self, program, folder):
        self.program, self.folder = program, folder
        self.count, self.bad = 0, 0

    def path(self, name):
        return os.path.join(self.folder, name)

    def write(self, name, data):
        with open(self.path(name), "wb") as file:
            file.write(data)
        return self.path(name)

    def read(self, name):
        with open(self.path(name), "rb") as file:
            return file.read()

    def run(self, *words, limit=None):
        """The status, the output and the errors of the program; no file may have more bytes than the limit."""
        self.count += 1

        def limited():
            resource.setrlimit(resource.RLIMIT_FSIZE, (limit, limit))

        ended = subprocess.run(
            [self.program, *words], capture_output=True, stdin=subprocess.DEVNULL, restore_signals=limit is None,
            preexec_fn=None if limit is None else limited,
        )
        return ended.returncode, ended.stdout, ended.stderr

    def tell(self, line):
        self.bad += 1
        print(line, flush=True)

    # Parts of plans.

    def plan(self, name, commands):
        def table(command):
            return "[[command]]\n" + "".join(f"{json.dumps(key)} = {inline(command[key])}\n" for key in command)

        return self.write(name, "".join(map(table, commands)).encode())

    def parts(self, what, commands, cuts):
        """Whether the parts of each cut print what the whole does."""
        whole = self.run("maps", self.plan("whole.toml", commands))[1].split(b"\n")[:-1]
        outputs = [line.partition(b" ")[2] for line in whole]
        for cut in cuts:
            self.plan("first.toml", commands[:cut])
            self.plan("second.toml", commands[cut:])
            first = self.run("resume", self.path("first.toml"), "--to", self.path("rows"))
            second = self.run("resume", self.path("second.toml"), "--from", self.path("rows"))
            wanted = [(0, self.lines(part), b"") for part in (outputs[:cut], outputs[cut:])]
            if [first, second] != wanted:
                self.tell(f"{what} cut at {cut}: the parts print something else")

    @staticmethod
    def lines(outputs):
        return b"".join(b"%d %s\n" % pair for pair in enumerate(outputs, 1))

    # Files of tables.

    def file(self, what, data):
        """Whether a file is refused by name, or read and left as it is."""
        status, output, errors = self.run(
            "resume", self.path("empty.toml"), "--from", self.write("given", data), "--to", self.path("left")
        )
        if status == 1 and output == b"" and FAULT.fullmatch(errors):
            return errors
        if status != 0 or output or errors or self.read("left") != data:
            self.tell(f"a file {what}: status {status}, {errors[:200]!r}")
        return b""

    def files(self, data):
        self.write("empty.toml", b"")
        for length in range(len(data)):
            fault = self.file(f"cut behind {length} bytes", data[:length])
            wanted = b"no rows" if length < len(FIRST_LINE) else b"rows 1 Short"
            if fault != b"upsched: %s\n" % wanted:
                self.tell(f"a file cut behind {length} bytes is refused by {fault!r}")
        for place in range(len(data)):
            for byte in (0, 1, 255):
                self.file(f"whose byte {place} is {byte}", data[:place] + bytes([byte]) + data[place + 1:])

    # Where tables are left.

    def refused(self, what, to, limit=None):
        status, _, errors = self.run("resume", self.path("first.toml"), "--to", to, limit=limit)
        if (status, errors) != (1, b"upsched: output\n"):
            self.tell(f"{what}: status {status}, {errors[:200]!r}")
        if os.path.exists(to + ".part"):
            self.tell(f"{what}: a part is left")

    def places(self):
        self.plan("first.toml", made_commands(100))
        os.mkdir(self.path("folder"))
        self.refused("a folder", self.path("folder"))
        os.mkfifo(self.path("pipe"))
        self.refused("a pipe", self.path("pipe"))
        self.refused("a folder that isn't there", self.path("nowhere/rows"))
        self.write("kept", b"kept")
        self.refused("no room", self.path("kept"), limit=100)
        if self.read("kept") != b"kept" or not os.path.isdir(self.path("folder")):
            self.tell("what was there is gone")


def main():
    if not 2 <= len(sys.argv) <= 4 or not all(word.isdigit() for word in sys.argv[2:]):
        sys.exit(__doc__)
    count, cuts = [int(word) for word in sys.argv[2:]] + [60000, 100][len(sys.argv) - 2:]
    with tempfile.TemporaryDirectory() as folder:
        runs = Runs(os.path.abspath(sys.argv[1]), folder)
        for path in sorted(glob.glob(os.path.join(HERE, "examples/plans/*.toml"))):
            with open(path, "rb") as file:
                commands = tomllib.load(file).get("command", [])
            runs.parts(os.path.basename(path), commands, range(len(commands) + 1))
        commands = made_commands(count)
        runs.parts("the made plan", commands, [count * k // (cuts + 1) for k in range(1, cuts + 1)])
        with open(os.path.join(HERE, "examples/parts/day_one.rows"), "rb") as file:
            runs.files(file.read())
        runs.places()
        print(f"{runs.count} runs, {runs.bad} differ")
    sys.exit(runs.bad > 0)


main()
