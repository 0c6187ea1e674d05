#!/usr/bin/env python3
"""Compares the replies of `upsched scheduler` with what `maps` prints, tries hostile inputs, and measures them.

Usage: bench/scheduler.py PROGRAM FOLDER [COMMANDS [LINES]]
"""
import glob
import json
import multiprocessing
import os
import re
import subprocess
import sys
import time
import tomllib

HERE = os.path.dirname(os.path.dirname(os.path.abspath(__file__)))
LAST_TIME = 1 << 62
SERVICES = {"best_effort": 0, "ugs": 1, "poll": 2, "station": 3, "initial": 4}


def key_text(key):
    """A key as TOML has it: in quotes, where it isn't a bare one."""
    return key if re.fullmatch(r"[A-Za-z0-9_-]+", key) else json.dumps(key)


def inline(value):
    """A value as TOML has it within a line."""
    if isinstance(value, dict):
        return "{ " + ", ".join(f"{key_text(key)} = {inline(item)}" for key, item in value.items()) + " }"
    return json.dumps(value)


def numbers(*pairs):
    """Numbers of so many bytes each, most significant byte first."""
    return b"".join(number.to_bytes(size, "big") for number, size in pairs)


def ends(command, *keys):
    return bytes(end for key in keys for end in command.get(key, [255, 255]))


def service_bytes(c):
    number = SERVICES[c["service"]]
    if number == 0:
        return bytes([0, c["priority"]])
    size = b"" if number == 2 else numbers((c["size"], 2))
    return bytes([number]) + size + numbers((c["interval"], 4), (c["jitter"], 4), (c["base"], 8))


def bytes_of(c):
    """The bytes of a command, as docs/formats.md has them."""
    kind = c["kind"]
    advanced = c.get("phy") == "advanced"
    if kind == "noop":
        return b"\0"
    if kind == "channel":
        head = bytes([6 if advanced else 1, c["ch"], c["ucd"]])
        return head + numbers((c["short_max"], 2)) + ends(c, "ranging", "data") + numbers((c["base"], 8))
    if kind == "change":
        head = bytes([10, c["ch"], c["ucd"], advanced])
        return head + numbers((c["short_max"], 2)) + ends(c, "ranging", "data")
    if kind == "flow":
        last = c.get("last", LAST_TIME)
        end = b"" if last == LAST_TIME else numbers((last, 8))
        head = numbers((7 if end else 2, 1), (c["ch"], 1), (c["modem"], 4), (c["tag"], 4))
        return head + end + service_bytes(c)
    if kind == "drop":
        return numbers((3, 1), (c["ch"], 1), (c["sid"], 2))
    if kind == "request":
        return numbers((4, 1), (c["ch"], 1), (c["sid"], 2), (c["n"], 2), (c["sent"], 8))
    settings = numbers((c.get("keep", 0), 2)) + ends(c, "ranging", "data")
    plain = settings == b"\0\0\xff\xff\xff\xff"
    head = numbers((5 if plain else 9, 1), (c["ch"], 1), (c["len"], 2), (c["not_before"], 8), (c["ack"], 8))
    return head + (b"" if plain else settings)


def table_line(command):
    return f"command = {inline(command)}\n"


def apply_line(command):
    return f"apply {bytes_of(command).hex()}\n"


def commands_in(path):
    with open(path, "rb") as file:
        return tomllib.load(file).get("command", [])


def printed(program, words, text=b""):
    return subprocess.run([program, *words], input=text, stdout=subprocess.PIPE, check=True).stdout


def differing(program):
    """The plans of the examples whose replies aren't what `maps` prints, and how many plans there are."""
    plans = sorted(glob.glob(f"{HERE}/examples/plans/*.toml"))
    found = []
    for path in plans:
        for words in ([], ["--json"]):
            wanted = printed(program, ["maps", path, *words])
            for line in (table_line, apply_line):
                text = "".join(map(line, commands_in(path))).encode()
                if printed(program, ["scheduler", *words], text) != wanted:
                    found.append(f"{os.path.basename(path)} {line.__name__} {' '.join(words)}")
    return found, len(plans)


def replies(*faults):
    """The text of replies: NoLine and its like are errors, other words outputs."""
    numbers = {"NoLine": 1, "NoHex": 2, "NoCommand": 4, "TooLong": 7}
    outputs = (f"error {numbers[fault]} {fault}" if fault in numbers else fault for fault in faults)
    return "".join(f"{number} {output}\n" for number, output in enumerate(outputs, 1)).encode()


def hostile_inputs():
    """By name the text that goes in, and what its lines are replied to."""
    return {
        "no input": (b"", ()),
        "an empty line": (b"\n\n", ("NoLine", "NoLine")),
        "CR before a line's end": (b"apply 00\r\ncommand = { kind = \"noop\" }\r\n", ("NoHex", "NoCommand")),
        "half a last line": (b"apply 00\napply 00", ("nothing",)),
        "100 MB without an end": (b"0" * 100_000_000, ()),
        "a line of 100 MB": (b"0" * 100_000_000 + b"\napply 00\n", ("TooLong", "nothing")),
        "NUL bytes": (b"\0\napply 00\0\napply \0\n\0apply 00\n", ("NoLine", "NoHex", "NoHex", "NoLine")),
        "an odd digit": (b"apply 000\n", ("NoHex",)),
        "capitals": (b"apply 0309FFFF\nAPPLY 00\nCommand = 1\n", ("refused 1", "NoLine", "NoLine")),
        "65 bytes": (b"apply " + b"00" * 65 + b"\napply " + b"00" * 64 + b"\n", ("NoCommand", "NoCommand")),
        "a noop with a byte more": (b"apply 0000\n", ("NoCommand",)),
        "two of a key": (b"command = { kind = \"noop\", kind = \"noop\" }\n", ("NoCommand",)),
        "bytes that are no text": (b"\xff\ncommand = \xff\napply \xff\n", ("NoLine", "NoCommand", "NoHex")),
    }


def falling_over(program):
    """The hostile inputs that aren't replied to as they are to be, and how many there are."""
    inputs = hostile_inputs()
    found = [name for name, (text, said) in inputs.items() if printed(program, ["scheduler"], text) != replies(*said)]
    pipe = subprocess.PIPE
    gone = subprocess.Popen([program, "scheduler"], stdin=pipe, stdout=pipe, stderr=pipe)
    gone.stdout.close()
    try:
        gone.stdin.write(b"apply 00\n" * 100_000)
        gone.stdin.close()
    except BrokenPipeError:
        pass
    if (gone.stderr.read(), gone.wait()) != (b"upsched: output\n", 1):
        found.append("a reader that goes away")
    return found, len(inputs) + 1


def apart(work, *given):
    """What the work gives, done by another process. So this one stays small: what it holds counts as its children's."""
    with multiprocessing.get_context("fork").Pool(1) as pool:
        return pool.apply(work, given)


def taken(program, words, path):
    """The least processor time of three runs with a file as standard input, and the greatest memory in MiB."""
    least, peak = None, 0
    for _ in range(3):
        child = os.fork()
        if child == 0:
            os.dup2(os.open(path, os.O_RDONLY), 0)
            os.dup2(os.open(os.devnull, os.O_WRONLY), 1)
            os.execv(program, [program, *words])
        _, status, usage = os.wait4(child, 0)
        if status:
            sys.exit(f"bench/scheduler.py: {' '.join(words)} ended with status {os.waitstatus_to_exitcode(status)}")
        seconds = usage.ru_utime + usage.ru_stime
        least = seconds if least is None else min(least, seconds)
        peak = max(peak, usage.ru_maxrss / 1024)
    return least, peak


def write_lines(folder, count):
    """Makes a plan, and its commands as lines; how many there are."""
    with open(f"{folder}/plan.toml", "wb") as file:
        subprocess.run([sys.executable, f"{HERE}/bench/plans.py", "mixed", str(count)], stdout=file, check=True)
    commands = commands_in(f"{folder}/plan.toml")
    for name, line in (("bytes", apply_line), ("tables", table_line)):
        with open(f"{folder}/{name}", "w") as file:
            file.writelines(map(line, commands))
    return len(commands)


def measure(program, folder, count):
    """How many commands a second, beside `maps`."""
    commands, plan = apart(write_lines, folder, count), f"{folder}/plan.toml"
    runs = {"maps": (["maps", plan], os.devnull), "maps --json": (["maps", plan, "--json"], os.devnull)}
    for name in ("bytes", "tables"):
        runs[name] = ["scheduler"], f"{folder}/{name}"
        runs[f"{name} --json"] = ["scheduler", "--json"], f"{folder}/{name}"
    for name, (words, path) in runs.items():
        seconds, peak = taken(program, words, path)
        print(f"{name:13} {commands / seconds:9.0f} commands a second, peak {peak:5.1f} MiB", flush=True)


def wait_for_each(program, count):
    """How long a command takes where each reply is waited for."""
    child = subprocess.Popen([program, "scheduler"], stdin=subprocess.PIPE, stdout=subprocess.PIPE, bufsize=0)
    began = time.monotonic()
    for number in range(1, count + 1):
        child.stdin.write(b"apply 00\n")
        reply = child.stdout.read(64)
        assert reply == b"%d nothing\n" % number, reply
    seconds = time.monotonic() - began
    child.stdin.close()
    assert child.wait() == 0
    print(f"each reply waited for: {seconds / count * 1e6:.1f} us a command")


def run_long(program, lines):
    """The memory of a scheduler over so many lines, most of which ask to cut a channel's next MAP."""
    cut = apply_line({"kind": "cut", "ch": 1, "len": 4096, "not_before": 0, "ack": 0}).encode()
    channel = apply_line(
        {"kind": "channel", "ch": 1, "ucd": 7, "short_max": 16, "ranging": [2, 5], "data": [3, 8], "base": 0}
    ).encode()
    read, write = os.pipe()
    child = os.fork()
    if child == 0:
        os.dup2(read, 0)
        os.close(write)
        os.dup2(os.open(os.devnull, os.O_WRONLY), 1)
        os.execv(program, [program, "scheduler"])
    os.close(read)
    with open(write, "wb") as file:
        file.write(channel)
        for _ in range(lines // 1000):
            file.write(cut * 1000)
    _, status, usage = os.wait4(child, 0)
    seconds = usage.ru_utime + usage.ru_stime
    ended = os.waitstatus_to_exitcode(status)
    print(f"{lines} lines: status {ended}, {lines / seconds:.0f} a second, peak {usage.ru_maxrss / 1024:.1f} MiB")


def main():
    program, folder = sys.argv[1:3]
    count, lines = (int(word) for word in (sys.argv[3:] + ["60000", "10000000"][len(sys.argv) - 3 :])[:2])
    found, plans = apart(differing, program)
    print(f"{plans} plans, by bytes and as tables, in lines and as JSON: {len(found)} differ from maps")
    for one in found:
        print(f"  {one}")
    failed, inputs = apart(falling_over, program)
    print(f"{inputs} hostile inputs: {len(failed)} are replied to otherwise")
    for one in failed:
        print(f"  {one}")
    measure(program, folder, count)
    wait_for_each(program, 20000)
    run_long(program, lines)
    sys.exit(bool(found or failed))


main()
