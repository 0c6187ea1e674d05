#!/usr/bin/env python3
"""Compares what tshark reads of `upsched capture` with what `upsched maps` and `upsched show` print, for each plan of
the examples, and both checks of each frame: the CRC with zlib's, the HCS with a table of its own and with tshark's."""
import json
import re
import struct
import subprocess
import sys
import zlib
from pathlib import Path

LINE = re.compile(r"channel (\d+) ucd (\d+) start (\d+) ack (\d+) ranging (\d+) (\d+) data (\d+) (\d+)")
ELEMENT = re.compile(r"offset (\d+) sid (\d+) iuc (\d+)")
HEAD = [
    "docsis_mgmt.upchid", "docsis_map.ucdcount", "docsis_map.allocstart", "docsis_map.acktime", "docsis_map.rng_start",
    "docsis_map.rng_end", "docsis_map.data_start", "docsis_map.data_end", "docsis_map.numie",
]
ELEMENTS = ["docsis_map.offset", "docsis_map.sid", "docsis_map.iuc"]
# What is the same in each frame: fields of the MAC header, whose check has to be good, and of the message's.
SAME = {
    "docsis.fctype": 3, "docsis.fcparm": 1, "docsis.exthdr": 0, "docsis.macparm": 0, "docsis.hcs.status": 1,
    "docsis_mgmt.dst": "01:e0:2f:00:00:01", "docsis_mgmt.src": "00:00:5e:00:53:01", "docsis_mgmt.dsap": 0,
    "docsis_mgmt.ssap": 0, "docsis_mgmt.control": 3, "docsis_mgmt.version": 1, "docsis_mgmt.type": 3,
    "docsis_mgmt.rsvd": 0, "docsis_map.rsvd": 0,
}
FILE_HEAD = struct.pack("<IHHiIII", 0xA1B2C3D4, 2, 4, 0, 0, 65535, 143)


def remainder(byte: int) -> int:
    """What division by the generator of ITU-T X.25's check leaves of a byte."""
    for _ in range(8):
        byte = byte >> 1 ^ (0x8408 if byte & 1 else 0)
    return byte


TABLE = [remainder(it) for it in range(256)]


def header_check(header: bytes) -> int:
    check = 0xFFFF
    for byte in header:
        check = check >> 8 ^ TABLE[(check ^ byte) & 0xFF]
    return check ^ 0xFFFF


assert header_check(b"123456789") == 0x906E and zlib.crc32(b"123456789") == 0xCBF43926, "not the published checks"


def output_of(*words: str) -> bytes:
    return subprocess.run(words, capture_output=True, check=True).stdout


def frames_of(capture: bytes) -> list[tuple[int, bytes]]:
    """The frames of a capture file with their times."""
    assert capture.startswith(FILE_HEAD), "another head of a capture file"
    frames, at = [], len(FILE_HEAD)
    while at < len(capture):
        seconds, micros, kept, whole = struct.unpack_from("<IIII", capture, at)
        assert (micros, kept) == (0, whole), "a frame isn't whole"
        frames.append((seconds, capture[at + 16:at + 16 + kept]))
        at += 16 + kept
    return frames


def wrong_checks(frame: bytes) -> list[str]:
    """What is wrong with the lengths and the checks of a frame."""
    wrong = []
    lengths = [struct.unpack_from(">H", frame, at)[0] for at in (2, 18)]
    if lengths != [len(frame) - 6, len(frame) - 24]:
        wrong.append("a length")
    if struct.unpack_from("<H", frame, 4)[0] != header_check(frame[:4]):
        wrong.append("the HCS")
    if struct.unpack_from("<I", frame, len(frame) - 4)[0] != zlib.crc32(frame[6:-4]):
        wrong.append("the CRC")
    return wrong


def read_by_tshark(path: Path) -> list[tuple]:
    """Of each frame its time, its other fields, the head of its MAP and its elements."""
    read = []
    for packet in json.loads(output_of("tshark", "-r", str(path), "-T", "json", "--no-duplicate-keys") or b"[]"):
        flat: dict[str, list] = {}

        def walk(value, name=""):
            if isinstance(value, dict):
                for key, below in value.items():
                    walk(below, key)
            elif isinstance(value, list):
                for below in value:
                    walk(below, name)
            else:
                flat.setdefault(name, []).append(int(value, 0) if re.fullmatch(r"0x[0-9a-f]+|\d+", value) else value)

        walk(packet["_source"]["layers"])
        one = {name: found[0] for name, found in flat.items()}
        elements = list(zip(*(flat.get(name, []) for name in ELEMENTS)))
        same, head = {name: one.get(name) for name in SAME}, tuple(one.get(name) for name in HEAD)
        read.append((float(one["frame.time_epoch"]), same, head, elements))
    return read


def shown(program: str, number: int, body: str) -> tuple:
    """The same of a MAP as `show` prints it."""
    lines = output_of(program, "show", body).decode().splitlines()
    elements = [tuple(int(it) for it in ELEMENT.fullmatch(line).groups()) for line in lines[1:]]
    head = tuple(int(it) for it in LINE.fullmatch(lines[0]).groups()) + (len(elements),)
    return float(number), SAME, head, elements


def differs(program: str, plan: Path, path: Path) -> tuple[int, list[str]]:
    """How many MAPs a plan has, and what is read otherwise of its capture."""
    bodies = re.findall(r"map channel .* ([0-9a-f]+)$", output_of(program, "maps", str(plan)).decode(), re.M)
    capture = output_of(program, "capture", str(plan))
    path.write_bytes(capture)
    frames = frames_of(capture)
    wanted = [(number, bytes.fromhex(body)) for number, body in enumerate(bodies)]
    if wanted != [(seconds, frame[26:-4]) for seconds, frame in frames]:
        return len(bodies), ["other bodies, or times"]
    wrong = [f"frame {number}: {what}" for number, (_, frame) in enumerate(frames) for what in wrong_checks(frame)]
    for number, (body, read) in enumerate(zip(bodies, read_by_tshark(path), strict=True)):
        want = shown(program, number, body)
        if read != want:
            wrong.append(f"frame {number}: tshark reads {read}, show prints {want}")
    return len(bodies), wrong


def main() -> int:
    program, folder, examples = sys.argv[1], Path(sys.argv[2]), Path(sys.argv[3])
    plans = sorted(it for it in [*examples.glob("plans/*.toml"), *examples.glob("live/*.toml")])
    count = bad = 0
    for plan in plans:
        maps, wrong = differs(program, plan, folder / "maps.pcap")
        count += maps
        bad += len(wrong)
        for what in wrong:
            print(f"{plan}: {what}")
    print(f"{len(plans)} plans of the examples, {count} MAPs, {bad} read otherwise")
    return 1 if bad or not count else 0


sys.exit(main())
