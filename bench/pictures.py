#!/usr/bin/env python3
"""bench/pictures.py [PROGRAM [PLANS]]: texts of the pictures of plans, and their red windows.

PROGRAM is the built program, crates/upsched/out/upsched where the words don't say, and PLANS is how many plans are
made, 1000 by default. Looked at are the pictures of examples/plans and of these (`draw --plan`), and those of
examples/scripts (`draw --maps`):

- no two texts overlap, and none leaves the sheet, with the widths of DejaVu Sans, which is among the fonts that the
  style names and wider than the others;
- of a plan, as many windows are red as `stats` counts as missed, and its rows say as many. The windows of a made plan
  begin with its channel's axis or later. Where some begin before, or more than are drawn, no more are red.

Printed is how many there were. The status is 1 where a picture isn't so, and a line tells of it.
"""
import os
import random
import re
import subprocess
import sys
import tempfile
import xml.etree.ElementTree as ElementTree

ROOT = os.path.dirname(os.path.dirname(os.path.abspath(__file__)))
EXAMPLES = os.path.join(ROOT, "examples")
SVG = "{http://www.w3.org/2000/svg}"
# How wide the printable characters of ASCII are in DejaVu Sans, from the space on, in 2048ths of the font's size: plain
# and bold.
PLAIN = [
    651, 821, 942, 1716, 1303, 1946, 1597, 563, 799, 799, 1024, 1716, 651, 739, 651, 690, 1303, 1303, 1303, 1303, 1303,
    1303, 1303, 1303, 1303, 1303, 690, 690, 1716, 1716, 1716, 1087, 2048, 1401, 1405, 1430, 1577, 1294, 1178, 1587,
    1540, 604, 604, 1343, 1141, 1767, 1532, 1612, 1235, 1612, 1423, 1300, 1251, 1499, 1401, 2025, 1403, 1251, 1403, 799,
    690, 799, 1716, 1024, 1024, 1255, 1300, 1126, 1300, 1260, 721, 1300, 1298, 569, 569, 1186, 569, 1995, 1298, 1253,
    1300, 1300, 842, 1067, 803, 1298, 1212, 1675, 1212, 1212, 1075, 1303, 690, 1303, 1716]
BOLD = [
    713, 934, 1067, 1716, 1425, 2052, 1786, 627, 936, 936, 1071, 1716, 778, 850, 778, 748, 1425, 1425, 1425, 1425, 1425,
    1425, 1425, 1425, 1425, 1425, 819, 819, 1716, 1716, 1716, 1188, 2048, 1585, 1561, 1503, 1700, 1399, 1399, 1681,
    1714, 762, 762, 1587, 1305, 2038, 1714, 1741, 1501, 1741, 1577, 1475, 1397, 1663, 1585, 2259, 1579, 1483, 1485, 936,
    748, 936, 1716, 1024, 1024, 1382, 1466, 1214, 1466, 1389, 891, 1466, 1458, 702, 702, 1362, 702, 2134, 1458, 1407,
    1466, 1466, 1010, 1219, 979, 1458, 1335, 1892, 1321, 1335, 1192, 1458, 748, 1458, 1716]
# How far it goes above and below a line.
ABOVE, BELOW = 0.76, 0.24
ENDLESS = 2 ** 62
# As many windows of a lease are drawn, whichever are still open.
MANY = 500


class Wrong(Exception):
    """A picture that isn't as it should be."""


def printed(program, words):
    done = subprocess.run([program, *words], capture_output=True, text=True)
    if done.returncode != 0 or done.stderr:
        raise Wrong(f"status {done.returncode}: {done.stderr.strip()}")
    return done.stdout


# ---- texts


def box_of(text):
    """The left, top, right and bottom edge of a text, and its words."""
    classes = text.get("class").split()
    is_bold = "h" in classes or "b" in classes
    size = 15 if "h" in classes else 10 if "s" in classes else 11
    words = text.text or ""
    width = sum((BOLD if is_bold else PLAIN)[ord(c) - 32] for c in words) * size / 2048
    x, y = int(text.get("x")), int(text.get("y"))
    left = x - width if "e" in classes else x - width / 2 if "m" in classes else x
    return left, y - ABOVE * size, left + width, y + BELOW * size, words


def look_at_texts(svg):
    """How many texts a picture has: apart from one another, and on the sheet."""
    boxes = sorted((box_of(text) for text in svg.iter(SVG + "text")), key=lambda box: box[1])
    wide, high = int(svg.get("width")), int(svg.get("height"))
    begun = []
    for box in boxes:
        left, top, right, bottom, words = box
        if left < 0 or top < 0 or right > wide or bottom > high:
            raise Wrong(f"`{words}` leaves the sheet: {left:.1f} to {right:.1f} of {wide}, at {bottom:.1f} of {high}")
        begun = [other for other in begun if other[3] > top]
        for other in begun:
            if other[0] < right and left < other[2]:
                raise Wrong(f"`{words}` lies over `{other[4]}`")
        begun.append(box)
    return len(boxes)


# ---- windows


def look_at_windows(svg, stats, is_made):
    """How many red windows a picture has: as many as `stats` counts."""
    flows = [tuple(map(int, found)) for found in re.findall(r" windows (\d+) missed (\d+)$", stats, re.MULTILINE)]
    missed = sum(flow[1] for flow in flows)
    is_whole = is_made and all(flow[0] <= MANY for flow in flows)
    rows = [text.text or "" for text in svg.iter(SVG + "text")]
    said = sum(int(m.group(1)) for m in (re.search(r", (\d+) missed$", row) for row in rows) if m)
    red = sum(rect.get("class") == "missed" for rect in svg.iter(SVG + "rect"))
    if said != missed:
        raise Wrong(f"its rows say {said} missed, and stats {missed}")
    if red > missed or (is_whole and red != missed):
        raise Wrong(f"{red} windows are red, and stats counts {missed}")
    return red


# ---- plans that are made


def service(dice, start):
    base = start + dice.randrange(0, 120)
    interval = dice.choice((1, 7, 20, 40, 100, 4096))
    times = {"interval": interval, "jitter": dice.choice((0, interval // 5, interval)), "base": base}
    kind = dice.choice(("ugs", "ugs", "poll", "station", "initial", "best_effort", "best_effort"))
    if kind == "best_effort":
        return {"service": kind, "priority": dice.randrange(8)}
    return {"service": kind, **({} if kind == "poll" else {"size": dice.choice((1, 4, 16))}), **times}


def flow(dice, ch, start):
    last = {"last": start + dice.randrange(20, 300)} if dice.random() < 0.3 else {}
    modem = dice.choice((1, 50, 103, 4294967295))
    return {"kind": "flow", "ch": ch, "modem": modem, "tag": 1, **last, **service(dice, start)}


def turn(dice, ch, start):
    """A command on a channel that is set."""
    choice = dice.random()
    if choice < 0.3:
        return flow(dice, ch, start)
    if choice < 0.55:
        sent = max(0, start + dice.randrange(-600, 300))
        n = dice.choice((1, 4, 30, 255))
        return {"kind": "request", "ch": ch, "sid": dice.randrange(1, 7), "n": n, "sent": sent}
    if choice < 0.65:
        return {"kind": "drop", "ch": ch, "sid": dice.randrange(1, 7)}
    length = dice.choice((1, 8, 40, 64, 100, 1000, 4096))
    return {"kind": "cut", "ch": ch, "len": length, "not_before": 0, "ack": 0}


def plan_of(seed):
    """The commands of a plan: of few channels, now and then of 255, from early and from late times on."""
    dice = random.Random(seed)
    start = dice.choice((0, 1000, 99990, 123456789012, ENDLESS))
    channels = range(255) if seed % 100 == 99 else range(dice.choice((1, 1, 2, 3)))
    for ch in channels:
        yield {"kind": "channel", "ch": ch, "ucd": 1, "short_max": 16, "ranging": [2, 5], "data": [3, 8], "base": start}
    for _ in range(dice.choice((0, 5, 20, 60))):
        yield turn(dice, dice.choice(channels), start)


def shown(value):
    return f'"{value}"' if isinstance(value, str) else str(value)


def text_of(commands):
    tables = ("".join(f"{key} = {shown(value)}\n" for key, value in command.items()) for command in commands)
    return "".join(f"[[command]]\n{table}" for table in tables)


# ---- all of them


def look_at_plan(program, path, is_made):
    svg = ElementTree.fromstring(printed(program, ["draw", path, "--plan"]))
    return look_at_texts(svg), look_at_windows(svg, printed(program, ["stats", path]), is_made)


def look_at_script(program, path):
    return look_at_texts(ElementTree.fromstring(printed(program, ["draw", path, "--maps"]))), 0


def examples(kind):
    """The paths of examples of a kind that have no fault."""
    folder = os.path.join(EXAMPLES, kind)
    good = (os.path.join(folder, name[:-7]) for name in sorted(os.listdir(folder)) if name.endswith(".stdout"))
    return [stem + ".toml" for stem in good if os.path.exists(stem + ".toml")]


def pictures(program, count, room):
    """For each picture its name, and what looks at it."""
    for path in examples("plans"):
        yield path, lambda: look_at_plan(program, path, False)
    for path in examples("scripts"):
        yield path, lambda: look_at_script(program, path)
    path = os.path.join(room, "plan.toml")
    for seed in range(count):
        with open(path, "w", encoding="utf-8") as file:
            file.write(text_of(plan_of(seed)))
        yield f"made plan {seed}", lambda: look_at_plan(program, path, True)


def main():
    program = os.path.abspath(sys.argv[1] if len(sys.argv) > 1 else os.path.join(ROOT, "crates/upsched/out/upsched"))
    count = sys.argv[2] if len(sys.argv) > 2 else "1000"
    if len(sys.argv) > 3 or not count.isdecimal() or not os.access(program, os.X_OK):
        sys.exit(__doc__.partition(":")[0] + ": no such program, or no number of plans")
    drawn = texts = red = wrong = 0
    with tempfile.TemporaryDirectory() as room:
        for name, look in pictures(program, int(count), room):
            try:
                found = look()
                texts, red = texts + found[0], red + found[1]
            except Wrong as fault:
                print(f"{name}: {fault}")
                wrong += 1
            drawn += 1
    print(f"pictures {drawn} texts {texts} red-windows {red} wrong {wrong}")
    return 0 if wrong == 0 else 1


if __name__ == "__main__":
    sys.exit(main())
