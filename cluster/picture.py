#!/usr/bin/env python3
"""Records a failover of three processes of `upsched node`, and draws it.

Usage: cluster/picture.py SVG

Node 0 leads, and a MAP is released each tenth of a second, by cluster/tcp.sh on this machine. Node 0 is killed by
SIGKILL, and the supervisor, which hears nothing for a second, asks node 1 to lead. Node 0 is started again over its
file, and is told what it missed.
"""
import os
import signal
import subprocess
import sys
import tempfile
import time

sys.dont_write_bytecode = True
from carry import words_in

HERE = os.path.dirname(os.path.abspath(__file__))
ADDRESSES = [f"127.0.0.1:{port}" for port in (24731, 24732, 24733)]
PORT = 24734
CUTS = 40
# Behind so many places the leader is killed, and so many seconds later it is started again.
KILLED_BEHIND, AWAY = 15, 2.5
LEFT, TOP, WIDTH, LANE = 70, 46, 640, 44
COLOURS = ("#1b5e9e", "#b35900", "#2e7d32")
SILENT = dict(stdin=subprocess.DEVNULL, stdout=subprocess.DEVNULL, stderr=subprocess.DEVNULL)


class Recorder:
    def __init__(self, room):
        self.room, self.events, self.began, self.children = room, [], time.monotonic(), []

    def note(self, what):
        self.events.append((time.monotonic() - self.began, what))

    def start(self, *words, **pipes):
        child = subprocess.Popen([os.path.join(HERE, "tcp.sh"), *words], start_new_session=True, text=True, **pipes)
        self.children.append(child)
        return child

    def start_node(self, k, *new):
        os.environ["SUPERVISOR"] = f"127.0.0.1:{PORT}"
        self.note(f"start {k}")
        return self.start("node", str(k), os.path.join(self.room, f"node-{k}.db"), *new, *ADDRESSES, **SILENT)

    def kill_node(self, k):
        words = f"node {k} --members 3 --store {self.room}/node-{k}.db"
        found = subprocess.run(["pgrep", "-f", "--", words], capture_output=True, text=True, check=True).stdout.split()
        self.note(f"kill {k}")
        for pid in found:
            os.kill(int(pid), signal.SIGKILL)

    def run(self):
        for k in range(3):
            self.start_node(k, "--new")
        time.sleep(1)
        plan = os.path.join(HERE, "../examples/plans/first_grant.toml")
        pipes = SILENT | dict(stderr=subprocess.PIPE)
        supervisor = self.start("supervise", str(PORT), plan, str(CUTS), *ADDRESSES, **pipes)
        back = None
        for line in supervisor.stderr:
            words = line.split()
            if words[0] == "all":
                return
            if words[0] not in ("lead", "node"):
                continue
            self.note(f"lead {words[1]}" if words[0] == "lead" else f"place {words[1]} {words[3]}")
            if back is None and words[0] == "node" and int(words[3]) >= KILLED_BEHIND:
                self.kill_node(0)
                back = time.monotonic() + AWAY
            if back and time.monotonic() > back:
                self.start_node(0)
                back = float("inf")

    def end(self):
        for child in self.children:
            os.killpg(child.pid, signal.SIGTERM)
            child.wait()


class Picture:
    def __init__(self, events):
        first = next(at for at, what in events if what.startswith("lead"))
        self.events = [(max(0.0, at - first), what.split()) for at, what in events]
        self.end = self.events[-1][0] + 0.2
        self.parts = []

    def point(self, at, k):
        return LEFT + WIDTH * at / self.end, TOP + LANE * k + LANE // 2

    def killed(self, k, began, end):
        """When a node was killed behind a moment, or that end."""
        return min([at for at, what in self.events if what == ["kill", str(k)] and at >= began], default=end)

    def line(self, x1, y1, x2, y2, colour, width):
        self.parts.append(f'<path d="M{x1:.1f} {y1:.1f}L{x2:.1f} {y2:.1f}" stroke="{colour}" stroke-width="{width}"/>')

    def text(self, x, y, text, anchor="start", colour="#333"):
        self.parts.append(f'<text x="{x:.1f}" y="{y:.1f}" text-anchor="{anchor}" fill="{colour}">{text}</text>')

    def reigns(self):
        """Who was asked to lead last, until another one was, or it was killed."""
        asked = [(at, int(words[1])) for at, words in self.events if words[0] == "lead"]
        for (began, k), (next_one, _) in zip(asked, asked[1:] + [(self.end, None)]):
            x, y = self.point(began, k)
            self.line(x, y, *self.point(self.killed(k, began, next_one), k), COLOURS[k] + "55", 22)
            self.text(x, y - 15, "asked to lead", colour=COLOURS[k])

    def mark(self, at, kind, k):
        x, y = self.point(at, k)
        if kind == "place":
            self.line(x, y - 8, x, y + 8, COLOURS[k], 1.5)
        elif kind == "start":
            self.line(x, y, *self.point(self.killed(k, at, self.end), k), "#999", 2)
            self.text(x, y - 15, "started again" if at > 0 else "")
        elif kind == "kill":
            self.line(x - 7, y - 7, x + 7, y + 7, "#c00", 3)
            self.line(x - 7, y + 7, x + 7, y - 7, "#c00", 3)
            places = len({words[2] for then, words in self.events if words[0] == "place" and then <= at})
            self.text(x + 12, y + 5, f"killed at place {places}", colour="#c00")

    def draw(self):
        self.reigns()
        for k in range(3):
            self.text(8, self.point(0, k)[1] + 5, f"node {k}")
        for at, words in self.events:
            self.mark(at, words[0], int(words[1]))
        bottom = TOP + 3 * LANE
        for second in range(int(self.end) + 1):
            x = self.point(second, 0)[0]
            self.line(x, bottom + 2, x, bottom + 8, "#333", 1)
            self.text(x, bottom + 22, f"{second} s", "middle")
        places = len({words[2] for _, words in self.events if words[0] == "place"})
        stroke = f"each stroke is one of {places} places that the node released, with the same output on all three."
        self.text(8, 18, f"A recorded run: {stroke}")
        head = f'<svg xmlns="http://www.w3.org/2000/svg" width="{LEFT + WIDTH + 20}" height="{bottom + 32}"'
        head += ' font-family="sans-serif" font-size="13" fill="none">'
        return "\n".join([head, '<rect width="100%" height="100%" fill="#fff"/>', *self.parts, "</svg>"]) + "\n"


def main():
    (svg,) = words_in(__doc__, 1)
    with tempfile.TemporaryDirectory() as room:
        recorder = Recorder(room)
        try:
            recorder.run()
        finally:
            recorder.end()
    with open(svg, "w") as file:
        file.write(Picture(recorder.events).draw())


if __name__ == "__main__":
    main()
