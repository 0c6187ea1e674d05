"""What `bench/hosts.sh files` prints: hosts over folders beside nodes over files, and what a folder costs."""
import argparse
import os
import re
import shutil
import sys
import tempfile
import time

ROOT = os.path.dirname(os.path.dirname(os.path.abspath(__file__)))
sys.path.insert(0, os.path.join(ROOT, "cluster"))
sys.dont_write_bytecode = True
from host_life import BALLOT, ACCEPT, Life, place_lines
from hosts import CUT, FIRST, IN_FLIGHT, HostCluster
from process import CHANNEL, goal, told
from process_carrier import MEMBERS, Cluster
from strace import letter
from supervisor import bytes_of

BEST_EFFORT = dict(kind="flow", ch=1, modem=50, tag=1, service="best_effort", priority=1)
SYNCS = "fsync,fdatasync,sync_file_range,msync"


class Sizes:
    """Places to compare; those of an epoch that is filled, with so many flows; and epochs of so many places."""

    def __init__(self, compared, places, flows, epochs, small):
        self.compared, self.places, self.flows, self.epochs, self.small = compared, places, flows, epochs, small


WHOLE = Sizes(20_000, 65_536, 1_000, 1_000, 1_000)
QUICK = Sizes(1_000, 2_048, 100, 20, 100)


def flows(count):
    """A channel's command, and those of so many flows."""
    return [bytes_of(CHANNEL)] + [bytes_of(BEST_EFFORT | dict(modem=50 + it)) for it in range(count)]


def mebibytes_in(folder):
    """What the files of a folder take on its disk."""
    return sum(os.stat(it.path).st_blocks * 512 for it in os.scandir(folder)) / (1 << 20)


class Bench:
    def __init__(self, program, sizes, has_goals, folder):
        self.program, self.sizes, self.has_goals, self.folder, self.count = program, sizes, has_goals, folder, 0

    def say(self, *words, **kind):
        print(*words, flush=True, **kind)

    def goal(self, *words, **kind):
        if self.has_goals:
            goal(*words, **kind)

    def folders(self, within=None):
        self.count += 1
        paths = [os.path.join(within or self.folder, str(self.count), str(host)) for host in range(MEMBERS)]
        for path in paths:
            os.makedirs(path)
        return paths

    # Places a second.

    def timed(self, what, cluster):
        cluster.work(FIRST, 1)
        began = time.perf_counter()
        delays = cluster.work([CUT] * self.sizes.compared, IN_FLIGHT)
        rate = self.sizes.compared / (time.perf_counter() - began)
        self.say(f"{what} over files, {IN_FLIGHT} in flight: {told(rate, delays)}")
        cluster.end()
        return rate

    def rates(self):
        cluster = Cluster(self.program, [os.path.join(path, "node.db") for path in self.folders()])
        cluster.lead(0)
        nodes = self.timed("nodes", cluster)
        hosts = self.timed("hosts", HostCluster(self.program, self.sizes.places, self.folders()))
        self.goal("places a second of hosts over files, times those of nodes", hosts / nodes, 0.95, at_least=True)

    # A whole epoch.

    def filled(self, within):
        """Hosts at the last place of epoch 2: the folder of host 0, and its state."""
        folders, sizes = self.folders(within), self.sizes
        cluster = HostCluster(self.program, sizes.places, folders)
        values = [it.hex().encode() for it in flows(sizes.flows)]
        cluster.work(values + [CUT] * (2 * sizes.places - 1 - len(values)), IN_FLIGHT)
        most = max(it.mebibytes() for it in cluster.nodes)
        disk = max(map(mebibytes_in, folders))
        cluster.end()
        at = f"place {sizes.places - 1} of epoch 2"
        self.say(f"hosts at {at}, {sizes.flows} flows: {most:.1f} MiB, {disk:.1f} MiB on disk")
        self.goal("MiB of a host over files", most, 110)
        self.goal("MB of its disk", disk * (1 << 20) / 1e6, 60)
        return folders[0]

    def starts(self, folder):
        """From the start of a process to its first line, to the reply to a line, and to all outputs of its epoch."""
        with open(os.path.join(folder, "2.state"), "rb") as file:
            state = file.read().hex()
        own = os.path.join(self.folder, "start")
        shutil.copytree(folder, own)
        os.sync()
        began = time.perf_counter()
        life = Life(self.program, own, host=0, places=self.sizes.places)
        first = time.perf_counter() - began
        life.ask(f"2/{self.sizes.places} tell 0 {self.sizes.places}")
        reply = time.perf_counter() - began
        count = len(life.ask("release 0")) - 2
        self.say(f"start at its last place: {life.first}; first line in {first:.2f} s, first reply in {reply:.2f} s,")
        self.say(f"  and {count} outputs in {time.perf_counter() - began:.2f} s")
        self.goal("seconds from a start to the first reply", reply, 1.5)
        life.end()
        return state

    def joins(self, state):
        """From the start of a new machine to its first vote."""
        (folder, *_), places = self.folders(), self.sizes.places
        began = time.perf_counter()
        life = Life(self.program, folder, "--join", places=places)
        joined = life.ask(f"join {state}")
        reply = life.ask(f"2/{places} {letter(ACCEPT, 0, BALLOT, 1, value=bytes_of(CHANNEL))}")
        taken = time.perf_counter() - began
        self.say(f"--join with {len(state) // 2} bytes: {life.first}; {joined}; {reply[0]}: {taken:.2f} s")
        self.goal("seconds from --join to the first vote", taken, 2.0)
        life.end()

    # Going on.

    def border(self, prefix=(), is_last=True):
        """A host with so many flows whose first epoch is full; how long the release takes by which it goes on."""
        values = flows(self.sizes.flows)
        (folder, *_), places, taken = self.folders(), len(values), None
        life = Life(self.program, folder, "--new", prefix, places=places)
        for place, value in enumerate(values, 1):
            for line in place_lines(1, place, places, value):
                life.ask(line)
        if is_last:
            began = time.perf_counter()
            reply = life.ask("release 0")
            taken = time.perf_counter() - began
            assert reply[-1] == b"next 2/%d 1" % places
        life.end()
        return taken

    def syncs(self, is_last):
        trace = os.path.join(self.folder, "syncs")
        self.border(["strace", "-f", "-e", f"trace={SYNCS}", "-o", trace], is_last)
        with open(trace) as file:
            return sum(re.match(r"\d+ +(?:f|m|sync_)\w*sync\w*\(", line) is not None for line in file)

    def borders(self):
        taken = sorted(self.border() for _ in range(5))
        times = " ".join(f"{1000 * it:.1f}" for it in taken)
        self.say(f"going on with {self.sizes.flows} flows, five times: {times} ms")
        self.goal("ms of going on, the median", 1000 * taken[2], 30)
        if shutil.which("strace"):
            count = self.syncs(True) - self.syncs(False)
            self.say(f"syncs of going on: {count}")
            self.goal("syncs of going on", count, 5)

    def many(self):
        """What a folder takes behind a hundredth of the epochs, and behind all."""
        sizes, folders = self.sizes, self.folders()
        cluster = HostCluster(self.program, sizes.small, folders)
        cluster.work([*FIRST, *[CUT] * (sizes.small * sizes.epochs // 100 - len(FIRST))], IN_FLIGHT)
        first = max(map(mebibytes_in, folders))
        began = time.perf_counter()
        cluster.work([CUT] * (sizes.small * (sizes.epochs - sizes.epochs // 100)), IN_FLIGHT)
        rate = sizes.small * (sizes.epochs - sizes.epochs // 100) / (time.perf_counter() - began)
        last = max(map(mebibytes_in, folders))
        most = max(it.mebibytes() for it in cluster.nodes)
        cluster.end()
        self.say(f"{sizes.epochs} epochs of {sizes.small} places: {rate:.0f} places a second, {most:.1f} MiB;", end=" ")
        self.say(f"disk {first:.2f} MiB behind {sizes.epochs // 100} of them, {last:.2f} behind all")
        self.goal("disk behind all epochs, times that behind a hundredth", last / first, 1.0)

    def all(self):
        self.rates()
        with tempfile.TemporaryDirectory(dir="/dev/shm" if os.path.isdir("/dev/shm") else self.folder) as within:
            self.joins(self.starts(self.filled(within)))
        self.borders()
        self.many()


def main():
    words = argparse.ArgumentParser()
    words.add_argument("what", choices=["files"])
    words.add_argument("size", nargs="?", choices=["quick"])
    words.add_argument("--program", default=os.path.join(ROOT, "crates/upsched/out/upsched"))
    given = words.parse_args()
    print(f"load {os.getloadavg()[0]:.1f} of {os.cpu_count()} processors", flush=True)
    with tempfile.TemporaryDirectory(prefix="hosts-", dir=os.environ.get("PROCESS_BENCH_DIR")) as folder:
        Bench(given.program, QUICK if given.size else WHOLE, not given.size, folder).all()


if __name__ == "__main__":
    main()
