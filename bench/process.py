"""What bench/process.sh prints: places a second, delays, catching up and memory of three processes, beside others."""
import argparse
import os
import resource
import shutil
import statistics
import sys
import tempfile
import time

ROOT = os.path.dirname(os.path.dirname(os.path.abspath(__file__)))
sys.path.insert(0, os.path.join(ROOT, "cluster"))
sys.dont_write_bytecode = True
from process_beside import Etcd, sqlite_places
from process_carrier import MEMBERS, Cluster
from supervisor import bytes_of

IN_FLIGHT = (1, 8, 64, 512)
CHANNEL = dict(kind="channel", ch=1, ucd=7, short_max=16, ranging=[2, 5], data=[3, 8], base=1000)
FLOW = dict(kind="flow", ch=1, modem=50, tag=1, service="ugs", size=20, interval=100, jitter=0, base=1000)
# A cut whose MAP has 28 bytes: a grant, minislots for all, and the Null.
CUT = dict(kind="cut", ch=1, len=100, not_before=0, ack=995)
CUT_BYTES = bytes_of(CUT)
GOALS = {"memory": 20000, "mebibytes": {"memory": 64, "files": 80}, "tell": 10.0}
# Over files: times etcd's places, places with 8 in flight, and times the program's before, places and delay.
FILE_GOALS = {"etcd": 1.5, "eight": 1000, "before": 3.0, "delay": 1.1}


class Bench:
    def __init__(self, given, folder):
        self.program, self.folder, self.what, self.places = given.program, folder, given.what, given.places
        self.before, self.rates, self.medians = given.before, {}, {}

    def say(self, *words):
        print(*words, flush=True)

    def filled(self, places, files=(None,) * MEMBERS):
        """A cluster that has released so many places; node 2 got no letter behind the first two of them."""
        cluster = Cluster(self.program, files)
        cluster.nodes[2].is_dark = True
        cluster.lead(0)
        cluster.work([bytes_of(CHANNEL).hex().encode(), bytes_of(FLOW).hex().encode()], 1)
        cluster.work([CUT_BYTES.hex().encode()] * (places - 2), 64)
        cluster.nodes[2].is_dark = False
        return cluster

    def prepared(self, places):
        """The files of such a cluster, made in a file system without syncs where there is one."""
        room = tempfile.mkdtemp(prefix="process-", dir="/dev/shm" if os.path.isdir("/dev/shm") else self.folder)
        self.filled(places, [os.path.join(room, f"node-{k}.db") for k in range(MEMBERS)]).end()
        return room

    def over_files(self, room):
        """A cluster over copies of these files on the disk, where two have released what they learned."""
        copies = tempfile.mkdtemp(dir=self.folder)
        shutil.copytree(room, copies, dirs_exist_ok=True)
        os.sync()
        cluster = Cluster(self.program, [os.path.join(copies, f"node-{k}.db") for k in range(MEMBERS)], new=False)
        for node in (0, 1):
            cluster.ask(node, b"release 0")
        return cluster

    def cluster(self, kind, places, room):
        if kind == "memory":
            return self.filled(places)
        cluster = self.over_files(room)
        cluster.until(lambda: min(it.released for it in cluster.nodes[:2]) == places)
        return cluster

    def by_tell(self, kind, cluster, places):
        """How long node 2 takes until it has released all, told 64 places at a time."""
        began = time.perf_counter()
        for first in range(1, places + 1, 64):
            last = min(places, first + 63)
            cluster.ask(0, b"tell 2 %d" % first)
            cluster.until(lambda: cluster.nodes[2].released >= last)
        self.say(f"{kind} {places} behind: caught up by tell in {(taken := time.perf_counter() - began):.2f} s")
        if kind == "memory" and places == 100000:
            goal("seconds by tell", taken, GOALS["tell"])

    def by_lead(self, kind, places, room):
        """How long node 2 takes until it has released all, asked to lead."""
        cluster = self.cluster(kind, places, room)
        began = time.perf_counter()
        cluster.ask(2, b"lead")
        cluster.until(lambda: cluster.nodes[2].released >= places)
        self.say(f"{kind} {places} behind: caught up by lead in {time.perf_counter() - began:.2f} s")
        cluster.end()

    def memory(self, kind, cluster, places):
        sizes = [it.mebibytes() for it in cluster.nodes]
        self.say(f"{kind} {places} places: MiB of each node", *(f"{size:.1f}" for size in sizes))
        if places == 100000:
            goal(f"MiB of a node in {kind}", max(sizes), GOALS["mebibytes"][kind])

    def speed(self, kind, cluster, places, in_flight):
        values = [CUT_BYTES.hex().encode()] * self.places
        before, own = [it.seconds() for it in cluster.nodes], resource.getrusage(resource.RUSAGE_SELF)
        began = time.perf_counter()
        delays = cluster.work(values, in_flight)
        taken = time.perf_counter() - began
        busy = [(it.seconds() - was) / len(values) * 1e6 for it, was in zip(cluster.nodes, before)]
        now = resource.getrusage(resource.RUSAGE_SELF)
        carrier = (now.ru_utime + now.ru_stime - own.ru_utime - own.ru_stime) / len(values) * 1e6
        self.rates[kind, places, in_flight] = len(values) / taken
        self.medians[kind, places, in_flight] = statistics.median(delays)
        spent = " ".join(f"{it:.0f}" for it in busy)
        self.say(f"{kind} {places} behind, {in_flight} in flight: {told(len(values) / taken, delays)}")
        self.say(f"  processor time a place, us: nodes {spent}, carrier {carrier:.0f}")

    def run(self, kind, places):
        room = self.prepared(places) if kind == "files" else None
        cluster = self.cluster(kind, places, room)
        self.by_tell(kind, cluster, places)
        self.memory(kind, cluster, places)
        cluster.lead(0)
        for in_flight in IN_FLIGHT:
            self.speed(kind, cluster, places, in_flight)
        cluster.end()
        self.by_lead(kind, places, room)
        if room:
            shutil.rmtree(room)

    def etcd(self, kind, folder):
        """Puts of the same values, in the same run."""
        room = tempfile.mkdtemp(dir=folder)
        etcd = Etcd(room)
        try:
            for in_flight in IN_FLIGHT:
                began = time.perf_counter()
                delays = etcd.puts([CUT_BYTES] * self.places, in_flight)
                rate = self.places / (time.perf_counter() - began)
                times = self.rates.get((kind, 1000, in_flight), 0) / rate
                self.say(f"etcd in {kind}, {in_flight} in flight: {told(rate, delays)}; nodes: {times:.2f} times that")
                if kind == "files" and in_flight >= 64:
                    what = f"places a second over files, times etcd's, {in_flight} in flight"
                    goal(what, times, FILE_GOALS["etcd"], at_least=True)
        finally:
            etcd.end()
            shutil.rmtree(room)

    def beside(self, places):
        """Another program over files like these, in the same run: that of the tree before."""
        own, self.program = self.program, self.before
        room = self.prepared(places)
        cluster = self.cluster("files", places, room)
        cluster.lead(0)
        for in_flight in IN_FLIGHT:
            self.speed("files of the program before", cluster, places, in_flight)
        cluster.end()
        shutil.rmtree(room)
        self.program = own
        now, then = (self.rates[kind, places, 64] for kind in ("files", "files of the program before"))
        what = "places a second over files, times those before, 64 in flight"
        goal(what, now / then, FILE_GOALS["before"], at_least=True)
        now, then = (self.medians[kind, places, 1] for kind in ("files", "files of the program before"))
        goal("median delay over files, times that before, 1 in flight", now / then, FILE_GOALS["delay"])

    def all(self):
        for kind in ("memory", "files"):
            self.run(kind, 1000)
            if self.what is None or self.what == "no-files" and kind == "memory":
                self.run(kind, 100000)
        if self.before:
            self.beside(1000)
        self.etcd("memory", "/dev/shm" if os.path.isdir("/dev/shm") else self.folder)
        self.etcd("files", self.folder)
        limit = sqlite_places(self.folder, self.places, CUT_BYTES)
        self.say(f"sqlite3, two synced writes a place in each of three processes: {limit:.0f} places a second")
        for (kind, places, in_flight), rate in self.rates.items():
            if kind == "files" and in_flight == 8:
                what = f"places a second over files, 8 in flight, {places} behind"
                goal(what, rate, FILE_GOALS["eight"], at_least=True)
            if kind == "files" and in_flight == 64:
                self.say(f"sqlite3's, each write by itself, over ours, {places} behind: {limit / rate:.2f}")
            if kind == "memory" and in_flight == 64:
                goal(f"places a second in memory, {places} behind", rate, GOALS["memory"], at_least=True)


def goal(what, found, wanted, at_least=False):
    """Prints a figure beside its goal."""
    met = found >= wanted if at_least else found <= wanted
    bound = "at least" if at_least else "at most"
    print(f"goal {what}: {found:.2f}, {bound} {wanted}: {'met' if met else 'MISSED'}", flush=True)


def told(rate, delays):
    delays = sorted(1000 * it for it in delays)
    percentile = delays[min(len(delays) - 1, len(delays) * 99 // 100)]
    median = statistics.median(delays)
    return f"{rate:.0f} a second, delay in ms: median {median:.2f}, 99 of 100 within {percentile:.2f}"


def main():
    words = argparse.ArgumentParser()
    words.add_argument("what", nargs="?", choices=["quick", "no-files"])
    words.add_argument("--places", type=int, default=1000)
    words.add_argument("--program", default=os.path.join(ROOT, "crates/upsched/out/upsched"))
    words.add_argument("--before", help="a program whose places a second over files are printed beside")
    given = words.parse_args()
    with tempfile.TemporaryDirectory(dir=os.environ.get("PROCESS_BENCH_DIR")) as folder:
        print(f"load {os.getloadavg()[0]:.1f} of {os.cpu_count()} processors", flush=True)
        Bench(given, folder).all()


if __name__ == "__main__":
    main()
