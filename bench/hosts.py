"""What bench/hosts.sh prints: places a second, delays, memory and catching up of three hosts, beside three nodes."""
import argparse
import os
import sys
import time

ROOT = os.path.dirname(os.path.dirname(os.path.abspath(__file__)))
sys.path.insert(0, os.path.join(ROOT, "cluster"))
sys.dont_write_bytecode = True
from process import CHANNEL, CUT_BYTES, FLOW, goal, told
from process_carrier import MEMBERS, Cluster
from supervisor import bytes_of

IN_FLIGHT, TOLD_AT_ONCE = 64, 64
FIRST = [bytes_of(it).hex().encode() for it in (CHANNEL, FLOW)]
CUT = CUT_BYTES.hex().encode()


class Sizes:
    """The places of an epoch, and how many there are in all; up to where nodes go; how far one lags that is told."""

    def __init__(self, places, total, of_nodes, behind):
        self.places, self.total, self.of_nodes, self.behind = places, total, of_nodes, behind


WHOLE = Sizes(65536, 1_000_000, 100_000, 60_000)
QUICK = Sizes(4096, 65_536, 20_000, 3_500)


class HostCluster(Cluster):
    """Three hosts. Host 0 leads each epoch, and is asked to lead the next one before this one is full."""

    def __init__(self, program, places, folders=()):
        """Each over one of these folders, or in memory."""
        self.places, self.led, self.offered, self.sizes = places, 0, 0, None
        words = ["--members", str(MEMBERS), "--places", str(places)]
        kept = [["--store", folder, "--new"] for folder in folders] or [[]] * MEMBERS
        self.start([[program, "host", str(host), *words, *kept[host]] for host in range(MEMBERS)])

    def ask_in(self, epoch, host, words):
        self.ask(host, b"%d/%d %s" % (epoch, self.places, words))

    def leads(self, epoch):
        if self.led < epoch:
            self.led, self.nodes[0].promises = epoch, 0
            self.ask_in(epoch, 0, b"lead")

    def offer(self, value):
        """Offers the next place's value. Behind two epochs it looks at each host's memory."""
        epoch, before = self.offered // self.places + 1, self.offered % self.places
        self.leads(epoch + (before >= self.places - self.places // 10))
        if before == 0:
            self.until(lambda: self.nodes[0].promises >= 2)
        if self.offered == 2 * self.places + IN_FLIGHT:
            self.sizes = self.mebibytes()
        self.offered += 1
        self.ask_in(epoch, 0, b"offer " + value)

    def mebibytes(self):
        return [it.mebibytes() for it in self.nodes]


class Bench:
    def __init__(self, program, sizes, has_goals):
        self.program, self.sizes, self.has_goals = program, sizes, has_goals

    def goal(self, *words, **kind):
        """Prints a figure beside its goal, where it has one."""
        if self.has_goals:
            goal(*words, **kind)

    def timed(self, cluster, count):
        """The places a second of so many further ones, and the delay of each."""
        began = time.perf_counter()
        delays = cluster.work([CUT] * count, IN_FLIGHT)
        return count / (time.perf_counter() - began), delays

    def nodes(self):
        """Places a second of three nodes."""
        cluster = Cluster(self.program)
        cluster.lead(0)
        cluster.work(FIRST, 1)
        rate, delays = self.timed(cluster, self.sizes.of_nodes - len(FIRST))
        print(f"nodes, {self.sizes.of_nodes} places: {told(rate, delays)}", flush=True)
        cluster.end()
        return rate

    def hosts(self, of_nodes):
        cluster, sizes = HostCluster(self.program, self.sizes.places), self.sizes
        delays = cluster.work(FIRST, 1)
        rate, more = self.timed(cluster, sizes.of_nodes - len(FIRST))
        print(f"hosts, {sizes.of_nodes} places in epochs of {sizes.places}: {told(rate, more)}", flush=True)
        self.goal("places a second of hosts, times those of nodes", rate / of_nodes, 0.95, at_least=True)
        delays += more
        rate, more = self.timed(cluster, sizes.total - sizes.of_nodes)
        print(f"hosts, {sizes.total - sizes.of_nodes} places behind these: {told(rate, more)}", flush=True)
        self.goal("places a second of hosts", rate, 20000, at_least=True)
        self.borders(delays + more)
        self.memory(cluster)
        cluster.end()

    def borders(self, delays):
        """The delays of the places that were in flight at a border of epochs, beside all others."""
        near, far = [], []
        for place, delay in enumerate(delays, 1):
            within = (place - 1) % self.sizes.places
            is_near = place > IN_FLIGHT and (within < IN_FLIGHT or within >= self.sizes.places - IN_FLIGHT)
            (near if is_near else far).append(1000 * delay)
        far.sort()
        most, usual = max(near), far[len(far) * 999 // 1000]
        print(f"delays in ms: at {len(delays) // self.sizes.places} borders of epochs at most {most:.2f};", end=" ")
        print(f"elsewhere 999 of 1000 within {usual:.2f}, at most {far[-1]:.2f}", flush=True)
        self.goal("greatest delay at a border, times 999 of 1000 elsewhere", most / usual, 2.0)

    def memory(self, cluster):
        first, last = cluster.sizes, cluster.mebibytes()
        print("MiB of each host behind two epochs:", *(f"{it:.1f}" for it in first))
        print(f"MiB of each host behind {cluster.offered} places:", *(f"{it:.1f}" for it in last), flush=True)
        self.goal("MiB of a host", max(first + last), 64)
        self.goal("MiB at the end, times those behind two epochs", max(map(lambda a, b: b / a, first, last)), 1.05)

    def tell(self):
        """How long host 2 takes until it has released all, told 64 places at a time."""
        cluster, behind = HostCluster(self.program, self.sizes.places), self.sizes.behind
        cluster.nodes[2].is_dark = True
        cluster.work([*FIRST, *[CUT] * (behind - len(FIRST))], IN_FLIGHT)
        cluster.nodes[2].is_dark = False
        began = time.perf_counter()
        for first in range(1, behind + 1, TOLD_AT_ONCE):
            cluster.ask_in(1, 0, b"tell 2 %d" % first)
            last = min(behind, first + TOLD_AT_ONCE - 1)
            cluster.until(lambda: cluster.nodes[2].released >= last)
        taken = time.perf_counter() - began
        print(f"{behind} places behind: caught up by tell in {taken:.2f} s", flush=True)
        self.goal("seconds by tell", taken, 2.0)
        cluster.end()


def main():
    words = argparse.ArgumentParser()
    words.add_argument("what", nargs="?", choices=["quick"])
    words.add_argument("--program", default=os.path.join(ROOT, "crates/upsched/out/upsched"))
    given = words.parse_args()
    print(f"load {os.getloadavg()[0]:.1f} of {os.cpu_count()} processors", flush=True)
    bench = Bench(given.program, QUICK if given.what else WHOLE, not given.what)
    bench.hosts(bench.nodes())
    bench.tell()


if __name__ == "__main__":
    main()
