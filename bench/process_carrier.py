"""Three processes of `upsched node`, or of `upsched host`, and a carrier that takes letters among them by the chunk.

What is done for each line is in C (process_carrier.c), so that it isn't the carrier that is measured."""
import atexit
import ctypes
import fcntl
import functools
import os
import select
import shutil
import subprocess
import tempfile
import time

MEMBERS = 3
# How long nothing may come of any process, in seconds.
PATIENCE = 300
SET_PIPE_SIZE = 1031
SOURCE = os.path.join(os.path.dirname(os.path.abspath(__file__)), "process_carrier.c")


class Carried(ctypes.Structure):
    """What a chunk of whole lines held, as process_carrier.c has it."""

    _fields_ = [
        ("lines", ctypes.c_void_p * MEMBERS),
        ("lengths", ctypes.c_size_t * MEMBERS),
        ("promises", ctypes.c_int * MEMBERS),
        ("learns", ctypes.c_int * MEMBERS),
        ("released", ctypes.c_longlong),
        ("full", ctypes.c_int),
        ("alarm", ctypes.c_int),
    ]


@functools.cache
def built():
    """The library in C, built for this process."""
    folder = tempfile.mkdtemp(prefix="carrier-")
    atexit.register(shutil.rmtree, folder)
    library = os.path.join(folder, "carrier.so")
    subprocess.run(["cc", "-O2", "-Wall", "-Wextra", "-shared", "-fPIC", "-o", library, SOURCE], check=True)
    return ctypes.CDLL(library)


def node_words(program, node, file, new):
    words = [program, "node", str(node), "--members", str(MEMBERS)]
    return words + (["--store", file] + ["--new"] * new if file else [])


class Process:
    def __init__(self, words):
        self.child = subprocess.Popen(words, stdin=subprocess.PIPE, stdout=subprocess.PIPE, bufsize=0)
        self.input, self.output = self.child.stdin.fileno(), self.child.stdout.fileno()
        for pipe in (self.input, self.output):
            os.set_blocking(pipe, False)
            fcntl.fcntl(pipe, SET_PIPE_SIZE, 1 << 20)
        self.unsent, self.rest = bytearray(), b""
        self.released, self.promises, self.is_dark = 0, 0, False

    def write_some(self):
        try:
            sent = os.write(self.input, self.unsent[: 1 << 20])
            del self.unsent[:sent]
        except BlockingIOError:
            pass

    def read_some(self):
        """The whole lines that came."""
        chunk = os.read(self.output, 1 << 20)
        if not chunk:
            raise SystemExit("a node's process ended")
        whole, found, rest = chunk.rpartition(b"\n")
        if not found:
            self.rest += chunk
            return b""
        text, self.rest = self.rest + whole + found, rest
        return text

    def seconds(self):
        """How long it ran on a processor."""
        with open(f"/proc/{self.child.pid}/schedstat") as file:
            return int(file.read().split()[0]) / 1e9

    def mebibytes(self):
        with open(f"/proc/{self.child.pid}/status") as file:
            return next(int(line.split()[1]) for line in file if line.startswith("VmRSS")) / 1024

    def end(self):
        self.child.stdin.close()
        self.child.stdout.read()
        self.child.wait()


class Cluster:
    """Node 0 leads."""

    def __init__(self, program, files=(None,) * MEMBERS, new=True):
        self.start([node_words(program, node, file, new) for node, file in enumerate(files)])

    def start(self, words):
        self.nodes = [Process(it) for it in words]
        self.carrier, self.rooms = built(), []

    def ask(self, node, line):
        self.nodes[node].unsent += line + b"\n"

    def turn(self):
        """Writes what can be, reads what is there, and carries it. Who gets votes, or is told, is asked to release."""
        reads = [it.output for it in self.nodes]
        writes = [it.input for it in self.nodes if it.unsent]
        ready = select.select(reads, writes, [], PATIENCE)
        if not any(ready):
            raise SystemExit(f"no process does anything for {PATIENCE} s")
        for it in self.nodes:
            if it.input in ready[1]:
                it.write_some()
        for it in self.nodes:
            if it.output in ready[0]:
                self.carry(it, it.read_some())

    def parted(self, text):
        """What a chunk held, with room for as many bytes to each node."""
        if not self.rooms or len(text) > len(self.rooms[0]):
            self.rooms = [ctypes.create_string_buffer(2 * len(text)) for _ in range(MEMBERS)]
        held = Carried(lines=(ctypes.c_void_p * MEMBERS)(*map(ctypes.addressof, self.rooms)))
        self.carrier.carry(text, ctypes.c_size_t(len(text)), ctypes.byref(held))
        return held

    def carry(self, node, text):
        held = self.parted(text)
        if held.alarm:
            raise SystemExit(f"a node answered {text.decode()}")
        node.released = held.released or node.released
        node.unsent += b"release 0\n" * held.full
        for k, it in enumerate(self.nodes):
            if held.lengths[k] and not it.is_dark:
                it.unsent += memoryview(self.rooms[k])[: held.lengths[k]]
                it.unsent += b"release 0\n" * held.learns[k]
                it.promises += held.promises[k]

    def until(self, is_done):
        while not is_done():
            self.turn()

    def lead(self, node):
        """Asks it to lead. Each line behind the promises of two finds a leader."""
        self.nodes[node].promises = 0
        self.ask(node, b"lead")
        self.until(lambda: self.nodes[node].promises >= 2)

    def offer(self, value):
        self.ask(0, b"offer " + value)

    def lowest(self):
        return min(it.released for it in self.nodes if not it.is_dark)

    def work(self, values, in_flight):
        """Offers these values, so many at a time. The delay of each from its offer to its last release."""
        began, delays, offered = self.lowest(), [], []
        count = len(values)
        while len(delays) < count:
            while len(offered) < count and len(offered) - len(delays) < in_flight:
                self.offer(values[len(offered)])
                offered.append(time.perf_counter())
            self.turn()
            now = time.perf_counter()
            for at in range(len(delays), self.lowest() - began):
                delays.append(now - offered[at])
        return delays

    def end(self):
        for it in self.nodes:
            it.end()
