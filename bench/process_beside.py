"""What stands beside `upsched node` in bench/process.sh: etcd's puts, and sqlite3's synced writes."""
import base64
import multiprocessing
import os
import selectors
import socket
import sqlite3
import subprocess
import time

FIRST_PORT = 24790
# How long etcd may take to have a leader, in seconds.
START = 30


def writes(path, places, value, gate, times):
    """Two committed writes a place."""
    base = sqlite3.connect(path, isolation_level=None)
    base.execute("PRAGMA journal_mode = WAL").fetchall()
    base.execute("PRAGMA synchronous = FULL")
    base.execute("CREATE TABLE vote (place INTEGER PRIMARY KEY, ballot INTEGER NOT NULL, value BLOB NOT NULL) STRICT")
    base.execute("CREATE TABLE learned (place INTEGER PRIMARY KEY, value BLOB NOT NULL) STRICT")
    gate.wait()
    began = time.perf_counter()
    for place in range(places):
        base.execute("INSERT OR REPLACE INTO vote VALUES (?, 8, ?)", (place, value))
        base.execute("INSERT OR REPLACE INTO learned VALUES (?, ?)", (place, value))
    times.put(time.perf_counter() - began)


def sqlite_places(folder, places, value):
    """Places a second of three processes at a time, each with a file of its own."""
    gate, times = multiprocessing.Barrier(3), multiprocessing.Queue()
    paths = [os.path.join(folder, f"limit-{k}.db") for k in range(3)]
    writers = [multiprocessing.Process(target=writes, args=(path, places, value, gate, times)) for path in paths]
    for it in writers:
        it.start()
    slowest = max(times.get() for _ in writers)
    for it in writers:
        it.join()
    return places / slowest


class Etcd:
    """Three members on this machine. Puts go to the leader, over its JSON gateway."""

    def __init__(self, folder):
        peers = [f"http://127.0.0.1:{FIRST_PORT + 2 * k}" for k in range(3)]
        clients = [f"http://127.0.0.1:{FIRST_PORT + 2 * k + 1}" for k in range(3)]
        group = ",".join(f"m{k}={url}" for k, url in enumerate(peers))
        self.members = []
        for k in range(3):
            words = ["etcd", "--name", f"m{k}", "--data-dir", os.path.join(folder, f"m{k}"), "--initial-cluster", group]
            words += ["--initial-advertise-peer-urls", peers[k], "--listen-peer-urls", peers[k], "--log-level", "error"]
            words += ["--advertise-client-urls", clients[k], "--listen-client-urls", clients[k]]
            self.members.append(subprocess.Popen(words, stdout=subprocess.DEVNULL, stderr=subprocess.DEVNULL))
        self.port = self.leader_port(clients)

    def leader_port(self, clients):
        end = time.monotonic() + START
        words = ["etcdctl", "--endpoints", ",".join(clients), "endpoint", "status"]
        while time.monotonic() < end:
            told = subprocess.run(words, env=os.environ | {"ETCDCTL_API": "3"}, capture_output=True, text=True).stdout
            for line in told.splitlines():
                fields = line.split(", ")
                if fields[4] == "true":
                    return int(fields[0].rsplit(":", 1)[1])
            time.sleep(0.2)
        self.end()
        raise SystemExit(f"etcd has no leader within {START} s")

    def puts(self, values, in_flight):
        """The delay of each put, so many at a time, each over a connection of its own."""
        ready, delays, next_put = selectors.DefaultSelector(), [], 0
        for _ in range(in_flight):
            one = socket.create_connection(("127.0.0.1", self.port))
            one.setsockopt(socket.IPPROTO_TCP, socket.TCP_NODELAY, 1)
            ready.register(one, selectors.EVENT_READ, [0.0, b""])
            next_put = self.put(one, ready.get_key(one).data, values, next_put)
        while len(delays) < len(values):
            for key, _ in ready.select():
                key.data[1] += key.fileobj.recv(1 << 16)
                if not is_whole(key.data[1]):
                    continue
                delays.append(time.perf_counter() - key.data[0])
                next_put = self.put(key.fileobj, key.data, values, next_put)
        for key in list(ready.get_map().values()):
            key.fileobj.close()
        return delays

    def put(self, one, state, values, number):
        """Begins a put, if one is left: the next one's number."""
        if number == len(values):
            return number
        key, value = base64.b64encode(b"%d" % number).decode(), base64.b64encode(values[number]).decode()
        body = f'{{"key":"{key}","value":"{value}"}}'
        head = f"POST /v3/kv/put HTTP/1.1\r\nHost: etcd\r\nContent-Length: {len(body)}\r\n\r\n"
        state[:] = [time.perf_counter(), b""]
        one.sendall((head + body).encode())
        return number + 1

    def end(self):
        for it in self.members:
            it.terminate()
        for it in self.members:
            it.wait()


def is_whole(answer):
    """Whether a whole answer is there; one that isn't good ends the run."""
    head, found, body = answer.partition(b"\r\n\r\n")
    if not found:
        return False
    if not head.startswith(b"HTTP/1.1 200 "):
        raise SystemExit(f"etcd answers {answer!r}")
    size = next(int(line[15:]) for line in head.split(b"\r\n") if line.lower().startswith(b"content-length:"))
    return len(body) >= size
