"""Values that runs offer, and the command that a value's bytes are, as a table of a plan."""

SERVICES = {
    0: (1, lambda b: f'service = "best_effort", priority = {b[0]}'),
    1: (18, lambda b: f'service = "ugs", size = {of(b, 0, 2)}, {due(b, 2)}'),
    2: (16, lambda b: f'service = "poll", {due(b, 0)}'),
    3: (18, lambda b: f'service = "station", size = {of(b, 0, 2)}, {due(b, 2)}'),
    4: (18, lambda b: f'service = "initial", size = {of(b, 0, 2)}, {due(b, 2)}'),
}


def of(octets, at, size):
    return int.from_bytes(octets[at : at + size], "big")


def held(octets, at):
    """A number of 64 bits, or the greatest one that TOML holds."""
    return min(of(octets, at, 8), (1 << 63) - 1)


def due(b, at):
    return f"interval = {of(b, at, 4)}, jitter = {of(b, at + 4, 4)}, base = {held(b, at + 8)}"


def flow(b):
    """A flow's bytes behind the first: its table, or None."""
    ends = b[0] == 7
    at = 18 if ends else 10
    if len(b) <= at or b[at] not in SERVICES or len(b) != at + 1 + SERVICES[b[at]][0]:
        return None
    last = f"last = {held(b, 10)}, " if ends else ""
    if ends and of(b, 10, 8) == 1 << 62:
        return None
    head = f'kind = "flow", ch = {b[1]}, modem = {of(b, 2, 4)}, tag = {of(b, 6, 4)}, '
    return head + last + SERVICES[b[at]][1](b[at + 1 :])


def channel(b):
    phy = ', phy = "advanced"' if b[0] == 6 else ""
    head = f'kind = "channel", ch = {b[1]}, ucd = {b[2]}, short_max = {of(b, 3, 2)}'
    return f"{head}, {backoffs(b, 5)}, base = {held(b, 9)}{phy}"


def backoffs(b, at):
    return f"ranging = [{b[at]}, {b[at + 1]}], data = [{b[at + 2]}, {b[at + 3]}]"


def cut(b):
    """A cut's bytes: its table, or None. A cut that sets nothing has the shorter bytes alone."""
    head = f'kind = "cut", ch = {b[1]}, len = {of(b, 2, 2)}, not_before = {held(b, 4)}, ack = {held(b, 12)}'
    if b[0] == 5:
        return head
    return None if b[20:] == b"\0\0\xff\xff\xff\xff" else f"{head}, keep = {of(b, 20, 2)}, {backoffs(b, 22)}"


def change(b):
    """A change's bytes: its table, or None."""
    if b[3] > 1:
        return None
    head = f'kind = "change", ch = {b[1]}, ucd = {b[2]}, phy = "{("tdma", "advanced")[b[3]]}"'
    return f"{head}, short_max = {of(b, 4, 2)}, {backoffs(b, 6)}"


def table_of(b):
    """The command that these bytes are; what is none is a noop.

    TOML holds no number above 2^63 - 1: its like is that one, which is above all limits too.
    """
    kind, size = b[:1], len(b)
    inside = None
    if kind in (b"\1", b"\6") and size == 17:
        inside = channel(b)
    elif kind in (b"\2", b"\7"):
        inside = flow(b)
    elif kind == b"\3" and size == 4:
        inside = f'kind = "drop", ch = {b[1]}, sid = {of(b, 2, 2)}'
    elif kind == b"\4" and size == 14:
        inside = f'kind = "request", ch = {b[1]}, sid = {of(b, 2, 2)}, n = {of(b, 4, 2)}, sent = {held(b, 6)}'
    elif (kind, size) in ((b"\5", 20), (b"\x09", 26)):
        inside = cut(b)
    elif kind == b"\x0a" and size == 10:
        inside = change(b)
    return "{ %s }" % (inside or 'kind = "noop"')


class Workload:
    """Commands for two channels, one after another; a few are refused, and a few bytes are no command."""

    def __init__(self, random, bytes_of):
        self.random, self.bytes_of = random, bytes_of
        channel = dict(kind="channel", ch=1, ucd=7, short_max=16, ranging=[2, 5], data=[3, 8], base=1000)
        self.first = [channel, channel | dict(ch=2, phy="advanced")]
        self.time = 990

    def value(self):
        random = self.random
        self.time += random.randrange(3)
        if self.first and random.random() < 0.5:
            return self.bytes_of(self.first[random.randrange(2)])
        kinds = ["request", "cut", "flow", "drop", "noop", "change", "bytes"]
        kind = random.choices(kinds, [40, 30, 12, 3, 1, 2, 2])[0]
        if kind == "bytes":
            return random.randbytes(random.randrange(65))
        return self.bytes_of(getattr(self, kind)(dict(kind=kind, ch=random.choice([1, 1, 2]))))

    def noop(self, command):
        return command

    def request(self, command):
        return command | dict(sid=self.random.randrange(1, 9), n=self.random.randrange(1, 40), sent=self.time)

    def cut(self, command):
        skipped = self.random.choice([0, 0, 0, self.time + 500])
        settings = self.random.choice([{}, {}, dict(keep=8), dict(ranging=[0, 15]), dict(keep=4097, data=[0, 0])])
        return command | dict(len=self.random.randrange(20, 400), not_before=skipped, ack=self.time) | settings

    def change(self, command):
        phy = self.random.choice(["tdma", "advanced"])
        return command | dict(ucd=self.random.randrange(7, 10), phy=phy, short_max=8, ranging=[2, 5], data=[3, 8])

    def drop(self, command):
        return command | dict(sid=self.random.randrange(1, 9))

    def flow(self, command):
        random = self.random
        command |= dict(modem=random.randrange(50, 54), tag=random.randrange(3))
        if random.random() < 0.3:
            command["last"] = self.time + random.randrange(20000)
        times = dict(interval=random.choice([40, 100]), jitter=random.randrange(40), base=1000 + random.randrange(100))
        service = random.choice(["best_effort", "best_effort", "ugs", "poll", "station", "initial"])
        size = {} if service == "poll" else dict(size=random.randrange(1, 9))
        more = dict(priority=random.randrange(8)) if service == "best_effort" else size | times
        return command | dict(service=service) | more
