#!/usr/bin/env python3
"""Runs the proved program on texts that are made from a seed to hurt, and tells each run that ends badly.

Usage: bench/hostile.py PROGRAM FOLDER COUNT SEED FIRST
A case depends on the seed and its own number alone. Prints a line for each bad end, and how many ran.
"""
import collections, glob, os, random, re, shutil, signal, sys

HERE = os.path.dirname(os.path.dirname(os.path.abspath(__file__)))
LONG = 10_000_000
MANY = 100_000
# The system takes no longer word on a command line.
LONGEST_WORD = 131_000
# A run that takes longer on the clock is ended by an alarm.
PATIENCE = 300
NUMBERS = [
    "-1", "-0", "+0", "0", "1", "2", "7", "8", "15", "16", "64", "65", "117", "118", "119", "254", "255", "256",
    "4095", "4096", "4097", "8191", "8192", "16383", "16384", "65535", "65536", "999999", "1000000", "1000001",
    "2147483647", "2147483648", "4294967295", "4294967296", "8796093022207", "4611686018427387904",
    "4611686018427387905", "9223372036854775807", "9223372036854775808", "-9223372036854775808",
    "-9223372036854775809", "18446744073709551615", "18446744073709551616", "1" + "0" * 400, "0x7fffffffffffffff",
    "0o17", "0b1", "1_000", "1__0", "01", "1e3", "1e999", "-1e-999", "nan", "inf", "-inf", "1.5", "true", "1979-05-27",
    "07:32:00", "''", '"1"', "[]", "[1]", "{}", "[[1]]", "{a=1}",
]
KINDS = [
    "noop", "channel", "flow", "drop", "request", "cut", "lead", "crash", "restart", "offer", "tell", "deliver",
    "deliver_then_crash", "release", "hear", "want", "tick",
]

Case = collections.namedtuple("Case", "how words text")


def read(path):
    with open(path, "rb") as file:
        return file.read()


def examples(pattern):
    return [read(path) for path in sorted(glob.glob(os.path.join(HERE, "examples", pattern)))]


PLANS = examples("plans/*.toml") + examples("faults/plans/*.toml")
LINES = examples("schedulers/*.lines")
SCRIPTS = examples("scripts/*.toml") + examples("faults/scripts/*.toml")
ROWS = examples("parts/*.rows") + examples("faults/rows/*.rows")
BODIES = [text.strip() for text in examples("bodies/*.hex") + examples("faults/bodies/*.hex")]


# What is done to a text.

def place(rng, text):
    return rng.randint(0, len(text))


def cut(rng, text):
    at = place(rng, text)
    return text[:at] if rng.random() < 0.7 else text[at:]


def double(rng, text):
    if rng.random() < 0.3:
        return text + text
    start, end = sorted((place(rng, text), place(rng, text)))
    return text[:end] + text[start:]


def flip(rng, text):
    flipped = bytearray(text)
    for _ in range(rng.choice([1, 1, 1, 2, 8])):
        if flipped:
            flipped[rng.randrange(len(flipped))] ^= 1 << rng.randrange(8)
    return bytes(flipped)


def extreme(rng, text):
    """Some of the text's numbers, or all of them, become extreme ones."""
    share = rng.choice([0.02, 0.1, 1])

    def other(found):
        return rng.choice(NUMBERS).encode() if rng.random() < share else found.group()

    return re.sub(rb"-?\b\d+\b", other, text)


def nested(rng, text):
    """A value, key or header of great depth, at the head or the end."""
    depth = rng.choice([5, 50, 100, 127, 128, 129, 500, 5_000, 50_000])
    deep = rng.choice([
        b"deep = " + b"[" * depth + b"]" * depth,
        b"deep = " + b"[" * depth,
        b"deep = " + b"{a = " * depth + b"1" + b"}" * depth,
        b"deep = " + b"{a = [" * depth,
        b"a." * depth + b"a = 1",
        b"[" + b"a." * depth + b"a]",
        b"[[" + b"a." * depth + b"a]]",
        b"[" * depth,
        b"deep = {" + b"a." * depth + b"a = 1}",
    ])
    return deep + b"\n" + text if rng.random() < 0.5 else text + b"\n" + deep + b"\n"


def marked(rng, text):
    """A byte order mark at the head or elsewhere, of this encoding or another."""
    mark = rng.choice([b"\xef\xbb\xbf", b"\xef\xbb\xbf", b"\xff\xfe", b"\xfe\xff", b"\xef\xbb"])
    at = 0 if rng.random() < 0.7 else place(rng, text)
    return text[:at] + mark + text[at:]


def no_text(rng, text):
    """Bytes that are no UTF-8, or control characters."""
    at = place(rng, text)
    bad = rng.choice([
        b"\xff", b"\x80", b"\xc0\xaf", b"\xed\xa0\x80", b"\xf4\x90\x80\x80", b"\xf8\x88\x80\x80\x80", b"\xe2\x82",
        b"\x00", b"\x1b[2J", b"\r", b"\x0b", b"\xe2\x80\xa8",
    ])
    return text[:at] + bad + text[at:]


def mixed_lines(rng, text):
    lines = text.split(b"\n")
    if rng.random() < 0.5:
        rng.shuffle(lines)
    else:
        del lines[rng.randrange(len(lines))]
    return b"\n".join(lines)


def other_words(rng, text):
    """Some kinds become others, or a key another."""
    words = KINDS + ["", "KIND", "kind", "ch", "node", "value", "00", "0" * 129, "\\u0000", "\\uD800", "x" * 1000]

    def other(found):
        return rng.choice(words).encode() if rng.random() < 0.05 else found.group()

    return re.sub(rb"[a-z_]{2,}", other, text)


CHANGES = [cut, double, flip, extreme, nested, marked, no_text, mixed_lines, other_words]


def changed(rng, text):
    for _ in range(rng.choice([1, 1, 1, 2, 3])):
        text = rng.choice(CHANGES)(rng, text)
    return text


# Texts that hurt by their size, or have nothing of a plan or a script.

def long_line(rng, array):
    part = rng.choice([
        b"#", b"a", b" ", b"1", b"[", b"1,", b"{", b"\xc3\xa9", b"a.", b"'", b"\\", b'"', b"0_0", b"\r", b"=",
    ])
    heads = [b"", b"a = ", b"a = '", b'a = "', b"a = [", b"# ", b"[", array + b" = ["]
    head = rng.choice([*heads, b"members = 3\n" + array + b" = ["])
    return head + part * (LONG // len(part))


def many_tables(rng, array):
    table = rng.choice([
        lambda k: b"[[%s]]\n" % array,
        lambda k: b"[[%s]]\nkind = 'noop'\n" % array,
        lambda k: b"[[%s]]\nkind = 'crash'\nnode = %d\n" % (array, k % 3),
        lambda k: b"[t%d]\n" % k,
        lambda k: b"t%d = {}\n" % k,
        lambda k: b"[a.t%d.b]\n" % k,
        lambda k: b"a.t%d.b = 1\n" % k,
        lambda k: b"[[a.b]]\n[a.b.c]\n",
    ])
    return b"members = 3\n" + b"".join(table(k) for k in range(MANY))


def empty(rng, array):
    nearly = [b"", b" ", b"\n", b"\r\n", b"\0", b"#", b"\xef\xbb\xbf", b"members = 3", b"members = 5", array + b" = []"]
    return rng.choice([*nearly, b"members = 3\n" + array + b" = [{}]", b"\n" * MANY])


def noise(rng, array):
    return rng.randbytes(rng.choice([1, 10, 1000, 100_000]))


def whole(rng, array):
    """A text that is no change of a good one."""
    draw = rng.random()
    if draw < 0.05:
        return long_line(rng, array)
    if draw < 0.1:
        return many_tables(rng, array)
    return empty(rng, array) if draw < 0.5 else noise(rng, array)


# Commands and events that are well spelled and hostile in what they say.

def number(rng, most):
    """A number up to the most one that the field holds, often near an end or a limit."""
    near = [
        0, 1, 2, 3, 7, 8, 15, 16, 118, 119, 255, 256, 1000, 4096, 4097, 8191, 8192, 10**6, 10**6 + 1, 2**32 - 1,
        2**62 - 1, 2**62, 2**62 + 1, 2**63 - 1,
    ]
    draw = rng.choice(near) if rng.random() < 0.5 else rng.randint(0, min(most, 300))
    return min(draw, most)


def command(rng):
    ch = rng.choice([1, 1, 1, 0, 255])
    kinds = ["noop", "channel", "change", "flow", "flow", "drop", "request", "request", "request", "cut", "cut"]
    kind = rng.choice(kinds)
    keys = {"kind": "'%s'" % kind}
    if kind != "noop":
        keys["ch"] = ch
    pair = lambda: "[%d, %d]" % (rng.randint(0, 17), rng.choice([0, 5, 15, 16, 17, 255]))
    if kind in ("channel", "change"):
        keys.update(ucd=rng.choice([7, 8, 9, rng.randint(0, 255)]), short_max=number(rng, 65535))
        keys.update(ranging=pair(), data=pair())
        if kind == "channel":
            keys.update(base=number(rng, 2**63 - 1))
        if rng.random() < 0.5:
            keys.update(phy=rng.choice(["'tdma'", "'advanced'", "'advanced'", "'Advanced'", "''", "1"]))
    elif kind == "flow":
        keys.update(modem=rng.randint(0, 5), tag=rng.randint(0, 5))
        keys.update(service="'%s'" % rng.choice(["best_effort", "ugs", "poll", "station", "initial"]))
        keys.update(priority=rng.randint(0, 9), size=number(rng, 65535), interval=number(rng, 2**32 - 1))
        keys.update(jitter=number(rng, 2**32 - 1), base=number(rng, 2**63 - 1))
        if rng.random() < 0.5:
            keys.update(last=number(rng, 2**63 - 1))
    elif kind == "drop":
        keys.update(sid=number(rng, 65535))
    elif kind == "request":
        keys.update(sid=rng.randint(0, 6), n=number(rng, 65535), sent=number(rng, 2**63 - 1))
    elif kind == "cut":
        keys.update(len=number(rng, 65535), not_before=number(rng, 2**63 - 1), ack=number(rng, 2**63 - 1))
        if rng.random() < 0.3:
            keys.update(keep=number(rng, 65535), ranging=pair(), data=pair())
    return keys


def keys_of(keys):
    return "".join("%s = %s\n" % item for item in keys.items())


def inline(keys):
    return "{ %s }" % ", ".join("%s = %s" % item for item in keys.items())


CHANNEL = {"kind": "'channel'", "ch": 1, "ucd": 7, "short_max": 16, "ranging": "[2, 5]", "data": "[3, 8]", "base": 1000}
SPELLED = [
    "00", "01010700100205030800000000000003e8", "06010700100205030800000000000003e8", "020100000032000000010003",
    "0701000000320000000100000000000004190003", "0701000000320000000140000000000000000003", "03010001",
    "0401000100140000000000000" + "3de", "050100640000000000000000000000000000000a",
    "090100640000000000000000000000000000000a0008ffffffff", "0a010800000802050308",
]


def made_plan(rng):
    commands = [CHANNEL] + [command(rng) for _ in range(rng.choice([1, 10, 100, 1000]))]
    return "".join("[[command]]\n" + keys_of(keys) for keys in commands).encode()


def value(rng):
    """Bytes of a command in hexadecimal, cut, flipped or grown, or of none."""
    data = bytes.fromhex(rng.choice(SPELLED)) if rng.random() < 0.8 else rng.randbytes(rng.randint(0, 66))
    if rng.random() < 0.5:
        data = rng.choice([cut, double, flip])(rng, data)
    return data.hex() + ("0" if rng.random() < 0.02 else "")


def offered(rng):
    return "command = %s\n" % inline(command(rng)) if rng.random() < 0.5 else "value = '%s'\n" % value(rng)


def learned_script(rng):
    """A leader's offers, learned and released by two nodes, whatever they say; and a modem hears what was released."""
    events = ["kind = 'lead'\nnode = 0\n"] + ["kind = 'deliver'\nletter = %d\n" % letter for letter in (0, 1, 3, 4)]
    offers = rng.choice([1, 5, 20, 60])
    for k in range(offers):
        what = "command = %s\n" % inline(CHANNEL) if k == 0 else offered(rng)
        first = 5 + 9 * k
        events.append("kind = 'offer'\nnode = 0\n" + what)
        events += ["kind = 'deliver'\nletter = %d\n" % (first + to) for to in (0, 1, 3, 6, 4, 7)]
    events += ["kind = 'release'\nnode = %d\nnow = %d\n" % (node, number(rng, 2**63 - 1)) for node in (0, 1)]
    hear = "kind = 'hear'\nmodem = 0\noutput = %d\nnear = %d\n"
    tick = "kind = 'tick'\nmodem = 0\nch = 1\nslot = %d\nrandom = %d\n"
    events += [hear % (k, number(rng, 2**63 - 1)) for k in range(offers)]
    events += [tick % (number(rng, 2**63 - 1), number(rng, 2**63 - 1)) for _ in range(3)]
    return events


def any_event(rng):
    kind = rng.choice(KINDS[6:] + ["deliver"] * 20 + ["lead", "offer", "restart", "release"])
    nodes = [0, 0, 1, 1, 2, 2, 3, 4, 5, 2**63 - 1]
    keys = {
        "lead": {"node": rng.choice(nodes)},
        "crash": {"node": rng.choice(nodes)},
        "restart": {"node": rng.choice(nodes)},
        "offer": {"node": rng.choice(nodes)}, "release": {"node": rng.choice(nodes), "now": number(rng, 2**63 - 1)},
        "tell": {"node": rng.choice(nodes), "to": rng.choice(nodes), "place": number(rng, 2**63 - 1)},
        "deliver": {"letter": rng.randint(0, 40)}, "deliver_then_crash": {"letter": rng.randint(0, 40)},
        "hear": {"modem": rng.randint(0, 3), "output": rng.randint(0, 9), "near": number(rng, 2**63 - 1)},
        "want": {"modem": rng.randint(0, 3), "ch": 1, "sid": rng.randint(0, 3), "n": number(rng, 65535)},
        "tick": {"modem": rng.randint(0, 3), "ch": 1, "slot": number(rng, 2**63 - 1), "random": number(rng, 2**63 - 1)},
    }[kind]
    return "kind = '%s'\n" % kind + keys_of(keys) + (offered(rng) if kind == "offer" else "")


def made_script(rng):
    events = learned_script(rng) if rng.random() < 0.6 else [any_event(rng) for _ in range(rng.choice([10, 100, 1000]))]
    if rng.random() < 0.3:
        for _ in range(rng.randint(1, 10)):
            events.insert(rng.randint(0, len(events)), any_event(rng))
    head = "members = %d\nmodems = [0, 1, 2, 4294967295]\n" % rng.choice([3, 3, 5])
    return (head + "".join("[[event]]\n" + event for event in events)).encode()


ODD_LINES = [
    b"", b"no", b"apply", b"apply ", b"apply 0", b"apply 0g", b"apply 00\r", b"apply 0000", b"APPLY 00", b"apply  00",
    b"\0", b"apply 00\0", b"apply " + b"00" * 65, b"apply " + b"0" * 5000, b"command", b"command = {}", b"command = 1",
    b'command = { kind = "noop", kind = "noop" }', b'command = { kind = "noop" }\r', b"command = { kind = \xff }",
    b'command = { kind = "noop" } #' + b"." * 4067, b'command = { kind = "noop" } #' + b"." * 4069,
    b"command = " + b"[" * 4000,
]


def a_line(rng):
    draw = rng.random()
    if draw < 0.3:
        return b"apply " + value(rng).encode()
    if draw < 0.6:
        return b"command = " + inline(command(rng)).encode()
    return rng.choice([rng.choice(ODD_LINES), b"apply 00", rng.randbytes(rng.randint(0, 200)).replace(b"\n", b"")])


def made_lines(rng):
    """Lines for a scheduler, whose last one may have no end."""
    lines = [b"apply 01010700100205030800000000000003e8"]
    lines += [a_line(rng) for _ in range(rng.choice([1, 10, 100, 1000]))]
    if rng.random() < 0.03:
        lines.insert(rng.randint(0, len(lines)), b"x" * LONG)
    return b"\n".join(lines) + b"\n" * (rng.random() < 0.8)


def made_body(rng):
    """A body of up to 255 elements, whose offsets mostly rise, and a Null somewhere."""
    count = rng.choice([1, 2, 10, 240, 255])
    offsets = sorted(rng.randint(0, 16383) for _ in range(count))
    if rng.random() < 0.2:
        rng.shuffle(offsets)
    null = rng.randrange(count + 1)

    def word(k, offset):
        sid = rng.randint(0, 16383)
        return sid << 18 | (7 if k == null else rng.randint(0, 14 + (rng.random() < 0.02))) << 14 | offset

    words = [word(k, offset).to_bytes(4, "big") for k, offset in enumerate(offsets)]
    return bytes([1, 7, count, rng.randint(0, 255)]) + rng.randbytes(12) + b"".join(words)


def hex_text(rng):
    draw = rng.random()
    if draw < 0.4:
        body = made_body(rng)
        if rng.random() < 0.5:
            body = rng.choice([cut, double, flip])(rng, body)
        return body.hex().encode()
    if draw < 0.8:
        return rng.choice([cut, double, flip, marked, no_text])(rng, rng.choice(BODIES))
    long = [b"ff" * 1036, b"0" * LONGEST_WORD, b"f" * (LONGEST_WORD - 1), b" ", b"\n", rng.randbytes(100)]
    return rng.choice([b"", b"0", b"00", b"-", b"--", b"0x00", *long])


def rows_file(rng):
    """A file of tables that is cut, or has other bytes."""
    text = rng.choice(ROWS)
    if rng.random() < 0.5:
        place = rng.randrange(max(len(text), 1))
        return text[:place] + bytes([rng.choice([0, 1, 2, 127, 128, 255])]) + text[place + 1:]
    for _ in range(rng.choice([1, 2])):
        text = rng.choice([cut, double, flip, marked, no_text])(rng, text)
    return text


def text_of(rng, changeable, made, array):
    draw = rng.random()
    if draw < 0.06:
        return whole(rng, array)
    text = made(rng) if draw < 0.5 else rng.choice(changeable)
    return changed(rng, text) if rng.random() < 0.7 else text


# The words that take a plan. Turns that find nothing to do take a millisecond each, so there are few.
PLANNED = {"maps": ["maps"], "maps --json": ["maps", "--json"], "check": ["check", "--plan"], "capture": ["capture"]}
PLANNED |= {"stats": ["stats"], "live": ["live", "--turns", "12"]}
PLANNED |= {"draw --plan": ["draw", "--plan"], "draw --plan --text": ["draw", "--plan", "--text"]}
# And those that take a script.
SCRIPTED = {"run": ["run"], "run --trace": ["run", "--trace"], "run --json": ["run", "--json"], "draw": ["draw"]}
SCRIPTED |= {"run --json --trace": ["run", "--json", "--trace"]}
# Those that read lines on standard input.
SERVED = {"scheduler": ["scheduler"], "scheduler --json": ["scheduler", "--json"]}
SHOWN = {"show": ["show", "--"], "show --names": ["show", "--names", "--"]}
# The word that takes a file of tables.
RESUMED = {"resume": ["resume", os.path.join(HERE, "examples/parts/day_two.toml"), "--from"]}
WORDS = ["maps", "maps", *PLANNED, *RESUMED, *SERVED, *SHOWN, "run", "run", *SCRIPTED, "run --store", "run --store"]


def words_of(how):
    """The words of a good text."""
    return {**SHOWN, **PLANNED, **RESUMED, **SERVED, **SCRIPTED}.get(how, ["run"])


def case_of(seed, k):
    rng = random.Random("%d %d" % (seed, k))
    how = rng.choice(WORDS)
    if how in SHOWN:
        return Case(how, words_of(how), hex_text(rng).replace(b"\0", b"0")[:LONGEST_WORD])
    if how in PLANNED:
        return Case(how, PLANNED[how], text_of(rng, PLANS, made_plan, b"command"))
    if how in RESUMED:
        return Case(how, RESUMED[how], rows_file(rng))
    if how in SERVED:
        return Case(how, SERVED[how], text_of(rng, LINES, made_lines, b"command"))
    verbose = ["--verbose"] if how in ("run", "run --store") and rng.random() < 0.5 else []
    return Case(how, words_of(how) + verbose, text_of(rng, SCRIPTS, made_script, b"event"))


# Runs and what is told of them.

Ended = collections.namedtuple("Ended", "status seconds errors")


class Runner:
    def __init__(self, program, folder):
        self.program, self.folder = program, folder
        self.text, self.store, self.errors = (os.path.join(folder, name) for name in ("text", "store", "errors"))

    def words(self, case):
        if case.how in SHOWN:
            return case.words + [case.text]
        with open(self.text, "wb") as file:
            file.write(case.text)
        if case.how in SERVED:
            return case.words
        if case.how != "run --store":
            return case.words + [self.text]
        shutil.rmtree(self.store, ignore_errors=True)
        os.mkdir(self.store)
        return case.words + ["--store", self.store, self.text]

    def run(self, case):
        """How the program ends, the processor time that it takes, and the head of its standard error."""
        words = [self.program] + self.words(case)
        child = os.fork()
        if child == 0:
            signal.alarm(PATIENCE)
            os.dup2(os.open(self.text if case.how in SERVED else os.devnull, os.O_RDONLY), 0)
            os.dup2(os.open(os.devnull, os.O_WRONLY), 1)
            os.dup2(os.open(self.errors, os.O_WRONLY | os.O_CREAT | os.O_TRUNC), 2)
            os.execv(self.program, words)
        _, status, usage = os.wait4(child, 0)
        with open(self.errors, "rb") as file:
            errors = file.read(100_000)
        return Ended(os.waitstatus_to_exitcode(status), usage.ru_utime + usage.ru_stime, errors)


def good_text(how, size):
    """A good text of about this length."""
    if how in SHOWN:
        return read(os.path.join(HERE, "examples/bodies/first_grant.hex")).strip()
    if how in RESUMED:
        return read(os.path.join(HERE, "examples/parts/day_one.rows"))
    if how in SERVED:
        return b"apply 00\n" * (size // 9)
    tick = b"[[event]]\nkind = 'tick'\nmodem = 0\nch = 1\nslot = 0\nrandom = 0\n"
    table = b"[[command]]\nkind = 'noop'\n" if how in PLANNED else tick
    return b"members = 3\nmodems = [1]\n" + table * (size // len(table))


class Pace:
    """The time that good texts take, by their length."""

    def __init__(self, runner):
        self.runner, self.known = runner, {}

    def taken(self, how, size):
        if (how, size) not in self.known:
            case = Case(how, words_of(how), good_text(how, size))
            runs = [self.runner.run(case) for _ in range(3)]
            if any(run.status != 0 for run in runs):
                sys.exit("bench/hostile.py: a good text ended with status %d" % runs[0].status)
            self.known[how, size] = max(min(run.seconds for run in runs), 0.001)
        return self.known[how, size]

    def good(self, how, length):
        """The time of the good text whose length is the greatest power of two up to this one."""
        return self.taken(how, 0 if how in SHOWN or how in RESUMED else 1 << max(length, 64).bit_length() - 1)


def faults(case, ended, pace):
    if ended.status < 0:
        yield "ended by signal %d" % -ended.status
    elif ended.status > 2:
        yield "ended with status %d" % ended.status
    if "--verbose" not in case.words and ended.errors.count(b"\n") > 1:
        yield "wrote %d lines on standard error" % ended.errors.count(b"\n")
    # What is wrong with a text `check` tells on standard output.
    if ended.status in (1, 2) and not ended.errors and case.how != "check":
        yield "ended with status %d and told nothing" % ended.status
    good = pace.good(case.how, len(case.text))
    if ended.seconds > 100 * good:
        yield "took %.3f seconds, where a good text of this length takes %.3f" % (ended.seconds, good)


def main():
    program, folder, count, seed, first = sys.argv[1], sys.argv[2], *map(int, sys.argv[3:6])
    runner = Runner(program, folder)
    pace = Pace(runner)
    ends, bad = collections.Counter(), 0
    for k in range(first, first + count):
        case = case_of(seed, k)
        ended = runner.run(case)
        ends[case.how, ended.status] += 1
        for fault in faults(case, ended, pace):
            bad += 1
            print("case %d: %s: %s" % (k, " ".join(case.words), fault), flush=True)
            with open(os.path.join(folder, "case-%d" % k), "wb") as file:
                file.write(case.text)
    for (how, status), runs in sorted(ends.items()):
        print("%s: status %d, %d times" % (how, status, runs))
    print("%d runs, %d bad ends" % (count, bad))
    sys.exit(bad > 0)


main()
