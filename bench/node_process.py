"""A process of `upsched node` or `upsched host`: lines go in, and its replies come out, each with the line that it
answers."""
import collections
import os
import signal
import subprocess

# Heads of replies that have so many lines more.
WITH_LINES = (b"sent", b"released")


class Reply:
    """What a process wrote behind one line: whole lines without their ends. `asked` is None for its first line."""

    def __init__(self, asked):
        self.asked, self.lines, self.wanted = asked, [], 1

    def takes(self, line):
        """Whether the reply is whole with this line."""
        if not self.lines:
            words = line.split()
            if len(words) == 2 and words[0] in WITH_LINES:
                self.wanted += int(words[1])
        self.lines.append(line)
        return len(self.lines) == self.wanted


class HostReply(Reply):
    """The same of a host: before each line of a node's reply there is a number, and behind outputs one line more."""

    def takes(self, line):
        if not self.lines:
            words = line.split()
            if len(words) == 3 and b"/" in words[0] and words[1] == b"sent" or words[:1] == [b"again"]:
                self.wanted += int(words[-1])
            elif words[:1] == [b"released"]:
                self.wanted += int(words[1]) + 1
        self.lines.append(line)
        return len(self.lines) == self.wanted


def node_words(program, node, members, file=None, new=False, journal=None):
    words = [program, "node", str(node), "--members", str(members)]
    if file is not None:
        words += ["--store", file] + ["--new"] * new
    return words + (["--journal", journal] if journal is not None else [])


def host_words(program, host, members, places, folder, word=None, journal=None):
    """`word` is --new or --join, if the host's first lines are to be these."""
    words = [program, "host", str(host), "--members", str(members), "--places", str(places), "--store", folder]
    return words + ([word] if word else []) + (["--journal", journal] if journal is not None else [])


class LineProcess:
    """One life of a node, or of a host. Its pipes don't block: `write_some` and `read_some` do what can be done."""

    def __init__(self, words, kind=Reply):
        self.kind = kind
        # The signal of a file beyond its limit stays ignored, as Python has it: the write is refused instead.
        self.process = subprocess.Popen(
            words,
            stdin=subprocess.PIPE,
            stdout=subprocess.PIPE,
            stderr=subprocess.PIPE,
            bufsize=0,
            restore_signals=False,
            start_new_session=True,
        )
        self.input, self.output = self.process.stdin.fileno(), self.process.stdout.fileno()
        os.set_blocking(self.input, False)
        os.set_blocking(self.output, False)
        self.unsent, self.rest = bytearray(), b""
        self.waiting = collections.deque([kind(None)])
        self.ended = False

    def ask(self, line):
        self.unsent += line + b"\n"
        self.waiting.append(self.kind(line))

    def write_some(self):
        try:
            sent = os.write(self.input, self.unsent[: 1 << 16])
            del self.unsent[:sent]
        except BlockingIOError:
            pass
        except BrokenPipeError:
            self.unsent.clear()

    def read_some(self):
        """The replies that are whole now. At the end of its output `ended` is set."""
        whole = []
        while not self.ended:
            try:
                chunk = os.read(self.output, 1 << 16)
            except BlockingIOError:
                break
            self.ended = not chunk
            *lines, self.rest = (self.rest + chunk).split(b"\n")
            for line in lines:
                if not self.waiting:
                    raise ValueError(f"a line that nothing asked for: {line[:200]!r}")
                if self.waiting[0].takes(line):
                    whole.append(self.waiting.popleft())
        return whole

    def cut_off(self):
        """The reply of which a process that ended wrote some lines, but not all."""
        return self.waiting[0] if self.waiting and self.waiting[0].lines else None

    def signal(self, number):
        os.kill(self.process.pid, number)

    def kill(self):
        self.signal(signal.SIGKILL)

    def close(self):
        """Waits for the end: its status, and what it wrote to standard error, but that a log has no commit."""
        self.process.stdin.close()
        lines = self.process.stderr.read().decode(errors="replace").splitlines(keepends=True)
        errors = "".join(line for line in lines if not line.startswith("upsched: log without commits: "))
        self.process.stderr.close()
        self.process.stdout.close()
        return self.process.wait(), errors
