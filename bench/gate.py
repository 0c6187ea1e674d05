#!/usr/bin/env python3
"""What the tasks of `rt ci` cost, and how long a run from nothing takes on other machines.

  bench/gate.py watch FILE    beside a running `rt ci`: notes each task that ends, until none is left
  bench/gate.py tell FILE [--processors N] [--memory GB] [--planned] [--longest N]

`watch` writes a line a task: its kind (proof, tests, edit), its crate, its processor seconds, its most memory in MB.
`tell` prints what the kinds cost, the dearest tasks, the longest chain of proofs, and how long a run takes by a model
of the gate's lanes, on so many processors (4). As `.ci/run` has it where memory is ample, a task starts where a
processor is idle. With `--planned` it also waits until 0.85 of the memory that is free (20) holds what the kit plans
for it, and a proof takes idle processors too, at 1.25 to 1.6 times its time.
"""
import argparse
import os
import sys
import time

sys.dont_write_bytecode = True
import kit  # noqa: E402

ROOT = os.path.dirname(os.path.dirname(os.path.realpath(__file__)))
TICK = os.sysconf("SC_CLK_TCK")
# How much more processor time so many jobs take than one.
SHARED = {1: 1.0, 2: 1.25, 3: 1.45, 4: 1.6}
# What the first check of a crate's edits, over which the others are tried, and the last one, are called.
SEED, LAST = "seed", "sound"


def provers():
    """Each prover that runs, by process and start: what it works on, its processor seconds, its memory in MB."""
    found = {}
    for pid in filter(str.isdigit, os.listdir("/proc")):
        try:
            with open(f"/proc/{pid}/cmdline", "rb") as file:
                words = file.read().decode(errors="replace").split("\0")
            with open(f"/proc/{pid}/stat", encoding="ascii", errors="replace") as file:
                fields = file.read().rsplit(")", 1)[1].split()
            folder = os.readlink(f"/proc/{pid}/cwd")
        except OSError:
            continue
        if words[0].endswith("/rattle") and "--crate-name" in words:
            is_edit = os.path.basename(folder).startswith("rt-edit-")
            kind = "edit" if is_edit else "tests" if "--test" in words else "proof"
            seconds = sum(map(int, fields[11:15])) / TICK
            name = words[words.index("--crate-name") + 1]
            memory = int(fields[21]) * os.sysconf("SC_PAGE_SIZE") >> 20
            found[pid, fields[19]] = (kind, name, seconds, memory), fields[1]
    # a copy that a prover forks of itself counts for that one
    processes = {pid for pid, _ in found}
    return {key: told for key, (told, parent) in found.items() if parent not in processes}


def watch(path):
    seen, idle = {}, 0
    with open(path, "a", encoding="utf-8") as file:
        while idle < 200:
            now = provers()
            for key, (kind, name, seconds, memory) in now.items():
                seen[key] = kind, name, seconds, max(memory, seen.get(key, (0, 0, 0, 0))[3])
            for key in [key for key in seen if key not in now]:
                file.write("{} {} {:.0f} {}\n".format(*seen.pop(key)))
                file.flush()
            idle = 0 if now else idle + 1
            time.sleep(3)


def listed():
    """The repository's crates: the crates and the kit's libraries that each is built on."""
    with open(f"{ROOT}/crates.txt", encoding="utf-8") as file:
        lines = [line.partition("#")[0].partition(":") for line in file]
    return {head.split()[0]: uses.split() for head, colon, uses in lines if colon}


def lines_in(folder, ending):
    """How many lines the files below a folder have, of those with this ending."""
    count = 0
    for at, _, names in os.walk(folder):
        for name in names:
            if name.endswith(ending):
                with open(f"{at}/{name}", "rb") as file:
                    count += file.read().count(b"\n")
    return count


class Crates:
    """The repository's crates, and what the kit plans for each."""

    def __init__(self):
        self.uses = listed()
        self.lines = {name: lines_in(f"{ROOT}/crates/{name}/src", ".rt") for name in self.uses}
        self.kept = {}

    def below(self, name):
        """The crates that this one is built on, lowest first."""
        if name not in self.kept:
            found = []
            for used in self.uses[name]:
                if used in self.uses:
                    found += [it for it in [*self.below(used), used] if it not in found]
            self.kept[name] = found
        return self.kept[name]

    def memory(self, name):
        """How many bytes the kit plans for a check of the crate."""
        below = self.below(name)
        libraries = {used for it in [name, *below] for used in self.uses[it] if used not in self.uses}
        files = [f"{kit.folder()}/rlibs/{it}.rlib/toolchain/checked.a" for it in libraries]
        loaded = sum(os.path.getsize(file) for file in files if os.path.isfile(file))
        proofs = sum(lines_in(f"{ROOT}/crates/{name}/{part}", ".antt") for part in ("specs", "proofs"))
        own = 1_000_000_000 + 1_000_000 * self.lines[name] + 200_000 * proofs
        return own + 80_000 * sum(self.lines[it] for it in below) + min(5 * loaded, 2_500_000_000)


def noted(path):
    """The processor seconds of each crate's tasks, by kind."""
    found = {}
    with open(path, encoding="utf-8") as file:
        for line in file:
            kind, name, seconds, _ = line.split()
            found.setdefault(name, {"proof": [], "tests": [], "edit": []})[kind].append(int(seconds))
    return found


def tasks_of(crates, costs):
    """Each task: what it waits for, the memory that is planned, the seconds."""
    tasks = {}
    for name in crates.uses:
        waits, memory = [(it, "proof") for it in crates.below(name)], crates.memory(name)
        cost = costs.get(name, {"proof": [0], "tests": [], "edit": []})
        tasks[name, "proof"] = waits, memory, sum(cost["proof"])
        tasks[name, "tests"] = waits, memory, sum(cost["tests"])
        edits = cost["edit"]
        if len(edits) == 1:
            tasks[name, "edit", 0] = waits, memory, edits[0]
        elif edits:
            tasks[name, SEED] = waits, memory, edits[0]
            tried = [(name, "edit", number) for number in range(len(edits) - 2)]
            for key, seconds in zip(tried, edits[1:-1]):
                tasks[key] = [*waits, (name, SEED)], 0.7 * memory, seconds
            tasks[name, LAST] = [*tried, (name, SEED)], 0.7 * memory, edits[-1]
    return tasks


class Lanes:
    """The gate's lanes, by the model."""

    def __init__(self, crates, tasks, processors, memory):
        self.tasks, self.processors, self.is_planned = tasks, processors, memory is not None
        self.memory = 0.85e9 * memory if self.is_planned else float("inf")
        behind = dict.fromkeys(tasks, 0)
        for key in reversed([*tasks]):
            behind[key] += crates.lines[key[0]] if key[1] in ("proof", "edit") else 0
            for it in tasks[key][0]:
                behind[it] = max(behind[it], behind[key])
        self.left = sorted(tasks, key=lambda key: (self.fills(key), -behind[key]))
        self.running, self.ended, self.now = {}, set(), 0.0

    @staticmethod
    def fills(key):
        """Whether a task only takes what proofs leave free."""
        return key[1] in ("edit", SEED)

    def minutes(self):
        while self.left or self.running:
            self.start()
            done = min(self.running, key=lambda key: self.running[key][2])
            self.now = self.running.pop(done)[2]
            self.ended.add(done)
        return self.now / 60

    def start(self):
        ready = [key for key in self.left if all(it in self.ended for it in self.tasks[key][0])]
        proofs, lacks = [key for key in ready if key[1] in ("proof", "tests")], False
        for at, key in enumerate(ready):
            if lacks and self.fills(key):
                return
            _, memory, seconds = self.tasks[key]
            room = self.memory - sum(it for it, _, _ in self.running.values())
            idle = self.processors - sum(it for _, it, _ in self.running.values())
            if idle > 0 and (not self.running or memory <= room):
                jobs = 1
                if self.is_planned and (key in proofs or key[1] == SEED):
                    others = len(proofs) - proofs.index(key) if key in proofs else len(ready) - at
                    jobs = max(1, min(4, idle // others, 1 + int((room / memory - 1) / 0.6)))
                self.running[key] = memory * (1 + 0.6 * (jobs - 1)), jobs, self.now + seconds * SHARED[jobs] / jobs
                self.left.remove(key)
            else:
                lacks = lacks or idle > 0 and key in proofs


def longest_chain(crates, costs):
    """The proofs that have to follow one another longest, first to last."""
    chains = {}
    for name in sorted(crates.uses, key=lambda name: len(crates.below(name))):
        before = max((chains[it] for it in crates.below(name)), default=(0, []))
        chains[name] = before[0] + sum(costs.get(name, {"proof": [0]})["proof"]), [*before[1], name]
    return max(chains.values())


def tell(words):
    crates, costs = Crates(), noted(words.file)
    for kind in ("proof", "tests", "edit"):
        each = sorted(((sum(cost[kind]), name) for name, cost in costs.items() if cost[kind]), reverse=True)
        dear = ", ".join(f"{name} {seconds}" for seconds, name in each[: words.longest])
        print(f"{kind}: {sum(seconds for seconds, _ in each) / 60:.0f} processor minutes; in seconds: {dear}")
    seconds, chain = longest_chain(crates, costs)
    print(f"longest chain: {seconds / 60:.0f} minutes: {', '.join(chain)}")
    memory = words.memory if words.planned else None
    lanes = Lanes(crates, tasks_of(crates, costs), words.processors, memory)
    planned = f" with {memory:g} GB free" if words.planned else ""
    print(f"by the model: {lanes.minutes():.0f} minutes on {words.processors} processors{planned}")


def main():
    as_written = argparse.RawDescriptionHelpFormatter
    parser = argparse.ArgumentParser(description=__doc__, formatter_class=as_written)
    parser.add_argument("word", choices=("watch", "tell"))
    parser.add_argument("file")
    parser.add_argument("--processors", type=int, default=4)
    parser.add_argument("--memory", type=float, default=20)
    parser.add_argument("--planned", action="store_true")
    parser.add_argument("--longest", type=int, default=8)
    words = parser.parse_args()
    if words.word == "watch":
        watch(words.file)
    else:
        tell(words)


if __name__ == "__main__":
    main()
