#!/usr/bin/env python3
"""bench/made_scripts.py [PROGRAM [SEEDS]]: scripts that `upsched script` makes, each run by `upsched run`.

PROGRAM is the built program, crates/upsched/out/upsched where the words don't say, and SEEDS is how many scripts are
made, 1000 by default. They are of three and of five nodes, with and without lost and repeated letters, crashes,
takeovers and modems, over the plans of examples/plans. Looked at is that

- each script is made, with status 0, is made again to the byte, and runs with status 0;
- without losses and crashes each node releases the whole plan.

Printed are the sums of places that were chosen, so that a node released them, of outputs that were released, and of
places that were proposed again by a node that took over. None of them is 0, else the status is 1.
"""
import os
import re
import subprocess
import sys
import tempfile

ROOT = os.path.dirname(os.path.dirname(os.path.abspath(__file__)))
PLANS = os.path.join(ROOT, "examples", "plans")
EVENT = re.compile(r'\{ kind = "(\w+)"(?:, \w+ = (?:"[0-9a-f]*"|\d+))* \}')
NUMBER = re.compile(r"(\w+) = (\d+)")


def wishes_of(seed, plan, commands):
    """The words of a seed."""
    members = 3 if seed % 2 == 0 else 5
    most = max(0, commands - 1)
    words = ["--members", str(members), "--plan", plan, "--seed", str(seed)]
    lose = (0, 5, 20, 60)[seed // 2 % 4]
    crashes = (0, 1, 4)[seed // 8 % 3] if lose else 0
    words += ["--lose", str(lose), "--repeat", str((0, 10, 50)[seed % 3]), "--crash", str(crashes)]
    words += ["--takeover", str(min(most, seed % 4))]
    if seed % 5 == 0:
        words += ["--modems", "50,51"]
    return words, members, lose == 0 and crashes == 0


def answered(program, words):
    done = subprocess.run([program, *words], capture_output=True, text=True)
    if done.returncode != 0 or done.stderr:
        sys.exit(f"{' '.join(words)}: status {done.returncode}: {done.stderr.strip()}")
    return done.stdout


def letters_of(kind, count, members, met):
    """What kind of letters an event sent that was answered by so many."""
    if kind == "lead":
        return "prepare"
    if kind == "offer":
        return "accept"
    if met == "prepare":
        return "promise"
    if met == "promise":
        return "accept"
    return "voted" if met == "accept" and count == members else "other"


def sums_of(script, printed, members):
    """The places that were released, the outputs of each node, and how many places were proposed again."""
    places, released, again, kinds = set(), [0] * members, 0, []
    events = [(m.group(1), dict(NUMBER.findall(m.group(0)))) for m in EVENT.finditer(script)]
    for line in printed.splitlines():
        words = line.split()
        if words[0] == "place":
            places.add(int(words[1]))
        elif words[0].isdigit() and words[1] in ("sent", "released"):
            kind, keys = events[int(words[0])]
            count = int(words[2])
            if words[1] == "released":
                released[int(keys["node"])] += count
                continue
            met = kinds[int(keys["letter"])] if kind.startswith("deliver") else None
            sent = letters_of(kind, count, members, met)
            if met == "promise":
                again += count // members
            kinds += [sent] * count
    return places, released, again


def main():
    program = os.path.abspath(sys.argv[1] if len(sys.argv) > 1 else os.path.join(ROOT, "crates/upsched/out/upsched"))
    seeds = int(sys.argv[2]) if len(sys.argv) > 2 else 1000
    plans = sorted(os.path.join(PLANS, name) for name in os.listdir(PLANS) if name.endswith(".toml"))
    counts = {plan: len(answered(program, ["maps", plan]).splitlines()) for plan in plans}
    chosen = released = again = events = whole = 0
    with tempfile.TemporaryDirectory() as room:
        path = os.path.join(room, "script.toml")
        for seed in range(seeds):
            plan = plans[seed // 3 % len(plans)]
            words, members, is_kept = wishes_of(seed, plan, counts[plan])
            script = answered(program, ["script", *words])
            if script != answered(program, ["script", *words]):
                sys.exit(f"script {' '.join(words)}: made otherwise the second time")
            with open(path, "w", encoding="utf-8") as file:
                file.write(script)
            places, by_node, more = sums_of(script, answered(program, ["run", path]), members)
            if is_kept and by_node != [counts[plan]] * members:
                sys.exit(f"script {' '.join(words)}: nodes released {by_node} of {counts[plan]}")
            whole += is_kept
            chosen += len(places)
            released += sum(by_node)
            again += more
            events += script.count("{ kind = ")
    print(f"scripts {seeds} events {events} chosen {chosen} released {released} proposed-again {again} whole {whole}")
    return 0 if min(chosen, released, again, whole) > 0 else 1


if __name__ == "__main__":
    sys.exit(main())
