"""sweep.py SHIM PROGRAM TEXT: runs the program on the text once for each of its requests for memory, with that refused."""
import os
import subprocess
import sys
import tempfile

shim, program, text = sys.argv[1:4]
word = "plan" if os.path.basename(os.path.dirname(text)) == "plans" else "script"


def run(refused, counted=None):
    env = {"LD_PRELOAD": shim, "REFUSED": str(refused)}
    if counted:
        env["COUNTED"] = counted
    with open(text, "rb") as plan:
        ended = subprocess.run([program, word], stdin=plan, capture_output=True, env=env, timeout=60)
    return ended.returncode, ended.stdout, ended.stderr


with tempfile.NamedTemporaryFile() as counted:
    whole = run(0, counted.name)
    requests = int(open(counted.name).read())
same = open_runs = 0
bad = []
if whole != (0, b"same\n", b""):
    bad.append((0, whole))
for number in range(1, requests + 1):
    ended = run(number)
    if ended == (0, b"same\n", b""):
        same += 1
    elif ended == (1, b"", b""):
        open_runs += 1
    else:
        bad.append((number, ended))
print(f"{os.path.basename(text)}: {requests} requests, {same} same, {open_runs} not compared, {len(bad)} other")
for number, ended in bad[:10]:
    print(f"  request {number}: {ended}")
sys.exit(1 if bad or not same else 0)
