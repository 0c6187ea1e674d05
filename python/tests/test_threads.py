"""Threads that use one handle, a Python that keeps no lock, and a forked child."""
import os
import subprocess
import sys
import unittest
from pathlib import Path

TOP = Path(__file__).resolve().parents[2]

# Four threads cut MAPs of one scheduler, and hear one MAP by one modem: what comes out is what one thread would get.
HAMMER = """
import sys, threading
sys.setswitchinterval(1e-6)
import upsched
machine, modem = upsched.Machine(), upsched.Modem(50)
modem.hear(machine.apply(upsched.Channel(1, 7, 0)), 0)
first = upsched.Map(machine.apply(upsched.Cut(1, 10)))
starts, heard, faults = [], [], []
def work():
    try:
        for _ in range(3000):
            output = machine.apply(upsched.Cut(1, 10))
            if upsched.decode(output.body).start != output.start:
                faults.append("a body of another MAP")
            starts.append(output.start)
            heard.append(modem.hear(first, 0))
            modem.next(1, 0)
    except Exception as fault:
        faults.append(repr(fault))
threads = [threading.Thread(target=work) for _ in range(4)]
for thread in threads: thread.start()
for thread in threads: thread.join()
print(sorted(starts) == list(range(10, 120010, 10)), set(heard) == {upsched.Heard.TAKEN}, sorted(set(faults)))
"""

# The same where Python keeps no lock in a call, as in a Python without one.
NO_LOCK = """
import ctypes, sysconfig
ctypes.PyDLL = ctypes.CDLL
asked = sysconfig.get_config_var
sysconfig.get_config_var = lambda name: 1 if name == "Py_GIL_DISABLED" else asked(name)
"""

FORK = """
import os
import upsched
machine, modem = upsched.Machine(), upsched.Modem(1)
machine.apply(upsched.Channel(1, 7, 0))
child = os.fork()
if child == 0:
    said = []
    for call in (lambda: machine.apply(upsched.Cut(1, 10)), lambda: modem.tick(1, 0, 0)):
        try:
            call()
        except upsched.UpschedError as fault:
            said.append(fault.name)
    with upsched.Machine() as own:
        said.append(own.apply(upsched.Channel(2, 7, 0)) == upsched.ChannelSet(2, 7))
    machine.close()
    del machine, modem
    os._exit(0 if said == ["CLOSED", "CLOSED", True] else 1)
print(os.waitstatus_to_exitcode(os.waitpid(child, 0)[1]), machine.apply(upsched.Cut(1, 10)).start)
"""


def run(words):
    environment = {**os.environ, "PYTHONPATH": str(TOP / "python")}
    ended = subprocess.run([sys.executable, "-c", words], env=environment, capture_output=True, text=True)
    return ended.stdout + ended.stderr


class Threads(unittest.TestCase):
    def test_threads_use_one_handle(self):
        self.assertEqual(run(HAMMER), "True True []\n")

    def test_a_python_without_a_lock(self):
        self.assertEqual(run(NO_LOCK + HAMMER), "True True []\n")

    @unittest.skipUnless(hasattr(os, "fork"), "there is no fork")
    def test_a_forked_child(self):
        self.assertEqual(run(FORK), "0 0\n")
