"""Each plan of the examples gives the lines of its .stdout, and the first program what the page says."""
import subprocess
import sys
import unittest
from pathlib import Path

try:
    import tomllib
except ImportError:
    tomllib = None

import upsched

from .plans import command_of, line_of

TOP = Path(__file__).resolve().parents[2]
PLANS = sorted((TOP / "examples" / "plans").glob("*.toml"))


@unittest.skipIf(tomllib is None, "Python reads TOML from 3.11 on")
class Plans(unittest.TestCase):
    def test_each_plan(self):
        self.assertGreater(len(PLANS), 20)
        for path in PLANS:
            with self.subTest(path.name), upsched.Machine() as machine:
                tables = tomllib.loads(path.read_text()).get("command", [])
                commands = [command_of(table) for table in tables]
                lines = [f"{i} {line_of(machine.apply(command))}\n" for i, command in enumerate(commands, 1)]
                self.assertEqual("".join(lines), path.with_suffix(".stdout").read_text())


class Programs(unittest.TestCase):
    def prints(self, name, *words):
        ended = subprocess.run([sys.executable, TOP / "python" / name, *words], capture_output=True, text=True)
        self.assertEqual(ended.returncode, 0, ended.stderr)
        return ended.stdout

    def test_the_first_map(self):
        self.assertEqual(self.prints("first_map.py"), "01070200000003e80000000000000000fffc40000001c064\n")

    def test_the_simulation(self):
        compiled = TOP / "c" / "out" / "sim"
        if not compiled.is_file():
            self.skipTest("c/out/sim isn't built")
        for words in (["0.2", "0.5"], ["0.1", "1.5"]):
            ended = subprocess.run([compiled, *words], capture_output=True, text=True, check=True)
            self.assertEqual(self.prints("sim.py", *words), ended.stdout)
