"""The package has each number, text and version of include/upsched.h."""
import re
import unittest
from pathlib import Path

import upsched
from upsched import _library

TOP = Path(__file__).resolve().parents[2]
HEADER = (TOP / "include" / "upsched.h").read_text()
ENUMS = [
    ("IUC_", upsched.Iuc), ("SENDS_", upsched.SendingKind), ("EVENT_", upsched.EventKind), ("", upsched.Status),
    ("", upsched.CommandKind), ("", upsched.Service), ("", upsched.Phy), ("", upsched.OutputKind),
    ("", upsched.Refusal), ("", upsched.Heard),
]


class Header(unittest.TestCase):
    def test_each_number(self):
        found = {name: int(number) for name, number in re.findall(r"\bUPSCHED_(\w+) = (\d+)", HEADER)}
        made = {prefix + member.name: int(member) for prefix, enum in ENUMS for member in enum}
        self.assertEqual(made, found)

    def test_each_struct(self):
        structs = {
            "map_head": "HeadFields", "map_element": "ElementFields", "map_cell": "CellFields",
            "handle": "HandleFields", "command": "CommandFields", "output": "OutputFields",
            "sending": "SendingFields", "event": "EventFields", "channel_state": "ChannelFields",
            "waiting_request": "WaitingFields", "flow_state": "FlowFields",
        }
        for name, made in structs.items():
            body = re.search(rf"typedef struct upsched_{name} {{(.*?)}} upsched_{name};", HEADER, re.S).group(1)
            lines = re.findall(r"\w+ \*?(\w+(?:, \w+)*);", re.sub(r"/\*.*?\*/", "", body, flags=re.S))
            fields = [name for name, *_ in getattr(_library, made)._fields_]
            self.assertEqual(fields, [field for line in lines for field in line.split(", ")])

    def test_each_text(self):
        texts = dict(re.findall(r'case UPSCHED_(\w+): return "(.*)";', HEADER))
        made = {member.name: member.text for enum in (upsched.Status, upsched.Refusal) for member in enum}
        self.assertEqual(made, texts)

    def test_limits_and_versions(self):
        for name, value in (("BODY_BYTES", 1036), ("ELEMENTS", 255), ("EVERYBODY", 0x3FFF)):
            said = re.search(rf"#define UPSCHED_{name} (\w+)", HEADER).group(1)
            self.assertEqual((int(said, 0), getattr(upsched, name)), (value, value))
        version = re.search(r'#define UPSCHED_VERSION "(.*)"', HEADER).group(1)
        self.assertEqual(upsched.__version__, version)
        self.assertIn(f'\nversion = "{version}"\n', (TOP / "python" / "pyproject.toml").read_text())
        self.assertIn("(UINT64_C(1) << 62)", HEADER)
        self.assertEqual(upsched.LAST_TIME, 1 << 62)
