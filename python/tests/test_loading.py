"""Which libraries are loaded, and want of memory: over small libraries that are compiled here."""
import os
import shutil
import subprocess
import sys
import tempfile
import unittest
from pathlib import Path

import upsched
from upsched._library import library as loaded

TOP = Path(__file__).resolve().parents[2]
COMPILER = shutil.which(os.environ.get("CC", "cc"))

# A library that has each name, and gives these samples.
STAND_IN = r"""
#include <upsched.h>
uint32_t upsched_c_samples(upsched_samples_t *s)
{
    upsched_samples_t n = {
        {1, 2, 3, 4, 5, 6, 7, 8}, {{1, 2, 3}, {1, 2, 3}}, {1, 2},
        {1, 2, 3, 4, 5, 6, 7, 8, 9, 10, 11, 12, 13, 14, 15, 16, 17, 18, 19, 20, 21, 22, 23},
        {1, 2, 3, 4, 5, 6, 7, 8, 9, 10, 11}, {1, 2, 3}, {1, 2, 3, 4, 5, 6, 7},
        {1, 2, 3}, {1, 2, 3}, {1, 2, 3, 4, 5, 6, 7},
    };
    *s = n;
    CHANGED;
    return VERSION;
}
#define NAME(name) void name(void) {}
"""
NAMES = [
    "map_decode", "map_encode", "map_cell_at", "map_open", "close", "machine_open", "machine_apply",
    "machine_apply_bytes", "machine_save", "machine_open_saved", "machine_channel", "machine_waiting", "machine_flow",
    "modem_open", "modem_hear_channel", "modem_hear_assigned", "modem_hear_map", "modem_hear_open_map", "modem_want",
    "modem_tick", "modem_next", "modem_clock",
]

# Refuses memory to the library alone, from when it is asked to.
NO_MEMORY = r"""
#define _GNU_SOURCE
#include <dlfcn.h>
#include <string.h>
extern void *__libc_malloc(size_t), *__libc_realloc(void *, size_t);
int lacking;
static int of_library(void *caller)
{
    Dl_info info;
    return lacking && dladdr(caller, &info) && strcmp(info.dli_fname, LIBRARY) == 0;
}
void *malloc(size_t n) { return of_library(__builtin_return_address(0)) ? 0 : __libc_malloc(n); }
void *realloc(void *p, size_t n) { return of_library(__builtin_return_address(0)) ? 0 : __libc_realloc(p, n); }
"""
LACKS = """
import ctypes, upsched
machine, modem = upsched.Machine(), upsched.Modem(1)
machine.apply(upsched.Channel(1, 7, 1000))
cut, hears, lacking = upsched.Cut(1, 100), upsched.ChannelSet(1, 7), ctypes.c_int.in_dll(ctypes.CDLL(None), "lacking")
body = machine.apply(cut)
for call in (upsched.Machine, lambda: upsched.Modem(1), lambda: upsched.Map(body), lambda: machine.apply(cut),
             lambda: modem.hear(hears, 0), lambda: upsched.decode(body.body)):
    lacking.value = 1
    try:
        call()
        print("done")
    except MemoryError as fault:
        print(type(fault).__name__, fault.name, int(fault.status))
    lacking.value = 0
print(machine.apply(cut).start, modem.hear(hears, 0).name)
"""


def run(words, **named):
    environment = {**os.environ, "PYTHONPATH": str(TOP / "python"), **named}
    return subprocess.run([sys.executable, "-c", words], env=environment, capture_output=True, text=True)


class Loading(unittest.TestCase):
    def setUp(self):
        self.folder = tempfile.TemporaryDirectory()
        self.addCleanup(self.folder.cleanup)

    def made(self, name, text, *words):
        if not COMPILER:
            self.skipTest("there is no C compiler")
        path = Path(self.folder.name) / name
        path.with_suffix(".c").write_text(text)
        command = [COMPILER, "-shared", "-fPIC", f"-I{TOP / 'include'}", *words, str(path.with_suffix(".c"))]
        subprocess.run([*command, "-o", str(path), "-ldl"], check=True)
        return str(path)

    def stand_in(self, changed="", version="UPSCHED_VERSION_NUMBER", names=tuple(NAMES)):
        text = STAND_IN.replace("CHANGED", changed).replace("VERSION;", f"{version};")
        for name in names:
            text += f"int upsched_c_{name}_made; void *made_{name}(void) __asm__(\"upsched_c_{name}\"); "
            text += f"void *made_{name}(void) {{ return 0; }}\n"
        return self.made("stand_in.so", text)

    def imports(self, library):
        return run("import upsched", UPSCHED_LIBRARY=library).stderr.strip().splitlines()[-1:]

    def test_which_are_loaded(self):
        self.assertEqual(self.imports(self.stand_in()), [])

    def test_which_are_refused(self):
        rows = [
            ({"version": "0x000100"}, "is of version 0.1.0, and this package is for "),
            ({"version": "0x010203"}, "is of version 1.2.3, and this package is for "),
            ({"changed": "s->command.sid = 12, s->command.minislots = 11"}, "has other structs than this package"),
            ({"changed": "s->output.first = 4, s->output.last = 3"}, "has other structs than this package"),
            ({"changed": "s->elements[1].iuc = 0"}, "has other structs than this package"),
            ({"changed": "s->event.iuc = 6"}, "has other structs than this package"),
            ({"changed": "s->flow.sid = 7, s->flow.service = 6"}, "has other structs than this package"),
            ({"changed": "((char *)(s + 1))[0] = 0"}, "has other structs than this package"),
        ]
        for wrong, why in rows:
            with self.subTest(**wrong):
                said = self.imports(self.stand_in(**wrong))
                self.assertRegex(said[0], f"^ImportError: .*{why}")

    def test_no_library(self):
        text = Path(self.folder.name) / "text.so"
        text.write_text("no library")
        for place in (self.folder.name + "/none.so", str(text), self.made("other.so", "int other;"), self.folder.name):
            self.assertRegex(self.imports(place)[0], "^ImportError: .*upsched library")

    def test_want_of_memory(self):
        library = loaded._name
        lacking = self.made("no_memory.so", NO_MEMORY, f'-DLIBRARY="{library}"')
        ended = run(LACKS, LD_PRELOAD=lacking, UPSCHED_LIBRARY=library)
        self.assertEqual(ended.stdout, "OutOfMemory OUT_OF_MEMORY 6\n" * 6 + "1100 TAKEN\n", ended.stderr)
        self.assertTrue(issubclass(upsched.OutOfMemory, MemoryError))
