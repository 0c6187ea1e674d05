"""The shared library: its structs and its calls. It is loaded here, and compared with what this package is for."""
from __future__ import annotations

import ctypes
import os
import struct
import sysconfig
from pathlib import Path
from typing import Any, Iterator, Type

VERSION = "0.3.0"
VERSION_NUMBER = 0x000300
NAME = "libupsched.so.0"
BODY_BYTES = 1036
ELEMENTS = 255

_SPARE = 4096
_FILLED = 0xA5
_CODES = {1: "B", 2: "H", 4: "I", 8: "Q"}


def _struct(name: str, **fields: str) -> Type[ctypes.Structure]:
    """A struct of these fields: for each C type the names of those that follow one another."""
    types = {
        "u8": ctypes.c_uint8, "u16": ctypes.c_uint16, "u32": ctypes.c_uint32, "u64": ctypes.c_uint64,
        "size": ctypes.c_size_t,
    }
    pairs = [(field, types[kind]) for kind, names in fields.items() for field in names.split()]
    return type(name, (ctypes.Structure,), {"_fields_": pairs})


HeadFields = _struct("HeadFields", u32="start ack", u8="channel ucd ranging_start ranging_end data_start data_end")
ElementFields = _struct("ElementFields", u16="sid offset", u8="iuc")
CellFields = _struct("CellFields", u16="sid", u8="iuc")
CommandFields = _struct(
    "CommandFields",
    u32="kind modem tag interval jitter",
    u64="base last sent not_before ack",
    u16="sid minislots short_max keep",
    u8="ch ucd phy service priority ranging_start ranging_end data_start data_end",
)
OutputFields = _struct(
    "OutputFields", u32="kind modem", u64="first last start", size="body_len", u16="sid minislots", u8="ch ucd refusal"
)
SendingFields = _struct("SendingFields", u32="kind", u16="sid minislots")
EventFields = _struct("EventFields", u64="slot first last", u32="kind", u16="sid minislots", u8="iuc")
ChannelFields = _struct("ChannelFields", u64="next_start ack", u32="waiting")
WaitingFields = _struct("WaitingFields", u64="sent", u16="sid minislots")
FlowFields = _struct("FlowFields", u64="due first last", u32="modem tag", u16="sid", u8="service")
HandleFields = _struct("HandleFields", u64="private_at private_state")


class Samples(ctypes.Structure):
    """A struct of each kind."""

    _fields_ = [
        ("head", HeadFields),
        ("elements", ElementFields * 2),
        ("cell", CellFields),
        ("command", CommandFields),
        ("output", OutputFields),
        ("sending", SendingFields),
        ("event", EventFields),
        ("channel", ChannelFields),
        ("waiting", WaitingFields),
        ("flow", FlowFields),
    ]


class Layout:
    """Some fields of a struct, in its order: written into its bytes, the others 0, and read out of them.

    A number that doesn't fit is a ValueError, and what is no whole number a TypeError.
    """

    def __init__(self, owner: str, fields: Type[ctypes.Structure], names: str) -> None:
        form, end = "=", 0
        self._owner, self._limits = owner, []
        for name in names.split():
            field = getattr(fields, name)
            form += f"{field.offset - end}x{_CODES[field.size]}"
            end = field.offset + field.size
            self._limits.append((name, 1 << 8 * field.size))
        layout = struct.Struct(f"{form}{ctypes.sizeof(fields) - end}x")
        self._pack, self.unpack_from, self.iter_unpack = layout.pack, layout.unpack_from, layout.iter_unpack

    def pack(self, *values: Any) -> bytes:
        """The struct's bytes with these values."""
        try:
            if bool not in map(type, values):
                return self._pack(*values)
        except struct.error:
            pass
        raise self._fault(values)

    def _fault(self, values: Any) -> Exception:
        for (name, limit), value in zip(self._limits, values):
            if isinstance(value, bool) or not hasattr(type(value), "__index__"):
                return TypeError(f"{name} of {self._owner} has to be an int, not {type(value).__name__}")
            if not 0 <= value.__index__() < limit:
                return ValueError(f"{name} of {self._owner} is {value}, not 0 to {limit - 1}")
        return TypeError(f"{self._owner} has {len(self._limits)} numbers, not {len(values)}")


class Numbers(Layout):
    """The numbers that a call takes, each with its C type as in `u8="ch"`: whether they fit."""

    def __init__(self, owner: str, **fields: str) -> None:
        made = _struct(owner, **fields)
        super().__init__(owner, made, " ".join(name for name, *_ in made._fields_))


def bytes_of(what: str, given: Any) -> bytes:
    """The bytes of an object that has some."""
    if isinstance(given, bytes):
        return given
    if isinstance(given, (bytearray, memoryview)):
        return bytes(given)
    raise TypeError(f"{what} has to be bytes, not {type(given).__name__}")


def _places() -> Iterator[str]:
    """Where the library may be: where UPSCHED_LIBRARY says, and nowhere else; or in the tree or the package of `make
    dist` that this file is in, or where the system finds it."""
    named = os.environ.get("UPSCHED_LIBRARY")
    if named:
        yield named
        return
    top = Path(__file__).resolve().parents[2]
    for place in (top / "c" / "out" / NAME, top / "lib" / NAME):
        if place.is_file():
            yield str(place)
    yield NAME


def _load() -> ctypes.PyDLL:
    """Loads the library. PyDLL keeps Python's lock in a call: two threads in one handle are undefined."""
    why = []
    for place in _places():
        try:
            return ctypes.PyDLL(place)
        except OSError as fault:
            why.append(str(fault))
    raise ImportError(f"no upsched library; UPSCHED_LIBRARY may name it ({'; '.join(why)})")


def _numbered(value: Any) -> Any:
    """What a struct of each kind holds where its fields are numbered from 1, as nested lists."""
    if isinstance(value, ctypes.Array):
        return [_numbered(item) for item in value]
    if isinstance(value, Samples):
        return [_numbered(getattr(value, name)) for name, _ in value._fields_]
    return [getattr(value, name) for name, *_ in value._fields_] == list(range(1, len(value._fields_) + 1))


def _check(library: ctypes.PyDLL) -> None:
    """Refuses a library of another version, or one whose structs have other fields."""
    try:
        call = library.upsched_c_samples
    except AttributeError as fault:
        raise ImportError(f"{library._name} is no upsched library: {fault}") from None
    call.restype, call.argtypes = ctypes.c_uint32, [ctypes.c_void_p]
    room = bytearray([_FILLED]) * (ctypes.sizeof(Samples) + _SPARE)
    samples = Samples.from_buffer(room)
    version = call(ctypes.addressof(samples))
    if version != VERSION_NUMBER:
        found = f"{version >> 16}.{version >> 8 & 255}.{version & 255}"
        raise ImportError(f"{library._name} is of version {found}, and this package is for {VERSION}")
    parts = _numbered(samples)
    flat = [*parts[0:1], *parts[1], *parts[2:]]
    if not all(flat) or any(byte != _FILLED for byte in room[ctypes.sizeof(Samples):]):
        raise ImportError(f"{library._name} has other structs than this package")


def _declare(library: ctypes.PyDLL) -> None:
    """Says what each call takes and answers: a pointer for p, bytes for b, else a number."""
    types = {
        "p": ctypes.c_void_p, "b": ctypes.c_char_p, "n": ctypes.c_size_t, "8": ctypes.c_uint8, "2": ctypes.c_uint16,
        "4": ctypes.c_uint32, "q": ctypes.c_uint64,
    }
    calls = {
        "map_decode": "bnppnp", "map_encode": "bbnpnp", "map_cell_at": "bn2p", "map_open": "pbn", "close": "p",
        "machine_open": "p", "machine_open_saved": "pbnp", "machine_save": "ppnp", "machine_apply": "pbpp", "machine_apply_bytes": "pbnpp", "modem_open": "p4",
        "modem_hear_channel": "p88p", "modem_hear_assigned": "p482qqp", "modem_hear_map": "pbnqp",
        "modem_hear_open_map": "ppqp", "modem_want": "p822", "modem_tick": "p8qqp", "modem_next": "p8qp",
        "modem_clock": "p8p", "machine_channel": "p8p", "machine_waiting": "p84p", "machine_flow": "p82p",
    }
    for name, codes in calls.items():
        call = getattr(library, f"upsched_c_{name}")
        call.argtypes = [types[code] for code in codes]
        call.restype = None if name == "close" else ctypes.c_int32


# Does Python keep a lock of its own in a call? If not, each handle has one.
KEEPS_LOCK = not sysconfig.get_config_var("Py_GIL_DISABLED")

library = _load()
_check(library)
_declare(library)
