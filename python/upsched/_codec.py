"""MAP bodies (CM-SP-MULPIv3.1, MAP message, version 1)."""
from __future__ import annotations

import ctypes
import enum
from dataclasses import dataclass
from typing import Optional, Tuple

from ._commands import Backoff
from ._errors import Status, error
from ._library import (
    BODY_BYTES, ELEMENTS, CellFields, ElementFields, HeadFields, Layout, Numbers, bytes_of, library,
)

EVERYBODY = 0x3FFF
"""The SID that addresses every modem."""


class Iuc(enum.IntEnum):
    """Interval usage codes that have a name here."""

    REQUEST = 1
    INITIAL_MAINTENANCE = 3
    STATION_MAINTENANCE = 4
    SHORT_GRANT = 5
    LONG_GRANT = 6
    NULL = 7
    ADVANCED_SHORT_GRANT = 9
    ADVANCED_LONG_GRANT = 10
    ADVANCED_UNSOLICITED_GRANT = 11


@dataclass(frozen=True)
class Element:
    """From its offset on, in minislots after the MAP's start, until the next element's, the minislots are the SID's.

    SIDs and offsets are 0 to 0x3FFF, an IUC 0 to 15.
    """

    sid: int
    offset: int
    iuc: int


@dataclass(frozen=True)
class Cell:
    """Whose a minislot is, and by which IUC."""

    sid: int
    iuc: int


@dataclass(frozen=True)
class MapBody:
    """What a MAP body says. `start` and `ack` are the low 32 bits of minislots, `ranging` and `data` its back-offs."""

    channel: int
    ucd: int
    start: int
    ack: int
    ranging: Backoff
    data: Backoff
    elements: Tuple[Element, ...]


_head = Layout("MapBody", HeadFields, " ".join(name for name, *_ in HeadFields._fields_))
_element = Layout("Element", ElementFields, "sid offset iuc")
_cell = Layout("Cell", CellFields, "sid iuc")
_look_up = Numbers("cell_at", u16="minislot").pack
_Elements = ElementFields * ELEMENTS


def decode(body: bytes) -> MapBody:
    """What a body's bytes say. MAP_SHORT, MAP_TRAILING, MAP_EXPANSION, MAP_OUT_OF_ORDER, MAP_NO_NULL: they are none."""
    body = bytes_of("a MAP body", body)
    head, elements, count = HeadFields(), _Elements(), ctypes.c_size_t()
    at = ctypes.addressof
    status = library.upsched_c_map_decode(body, len(body), at(head), at(elements), ELEMENTS, at(count))
    if status:
        raise _fault(status, count.value)
    start, ack, channel, ucd, *backoffs = _head.unpack_from(head)
    found = ctypes.string_at(elements, count.value * ctypes.sizeof(ElementFields))
    made = tuple(Element(*fields) for fields in _element.iter_unpack(found))
    return MapBody(channel, ucd, start, ack, (backoffs[0], backoffs[1]), (backoffs[2], backoffs[3]), made)


def encode(body: MapBody) -> bytes:
    """The bytes of a body. BAD_FIELD: an element's field is too large; MAP_EXPANSION, MAP_OUT_OF_ORDER, MAP_NO_NULL,
    MAP_TOO_MANY: the elements make none."""
    if not isinstance(body, MapBody):
        raise TypeError(f"a MapBody is written, and not {type(body).__name__}")
    (a, b), (c, d) = body.ranging, body.data
    head = _head.pack(body.start, body.ack, body.channel, body.ucd, a, b, c, d)
    elements = b"".join(_element.pack(item.sid, item.offset, item.iuc) for item in body.elements)
    room, written = ctypes.create_string_buffer(BODY_BYTES), ctypes.c_size_t()
    status = library.upsched_c_map_encode(
        head, elements, len(body.elements), ctypes.addressof(room), BODY_BYTES, ctypes.addressof(written)
    )
    if status:
        raise _fault(status, written.value)
    return room.raw[: written.value]


def cell_at(body: bytes, minislot: int) -> Optional[Cell]:
    """Whose a minislot of a body is, counted from its start; None where no interval has it. The errors are those of
    decode, and the number is 0 to 65535."""
    body = bytes_of("a MAP body", body)
    _look_up(minislot)
    cell = CellFields()
    status = library.upsched_c_map_cell_at(body, len(body), minislot, ctypes.addressof(cell))
    if status == Status.NONE:
        return None
    if status:
        raise error(status)
    return Cell(*_cell.unpack_from(cell))


def _fault(status: int, element: int) -> Exception:
    """A fault of the codec, with the element that it is of."""
    has_element = status in (Status.BAD_FIELD, Status.MAP_EXPANSION, Status.MAP_OUT_OF_ORDER)
    return error(status, element if has_element else None)
