"""What calls answer: statuses, and the exceptions that they are."""
from __future__ import annotations

import enum
from typing import Optional


class Status(enum.IntEnum):
    """What a call answers. Any but OK leaves what a handle holds as it was."""

    OK = 0
    CLOSED = 1
    OTHER_KIND = 2
    OPEN = 3
    NO_ROOM = 4
    BAD_FIELD = 5
    OUT_OF_MEMORY = 6
    NONE = 7
    NULL = 8
    MAP_SHORT = 101
    MAP_TRAILING = 102
    MAP_EXPANSION = 103
    MAP_OUT_OF_ORDER = 104
    MAP_NO_NULL = 105
    MAP_TOO_MANY = 107
    ROWS_SHORT = 201
    ROWS_TRAILING = 202
    ROWS_NO_CHANNEL = 203
    ROWS_NO_FLOW = 204
    ROWS_NO_REQUEST = 205
    ROWS_NOT_FIRM = 206
    WANT_NOT_MINE = 301
    WANT_WAITING = 302
    WANT_BAD_SIZE = 303
    TIME_BACK = 401

    @property
    def text(self) -> str:
        """What the status says."""
        return _TEXTS[self]


_TEXTS = {
    Status.OK: "it is done",
    Status.CLOSED: "the handle is closed",
    Status.OTHER_KIND: "the handle is open as another kind",
    Status.OPEN: "the handle is open already",
    Status.NO_ROOM: "the room given is too small",
    Status.BAD_FIELD: "a field can't hold that value, or bytes spell nothing",
    Status.OUT_OF_MEMORY: "there is no memory",
    Status.NONE: "there is no such item",
    Status.NULL: "a pointer is NULL",
    Status.MAP_SHORT: "a MAP body has fewer bytes than its count asks for, or fewer than 16",
    Status.MAP_TRAILING: "a MAP body has more bytes than its count asks for",
    Status.MAP_EXPANSION: "an element of a MAP has IUC 15",
    Status.MAP_OUT_OF_ORDER: "an element of a MAP up to the Null begins before the one before it",
    Status.MAP_NO_NULL: "no element of a MAP has IUC 7",
    Status.MAP_TOO_MANY: "a MAP has more than 255 elements",
    Status.ROWS_SHORT: "saved tables end within a field, or before it",
    Status.ROWS_TRAILING: "bytes follow the last field of saved tables",
    Status.ROWS_NO_CHANNEL: "a channel of saved tables is none",
    Status.ROWS_NO_FLOW: "a flow of saved tables is none",
    Status.ROWS_NO_REQUEST: "a waiting request of saved tables hasn't 1 to 255 minislots",
    Status.ROWS_NOT_FIRM: "no commands could leave the saved table of a channel",
    Status.WANT_NOT_MINE: "no lease of the SID ends at the channel's clock or later",
    Status.WANT_WAITING: "a want of the SID is there",
    Status.WANT_BAD_SIZE: "a want isn't for 1 to 255 minislots",
    Status.TIME_BACK: "a tick is before the channel's clock",
}


class UpschedError(Exception):
    """A call that answered another status than OK, and changed nothing.

    `status` is the Status, `name` its name, and `element` the element of a MAP that it is of, from 0, where it is of
    one. `channel` is the channel that it is of, where it is ROWS_NOT_FIRM.
    """

    def __init__(self, status: int, element: Optional[int] = None, channel: Optional[int] = None) -> None:
        self.status = Status(status)
        self.name = self.status.name
        self.element = element
        self.channel = channel
        where = "" if element is None else f", element {element}"
        where += "" if channel is None else f", channel {channel}"
        super().__init__(f"{self.name} ({int(status)}): {self.status.text}{where}")


class OutOfMemory(MemoryError):
    """A call that lacked memory, and changed nothing: it may be made again."""

    status = Status.OUT_OF_MEMORY
    name = Status.OUT_OF_MEMORY.name

    def __init__(self) -> None:
        super().__init__(f"{self.name} ({int(self.status)}): {self.status.text}")


def error(status: int, element: Optional[int] = None) -> Exception:
    """The exception that a status other than OK is."""
    return OutOfMemory() if status == Status.OUT_OF_MEMORY else UpschedError(status, element)
