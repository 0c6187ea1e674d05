"""Outputs of a scheduler, and what a modem answers."""
from __future__ import annotations

import ctypes
import enum
from dataclasses import dataclass
from typing import Any, Optional, Union

from ._library import EventFields, Layout, OutputFields, SendingFields


class OutputKind(enum.IntEnum):
    """The kinds of outputs."""

    NOTHING = 0
    CHANNEL_SET = 1
    ASSIGNED = 2
    MAP = 3
    REFUSED = 4


class Refusal(enum.IntEnum):
    """Why a command is refused. It changes nothing then."""

    NO_CHANNEL = 1
    CHANNEL_THERE = 2
    NO_FLOW = 3
    SIDS_SPENT = 4
    BUSY = 5
    OLD_REQUEST = 6
    BAD_VALUE = 7

    @property
    def text(self) -> str:
        """What the refusal says."""
        return _TEXTS[self]


_TEXTS = {
    Refusal.NO_CHANNEL: "the channel wasn't set",
    Refusal.CHANNEL_THERE: "the channel was set before",
    Refusal.NO_FLOW: "no flow has that SID",
    Refusal.SIDS_SPENT: "all SIDs of the channel are leased",
    Refusal.BUSY: "the SID has a request that waits, or 118 wait on the channel",
    Refusal.OLD_REQUEST: "it was sent no later than the last request, or before the lease",
    Refusal.BAD_VALUE: "a value is outside its limits",
}
_REFUSALS = {int(refusal): refusal for refusal in Refusal}


@dataclass(frozen=True)
class Nothing:
    """There is nothing to tell."""


@dataclass(frozen=True)
class ChannelSet:
    """A channel is set, or has other settings, under this count of its description."""

    ch: int
    ucd: int


@dataclass(frozen=True)
class Assigned:
    """A SID is leased to a modem from minislot `first` to minislot `last`."""

    modem: int
    ch: int
    sid: int
    first: int
    last: int


@dataclass(frozen=True)
class MapMessage:
    """A MAP of `minislots` minislots from minislot `start` on; `body` is its bytes."""

    ch: int
    start: int
    minislots: int
    body: bytes


@dataclass(frozen=True)
class Refused:
    """A command is refused, and changed nothing."""

    refusal: Refusal


Output = Union[Nothing, ChannelSet, Assigned, MapMessage, Refused]

_NOTHING = Nothing()
_BODY_AT = ctypes.sizeof(OutputFields)
_REFUSED = {number: Refused(refusal) for number, refusal in _REFUSALS.items()}
_output = Layout("Output", OutputFields, " ".join(name for name, *_ in OutputFields._fields_)).unpack_from


def output_of(room: Any) -> Output:
    """The output of the struct that the room begins with; behind it is a MAP's body."""
    kind, modem, first, last, start, body_len, sid, minislots, ch, ucd, refusal = _output(room)
    if kind == 3:
        return MapMessage(ch, start, minislots, room[_BODY_AT : _BODY_AT + body_len])
    if kind == 0:
        return _NOTHING
    if kind == 2:
        return Assigned(modem, ch, sid, first, last)
    if kind == 1:
        return ChannelSet(ch, ucd)
    return _REFUSED[refusal]


class Heard(enum.IntEnum):
    """How a modem heard an output."""

    TAKEN = 0
    NOT_MINE = 1
    OTHER_UCD = 2
    PAST = 3
    UNREADABLE = 4


class SendingKind(enum.IntEnum):
    """What a modem sends at a minislot."""

    NOTHING = 0
    DATA = 1
    POLLED = 2
    REQUEST = 3
    RANGING = 4


class EventKind(enum.IntEnum):
    """What a modem does next."""

    GRANT = 1
    POLLED = 2
    CONTENTION = 3
    LEASE_END = 4
    RANGING = 5


@dataclass(frozen=True)
class Sending:
    """What a modem sends at a minislot by a SID.

    DATA: in a grant. POLLED: at a poll it asks for `minislots` minislots. REQUEST: so it does where all may ask.
    RANGING: it ranges.
    """

    kind: SendingKind
    sid: int
    minislots: int


@dataclass(frozen=True)
class Event:
    """What a modem does at minislot `slot`.

    GRANT: it sends data up to minislot `last` of a grant that began at `first`, by this IUC. POLLED: it sends a request
    at a poll. CONTENTION: its request takes part where all may send one. LEASE_END: its want goes. RANGING: it ranges
    up to minislot `last`. A field that the kind doesn't have is 0.
    """

    slot: int
    kind: EventKind
    sid: int
    first: int
    last: int
    iuc: int
    minislots: int


HEARD = tuple(Heard)
_SENDINGS = tuple(SendingKind)
_EVENTS = {int(kind): kind for kind in EventKind}
_sending = Layout("Sending", SendingFields, "kind sid minislots").unpack_from
_event = Layout("Event", EventFields, "slot first last kind sid minislots iuc").unpack_from


def sending_of(fields: ctypes.Structure) -> Optional[Sending]:
    """What the struct says is sent; None where nothing is."""
    kind, sid, minislots = _sending(fields)
    return Sending(_SENDINGS[kind], sid, minislots) if kind else None


def event_of(fields: ctypes.Structure) -> Event:
    """The event of the struct."""
    slot, first, last, kind, sid, minislots, iuc = _event(fields)
    return Event(slot, _EVENTS[kind], sid, first, last, iuc, minislots)
