"""Commands: what a scheduler is asked."""
from __future__ import annotations

import enum
from dataclasses import dataclass
from typing import Optional, Tuple

from ._library import CommandFields, Layout

LAST_TIME = 1 << 62
"""The last minislot of a lease without an end."""

Backoff = Tuple[int, int]
"""A back-off: its start and its end, exponents of two, 0 to 15."""

_OWN: Backoff = (255, 255)


class Phy(enum.IntEnum):
    """What a channel's grants are sent by."""

    TDMA = 0
    ADVANCED = 1


class Service(enum.IntEnum):
    """What a flow is served with."""

    BEST_EFFORT = 0
    UGS = 1
    POLL = 2
    STATION = 3
    INITIAL = 4


class CommandKind(enum.IntEnum):
    """The kinds of commands."""

    NOOP = 0
    CHANNEL = 1
    FLOW = 2
    DROP = 3
    REQUEST = 4
    CUT = 5
    CUT_SET = 6
    CHANGE = 7


def _layout(owner: str, names: str) -> Layout:
    return Layout(owner, CommandFields, names)


class Command:
    """What a scheduler is asked: one of the classes below."""

    def packed(self) -> bytes:
        """The struct of C. A number that doesn't fit is a ValueError."""
        raise NotImplementedError


_NOOP = _layout("Noop", "kind").pack
_SETTINGS = "ch ucd phy ranging_start ranging_end data_start data_end"
_CHANNEL = _layout("Channel", f"kind base short_max {_SETTINGS}").pack
_CHANGE = _layout("Change", f"kind short_max {_SETTINGS}").pack
_BEST_EFFORT = _layout("BestEffort", "kind modem tag last ch service priority").pack
_GRANTS = "kind modem tag interval jitter base last minislots ch service"
_UGS = _layout("Ugs", _GRANTS).pack
_STATION = _layout("Station", _GRANTS).pack
_INITIAL = _layout("Initial", _GRANTS).pack
_POLL = _layout("Poll", "kind modem tag interval jitter base last ch service").pack
_DROP = _layout("Drop", "kind sid ch").pack
_REQUEST = _layout("Request", "kind sent sid minislots ch").pack
_CUT = _layout("Cut", "kind not_before ack minislots ch").pack
_CUT_SET = _layout("Cut", "kind not_before ack minislots keep ch ranging_start ranging_end data_start data_end").pack


@dataclass(frozen=True)
class Noop(Command):
    """Does nothing."""

    def packed(self) -> bytes:
        return _NOOP(0)


@dataclass(frozen=True)
class Channel(Command):
    """Sets a channel: its first MAP begins at minislot `base`.

    `ucd` is the count of its description, which MAPs carry. A grant of up to `short_max` minislots is a short one.
    `ranging` and `data` are its back-offs, exponents of two. Refused: CHANNEL_THERE, BAD_VALUE.
    """

    ch: int
    ucd: int
    base: int = 0
    short_max: int = 16
    phy: int = Phy.TDMA
    ranging: Backoff = (2, 5)
    data: Backoff = (3, 8)

    def packed(self) -> bytes:
        (a, b), (c, d) = self.ranging, self.data
        return _CHANNEL(1, self.base, self.short_max, self.ch, self.ucd, self.phy, a, b, c, d)


@dataclass(frozen=True)
class Change(Command):
    """Gives a channel other settings, from its next MAP on.

    `ucd` is its count, or the next one; under the same count back-offs alone may change. There are no defaults, since
    each setting is set. Refused: NO_CHANNEL, BAD_VALUE.
    """

    ch: int
    ucd: int
    phy: int
    short_max: int
    ranging: Backoff
    data: Backoff

    def packed(self) -> bytes:
        (a, b), (c, d) = self.ranging, self.data
        return _CHANGE(7, self.short_max, self.ch, self.ucd, self.phy, a, b, c, d)


@dataclass(frozen=True)
class BestEffort(Command):
    """Adds a flow of a modem that asks for what it sends; `priority` is 0 to 7.

    Its SID is leased up to minislot `last`. The output is Assigned, again the same for a modem and tag whose lease goes
    on. Refused: NO_CHANNEL, BAD_VALUE, SIDS_SPENT.
    """

    ch: int
    modem: int
    tag: int
    priority: int = 0
    last: int = LAST_TIME

    def packed(self) -> bytes:
        return _BEST_EFFORT(2, self.modem, self.tag, self.last, self.ch, 0, self.priority)


@dataclass(frozen=True)
class Ugs(Command):
    """Adds a flow of unsolicited grants of `minislots` minislots, 1 to 255.

    Grant i is due at minislot `base` + i * `interval`, up to `jitter` minislots late. Outputs and refusals are those of
    BestEffort.
    """

    ch: int
    modem: int
    tag: int
    minislots: int
    interval: int
    jitter: int
    base: int
    last: int = LAST_TIME

    def packed(self) -> bytes:
        due = self.interval, self.jitter, self.base
        return _UGS(2, self.modem, self.tag, *due, self.last, self.minislots, self.ch, 1)


@dataclass(frozen=True)
class Poll(Command):
    """Adds a flow that may ask in a minislot of its own, due as a grant of Ugs.

    Outputs and refusals are those of BestEffort.
    """

    ch: int
    modem: int
    tag: int
    interval: int
    jitter: int
    base: int
    last: int = LAST_TIME

    def packed(self) -> bytes:
        return _POLL(2, self.modem, self.tag, self.interval, self.jitter, self.base, self.last, self.ch, 2)


@dataclass(frozen=True)
class Station(Command):
    """Adds a flow whose modem ranges in intervals of its own of `minislots` minislots, due as a grant of Ugs.

    Outputs and refusals are those of BestEffort.
    """

    ch: int
    modem: int
    tag: int
    minislots: int
    interval: int
    jitter: int
    base: int
    last: int = LAST_TIME

    def packed(self) -> bytes:
        due = self.interval, self.jitter, self.base
        return _STATION(2, self.modem, self.tag, *due, self.last, self.minislots, self.ch, 3)


@dataclass(frozen=True)
class Initial(Command):
    """Adds a flow of openings for everybody's first ranging of `minislots` minislots, due as a grant of Ugs.

    No MAP shows its SID, by which it is dropped. Outputs and refusals are those of BestEffort.
    """

    ch: int
    modem: int
    tag: int
    minislots: int
    interval: int
    jitter: int
    base: int
    last: int = LAST_TIME

    def packed(self) -> bytes:
        due = self.interval, self.jitter, self.base
        return _INITIAL(2, self.modem, self.tag, *due, self.last, self.minislots, self.ch, 4)


@dataclass(frozen=True)
class Drop(Command):
    """Takes away the flow of a SID, and its waiting request. Refused: NO_CHANNEL, NO_FLOW."""

    ch: int
    sid: int

    def packed(self) -> bytes:
        return _DROP(3, self.sid, self.ch)


@dataclass(frozen=True)
class Request(Command):
    """Asks for `minislots` minislots, 1 to 255, for a SID; its modem sent it in minislot `sent`.

    Refused: NO_CHANNEL, NO_FLOW, BAD_VALUE, OLD_REQUEST, BUSY.
    """

    ch: int
    sid: int
    minislots: int
    sent: int

    def packed(self) -> bytes:
        return _REQUEST(4, self.sent, self.sid, self.minislots, self.ch)


@dataclass(frozen=True)
class Cut(Command):
    """Makes the next MAP of a channel, of `minislots` minislots, 1 to 4096.

    It begins at minislot `not_before` at the earliest. `ack` is the minislot up to which requests were heard. Waiting
    requests leave `keep` minislots of it free, 0 to 4096. `ranging` and `data` are its back-offs, where it has others
    than the channel. Refused: NO_CHANNEL, BAD_VALUE.
    """

    ch: int
    minislots: int
    not_before: int = 0
    ack: int = 0
    keep: int = 0
    ranging: Optional[Backoff] = None
    data: Optional[Backoff] = None

    def packed(self) -> bytes:
        if self.keep == 0 and self.ranging is None and self.data is None and type(self.keep) is int:
            return _CUT(5, self.not_before, self.ack, self.minislots, self.ch)
        a, b = _OWN if self.ranging is None else self.ranging
        c, d = _OWN if self.data is None else self.data
        return _CUT_SET(6, self.not_before, self.ack, self.minislots, self.keep, self.ch, a, b, c, d)

