"""Rows of a scheduler: a channel, a request that waits, a flow."""
from __future__ import annotations

import ctypes
from dataclasses import dataclass

from ._commands import Service
from ._library import ChannelFields, FlowFields, Layout, WaitingFields


@dataclass(frozen=True)
class ChannelState:
    """A channel: its next MAP begins at minislot `next_start`, and `waiting` requests wait, 118 at most.

    `ack` is its Ack Time, the minislot up to which its last MAP has answered requests; 0 before the first MAP.
    """

    next_start: int
    ack: int
    waiting: int


@dataclass(frozen=True)
class WaitingRequest:
    """A request by this SID for `minislots` minislots, which its modem sent at minislot `sent`."""

    sid: int
    minislots: int
    sent: int


@dataclass(frozen=True)
class FlowState:
    """A flow: its SID is leased to a modem under a tag, from minislot `first` to minislot `last`.

    Its grants, its polls or its intervals to range in are due next at minislot `due`; 0 of best effort, which is never
    due.
    """

    sid: int
    modem: int
    tag: int
    first: int
    last: int
    service: Service
    due: int


_SERVICES = tuple(Service)
_channel = Layout("ChannelState", ChannelFields, "next_start ack waiting").unpack_from
_waiting = Layout("WaitingRequest", WaitingFields, "sent sid minislots").unpack_from
_flow = Layout("FlowState", FlowFields, "due first last modem tag sid service").unpack_from


def channel_of(fields: ctypes.Structure) -> ChannelState:
    """The channel of the struct."""
    return ChannelState(*_channel(fields))


def waiting_of(fields: ctypes.Structure) -> WaitingRequest:
    """The request of the struct."""
    sent, sid, minislots = _waiting(fields)
    return WaitingRequest(sid, minislots, sent)


def flow_of(fields: ctypes.Structure) -> FlowState:
    """The flow of the struct."""
    due, first, last, modem, tag, sid, service = _flow(fields)
    return FlowState(sid, modem, tag, first, last, _SERVICES[service], due)
