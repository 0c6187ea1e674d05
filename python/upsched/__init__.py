"""The upstream scheduler of DOCSIS (CM-SP-MULPIv3.1, MAP version 1): MAP bodies, a scheduler, modems.

A time is a minislot number of the channel, not wrapped. MAP bodies carry its low 32 bits, which the library makes and
restores. Sizes and offsets are minislots, a back-off is two exponents of two.

What a call does is proved of the library, libupsched.so.0; this package, which calls it, is only tested. The library is
found where the environment's UPSCHED_LIBRARY says, else in the tree or the package that this folder is in, else where
the system looks. Another version of it is an ImportError.

A status of the library other than OK is an exception: OutOfMemory, which is a MemoryError, or UpschedError. A number
that doesn't fit its field is a ValueError, and what is no int or no bytes a TypeError, also True and None; then the
library isn't called. Refusals of the scheduler are outputs.

Threads may use one handle: each call has it for itself. A forked child opens its own.
"""
from ._codec import EVERYBODY, Cell, Element, Iuc, MapBody, cell_at, decode, encode
from ._commands import (
    LAST_TIME, Backoff, BestEffort, Change, Channel, Command, CommandKind, Cut, Drop, Initial, Noop, Phy, Poll, Request,
    Service, Station, Ugs,
)
from ._errors import OutOfMemory, Status, UpschedError
from ._handles import Machine, Map, Modem
from ._library import BODY_BYTES, ELEMENTS
from ._library import VERSION as __version__
from ._outputs import (
    Assigned, ChannelSet, Event, EventKind, Heard, MapMessage, Nothing, Output, OutputKind, Refusal, Refused, Sending,
    SendingKind,
)
from ._rows import ChannelState, FlowState, WaitingRequest

__all__ = [
    "BODY_BYTES", "ELEMENTS", "EVERYBODY", "LAST_TIME", "Assigned", "Backoff", "BestEffort", "Cell", "Change",
    "Channel", "ChannelSet", "ChannelState", "Command", "CommandKind", "Cut", "Drop", "Element", "Event", "EventKind", "FlowState", "Heard",
    "Initial", "Iuc", "Machine", "Map", "MapBody", "MapMessage", "Modem", "Noop", "Nothing", "OutOfMemory", "Output",
    "OutputKind", "Phy", "Poll", "Refusal", "Refused", "Request", "Sending", "SendingKind", "Service", "Station",
    "Status", "Ugs", "UpschedError", "WaitingRequest", "cell_at", "decode", "encode",
]
