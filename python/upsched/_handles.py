"""What lives behind a handle of the library: schedulers, modems, and MAPs that many modems hear."""
from __future__ import annotations

import ctypes
import os
import threading
import weakref
from types import TracebackType
from typing import Any, Callable, NoReturn, Optional, Type, TypeVar, Union

from ._commands import Command
from ._errors import Status, UpschedError, error
from ._library import (
    BODY_BYTES, KEEPS_LOCK, ChannelFields, EventFields, FlowFields, HandleFields, Numbers, OutputFields, SendingFields,
    WaitingFields, bytes_of, library,
)
from ._outputs import (
    HEARD, Assigned, ChannelSet, Event, Heard, MapMessage, Nothing, Output, Refused, Sending, event_of, output_of,
    sending_of,
)

from ._rows import ChannelState, FlowState, WaitingRequest, channel_of, flow_of, waiting_of

Self = TypeVar("Self", bound="Handle")
AMachine = TypeVar("AMachine", bound="Machine")

_OUTPUT_BYTES = ctypes.sizeof(OutputFields)
_Room = ctypes.c_char * (_OUTPUT_BYTES + BODY_BYTES)
_handles: weakref.WeakSet[Handle] = weakref.WeakSet()


def _one_at_a_time(call: Callable[..., Any]) -> Callable[..., Any]:
    """The call, as Python keeps its lock in it. A Python without one takes that of each handle that the call is of."""
    if KEEPS_LOCK:
        return call

    def locked(handle: Handle, *rest: Any) -> Any:
        with handle._lock:
            if rest and isinstance(rest[0], Handle):
                with rest[0]._lock:
                    return call(handle, *rest)
            return call(handle, *rest)

    return locked


_close = _one_at_a_time(library.upsched_c_close)
_machine_open = _one_at_a_time(library.upsched_c_machine_open)
_machine_open_saved = _one_at_a_time(library.upsched_c_machine_open_saved)
_machine_save = _one_at_a_time(library.upsched_c_machine_save)
_apply = _one_at_a_time(library.upsched_c_machine_apply)
_apply_bytes = _one_at_a_time(library.upsched_c_machine_apply_bytes)
_channel = _one_at_a_time(library.upsched_c_machine_channel)
_waiting = _one_at_a_time(library.upsched_c_machine_waiting)
_flow = _one_at_a_time(library.upsched_c_machine_flow)
_map_open = _one_at_a_time(library.upsched_c_map_open)
_modem_open = _one_at_a_time(library.upsched_c_modem_open)
_hear_channel = _one_at_a_time(library.upsched_c_modem_hear_channel)
_hear_assigned = _one_at_a_time(library.upsched_c_modem_hear_assigned)
_hear_map = _one_at_a_time(library.upsched_c_modem_hear_map)
_hear_open_map = _one_at_a_time(library.upsched_c_modem_hear_open_map)
_want = _one_at_a_time(library.upsched_c_modem_want)
_tick = _one_at_a_time(library.upsched_c_modem_tick)
_next = _one_at_a_time(library.upsched_c_modem_next)
_clock = _one_at_a_time(library.upsched_c_modem_clock)

_NONE, _WAITING, _TIMES = int(Status.NONE), int(Status.WANT_WAITING), 1 << 64
_NO_ROOM, _NOT_FIRM = int(Status.NO_ROOM), int(Status.ROWS_NOT_FIRM)

# Refuse numbers that don't fit. Where they are seen to fit, these aren't called, since they take longer.
_id_fits = Numbers("Modem", u32="modem").pack
_time_fits = Numbers("hear", u64="near").pack
_channel_fits = Numbers("ChannelSet", u8="ch ucd").pack
_lease_fits = Numbers("Assigned", u32="modem", u8="ch", u16="sid", u64="first last").pack
_waiting_fits = Numbers("waiting", u8="ch", u32="k").pack
_flow_fits = Numbers("flow", u8="ch", u16="sid").pack
_want_fits = Numbers("want", u8="ch", u16="sid minislots").pack
_tick_fits = Numbers("tick", u8="ch", u64="slot random").pack
_next_fits = Numbers("next", u8="ch", u64="start").pack
_clock_fits = Numbers("clock", u8="ch").pack
_state_fits = Numbers("channel", u8="ch").pack


class Handle:
    """A handle of the library.

    It is closed by `close`, at the end of `with`, or when it is let go of, and in a forked child, where the parent goes
    on with it. A call of a closed one is the error CLOSED. It is neither copied nor pickled.
    """

    # The address of its struct, which ctypes takes for it.
    _as_parameter_: Optional[int] = None
    _fields: ctypes.Structure
    _lock: Any

    def __new__(cls: Type[Self], *given: Any, **named: Any) -> Self:
        made = super().__new__(cls)
        made._fields = HandleFields()
        made._as_parameter_ = ctypes.addressof(made._fields)
        made._lock = threading.RLock()
        _handles.add(made)
        return made

    def close(self) -> None:
        """Lets go of what the handle holds. Closing a closed one does nothing."""
        _close(self)

    def __enter__(self: Self) -> Self:
        return self

    def __exit__(
        self, kind: Optional[Type[BaseException]], fault: Optional[BaseException], trace: Optional[TracebackType]
    ) -> None:
        self.close()

    def __del__(self, close: Callable[[Any], Any] = library.upsched_c_close) -> None:
        if self._as_parameter_ is not None:
            close(self)

    def __reduce_ex__(self, protocol: Any) -> NoReturn:
        raise TypeError(f"a {type(self).__name__} is neither copied nor pickled: the library holds what it is")


def _forget() -> None:
    """Closes each handle in a forked child, and leaves what they held."""
    for handle in list(_handles):
        ctypes.memset(handle._as_parameter_ or 0, 0, ctypes.sizeof(HandleFields))
        handle._lock = threading.RLock()


if hasattr(os, "register_at_fork"):
    os.register_at_fork(after_in_child=_forget)


class Machine(Handle):
    """A scheduler, which has no channel at first. Errors: OutOfMemory."""

    def __init__(self) -> None:
        status = _machine_open(self)
        if status:
            raise error(status)

    def apply(self, command: Union[Command, bytes]) -> Output:
        """Applies a command, or the one that bytes spell, as in values of the log; and gives its output.

        A refusal is an output. Errors, which change nothing: CLOSED, BAD_FIELD (bytes that spell no command, or a PHY
        that is none), OutOfMemory, and ValueError for a number that doesn't fit its field.
        """
        room = _Room()
        at = ctypes.addressof(room)
        if isinstance(command, Command):
            status = _apply(self, command.packed(), at, at + _OUTPUT_BYTES)
        else:
            given = bytes_of("a command", command)
            status = _apply_bytes(self, given, len(given), at, at + _OUTPUT_BYTES)
        if status:
            raise error(status)
        return output_of(room)

    def channel(self, ch: int) -> Optional[ChannelState]:
        """Where the channel's next MAP begins, its Ack Time, and how many requests wait; None where it isn't set.

        Errors: CLOSED.
        """
        _state_fits(ch)
        fields = ChannelFields()
        status = _channel(self, ch, ctypes.addressof(fields))
        if status == _NONE:
            return None
        if status:
            raise error(status)
        return channel_of(fields)

    def waiting(self, ch: int, k: int) -> Optional[WaitingRequest]:
        """The channel's waiting request number k, by arrival, from 0; None where there are no more. Errors: CLOSED."""
        _waiting_fits(ch, k)
        fields = WaitingFields()
        status = _waiting(self, ch, k, ctypes.addressof(fields))
        if status == _NONE:
            return None
        if status:
            raise error(status)
        return waiting_of(fields)

    def flow(self, ch: int, sid: int) -> Optional[FlowState]:
        """The channel's flow that has this SID; None where none has it, since it was dropped or its lease has ended.

        Errors: CLOSED.
        """
        _flow_fits(ch, sid)
        fields = FlowFields()
        status = _flow(self, ch, sid, ctypes.addressof(fields))
        if status == _NONE:
            return None
        if status:
            raise error(status)
        return flow_of(fields)


    @classmethod
    def open(cls: Type[AMachine], saved: bytes) -> AMachine:
        """A scheduler that goes on as the one that was saved as these bytes.

        Errors: OutOfMemory; ROWS_SHORT, ROWS_TRAILING, ROWS_NO_CHANNEL, ROWS_NO_FLOW, ROWS_NO_REQUEST, ROWS_NOT_FIRM
        where no scheduler was saved so.
        """
        given = bytes_of("saved tables", saved)
        machine, channel = cls.__new__(cls), ctypes.c_uint8()
        status = _machine_open_saved(machine, given, len(given), ctypes.addressof(channel))
        if status == _NOT_FIRM:
            raise UpschedError(status, channel=channel.value)
        if status:
            raise error(status)
        return machine

    def save(self) -> bytes:
        """All that the scheduler holds, as bytes: the same for the same tables. Errors: CLOSED, OutOfMemory."""
        wanted, status = ctypes.c_size_t(), _NO_ROOM
        while status == _NO_ROOM:
            room = ctypes.create_string_buffer(wanted.value)
            status = _machine_save(self, ctypes.addressof(room), len(room), ctypes.addressof(wanted))
        if status:
            raise error(status)
        return room.raw[: wanted.value]


class Map(Handle):
    """A MAP whose body is read once, and which many modems hear.

    Errors: OutOfMemory; MAP_SHORT, MAP_TRAILING, MAP_EXPANSION, MAP_OUT_OF_ORDER, MAP_NO_NULL where the bytes are no
    body.
    """

    def __init__(self, body: Union[MapMessage, bytes]) -> None:
        given = bytes_of("a MAP body", body.body if isinstance(body, MapMessage) else body)
        status = _map_open(self, given, len(given))
        if status:
            raise error(status)


class Modem(Handle):
    """A modem of this number, 0 to 2^32 - 1, which has heard nothing. Errors: OutOfMemory."""

    def __init__(self, modem: int) -> None:
        _id_fits(modem)
        status = _modem_open(self, modem)
        if status:
            raise error(status)

    def hear(self, output: Union[Output, Map, bytes], near: int) -> Heard:
        """Hears an output, an open MAP or the bytes of a body, and says how.

        A MAP has only the low 32 bits of its times, which are restored near minislot `near`, below 2^63. Errors, which
        change nothing: CLOSED, BAD_FIELD (that minislot is none), OutOfMemory.
        """
        if type(near) is not int or not 0 <= near < _TIMES:
            _time_fits(near)
        heard = ctypes.c_uint32()
        at = ctypes.addressof(heard)
        if isinstance(output, Map):
            status = _hear_open_map(self, output, near, at)
        elif isinstance(output, ChannelSet):
            _channel_fits(output.ch, output.ucd)
            status = _hear_channel(self, output.ch, output.ucd, at)
        elif isinstance(output, Assigned):
            lease = output.modem, output.ch, output.sid, output.first, output.last
            _lease_fits(*lease)
            status = _hear_assigned(self, *lease, at)
        elif isinstance(output, (Nothing, Refused)):
            return Heard.NOT_MINE
        else:
            body = bytes_of("a MAP body", output.body if isinstance(output, MapMessage) else output)
            status = _hear_map(self, body, len(body), near, at)
        if status:
            raise error(status)
        return HEARD[heard.value]

    def want(self, ch: int, sid: int, minislots: int) -> bool:
        """Takes a want of 1 to 255 minislots, which the modem asks for until it is granted, or gives it up after 16
        tries. False where one of the SID waits already.

        Errors, which change nothing: CLOSED, WANT_NOT_MINE, WANT_BAD_SIZE, OutOfMemory.
        """
        _want_fits(ch, sid, minislots)
        status = _want(self, ch, sid, minislots)
        if status == _WAITING:
            return False
        if status:
            raise error(status)
        return True

    def tick(self, ch: int, slot: int, random: int) -> Optional[Sending]:
        """What the modem sends at a minislot, below 2^63; None where it sends nothing.

        Its back-off is drawn from `random`, any number below 2^64. Minislots come in rising order. Errors, which change
        nothing: CLOSED, BAD_FIELD (that minislot is none), TIME_BACK.
        """
        if not type(ch) is type(slot) is type(random) is int or ch >> 8 or slot >> 64 or random >> 64:
            _tick_fits(ch, slot, random)
        sending = SendingFields()
        status = _tick(self, ch, slot, random, ctypes.addressof(sending))
        if status:
            raise error(status)
        return sending_of(sending)

    def next(self, ch: int, start: int) -> Optional[Event]:
        """The first minislot from `start` on, below 2^63, whose tick sends something or changes more than the clock,
        and what it does. Ticks before it may be left out, until the modem hears or wants something. None where there is
        no such minislot, or the channel isn't known.

        Errors: CLOSED, BAD_FIELD (that minislot is none).
        """
        if not type(ch) is type(start) is int or ch >> 8 or start >> 64:
            _next_fits(ch, start)
        event = EventFields()
        status = _next(self, ch, start, ctypes.addressof(event))
        if status == _NONE:
            return None
        if status:
            raise error(status)
        return event_of(event)

    def clock(self, ch: int) -> Optional[int]:
        """The first minislot that a tick may have; None where the channel isn't known. Errors: CLOSED."""
        _clock_fits(ch)
        clock = ctypes.c_uint64()
        status = _clock(self, ch, ctypes.addressof(clock))
        if status == _NONE:
            return None
        if status:
            raise error(status)
        return clock.value
