"""What calls answer: values, each status by a call that has it, and numbers and bytes that are none."""
import copy
import pickle
import unittest

import upsched
from upsched import (
    Assigned, BestEffort, Change, Channel, ChannelSet, Cut, Drop, Element, EventKind, Heard, Initial, Machine, Map,
    MapBody, Modem, Noop, Nothing, Poll, Refusal, Refused, Request, SendingKind, Station, Status, Ugs, UpschedError,
)
from upsched import _library
from upsched._library import library as loaded

GRANT = bytes.fromhex("01070300000003e8000003e30205030800058000fffc40140001c064")
ELEMENTS = (Element(1, 0, 6), Element(upsched.EVERYBODY, 20, 1), Element(0, 100, 7))
BODY = MapBody(1, 7, 1000, 995, (2, 5), (3, 8), ELEMENTS)
RANGING = bytes.fromhex("01070300000003e8000003e80205030800050000fffc40020001c00a")
LEASE = Assigned(50, 1, 1, 0, upsched.LAST_TIME)


def modem_of_sid_1():
    modem = Modem(50)
    modem.hear(ChannelSet(1, 7), 0)
    modem.hear(LEASE, 0)
    return modem


def closed(kind, *given):
    made = kind(*given)
    made.close()
    made.close()
    return made


def with_elements(*elements):
    return MapBody(1, 7, 0, 0, (0, 0), (0, 0), tuple(Element(*fields) for fields in elements))


class Calls(unittest.TestCase):
    def test_the_codec(self):
        self.assertEqual(upsched.decode(GRANT), BODY)
        self.assertEqual(upsched.decode(memoryview(bytearray(GRANT))), BODY)
        self.assertEqual(upsched.encode(BODY), GRANT)
        cells = [upsched.cell_at(GRANT, minislot) for minislot in (0, 19, 20, 99, 100)]
        everybody = upsched.Cell(upsched.EVERYBODY, upsched.Iuc.REQUEST)
        self.assertEqual(cells, [upsched.Cell(1, 6)] * 2 + [everybody] * 2 + [None])

    def test_the_scheduler(self):
        with Machine() as machine:
            rows = [
                (Noop(), Nothing()),
                (Channel(1, 7, base=1000, phy=upsched.Phy.ADVANCED), ChannelSet(1, 7)),
                (Change(1, 8, upsched.Phy.TDMA, 16, (2, 5), (3, 8)), ChannelSet(1, 8)),
                (BestEffort(1, 50, 1, priority=3), LEASE),
                (Ugs(1, 51, 1, 4, 40, 8, 1000, last=5000), Assigned(51, 1, 2, 0, 5000)),
                (Poll(1, 52, 1, 40, 8, 1000, last=6000), Assigned(52, 1, 3, 0, 6000)),
                (Station(1, 54, 1, 2, 40, 8, 1000), Assigned(54, 1, 4, 0, upsched.LAST_TIME)),
                (Initial(1, 0, 1, 30, 1000, 50, 1010), Assigned(0, 1, 5, 0, upsched.LAST_TIME)),
                (Drop(1, 5), Nothing()),
                (Drop(1, 2), Nothing()),
                (Request(1, 1, 20, 990), Nothing()),
                (Request(1, 1, 20, 991), Refused(Refusal.BUSY)),
                (bytes.fromhex("0401000100140000000000000000")[:14], Refused(Refusal.OLD_REQUEST)),
                (BestEffort(1, 53, 1, last=0), Refused(Refusal.BAD_VALUE)),
                (Drop(2, 1), Refused(Refusal.NO_CHANNEL)),
            ]
            for command, output in rows:
                self.assertEqual(machine.apply(command), output)
            kept = machine.apply(Cut(1, 40, not_before=1100, ack=995, keep=10, ranging=(0, 1), data=(4, 4)))
            head = upsched.decode(kept.body)
            self.assertEqual((kept.start, head.ucd, head.ranging, head.data), (1100, 8, (0, 1), (4, 4)))
            self.assertEqual(upsched.decode(machine.apply(Cut(1, 40)).body).data, (3, 8))

    def test_rows_of_the_scheduler(self):
        machine = Machine()
        commands = [
            Channel(1, 7, base=1000), BestEffort(1, 50, 1), BestEffort(1, 51, 4, priority=7, last=5000),
            Poll(1, 52, 1, 40, 8, 1010), Initial(1, 0, 1, 30, 1000, 50, 1200), Request(1, 1, 200, 990),
            Request(1, 2, 5, 980), Cut(1, 100, ack=995),
        ]
        for command in commands:
            self.assertNotIsInstance(machine.apply(command), Refused)
        self.assertEqual(machine.channel(1), upsched.ChannelState(1100, 995, 1))
        self.assertEqual(machine.waiting(1, 0), upsched.WaitingRequest(1, 200, 990))
        last = upsched.LAST_TIME
        flows = [
            upsched.FlowState(1, 50, 1, 0, last, upsched.Service.BEST_EFFORT, 0),
            upsched.FlowState(2, 51, 4, 0, 5000, upsched.Service.BEST_EFFORT, 0),
            upsched.FlowState(3, 52, 1, 0, last, upsched.Service.POLL, 1130),
            upsched.FlowState(4, 0, 1, 0, last, upsched.Service.INITIAL, 1200),
        ]
        self.assertEqual([machine.flow(1, flow.sid) for flow in flows], flows)
        machine.apply(Request(1, 2, 7, 996))
        self.assertEqual([machine.waiting(1, k).sid for k in (0, 1)], [1, 2])
        machine.apply(Drop(1, 1))
        self.assertEqual(machine.waiting(1, 0), upsched.WaitingRequest(2, 7, 996))
        none = [machine.channel(2), machine.waiting(2, 0), machine.waiting(1, 1), machine.waiting(1, 2**32 - 1)]
        none += [machine.flow(2, 1), machine.flow(1, 1), machine.flow(1, 0), machine.flow(1, 5)]
        self.assertEqual(none, [None] * 8)

    def test_the_modem(self):
        modem = modem_of_sid_1()
        rows = [
            (Nothing(), Heard.NOT_MINE), (Refused(Refusal.BUSY), Heard.NOT_MINE),
            (Assigned(9, 1, 2, 0, 9), Heard.NOT_MINE), (b"no body", Heard.UNREADABLE), (Map(GRANT), Heard.TAKEN),
            (bytearray(GRANT), Heard.TAKEN),
        ]
        for output, heard in rows:
            self.assertIs(modem.hear(output, 1000), heard)
        self.assertEqual(modem.next(1, 0), upsched.Event(1000, EventKind.GRANT, 1, 1000, 1019, 6, 0))
        self.assertTrue(modem.want(1, 1, 9))
        self.assertFalse(modem.want(1, 1, 9))
        self.assertEqual(modem.tick(1, 1019, 0), upsched.Sending(SendingKind.DATA, 1, 0))
        self.assertEqual(modem.next(1, 0), upsched.Event(1020, EventKind.CONTENTION, 1, 0, 0, 0, 9))
        self.assertIsNone(modem.tick(1, 1020, 1))
        self.assertEqual(modem.tick(1, 1021, 1), upsched.Sending(SendingKind.REQUEST, 1, 9))
        self.assertEqual((modem.clock(1), modem.clock(2), modem.next(2, 0)), (1022, None, None))
        self.assertIs(modem.hear(GRANT, 1100), Heard.PAST)

    def test_a_modem_that_ranges(self):
        modem = modem_of_sid_1()
        modem.hear(RANGING, 1000)
        self.assertEqual(modem.next(1, 1000), upsched.Event(1000, EventKind.RANGING, 1, 1000, 1001, 0, 0))
        self.assertEqual(modem.tick(1, 1001, 0), upsched.Sending(SendingKind.RANGING, 1, 0))


class Statuses(unittest.TestCase):
    def test_each_status(self):
        many = with_elements(*[(0, 0, 7)] * 256)
        modem = modem_of_sid_1()
        modem.tick(1, 9, 0)
        rows = {
            Status.CLOSED: lambda: closed(Machine).apply(Noop()),
            Status.OTHER_KIND: lambda: Machine.flow(Modem(1), 1, 1),
            Status.OPEN: lambda: Machine().__init__(),
            Status.BAD_FIELD: lambda: Machine().apply(b""),
            Status.MAP_SHORT: lambda: upsched.decode(GRANT[:15]),
            Status.MAP_TRAILING: lambda: Map(GRANT + b"\0"),
            Status.MAP_EXPANSION: lambda: upsched.encode(with_elements((1, 0, 5), (1, 0, 15))),
            Status.MAP_OUT_OF_ORDER: lambda: upsched.encode(with_elements((1, 10, 5), (1, 9, 5))),
            Status.MAP_NO_NULL: lambda: upsched.encode(with_elements((1, 10, 5))),
            Status.MAP_TOO_MANY: lambda: upsched.encode(many),
            Status.WANT_NOT_MINE: lambda: Modem(1).want(1, 1, 20),
            Status.TIME_BACK: lambda: modem.tick(1, 8, 0),
            Status.WANT_BAD_SIZE: lambda: modem_of_sid_1().want(1, 1, 256),
        }
        for status, call in rows.items():
            with self.subTest(status.name):
                with self.assertRaises(UpschedError) as raised:
                    call()
                self.assertIs(raised.exception.status, status)
                self.assertEqual(raised.exception.name, status.name)
                self.assertIn(status.text, str(raised.exception))
        # Of the others, two are no exceptions, one is in test_loading.py, and no call of the package has two.
        others = {Status.OK, Status.NONE, Status.WANT_WAITING, Status.OUT_OF_MEMORY, Status.NO_ROOM, Status.NULL}
        saved = {status for status in Status if status.name.startswith("ROWS_")}  # test_saved.py has a call for each
        self.assertEqual(set(rows) | others | saved, set(Status))

    def test_no_room(self):
        head, elements, count = _library.HeadFields(), _library.ElementFields(), _library.ctypes.c_size_t()
        at = _library.ctypes.addressof
        decode = loaded.upsched_c_map_decode
        self.assertEqual(decode(GRANT, len(GRANT), at(head), at(elements), 1, at(count)), Status.NO_ROOM)
        self.assertEqual(count.value, 3)

    def test_which_element(self):
        with self.assertRaises(UpschedError) as raised:
            upsched.encode(with_elements((1, 0, 5), (1, 0, 16), (0, 0, 7)))
        self.assertEqual((raised.exception.status, raised.exception.element), (Status.BAD_FIELD, 1))

    def test_nothing_changed(self):
        with Machine() as machine:
            machine.apply(Channel(1, 7, 1000))
            with self.assertRaises(UpschedError):
                machine.apply(b"\5")
            self.assertEqual(machine.apply(Cut(1, 10)).start, 1000)


class Hostile(unittest.TestCase):
    def test_numbers(self):
        machine, modem = Machine(), modem_of_sid_1()
        calls = [
            ("ch", 8, lambda n: machine.apply(Drop(n, 1))),
            ("sid", 16, lambda n: machine.apply(Drop(1, n))),
            ("sent", 64, lambda n: machine.apply(Request(1, 1, 20, n))),
            ("minislots", 16, lambda n: machine.apply(Cut(1, n))),
            ("keep", 16, lambda n: machine.apply(Cut(1, 10, keep=n))),
            ("modem", 32, lambda n: machine.apply(BestEffort(1, n, 1))),
            ("base", 64, lambda n: machine.apply(Ugs(1, 2, 3, 4, 40, 8, n))),
            ("interval", 32, lambda n: machine.apply(Poll(1, 2, 3, n, 8, 0))),
            ("ranging_start", 8, lambda n: machine.apply(Channel(1, 7, ranging=(n, 5)))),
            ("data_end", 8, lambda n: machine.apply(Change(1, 7, 0, 16, (0, 0), (0, n)))),
            ("modem", 32, Modem),
            ("near", 64, lambda n: modem.hear(GRANT, n)),
            ("ucd", 8, lambda n: modem.hear(ChannelSet(1, n), 0)),
            ("last", 64, lambda n: modem.hear(Assigned(50, 1, 1, 0, n), 0)),
            ("sid", 16, lambda n: modem.want(1, n, 20)),
            ("slot", 64, lambda n: modem.tick(1, n, 0)),
            ("random", 64, lambda n: modem.tick(1, 0, n)),
            ("ch", 8, lambda n: modem.tick(n, 0, 0)),
            ("start", 64, lambda n: modem.next(1, n)),
            ("ch", 8, lambda n: modem.next(n, 0)),
            ("ch", 8, lambda n: modem.clock(n)),
            ("ch", 8, machine.channel),
            ("ch", 8, lambda n: machine.waiting(n, 0)),
            ("k", 32, lambda n: machine.waiting(1, n)),
            ("sid", 16, lambda n: machine.flow(1, n)),
            ("minislot", 16, lambda n: upsched.cell_at(GRANT, n)),
            ("iuc", 8, lambda n: upsched.encode(with_elements((1, 0, n)))),
        ]
        for name, bits, call in calls:
            for number in (-1, 1 << bits, 1 << 64, 1 << 200):
                with self.subTest(name=name, number=number), self.assertRaisesRegex(ValueError, rf"\b{name} of "):
                    call(number)
            for what in (1.0, True, "1", b"1", [1], None):
                if name == "keep" and what is None:
                    continue
                with self.subTest(name=name, what=what), self.assertRaisesRegex(TypeError, rf"\b{name} of "):
                    call(what)

    def test_what_has_an_index(self):
        class Number:
            def __index__(self):
                return 50

        self.assertIsInstance(Machine().apply(Drop(Number(), 1)), Refused)
        self.assertEqual(Modem(Number()).hear(GRANT, Number()), Heard.OTHER_UCD)

    def test_bytes(self):
        machine, modem = Machine(), Modem(1)
        calls = [machine.apply, Map, upsched.decode]
        calls += [lambda given: modem.hear(given, 0), lambda given: upsched.cell_at(given, 0)]
        for call in calls:
            for given in (None, "text", 5, [1, 2], object(), Modem(1)):
                with self.subTest(given=given), self.assertRaises(TypeError):
                    call(given)
        for given in (None, GRANT, ELEMENTS):
            with self.assertRaises(TypeError):
                upsched.encode(given)
        self.assertRaises(UpschedError, machine.apply, b"\0" * 100_000)
        self.assertRaises(UpschedError, Map, memoryview(b""))
        with self.assertRaises(TypeError):
            machine.apply(upsched.Command)

    def test_pairs(self):
        for pair in ((), (1,), (1, 2, 3), 5, "25"):
            for other in ((1, 2), (1,), (1, 2, 3)):
                with self.assertRaises((TypeError, ValueError)):
                    Machine().apply(Channel(1, 7, ranging=pair, data=other))
                with self.assertRaises((TypeError, ValueError)):
                    Machine().apply(Cut(1, 7, ranging=other, data=pair))

    def test_handles_remain_what_they_are(self):
        for made in (Machine(), Modem(1), Map(GRANT)):
            for call in (copy.copy, copy.deepcopy, pickle.dumps):
                self.assertRaises(TypeError, call, made)
        with self.assertRaises(AttributeError):
            Noop().kind = 1

    def test_many_are_let_go_of(self):
        for _ in range(2000):
            Map(GRANT)
            with Machine() as machine:
                machine.apply(Channel(1, 7))
