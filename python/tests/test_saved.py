"""A scheduler is saved as bytes, and goes on from them."""
import unittest

import upsched
from upsched import BestEffort, Channel, Cut, Machine, Modem, Request, Status, Ugs, UpschedError

COMMANDS = (
    Channel(1, 7, base=1000), Ugs(1, 50, 1, 4, 40, 8, 1000), BestEffort(1, 51, 1), Cut(1, 100), Request(1, 2, 20, 1010),
)


def saved():
    with Machine() as machine:
        for command in COMMANDS:
            machine.apply(command)
        return machine.save()


class Saved(unittest.TestCase):
    def test_it_goes_on(self):
        self.assertEqual(Machine().save(), b"\0\0")
        with Machine() as whole, Machine.open(saved()) as part:
            for command in COMMANDS:
                whole.apply(command)
            self.assertEqual(part.save(), saved())
            self.assertEqual(part.apply(Cut(1, 100, ack=1050)), whole.apply(Cut(1, 100, ack=1050)))
            self.assertEqual(part.save(), whole.save())

    def test_each_part_is_refused_or_opened(self):
        given = saved()
        for length in range(len(given)):
            with self.assertRaises(UpschedError) as raised:
                Machine.open(given[:length])
            self.assertEqual(raised.exception.status, Status.ROWS_SHORT)
        rows = [
            (given + b"\0", Status.ROWS_TRAILING, None), (given[:2] + b"\2" + given[3:], Status.ROWS_NO_CHANNEL, None),
            (given[:89] + b"\5" + given[90:], Status.ROWS_NO_FLOW, None),
            (given[:142] + b"\0" + given[143:], Status.ROWS_NO_REQUEST, None),
            (b"\0\2" + given[2:] * 2, Status.ROWS_NOT_FIRM, 1),
        ]
        for bytes_of, status, channel in rows:
            with self.subTest(status.name), self.assertRaises(UpschedError) as raised:
                Machine.open(bytes_of)
            self.assertEqual((raised.exception.status, raised.exception.channel), (status, channel))

    def test_what_is_none(self):
        machine = Machine()
        machine.close()
        with self.assertRaises(UpschedError) as raised:
            machine.save()
        self.assertEqual(raised.exception.status, Status.CLOSED)
        self.assertRaises(TypeError, Machine.open, "00")
        self.assertRaises(AttributeError, lambda: Modem(1).save())
        self.assertEqual(Machine.open(bytearray(b"\0\0")).save(), b"\0\0")
        self.assertEqual(upsched.Status.ROWS_SHORT.text, "saved tables end within a field, or before it")


if __name__ == "__main__":
    unittest.main()
