"""Every question of the module, every refusal, and the bytes around outputs. From the repository's root, after `make shared`:

    /usr/bin/python3 -m unittest discover -s python

runs this and test_properties.py, which needs Debian's python3-hypothesis (apt-get install python3-hypothesis).
"""

from __future__ import annotations

import math
import os
import pathlib
import pickle
import re
import subprocess
import sys
import tempfile
import unittest
from typing import Any, Callable, Dict, List, Optional, Tuple

import kerbcanopy
from kerbcanopy import Difference, Kind, Refusal, Row, Stamp, Value


def raw(text: str) -> bytes:
    return bytes.fromhex(text)


RIG = raw("0014 0050 0002 0006 0002 0174 0008 0007 0269 6400")
READER = raw("000E 0050 0001 0008 0007 0269 6400")
DATA = raw("0019 0000 0009")
#: A rig whose second member is a Boolean, and a reader of that.
LAMP = raw("0016 0050 0002 0008 0007 0269 6400 0008 0021 036C 6974")
LIT = raw("000E 0050 0001 0008 0021 036C 6974")
WORD, TEXT = raw("0004 0003"), raw("0008 0030 FFFF FFFF")
ARRAY = raw("000E 0040 0001 FFFF FFFF 0004 000A")
ITEMS = raw("0016 0015 0003 0261 6D02 666D 0966 6D20 7374 6572 656F")
STAMP = raw("001C 0054 0006 0016 0050 0004 0004 0003 0004 0003 0004 0007 0004 0007")
#: The ends of a stamp's seconds and fraction.
LEAST, MOST, LAST = -(1 << 63), (1 << 63) - 1, (1 << 64) - 1


def cluster(*members: bytes) -> bytes:
    inside = b"".join(members)
    return (6 + len(inside)).to_bytes(2, "big") + raw("0050") + len(members).to_bytes(2, "big") + inside


def nested(levels: int) -> bytes:
    descriptor = WORD
    for _ in range(levels):
        descriptor = cluster(descriptor)
    return descriptor


#: For each number of a refusal of a descriptor: bytes that earn it, and the place.
DESCRIPTORS: Dict[int, Tuple[bytes, int]] = {
    1: (bytes(4_097), 0),
    2: (b"", 0),
    3: (raw("8004 0003"), 0),
    4: (raw("0005 0003 00"), 0),
    5: (raw("0004 0032"), 3),
    6: (nested(8), 48),
    7: (cluster(*[WORD] * 256), 6 + 255 * 4),
    8: (raw("0004 0030"), 4),
    9: (raw("0006 0050 0000"), 4),
    10: (raw("0018 0040 0001 FFFF FFFF") + ARRAY, 13),
    11: (raw("0006 0003 0261"), 4),
    12: (WORD + b"\0", 4),
}

#: Descriptors that are refused, as a member before another: the number, and how far behind the member's start the place is.
MEMBERS: List[Tuple[bytes, int, int]] = [
    (raw("0004 0032"), 5, 3),
    (raw("001C 0054 0005") + bytes(22), 5, 3),
    (raw("0004 0050"), 8, 4),
    (raw("0006 0030 FFFF"), 8, 6),
    (raw("0008 0015 0002 0161"), 8, 8),
    (raw("000A 0019 0002 0009 0001"), 8, 10),
    (raw("0006 0040 0001"), 8, 6),
    (raw("0004 0054"), 8, 4),
    (raw("0006 0017 0000"), 9, 4),
    (raw("0006 001E 000A"), 9, 4),
    (raw("0006 0040 0005"), 9, 4),
    (raw("0008 0030 FFFF FFFE"), 10, 4),
    (raw("0012 0040 0002 FFFF FFFF 0000 0000") + WORD, 10, 10),
    (raw("0012 0019 0003 0008 0009 0009 0001 0009 0001"), 10, 10),
    (raw("000A 0015 0001 0261 6201"), 10, 9),
    (raw("0018 0040 0001 FFFF FFFF") + ARRAY, 10, 13),
    (raw("000A 0054 0006") + WORD, 10, 0),
    (raw("000E 0054 0006 0008 0030 FFFF FFFE"), 10, 10),
    (raw("0006 0003 0261"), 11, 4),
    (raw("0008 0003 0261 6201"), 11, 4),
    (raw("000A 0030 FFFF FFFF 0261"), 11, 8),
    (raw("000C 0050 0001") + WORD + raw("0261"), 11, 10),
]

#: The same for data, with the descriptor that it stands under.
DATAS: Dict[int, Tuple[bytes, bytes, int]] = {
    20: (TEXT, bytes(65_537), 0),
    21: (RIG, DATA[:5], 2),
    22: (ARRAY, raw("8000 0000"), 0),
    23: (ITEMS, b"\3", 0),
    25: (WORD, bytes(5), 4),
}

#: The same for records: writer, reader, input and place.
RECORDS: Dict[int, Tuple[bytes, bytes, bytes, int, int]] = {
    40: (RIG, cluster(READER[6:], READER[6:]), DATA, 2, 1),
    41: (WORD, READER, bytes(4), 1, 0),
    42: (RIG, raw("000E 0050 0001 0008 0007 026E 6F00"), DATA, 2, 0),
    43: (cluster(READER[6:], READER[6:]), READER, bytes(8), 2, 0),
    44: (RIG, raw("000E 0050 0001 0008 0003 0269 6400"), DATA, 2, 0),
}


#: The shortest rig that has a blank's identifier, and others where it is signed, missing or doubled.
BLANK = raw("0010 0050 0001 000A 0007 0562 6C61 6E6B")
SIGNED = raw("0010 0050 0001 000A 0003 0562 6C61 6E6B")
MISSING = raw("0010 0050 0001 000A 0007 0562 6C61 6E63")
DOUBLED = cluster(BLANK[6:], BLANK[6:])


def blank(identifier: int) -> bytes:
    """The data of the shortest rig."""
    return identifier.to_bytes(4, "big")


def book(capacity: int, *identifiers: int, free: int = 0) -> bytes:
    """A blank book with records of the shortest rig in it; what is free is not zero."""
    entries, bodies = b"", b""
    start = 4 + 16 * capacity
    for identifier in identifiers:
        entries += b"".join(blank(number) for number in (identifier, start + len(bodies), len(BLANK), 4))
        bodies += BLANK + blank(identifier)
    head = capacity.to_bytes(2, "big") + len(identifiers).to_bytes(2, "big")
    return head + entries + bytes(16 * (capacity - len(identifiers))) + bodies + b"\xA5" * free


#: For each number that only a book's questions have: the question, what it is lent, and the place.
BOOKS: Dict[int, Tuple[Callable[..., Any], Tuple[Any, ...], int]] = {
    60: (kerbcanopy.store_add, (bytearray(book(2, 7, 9)), BLANK, blank(9)), 1),
    61: (kerbcanopy.store_add, (bytearray(book(2, 7, 9, free=20)), BLANK, blank(8)), 0),
    62: (kerbcanopy.store_add, (bytearray(book(2, 7, free=19)), BLANK, blank(8)), 20),
    63: (kerbcanopy.store_check, (book(3, 7, 9, 7),), 2),
    64: (kerbcanopy.store_find, (book(3, 7, 9), 0), 0),
}


#: Stamps whose difference is refused with 32.
FAR: List[Tuple[Stamp, Stamp]] = [
    (Stamp(0, 0), Stamp(LEAST, 0)),
    (Stamp(LEAST, 0), Stamp(0, 1)),
    (Stamp(-1, 4), Stamp(MOST, 5)),
    (Stamp(MOST, 0), Stamp(-1, 0)),
    (Stamp(MOST, LAST), Stamp(LEAST, 0)),
]


class Case(unittest.TestCase):
    def refused(self, expected: Tuple[int, int, int], call: Callable[..., Any], *arguments: Any) -> Refusal:
        with self.assertRaises(Refusal) as caught:
            call(*arguments)
        refusal = caught.exception
        self.assertEqual((refusal.number, refusal.input, refusal.place), expected)
        return refusal


class Questions(Case):
    def test_check_descriptor(self) -> None:
        rows = kerbcanopy.check_descriptor(raw("000E 0050 0002 0004 0002 0004 0007"))
        self.assertEqual(rows, [Row(0x50, 0, 14, 1, 2, 0, 0), Row(0x02, 6, 4, 2, 0, 0, 0), Row(0x07, 10, 4, 2, 0, 0, 0)])
        self.assertEqual([row.name(RIG) for row in kerbcanopy.check_descriptor(RIG)], [None, b"t", b"id"])
        empty = raw("0006 0003 0000")
        self.assertEqual(kerbcanopy.check_descriptor(empty)[0].name(empty), b"")
        self.assertEqual(len(kerbcanopy.check_descriptor(cluster(*[WORD] * 255))), 256)

    def test_compare(self) -> None:
        self.assertIs(kerbcanopy.compare(WORD, raw("0004 4003")), True)
        self.assertIs(kerbcanopy.compare(WORD, raw("0004 0007")), False)

    def test_normal_form(self) -> None:
        self.assertEqual(kerbcanopy.normal_form(raw("0004 4003")), WORD)

    def test_check_data(self) -> None:
        self.assertEqual(kerbcanopy.check_data(RIG, DATA), 2)
        self.assertEqual(kerbcanopy.check_data(raw("0012 0040 0002 FFFF FFFF FFFF FFFF 0004 000A"), raw("7FFF FFFF 0000 0000")), 1)

    def test_view(self) -> None:
        self.assertEqual(kerbcanopy.view(RIG, DATA, [1]), raw("0000 0009"))
        self.assertEqual(kerbcanopy.view(RIG, DATA), DATA)
        self.assertIs(kerbcanopy.view(RIG, DATA, [0]).obj, DATA)
        self.assertEqual(kerbcanopy.view(ARRAY, raw("0000 0002") + bytes(8) + b"\1" * 8, (1,)), b"\1" * 8)

    def test_read_value(self) -> None:
        cases: List[Tuple[int, str, Value, Any]] = [
            (0x01, "80", Value(Kind.SIGNED, (1 << 64) - 128), -128),
            (0x04, "7FFFFFFFFFFFFFFF", Value(Kind.SIGNED, (1 << 63) - 1), (1 << 63) - 1),
            (0x08, "FFFFFFFFFFFFFFFF", Value(Kind.UNSIGNED, (1 << 64) - 1), (1 << 64) - 1),
            (0x09, "41A40000", Value(Kind.SINGLE, 0x41A40000), 20.5),
            (0x0A, "C000000000000000", Value(Kind.DOUBLE, 0xC000000000000000), -2.0),
            (0x21, "01", Value(Kind.FLAG, 1), True),
            (0x21, "02", Value(Kind.FLAG, 1), True),
            (0x21, "FF", Value(Kind.FLAG, 1), True),
            (0x21, "00", Value(Kind.FLAG, 0), False),
        ]
        for code, data, value, number in cases:
            read = kerbcanopy.read_value(bytes([0, 4, 0, code]), raw(data))
            self.assertEqual((read, read.value, type(read.value)), (value, number, type(number)))
        self.assertEqual(kerbcanopy.read_value(ITEMS, b"\2").value, 2)

    def test_a_boolean_keeps_its_byte(self) -> None:
        for byte in range(256):
            data = raw("0000 0009") + bytes([byte])
            self.assertEqual(kerbcanopy.check_data(LAMP, data), 2)
            self.assertEqual(kerbcanopy.read_value(LAMP, data, [1]), Value(Kind.FLAG, int(byte != 0)))
            self.assertEqual(kerbcanopy.view(LAMP, data, [1]), data[4:])
            self.assertEqual(kerbcanopy.to_little_endian(LAMP, data), raw("0900 0000") + data[4:])
            self.assertEqual(kerbcanopy.from_little_endian(LAMP, raw("0900 0000") + data[4:]), data)
            self.assertEqual(kerbcanopy.read_record(LAMP, LIT, data), data[4:])

    def test_the_bits_of_what_is_no_number_are_kept(self) -> None:
        for code, data in ((0x09, "7F800001"), (0x0A, "FFF4000000000001")):
            read = kerbcanopy.read_value(bytes([0, 4, 0, code]), raw(data))
            self.assertEqual(read.bits, int(data, 16))
            self.assertTrue(math.isnan(read.value))

    def test_little_and_big(self) -> None:
        self.assertEqual(kerbcanopy.to_little_endian(RIG, DATA), raw("1900 0900 0000"))
        self.assertEqual(kerbcanopy.from_little_endian(RIG, raw("1900 0900 0000")), DATA)

    def test_read_record(self) -> None:
        self.assertEqual(kerbcanopy.read_record(RIG, READER, DATA), raw("0000 0009"))
        self.assertEqual(kerbcanopy.read_record(RIG, RIG, DATA), DATA)

    def test_stamp_difference(self) -> None:
        cases: List[Tuple[Stamp, Stamp, Difference]] = [
            (Stamp(5, 7), Stamp(3, 2), Difference(2, 5)),
            (Stamp(3, 2), Stamp(5, 7), Difference(-3, LAST - 4)),
            (Stamp(1, 0), Stamp(0, 1), Difference(0, LAST)),
            (Stamp(1 << 32, 1 << 32), Stamp(1, 1), Difference((1 << 32) - 1, (1 << 32) - 1)),
            (Stamp(0, 0), Stamp(LEAST, 1), Difference(MOST, LAST)),
            (Stamp(-1, 0), Stamp(MOST, 0), Difference(LEAST, 0)),
        ]
        for first, second, expected in cases:
            self.assertEqual(kerbcanopy.stamp_difference(first, second), expected)
        self.assertEqual(float(Difference(-1, 1 << 63)), -0.5)

    def test_a_stamp_out_of_data(self) -> None:
        data = raw("FFFFFFFF 80000000 00000001 00000002")
        self.assertEqual([kerbcanopy.read_value(STAMP, data, [0, at]).value for at in range(4)], [-1, -(1 << 31), 1, 2])
        for path in ((), (0,)):
            self.assertEqual(Stamp.of(kerbcanopy.view(STAMP, data, path)), Stamp(-(1 << 31), (1 << 32) + 2))
        for length in (0, 15, 17):
            with self.assertRaises(ValueError):
                Stamp.of(bytes(length))
        for kind in (bytes, bytearray, memoryview):
            self.assertEqual(Stamp.of(kind(data)), Stamp(-(1 << 31), (1 << 32) + 2))

    def test_what_no_stamp_holds(self) -> None:
        kinds: List[Callable[[int, int], Any]] = [Stamp, Difference]
        for made in kinds:
            for wrong in ((MOST + 1, 0), (LEAST - 1, 0), (0, LAST + 1), (0, -1)):
                with self.assertRaises(OverflowError):
                    made(*wrong)
            self.assertEqual(made(LEAST, LAST).fraction, LAST)
            with self.assertRaises(AttributeError):
                setattr(made(0, 0), "seconds", 1)

    def test_a_stamp_is_neither_a_tuple_nor_a_difference(self) -> None:
        one, other = Stamp(1, 0), Stamp(0, LAST)
        self.assertNotEqual(one, (1, 0))
        self.assertNotEqual(one, Difference(1, 0))
        self.assertEqual({one: "kept"}[pickle.loads(pickle.dumps(one))], "kept")
        self.assertEqual(sorted([one, other]), [other, one])
        self.assertLess(Difference(-1, LAST), Difference(0, 0))
        # As a caller without types could write it.
        anything: Any = one
        with self.assertRaises(TypeError):
            anything + other
        with self.assertRaises(TypeError):
            anything < Difference(1, 0)
        with self.assertRaises(TypeError):
            list(anything)
        for first, second in ((Difference(1, 0), one), (one, Difference(1, 0)), ((1, 0), one), (one, 1)):
            with self.assertRaises(TypeError):
                kerbcanopy.stamp_difference(first, second)  # type: ignore[arg-type]

    def test_whatever_has_bytes_can_be_lent(self) -> None:
        for kind in (bytes, bytearray, memoryview):
            self.assertEqual(kerbcanopy.read_record(kind(RIG), kind(READER), kind(DATA)), raw("0000 0009"))
            self.assertEqual(kerbcanopy.view(kind(RIG), kind(DATA), [1]), raw("0000 0009"))
        every_other = memoryview(bytes(one for byte in DATA for one in (byte, 0xFF)))[::2]
        self.assertEqual(kerbcanopy.view(RIG, every_other), DATA)
        for wrong in (5, "0004", [0, 4, 0, 3], None):
            with self.assertRaises(TypeError):
                kerbcanopy.check_descriptor(wrong)  # type: ignore[arg-type]


class Refusals(Case):
    def test_of_descriptors(self) -> None:
        for number, (descriptor, place) in DESCRIPTORS.items():
            first, second = (number, 1, place), (number, 2, place)
            self.refused(first, kerbcanopy.check_descriptor, descriptor)
            self.refused(first, kerbcanopy.normal_form, descriptor)
            self.refused(first, kerbcanopy.compare, descriptor, b"")
            self.refused(second, kerbcanopy.compare, WORD, descriptor)
            self.refused(first, kerbcanopy.check_data, descriptor, b"")
            self.refused(first, kerbcanopy.view, descriptor, b"", [0])
            self.refused(first, kerbcanopy.read_value, descriptor, b"", [0])
            self.refused(first, kerbcanopy.to_little_endian, descriptor, b"")
            self.refused(first, kerbcanopy.from_little_endian, descriptor, b"")
            self.refused(first, kerbcanopy.read_record, descriptor, b"", b"")
            self.refused(second, kerbcanopy.read_record, RIG, descriptor, b"")

    def test_of_members(self) -> None:
        for member, number, behind in MEMBERS:
            self.refused((number, 1, 6 + behind), kerbcanopy.check_descriptor, cluster(member, WORD))

    def test_of_data(self) -> None:
        for number, (descriptor, data, place) in DATAS.items():
            expected = (number, 3, place)
            self.refused(expected, kerbcanopy.check_data, descriptor, data)
            self.refused(expected, kerbcanopy.view, descriptor, data, [9])
            self.refused(expected, kerbcanopy.read_value, descriptor, data, [9])
            self.refused(expected, kerbcanopy.to_little_endian, descriptor, data)
            self.refused(expected, kerbcanopy.read_record, descriptor, WORD, data)
            turned = raw("0000 0080") if number == 22 else data
            self.refused(expected, kerbcanopy.from_little_endian, descriptor, turned)

    def test_of_paths(self) -> None:
        for step in (2, 1 << 31, (1 << 32) - 1, 1 << 32, 1 << 70, -1, -(1 << 32)):
            self.refused((30, 4, 0), kerbcanopy.view, RIG, DATA, [step])
            self.refused((30, 4, 0), kerbcanopy.read_value, RIG, DATA, [step])
        self.refused((30, 4, 1), kerbcanopy.view, RIG, DATA, [1, 0])
        self.refused((30, 4, 1), kerbcanopy.view, RIG, DATA, [1] * 100_000)
        self.refused((31, 4, 0), kerbcanopy.read_value, RIG, DATA)

    def test_of_records(self) -> None:
        for number, (writer, reader, data, input_, place) in RECORDS.items():
            self.refused((number, input_, place), kerbcanopy.read_record, writer, reader, data)
            self.refused((number, input_, place), kerbcanopy.read_record_into, writer, reader, data, bytearray())

    def test_of_differences(self) -> None:
        for first, second in FAR:
            self.refused((32, 4, 0), kerbcanopy.stamp_difference, first, second)

    def test_every_number_is_met_and_has_its_words(self) -> None:
        self.assertEqual({*DESCRIPTORS, *DATAS, *RECORDS, *BOOKS, 30, 31, 32, 50}, set(kerbcanopy.MEANINGS))
        self.assertEqual(len(set(kerbcanopy.MEANINGS.values())), 31)
        refusal = self.refused((21, 3, 2), kerbcanopy.check_data, RIG, DATA[:5])
        self.assertEqual(str(refusal), "refused with 21: the data ends inside this piece (input 3, the data; place 2)")
        self.assertEqual(pickle.loads(pickle.dumps(refusal)).args, refusal.args)
        self.assertIn("does not know", str(Refusal(99, 9, 0)))


#: The entries that fill a buffer, what they are lent, and what they write.
FILLED: List[Tuple[Callable[..., int], Tuple[bytes, ...], bytes]] = [
    (kerbcanopy.normal_form_into, (raw("0004 4003"),), WORD),
    (kerbcanopy.to_little_endian_into, (RIG, DATA), raw("1900 0900 0000")),
    (kerbcanopy.from_little_endian_into, (RIG, raw("1900 0900 0000")), DATA),
    (kerbcanopy.read_record_into, (RIG, READER, DATA), raw("0000 0009")),
]


class Outputs(Case):
    def test_what_stands_around_is_kept(self) -> None:
        for call, lent, expected in FILLED:
            for more in (0, 1, 40):
                around = bytearray(b"\xA5" * (16 + len(expected) + more + 16))
                room = memoryview(around)[16:16 + len(expected) + more]
                self.assertEqual(call(*lent, room), len(expected))
                self.assertEqual(around, b"\xA5" * 16 + expected + b"\xA5" * (more + 16))

    def test_a_refusal_writes_nothing(self) -> None:
        for call, lent, expected in FILLED:
            for length in range(len(expected)):
                around = bytearray(b"\xA5" * (length + 32))
                self.refused((50, 4, len(expected)), call, *lent, memoryview(around)[16:16 + length])
                self.assertEqual(around, b"\xA5" * (length + 32))
            around = bytearray(b"\xA5" * 32)
            self.refused((2, 1, 0), call, b"", *lent[1:], around)
            self.assertEqual(around, b"\xA5" * 32)

    def test_a_buffer_is_free_again_after_a_refusal(self) -> None:
        out = bytearray()
        try:
            kerbcanopy.normal_form_into(WORD, out)
        except Refusal as refusal:
            out.extend(bytes(refusal.place))
        self.assertEqual((kerbcanopy.normal_form_into(WORD, out), out), (4, WORD))

    def test_an_input_may_be_the_output(self) -> None:
        both = bytearray(raw("0004 4003"))
        self.assertEqual((kerbcanopy.normal_form_into(both, both), both), (4, WORD))

    def test_what_can_t_be_written_is_no_output(self) -> None:
        for wrong in (bytes(8), memoryview(bytes(8)), memoryview(bytearray(8))[::2], "text", None):
            with self.assertRaises((TypeError, BufferError)):
                kerbcanopy.normal_form_into(WORD, wrong)  # type: ignore[arg-type]


class Books(Case):
    def test_records_are_added_one_behind_the_other(self) -> None:
        for free in (0, 1, 30):
            store = bytearray(book(3, free=60 + free))
            for count, identifier in enumerate((7, 0, (1 << 32) - 1), start=1):
                kerbcanopy.store_add(store, BLANK, blank(identifier))
                self.assertEqual(store, book(3, *(7, 0, (1 << 32) - 1)[:count], free=20 * (3 - count) + free))

    def test_a_book_is_asked(self) -> None:
        whole = book(3, 7, 0, free=5)
        for kind in (bytes, bytearray, memoryview):
            store = kind(whole)
            kerbcanopy.store_check(store)
            self.assertEqual(kerbcanopy.store_list(store), [7, 0])
            self.assertEqual(kerbcanopy.store_find(store, 0), BLANK + blank(0))
        self.assertIs(kerbcanopy.store_find(whole, 7).obj, whole)
        self.assertEqual(kerbcanopy.store_list(book(0)), [])
        self.assertEqual(kerbcanopy.store_list(book(4095)), [])
        self.assertEqual(kerbcanopy.store_list(book(1820, *range(1820), free=12)), list(range(1820)))

    def test_what_is_found_can_be_read(self) -> None:
        store = bytearray(book(1, free=40))
        rig = cluster(RIG[6:12], BLANK[6:])
        kerbcanopy.store_add(store, rig, raw("0019") + blank(9))
        body = kerbcanopy.store_find(store, 9)
        size = int.from_bytes(body[:2], "big")
        self.assertEqual(kerbcanopy.read_record(body[:size], BLANK, body[size:]), blank(9))

    def test_of_books(self) -> None:
        for number, (call, lent, place) in BOOKS.items():
            before = bytes(lent[0])
            self.refused((number, 4, place), call, *lent)
            self.assertEqual(lent[0], before)
        for store, place in ((bytes(3), 0), (bytes(65_537), 0), (book(2)[:35], 2), (raw("0001 0002") + bytes(16), 1), (book(1, 7)[:-1], 0)):
            self.refused((63, 4, place), kerbcanopy.store_check, store)
            self.refused((63, 4, place), kerbcanopy.store_find, store, 7)
            self.refused((63, 4, place), kerbcanopy.store_list, store)
            kept = bytearray(store)
            self.refused((63, 4, place), kerbcanopy.store_add, kept, b"", b"")
            self.assertEqual(kept, store)

    def test_of_a_record_s_own(self) -> None:
        cases: List[Tuple[bytes, bytes, Tuple[int, int, int]]] = [
            (b"", b"", (2, 1, 0)),
            (BLANK, bytes(3), (21, 3, 0)),
            (WORD, bytes(4), (41, 1, 0)),
            (MISSING, bytes(4), (42, 2, 0)),
            (DOUBLED, bytes(8), (43, 2, 0)),
            (SIGNED, bytes(4), (44, 2, 0)),
        ]
        for whole in (book(2, 7, free=40), book(1, 0), book(0)):
            for descriptor, data, expected in cases:
                store = bytearray(whole)
                self.refused(expected, kerbcanopy.store_add, store, descriptor, data)
                self.assertEqual(store, whole)

    def test_an_identifier_of_more_than_32_bits(self) -> None:
        for wrong in (-1, 1 << 32, 7 + (1 << 32)):
            with self.assertRaises(OverflowError):
                kerbcanopy.store_find(book(1, 7), wrong)

    def test_what_stands_around_a_book_is_kept(self) -> None:
        around = bytearray(b"\xA5" * 16 + book(1, free=20) + b"\xA5" * 16)
        kerbcanopy.store_add(memoryview(around)[16:-16], BLANK, blank(9))
        self.assertEqual(around, b"\xA5" * 16 + book(1, 9) + b"\xA5" * 16)

    def test_a_record_may_be_a_part_of_its_book(self) -> None:
        store = bytearray(book(3, 7, free=20))
        with memoryview(store) as whole:
            self.refused((60, 4, 0), kerbcanopy.store_add, store, whole[52:68], whole[68:72])
        store[68 + 4:] = BLANK + blank(9)
        with memoryview(store) as whole:
            kerbcanopy.store_add(store, whole[72:88], whole[88:])
        self.assertEqual(store, book(3, 7, 9))

    def test_a_book_is_free_again_after_a_refusal(self) -> None:
        store = bytearray(book(1))
        try:
            kerbcanopy.store_add(store, BLANK, blank(9))
        except Refusal as refusal:
            store.extend(bytes(refusal.place))
        kerbcanopy.store_add(store, BLANK, blank(9))
        self.assertEqual(store, book(1, 9))

    def test_what_can_t_be_written_is_no_book_to_add_to(self) -> None:
        for wrong in (book(1, free=20), memoryview(book(1, free=20)), memoryview(bytearray(80))[::2], "text", None):
            with self.assertRaises((TypeError, BufferError)):
                kerbcanopy.store_add(wrong, BLANK, blank(9))  # type: ignore[arg-type]


class Versions(unittest.TestCase):
    """Which libraries are taken by a module that is 3.4.5. Each has a version and nothing else, or the names of all entries too."""

    def setUp(self) -> None:
        folder = tempfile.TemporaryDirectory()
        self.addCleanup(folder.cleanup)
        self.folder = pathlib.Path(folder.name)
        source = pathlib.Path(kerbcanopy.__file__).read_text(encoding="utf-8")
        self.entries = re.findall(r'_entry\("(kc_\w+)"', source)
        source, changed = re.subn(r'^__version__ = ".*"$', '__version__ = "3.4.5"', source, flags=re.M)
        self.assertEqual(changed, 1)
        (self.folder / "kerbcanopy.py").write_text(source, encoding="utf-8")

    def imported(self, version: Optional[Tuple[int, int, int]], *entries: str, beside: str = "") -> str:
        """The last line of what an import says with a library of this version, or of none, that is named, or stands beside the module."""
        lines = [f"void {name}(void) {{}}" for name in entries]
        if version is not None:
            major, minor, patch = version
            lines.append(f"unsigned kc_version(void) {{ return {major << 16 | minor << 8 | patch}; }}")
        library = str(self.folder / (beside or "library.so"))
        subprocess.run(["gcc", "-shared", "-fPIC", "-x", "c", "-", "-o", library], input="\n".join(lines), text=True, check=True)
        run = subprocess.run(
            [sys.executable, "-s", "-B", "-c", "import kerbcanopy; print(kerbcanopy.__version__)"],
            env={**os.environ, "PYTHONPATH": str(self.folder), "KERBCANOPY_LIBRARY": "" if beside else library},
            cwd=self.folder, stdout=subprocess.PIPE, stderr=subprocess.STDOUT, text=True,
        )
        return run.stdout.splitlines()[-1].replace(library, "LIBRARY")

    def test_the_same_and_what_only_adds_are_taken(self) -> None:
        self.assertEqual(len(self.entries), 14)
        for version in ((3, 4, 5), (3, 4, 6), (3, 4, 255)):
            self.assertEqual(self.imported(version, *self.entries), "3.4.5", version)

    def test_others_are_refused_before_anything_is_looked_up(self) -> None:
        needed = "this module needs 3.4.5, or a later one that starts with 3.4"
        for version in ((3, 4, 4), (3, 3, 9), (3, 5, 0), (3, 5, 5), (2, 4, 5), (4, 4, 5), (0, 1, 0), (256, 4, 5)):
            found = ".".join(map(str, version))
            self.assertEqual(self.imported(version), f"ImportError: the library LIBRARY is version {found}; {needed}")
        said = "ImportError: the library LIBRARY says no version, so it is older than 0.2.0; " + needed
        self.assertEqual(self.imported(None), said)
        self.assertEqual(self.imported(None, *self.entries), said)

    def test_one_of_another_version_beside_the_module_is_told(self) -> None:
        needed = "this module needs 3.4.5, or a later one that starts with 3.4"
        said = self.imported(None, beside="libkerbcanopy.so.0")
        self.assertEqual(said, "ImportError: the library LIBRARY says no version, so it is older than 0.2.0; " + needed)
        said = self.imported((3, 3, 9), beside="libkerbcanopy.so.3.3")
        self.assertEqual(said, "ImportError: the library LIBRARY is version 3.3.9; " + needed)
        self.assertEqual(self.imported((3, 4, 5), *self.entries, beside="libkerbcanopy.so.3.4"), "3.4.5")

    def test_the_library_that_is_loaded(self) -> None:
        number = kerbcanopy._library.kc_version()
        self.assertEqual(f"{number >> 16}.{number >> 8 & 255}.{number & 255}", kerbcanopy.__version__)


if __name__ == "__main__":
    unittest.main()
