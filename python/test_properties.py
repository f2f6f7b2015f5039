"""Demands 2 and 3 over generated descriptors and data, the difference of generated time stamps, and blank books of generated records:
trees, values and books are made and encoded by described.py, which knows the rules and nothing of the library. Run as
test_kerbcanopy.py says.
"""

from __future__ import annotations

import struct
import unittest
from dataclasses import replace
from typing import Any, Callable, List, Optional, Tuple

import described
from described import CLUSTER, Type, flattened
from hypothesis import given, settings
from hypothesis import strategies as st

import kerbcanopy

# The same cases in every run, and nothing kept in a folder between them.
settings.register_profile("gate", derandomize=True, database=None, deadline=None, max_examples=100)
settings.load_profile("gate")

reserved = st.integers(0, 255)


def encoded(tree: Type, draw: Any = None) -> bytes:
    """The tree's descriptor, its reserved bytes drawn or zero."""
    return described.described(tree, (lambda: int(draw(reserved))) if draw else (lambda: 0))[0]


def accepted(call: Callable[..., Any], *arguments: Any) -> bool:
    try:
        call(*arguments)
    except kerbcanopy.Refusal:
        return False
    return True


@st.composite
def damaged(draw: Any, whole: st.SearchStrategy[bytes]) -> bytes:
    """Bytes with a few of them changed, cut, repeated or put in."""
    bytes_ = bytearray(draw(whole))
    for _ in range(draw(st.sampled_from([1, 1, 1, 3]))):
        at = draw(st.integers(0, len(bytes_)))
        how = draw(st.sampled_from([0, 0, 0, 1, 2, 3]))
        if how == 0 and at < len(bytes_):
            bytes_[at] = draw(st.sampled_from([0, 1, 2, 4, 0x50, 0x80, 0xFF]) | st.integers(0, 255))
        elif how == 1:
            del bytes_[at:at + draw(st.integers(1, 4))]
        elif how == 2:
            bytes_[at:at] = draw(st.binary(min_size=1, max_size=4))
        elif at + 2 <= len(bytes_):
            count = draw(st.integers(0, 20))
            bytes_[at:at + 2] = struct.pack(">H", count)
    return bytes(bytes_)


def tree_of(descriptor: bytes, rows: List[kerbcanopy.Row]) -> Type:
    """The tree that the table's rows say, taken from the front of `rows`."""
    row = rows.pop(0)
    tree, at = Type(row.code, row.name(descriptor)), row.start + 6
    if row.code in described.ENUMERATIONS:
        items = []
        for _ in range(row.count):
            items.append(descriptor[at + 1:at + 1 + descriptor[at]])
            at += 1 + descriptor[at]
        return replace(tree, items=tuple(items))
    if row.code in described.QUANTITIES:
        return replace(tree, pairs=tuple(struct.unpack_from(">Hh", descriptor, at + 4 * index) for index in range(row.count)))
    if row.code == described.ARRAY:
        return replace(tree, dimensions=row.count, inside=(tree_of(descriptor, rows),))
    if row.code == described.STAMP:
        return replace(tree, inside=(tree_of(descriptor, rows),))
    if row.code == CLUSTER:
        return replace(tree, inside=tuple(tree_of(descriptor, rows) for _ in range(row.count)))
    return tree


class Descriptors(unittest.TestCase):
    @given(described.trees, st.data())
    def test_every_tree_s_descriptor_is_accepted_with_its_rows(self, tree: Type, data: Any) -> None:
        descriptor, rows = described.described(tree, lambda: int(data.draw(reserved)))
        self.assertEqual([tuple(row) for row in kerbcanopy.check_descriptor(descriptor)], rows)

    @settings(max_examples=400)
    @given(damaged(described.trees.map(encoded)) | st.binary(max_size=40))
    def test_what_is_accepted_is_the_descriptor_of_a_tree(self, descriptor: bytes) -> None:
        try:
            rows = kerbcanopy.check_descriptor(descriptor)
        except kerbcanopy.Refusal:
            return
        tree = tree_of(descriptor, rows)
        self.assertEqual(rows, [])
        self.assertTrue(described.within(tree))
        self.assertEqual(encoded(tree), kerbcanopy.normal_form(descriptor))
        set_here = [descriptor[row.start + 2] for row in kerbcanopy.check_descriptor(descriptor)]
        self.assertEqual(described.described(tree, iter(set_here).__next__)[0], descriptor)

    @given(described.trees, st.data())
    def test_equal_exactly_when_the_trees_agree(self, tree: Type, data: Any) -> None:
        other = data.draw(st.one_of(st.just(tree), described.trees, changed(tree)))
        first, second = encoded(tree, data.draw), encoded(other, data.draw)
        self.assertEqual(kerbcanopy.compare(first, second), tree == other)
        self.assertEqual(kerbcanopy.normal_form(first) == kerbcanopy.normal_form(second), tree == other)

    @given(described.trees, st.data())
    def test_the_normal_form_has_reserved_bytes_of_zero(self, tree: Type, data: Any) -> None:
        self.assertEqual(kerbcanopy.normal_form(encoded(tree, data.draw)), encoded(tree))


@st.composite
def changed(draw: Any, tree: Type) -> Type:
    """A tree that may differ in one thing from this one."""
    if tree.inside and tree.code != described.STAMP and draw(st.booleans()):
        at = draw(st.integers(0, len(tree.inside) - 1))
        inside = list(tree.inside)
        inside[at] = draw(changed(inside[at]))
        if tree.code == CLUSTER or inside[at].code != described.ARRAY:
            return replace(tree, inside=tuple(inside))
    other = replace(tree, name=draw(described.names))
    if tree.items:
        other = replace(tree, items=draw(described.items))
    elif tree.code in described.PLAIN:
        other = replace(tree, code=draw(st.sampled_from(described.PLAIN)))
    return other if described.within(other) else tree


class Data(unittest.TestCase):
    @given(described.records())
    def test_every_value_s_data_is_accepted_with_its_pieces(self, record: Tuple[Type, Any]) -> None:
        tree, value = record
        self.assertEqual(kerbcanopy.check_data(encoded(tree), flattened(tree, value)), described.pieces(tree, value))

    @settings(max_examples=400)
    @given(described.records(), st.data())
    def test_accepted_exactly_when_the_walk_uses_every_byte(self, record: Tuple[Type, Any], data: Any) -> None:
        tree, value = record
        given_ = data.draw(damaged(st.just(flattened(tree, value))) | st.binary(max_size=20))
        try:
            whole = described.walked(tree, given_) == len(given_)
        except described.Bad:
            whole = False
        self.assertEqual(accepted(kerbcanopy.check_data, encoded(tree), given_), whole)

    @given(described.records())
    def test_there_and_back(self, record: Tuple[Type, Any]) -> None:
        tree, value = record
        descriptor, big, little = encoded(tree), flattened(tree, value), flattened(tree, value, "<")
        self.assertEqual(kerbcanopy.to_little_endian(descriptor, big), little)
        self.assertEqual(kerbcanopy.from_little_endian(descriptor, little), big)

    @given(described.records(), st.data())
    def test_back_and_there(self, record: Tuple[Type, Any], data: Any) -> None:
        tree, value = record
        descriptor = encoded(tree)
        given_ = data.draw(damaged(st.just(flattened(tree, value, "<"))))
        try:
            big = kerbcanopy.from_little_endian(descriptor, given_)
        except kerbcanopy.Refusal as refusal:
            self.assertIn(refusal.number, (20, 21, 22, 23, 25))
        else:
            self.assertEqual(kerbcanopy.to_little_endian(descriptor, big), given_)

    @given(described.records())
    def test_every_part_and_every_number(self, record: Tuple[Type, Any]) -> None:
        tree, value = record
        descriptor, data = encoded(tree), flattened(tree, value)
        for path, below, part in described.parts(tree, value):
            self.assertEqual(kerbcanopy.view(descriptor, data, path), flattened(below, part))
            self.number(descriptor, data, path, below, part)

    def number(self, descriptor: bytes, data: bytes, path: Tuple[int, ...], below: Type, part: Any) -> None:
        single = below.code in (0x09, 0x19, 0x0A, 0x1A)
        if below.code in described.INTEGERS or below.code in described.ENUMERATIONS or below.code == described.BOOLEAN:
            read = kerbcanopy.read_value(descriptor, data, path)
            number = part != 0 if below.code == described.BOOLEAN else part
            self.assertEqual((read.value, type(read.value)), (number, type(number)))
        elif single:
            self.assertEqual(kerbcanopy.read_value(descriptor, data, path).bits, int.from_bytes(part[0], "big"))
        else:
            with self.assertRaises(kerbcanopy.Refusal) as caught:
                kerbcanopy.read_value(descriptor, data, path)
            self.assertEqual(caught.exception.args, (31, 4, 0))


class Records(unittest.TestCase):
    @given(described.clusters(), st.data())
    def test_shuffled_members_give_the_same_bytes(self, record: Tuple[Type, Any], data: Any) -> None:
        tree, value = record
        asked = data.draw(st.permutations(range(len(value))))[:data.draw(st.integers(1, len(value)))]
        reader = encoded(Type(CLUSTER, inside=tuple(tree.inside[at] for at in asked)), data.draw)
        expected = b"".join(flattened(tree.inside[at], value[at]) for at in asked)
        for order in (range(len(value)), data.draw(st.permutations(range(len(value))))):
            rig = encoded(Type(CLUSTER, data.draw(described.names), inside=tuple(tree.inside[at] for at in order)), data.draw)
            sent = b"".join(flattened(tree.inside[at], value[at]) for at in order)
            self.assertEqual(kerbcanopy.read_record(rig, reader, sent), expected)

    @given(described.clusters(), st.data())
    def test_the_first_member_at_fault_is_named(self, record: Tuple[Type, Any], data: Any) -> None:
        tree, value = record
        members = list(zip(tree.inside, value))
        at = data.draw(st.integers(0, len(members) - 1))
        reader = encoded(tree)
        number = data.draw(st.sampled_from([42, 43, 44]))
        if number == 42:
            members[at] = (replace(members[at][0], name=b"other"), members[at][1])
        elif number == 43:
            members.append((Type(0x05, members[at][0].name), 7))
        else:
            other = Type(0x06 if members[at][0].code == 0x05 else 0x05, members[at][0].name)
            members[at] = (other, 7)
        rig = Type(CLUSTER, inside=tuple(member for member, _ in members))
        sent = b"".join(flattened(*member) for member in members)
        with self.assertRaises(kerbcanopy.Refusal) as caught:
            kerbcanopy.read_record(encoded(rig), reader, sent)
        self.assertEqual(caught.exception.args, (number, 2, at))

    @given(described.clusters(), st.integers(0, 30))
    def test_given_exactly_when_there_is_room(self, record: Tuple[Type, Any], room: int) -> None:
        tree, value = record
        expected, out = flattened(tree, value), bytearray(b"\xA5" * room)
        try:
            written = kerbcanopy.read_record_into(encoded(tree), encoded(tree), expected, out)
        except kerbcanopy.Refusal as refusal:
            self.assertEqual(refusal.args, (50, 4, len(expected)))
            self.assertEqual((room < len(expected), out), (True, b"\xA5" * room))
        else:
            self.assertEqual((written, out), (len(expected), expected + b"\xA5" * (room - written)))


def near(*middles: int) -> st.SearchStrategy[int]:
    return st.builds(int.__add__, st.sampled_from(middles), st.integers(-2, 2))


LEAST, MOST, LAST = -(1 << 63), (1 << 63) - 1, (1 << 64) - 1
seconds = (st.integers(LEAST, MOST) | near(LEAST, -(1 << 32), 0, 1 << 31, 1 << 32, MOST)).filter(lambda whole: LEAST <= whole <= MOST)
fractions = (st.integers(0, LAST) | near(0, 1 << 31, 1 << 32, 1 << 63, LAST)).filter(lambda part: 0 <= part <= LAST)
stamps = st.builds(kerbcanopy.Stamp, seconds, fractions)


class Stamps(unittest.TestCase):
    @settings(max_examples=1_000)
    @given(stamps, stamps)
    def test_the_difference_is_that_of_the_numbers(self, first: kerbcanopy.Stamp, second: kerbcanopy.Stamp) -> None:
        one, other = ((stamp.seconds << 64) + stamp.fraction for stamp in (first, second))
        whole, part = divmod(one - other, 1 << 64)
        if LEAST <= whole <= MOST:
            given_ = kerbcanopy.stamp_difference(first, second)
            self.assertEqual(given_, kerbcanopy.Difference(whole, part))
            self.assertEqual(float(given_), (one - other) / (1 << 64))
        else:
            with self.assertRaises(kerbcanopy.Refusal) as caught:
                kerbcanopy.stamp_difference(first, second)
            self.assertEqual(caught.exception.args, (32, 4, 0))

    @given(stamps)
    def test_a_stamp_out_of_its_data(self, stamp: kerbcanopy.Stamp) -> None:
        descriptor = encoded(described.stamp(None))
        data = struct.pack(">qQ", stamp.seconds, stamp.fraction)
        self.assertEqual(kerbcanopy.Stamp.of(kerbcanopy.view(descriptor, data)), stamp)
        high, low, *halves = (kerbcanopy.read_value(descriptor, data, (0, half)).value for half in range(4))
        self.assertEqual((int(high) << 32) + int(low) % (1 << 32), stamp.seconds)
        self.assertEqual((int(halves[0]) << 32) + int(halves[1]), stamp.fraction)


def ill_formed(store: bytes) -> Optional[int]:
    """The place at which a book is refused with 63, or nothing where it is well formed."""
    if not 4 <= len(store) <= 65_536:
        return 0
    capacity, count = struct.unpack_from(">HH", store)
    end = 4 + 16 * capacity
    if end > len(store) or count > capacity:
        return int(capacity)
    earlier = set()
    for number in range(count):
        identifier, start, *lengths = struct.unpack_from(">4I", store, 4 + 16 * number)
        middle, after = start + lengths[0], start + sum(lengths)
        if start != end or after > len(store) or identifier in earlier:
            return number
        try:
            read = kerbcanopy.read_record(store[start:middle], described.SHAPE, store[middle:after])
        except kerbcanopy.Refusal:
            return number
        if int.from_bytes(read, "big") != identifier:
            return number
        earlier.add(identifier)
        end = after
    unused = (number for number in range(count, capacity) if any(store[4 + 16 * number:20 + 16 * number]))
    return next(unused, None)


Kept = Tuple[int, List[described.Record], bytes]


@st.composite
def books(draw: Any) -> Kept:
    """A capacity, records with distinct identifiers for some of the entries, and what is free."""
    records = draw(st.lists(described.blanks(), max_size=4, unique_by=lambda record: record[0]))
    capacity = len(records) + draw(st.sampled_from([0, 0, 1, 3]))
    return capacity, records, draw(st.binary(max_size=60))


class Books(unittest.TestCase):
    @given(books(), st.lists(described.blanks(), min_size=1, max_size=4))
    def test_records_are_added_while_there_is_room(self, kept: Kept, more: List[described.Record]) -> None:
        capacity, records, free = kept
        store = bytearray(described.book(capacity, records, free))
        for record in more:
            identifier, descriptor, data = record
            length = len(descriptor) + len(data)
            known = [one[0] for one in records]
            try:
                kerbcanopy.store_add(store, descriptor, data)
            except kerbcanopy.Refusal as refusal:
                expected = (60, 4, known.index(identifier)) if identifier in known else (62, 4, length)
                full = identifier not in known and len(records) == capacity
                self.assertEqual(refusal.args, (61, 4, 0) if full else expected)
                self.assertTrue(identifier in known or full or length > len(free))
            else:
                records, free = [*records, record], free[length:]
            self.assertEqual(store, described.book(capacity, records, free))

    @given(books(), described.identifiers)
    def test_every_record_is_found_and_listed(self, kept: Kept, other: int) -> None:
        capacity, records, free = kept
        store = described.book(capacity, records, free)
        kerbcanopy.store_check(store)
        self.assertEqual(kerbcanopy.store_list(store), [record[0] for record in records])
        for identifier, descriptor, data in records:
            self.assertEqual(kerbcanopy.store_find(store, identifier), descriptor + data)
        if other not in [record[0] for record in records]:
            with self.assertRaises(kerbcanopy.Refusal) as caught:
                kerbcanopy.store_find(store, other)
            self.assertEqual(caught.exception.args, (64, 4, 0))

    @settings(max_examples=400)
    @given(damaged(books().map(lambda kept: described.book(*kept))) | st.binary(max_size=40))
    def test_a_damaged_book_is_refused_at_its_first_fault(self, store: bytes) -> None:
        place = ill_formed(store)
        questions: List[Tuple[Callable[..., Any], Tuple[Any, ...]]] = [
            (kerbcanopy.store_check, (store,)),
            (kerbcanopy.store_list, (store,)),
            (kerbcanopy.store_find, (store, 0)),
            (kerbcanopy.store_add, (bytearray(store), b"", b"")),
        ]
        for call, lent in questions:
            try:
                call(*lent)
            except kerbcanopy.Refusal as refusal:
                self.assertEqual(refusal.number == 63, place is not None)
                self.assertEqual(refusal.place if place is not None else None, place)
            else:
                self.assertIsNone(place)


if __name__ == "__main__":
    unittest.main()
