"""Descriptors and data as trees and values, and blank books of them, encoded from the rules of documents 01 and 02 without a look at the
library, and hypothesis' strategies that make them. What the tests hold the library against.
"""

from __future__ import annotations

import struct
from dataclasses import dataclass, replace
from typing import Any, Callable, Iterator, List, Optional, Sequence, Tuple

from hypothesis import strategies as st

INTEGERS = {0x01: "b", 0x02: "h", 0x03: "i", 0x04: "q", 0x05: "B", 0x06: "H", 0x07: "I", 0x08: "Q"}
ENUMERATIONS = {0x15: "B", 0x16: "H", 0x17: "I"}
#: How wide a real number is, and how many stand in one scalar: two in a complex one.
REALS = {0x09: (4, 1), 0x0A: (8, 1), 0x0B: (16, 1), 0x0C: (4, 2), 0x0D: (8, 2), 0x0E: (16, 2)}
QUANTITIES = {code + 0x10: shape for code, shape in REALS.items()}
BOOLEAN, STRING, ARRAY, CLUSTER, STAMP = 0x21, 0x30, 0x40, 0x50, 0x54
#: The subtype word of a time stamp, and its integers' codes.
SUBTYPE, HALVES = 6, (0x03, 0x03, 0x07, 0x07)
PLAIN = [*INTEGERS, *REALS, BOOLEAN]


@dataclass(frozen=True)
class Type:
    """A tree: the code, the name if there is one, and what the code's body holds."""

    code: int
    name: Optional[bytes] = None
    items: Tuple[bytes, ...] = ()
    pairs: Tuple[Tuple[int, int], ...] = ()
    dimensions: int = 0
    inside: Tuple["Type", ...] = ()

    @property
    def count(self) -> int:
        if self.code in ENUMERATIONS:
            return len(self.items)
        if self.code in QUANTITIES:
            return len(self.pairs)
        if self.code == STAMP:
            return 0
        return self.dimensions if self.code == ARRAY else len(self.inside)

    @property
    def depth(self) -> int:
        return 1 + max((one.depth for one in self.inside), default=0)

    @property
    def rows(self) -> int:
        return 1 + sum(one.rows for one in self.inside)


def pascal(characters: bytes) -> bytes:
    return bytes([len(characters)]) + characters


def even(what: bytes) -> bytes:
    return what + bytes(len(what) % 2)


def word(number: int) -> bytes:
    return struct.pack(">H", number)


Row = Tuple[int, int, int, int, int, int, int]


def described(tree: Type, reserved: Callable[[], int] = lambda: 0, start: int = 0, depth: int = 1) -> Tuple[bytes, List[Row]]:
    """The descriptor of a tree, and the rows of its table; each reserved byte is asked for in order."""
    code = bytes([reserved(), tree.code])
    body, rows = b"", []
    if tree.code in ENUMERATIONS:
        body = word(len(tree.items)) + even(b"".join(map(pascal, tree.items)))
    elif tree.code in QUANTITIES:
        body = word(len(tree.pairs)) + b"".join(struct.pack(">Hh", base, exponent) for base, exponent in tree.pairs)
    elif tree.code == STRING:
        body = b"\xFF\xFF\xFF\xFF"
    elif tree.code == ARRAY:
        body = word(tree.dimensions) + b"\xFF\xFF\xFF\xFF" * tree.dimensions
    elif tree.code == CLUSTER:
        body = word(len(tree.inside))
    elif tree.code == STAMP:
        body = word(SUBTYPE)
    for one in tree.inside:
        child, below = described(one, reserved, start + 4 + len(body), depth + 1)
        body += child
        rows += below
    named = tree.name is not None
    name = even(pascal(tree.name)) if tree.name is not None else b""
    size = 4 + len(body) + len(name)
    place = start + 4 + len(body) + 1 if named else 0
    row = (tree.code, start, size, depth, tree.count, place, len(tree.name or b""))
    return word(size & 0xFFFF) + code + body + name, [row, *rows]


def number(code: int, value: Any, order: str) -> bytes:
    """A scalar's bytes; the value of a real one is its numbers' bytes, big-endian, that of a Boolean is its byte's number."""
    if code in REALS or code in QUANTITIES:
        return b"".join(half if order == ">" else half[::-1] for half in value)
    form = {**INTEGERS, **ENUMERATIONS, BOOLEAN: "B"}[code]
    return struct.pack(order + form, value)


def flattened(tree: Type, value: Any, order: str = ">") -> bytes:
    """A value's bytes under its type: ">" as they are sent, "<" in little-endian form."""
    if tree.code == STRING:
        return struct.pack(order + "I", len(value)) + bytes(value)
    if tree.code == ARRAY:
        sizes, elements = value
        words = struct.pack(f"{order}{len(sizes)}I", *sizes)
        return words + b"".join(flattened(tree.inside[0], one, order) for one in elements)
    if tree.code in (CLUSTER, STAMP):
        return b"".join(flattened(member, one, order) for member, one in zip(tree.inside, value))
    return number(tree.code, value, order)


def pieces(tree: Type, value: Any) -> int:
    if tree.code == ARRAY:
        return 1 + sum(pieces(tree.inside[0], one) for one in value[1])
    if tree.code in (CLUSTER, STAMP):
        return sum(pieces(member, one) for member, one in zip(tree.inside, value))
    return 1


def parts(tree: Type, value: Any, path: Tuple[int, ...] = ()) -> Iterator[Tuple[Tuple[int, ...], Type, Any]]:
    """Every part of a value with its path and its type."""
    yield path, tree, value
    inside: List[Tuple[Type, Any]] = []
    if tree.code in (CLUSTER, STAMP):
        inside = list(zip(tree.inside, value))
    elif tree.code == ARRAY:
        inside = [(tree.inside[0], one) for one in value[1]]
    for step, (below, one) in enumerate(inside):
        yield from parts(below, one, (*path, step))


class Bad(Exception):
    """No value of this type stands here."""


def walked(tree: Type, data: bytes, start: int = 0) -> int:
    """Where the walk of one value ends."""

    def words(count: int) -> Tuple[int, ...]:
        if start + 4 * count > len(data):
            raise Bad
        sizes = struct.unpack_from(f">{count}I", data, start)
        if any(size >> 31 for size in sizes):
            raise Bad
        return tuple(sizes)

    if tree.code in (CLUSTER, STAMP):
        for member in tree.inside:
            start = walked(member, data, start)
        return start
    if tree.code == ARRAY:
        left = 1
        for size in words(tree.dimensions):
            left *= size
        start += 4 * tree.dimensions
        while left > 0:
            start, left = walked(tree.inside[0], data, start), left - 1
        return start
    width = 4 + words(1)[0] if tree.code == STRING else len(number(tree.code, zero(tree.code), ">"))
    piece = data[start:start + width]
    if len(piece) < width:
        raise Bad
    if tree.code in ENUMERATIONS and int.from_bytes(piece, "big") >= len(tree.items):
        raise Bad
    return start + width


def zero(code: int) -> Any:
    """A scalar's value that is all zeros."""
    width, halves = {**REALS, **QUANTITIES}.get(code, (0, 0))
    return (bytes(width),) * halves if halves else 0


names = st.one_of(st.none(), st.just(b""), st.binary(min_size=1, max_size=6), st.sampled_from([b"id", b"t", bytes(range(1, 256))]))
items = st.lists(st.binary(max_size=5), min_size=1, max_size=5).map(lambda some: tuple(some))
pairs = st.lists(st.tuples(st.integers(0, 8), st.integers(-32768, 32767)), min_size=1, max_size=9).map(lambda some: tuple(some))


def stamp(name: Optional[bytes]) -> Type:
    """A time stamp, which holds a cluster of four integers."""
    return Type(STAMP, name, inside=(Type(CLUSTER, inside=tuple(map(Type, HALVES))),))


leaves = st.one_of(
    st.builds(Type, st.sampled_from([*PLAIN, STRING]), names),
    st.builds(Type, st.sampled_from(list(ENUMERATIONS)), names, items),
    st.builds(Type, st.sampled_from(list(QUANTITIES)), names, pairs=pairs),
    st.builds(stamp, names),
)


def _around(below: st.SearchStrategy[Type]) -> st.SearchStrategy[Type]:
    clusters = st.builds(
        lambda name, members: Type(CLUSTER, name, inside=tuple(members)), names, st.lists(below, min_size=1, max_size=5)
    )
    arrays = st.builds(
        lambda name, dimensions, element: Type(ARRAY, name, dimensions=dimensions, inside=(element,)),
        names, st.integers(1, 4), below.filter(lambda tree: tree.code != ARRAY),
    )
    return st.one_of(clusters, arrays)


def within(tree: Type) -> bool:
    """Whether the tree keeps the limits of depth, rows and bytes."""
    return tree.depth <= 8 and tree.rows <= 256 and len(described(tree)[0]) <= 4_096


def _wrapped(tree: Type, levels: int) -> Type:
    for _ in range(levels):
        tree = Type(CLUSTER, inside=(tree,))
    return tree


trees = (st.recursive(leaves, _around, max_leaves=12) | st.builds(_wrapped, leaves, st.integers(1, 7))).filter(within)


def values(tree: Type) -> st.SearchStrategy[Any]:
    """The values of a type."""
    if tree.code in INTEGERS:
        signed, bits = tree.code < 5, 8 << (tree.code - 1) % 4
        return st.integers(-(1 << bits - 1), (1 << bits - 1) - 1) if signed else st.integers(0, (1 << bits) - 1)
    if tree.code in ENUMERATIONS:
        return st.integers(0, len(tree.items) - 1)
    if tree.code == BOOLEAN:
        return st.sampled_from([0, 1]) | st.integers(0, 255)
    if tree.code == STRING:
        return st.binary(max_size=8)
    if tree.code in (CLUSTER, STAMP):
        return st.tuples(*map(values, tree.inside))
    if tree.code == ARRAY:
        return st.lists(st.integers(0, 2), min_size=tree.dimensions, max_size=tree.dimensions).flatmap(
            lambda sizes: st.tuples(st.just(sizes), _elements(tree.inside[0], sizes))
        )
    width, halves = {**REALS, **QUANTITIES}[tree.code]
    return st.tuples(*[st.binary(min_size=width, max_size=width)] * halves)


def _elements(element: Type, sizes: List[int]) -> st.SearchStrategy[List[Any]]:
    count = 1
    for size in sizes:
        count *= size
    return st.lists(values(element), min_size=count, max_size=count)


@st.composite
def records(draw: Callable[..., Any]) -> Tuple[Type, Any]:
    """A type and a value of it, within the limit of data."""
    tree = draw(trees)
    value = draw(values(tree).filter(lambda value: len(flattened(tree, value)) <= 65_536))
    return tree, value


@st.composite
def clusters(draw: Callable[..., Any]) -> Tuple[Type, Any]:
    """A cluster of members with distinct names that are not empty, and a value of it."""
    members = draw(st.lists(leaves | trees.filter(lambda tree: tree.depth < 8), min_size=1, max_size=5))
    members = [replace(member, name=b"%d" % place + (member.name or b"")[:200]) for place, member in enumerate(members)]
    tree = Type(CLUSTER, inside=tuple(members))
    if not within(tree):
        tree = Type(CLUSTER, inside=(Type(0x07, b"id"),))
    value = draw(values(tree))
    return tree, value


#: The member of a rig that a book goes by, and the reader's shape that it is read with.
BLANK = Type(0x07, b"blank")
SHAPE = bytes.fromhex("0010 0050 0001 000A 0007 0562 6C61 6E6B")

#: A record for a book: its identifier, its descriptor and its data.
Record = Tuple[int, bytes, bytes]

#: The ends, and numbers that are alike in their low bits.
identifiers = st.sampled_from([0, 1, 9, 9 + (1 << 12), 9 + (1 << 16), (1 << 32) - 1]) | st.integers(0, (1 << 32) - 1)


@st.composite
def blanks(draw: Callable[..., Any]) -> Record:
    """A record of a rig that has a blank's identifier among its members."""
    members = draw(st.lists(leaves, max_size=3))
    members = [replace(member, name=None) if member.name == BLANK.name else member for member in members]
    at = draw(st.integers(0, len(members)))
    tree = Type(CLUSTER, draw(names), inside=(*members[:at], BLANK, *members[at:]))
    identifier = draw(identifiers)
    inside = [draw(values(member)) for member in members]
    reserved = st.integers(0, 255)
    descriptor = described(tree, lambda: int(draw(reserved)))[0]
    return identifier, descriptor, flattened(tree, (*inside[:at], identifier, *inside[at:]))


def book(capacity: int, records: Sequence[Record], free: bytes = b"") -> bytes:
    """A book with an entry in use for each record, and these bytes behind the last body."""
    contents, bodies = struct.pack(">HH", capacity, len(records)), b""
    for identifier, descriptor, data in records:
        start = 4 + 16 * capacity + len(bodies)
        contents += struct.pack(">4I", identifier, start, len(descriptor), len(data))
        bodies += descriptor + data
    return contents + bytes(16 * (capacity - len(records))) + bodies + free
