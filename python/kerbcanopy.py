"""Reads LabVIEW type descriptors and flattened data, hands a record over in a reader's shape, and keeps a run of blanks in a book.

    >>> rig = bytes.fromhex("00140050 0002 00060002 0174 00080007 02696400")
    >>> reader = bytes.fromhex("000E0050 0001 00080007 02696400")
    >>> read_record(rig, reader, bytes.fromhex("0019 00000009")).hex()
    '00000009'

Any bytes may come. Every function passes them to the proved library libkerbcanopy, which judges them; what it refuses is raised as
`Refusal`, with the number, the input at fault and the place. Inputs are bytes, or anything that has bytes (bytearray, memoryview, ..),
and are never changed, but for a book that a record is added to. A function whose name ends in `_into` writes to the front of a buffer that
is lent, such as a bytearray, and returns the length written: beyond it, and after a refusal, the buffer keeps its bytes.

A blank book starts with a capacity and a count of entries in use, 16 bits each, and its entries; the capacity and zeros are one with no
blank in it yet:

    >>> book = bytearray(100)
    >>> book[1] = 2
    >>> rig = bytes.fromhex("00160050 0002 00060002 0174 000A0007 05626C616E6B")
    >>> store_add(book, rig, bytes.fromhex("0019 00000009"))
    >>> store_list(book)
    [9]
    >>> store_find(book, 9) == rig + bytes.fromhex("0019 00000009")
    True

The library is the one that the variable KERBCANOPY_LIBRARY names; else the one that stands by this file, as `make install` or, in a
clone, `make shared` puts it; else the one that the system's loader finds. Its version has the first two numbers of `__version__` and a
third that is no lower; another one is an ImportError.
"""

from __future__ import annotations

import ctypes
import enum
import os
import pathlib
import struct
from dataclasses import dataclass
from typing import Any, Dict, List, NamedTuple, Sequence, Tuple, Union

__all__ = [
    "BOOK_LIMIT", "DATA_LIMIT", "DESCRIPTOR_LIMIT", "LIBRARY", "MEANINGS", "Bytes", "Difference", "Kind", "Refusal", "Room", "Row", "Stamp",
    "Value", "check_data", "check_descriptor", "compare", "from_little_endian", "from_little_endian_into", "normal_form",
    "normal_form_into", "read_record", "read_record_into", "read_value", "stamp_difference", "store_add", "store_check", "store_find",
    "store_list", "to_little_endian", "to_little_endian_into", "view",
]

#: The version of this module, which is that of the library it was made with.
__version__ = "0.2.0"

Bytes = Union[bytes, bytearray, memoryview]
Room = Union[bytearray, memoryview]

#: A longer descriptor is refused with 1.
DESCRIPTOR_LIMIT = 4_096
#: Longer data is refused with 20.
DATA_LIMIT = 65_536
#: A longer blank book is refused with 63.
BOOK_LIMIT = 65_536

#: What each number of a refusal means.
MEANINGS: Dict[int, str] = {
    1: "the descriptor has more than 4,096 bytes",
    2: "fewer than 4 bytes are left where a descriptor should start",
    3: "the size has its high bit set",
    4: "the size is odd, under 4, or runs past the end of what it stands in",
    5: "the code is none that is read here, or a time stamp's subtype is not 6",
    6: "it stands nine levels deep, and eight are the most",
    7: "it would be type 257, and 256 are the most",
    8: "what the type needs is longer than its size allows",
    9: "a count is outside its limits",
    10: "a length or dimension is not FFFFFFFF, a unit's base is over 8, an enumeration's fill byte is not zero,"
        " an array stands directly in an array, or a time stamp holds anything but its cluster of four integers",
    11: "what is left after the type is no name",
    12: "bytes follow the descriptor",
    20: "the data has more than 65,536 bytes",
    21: "the data ends inside this piece",
    22: "a length or size is 2147483648 or more",
    23: "the enumeration has no item of this number",
    25: "bytes are left over",
    30: "the step leads nowhere: there is no such part",
    31: "there is no single number: a string, array, cluster, time stamp, extended or complex number",
    32: "the difference's seconds don't fit 64 signed bits",
    40: "the reader is no cluster, or this member's name is missing, empty or an earlier member's",
    41: "the writer is no cluster",
    42: "the writer has no member of this name",
    43: "the writer has several members of this name",
    44: "the writer's member of this name is of another type",
    50: "the output is too small",
    60: "the identifier is already in the book",
    61: "the book has no free entry",
    62: "the book has no room for the body",
    63: "the book is not well formed",
    64: "the book has no record of this identifier",
}

_INPUTS = {1: "the first or the writer's descriptor", 2: "the second or the reader's descriptor", 3: "the data", 4: "the request"}


class Refusal(Exception):
    """What the library refuses: the number, the input at fault (1 the first or the writer's descriptor, 2 the second or the reader's,
    3 the data, 4 the request) and a place.

    Of the descriptor at fault, the place is its first byte for 2, 3, 4, 6 and 7; its low code byte for 5; its end, which is its start
    and its size together, for 8; its count word for 9; the first wrong word or the fill byte for 10, but the inner array's low code byte
    for an array in an array, and a time stamp's first byte where it holds anything but its cluster; the first byte after its body and
    the descriptors in it, for 11. A word's place is its first byte. For 12 the place is the descriptor's size.

    For 21 to 23 it is the first byte of the piece at fault, for 25 the first byte left over, for 30 the step, for 40 and 42 to 44 the
    reader's member, both counted from 0, and for 50 the length needed.

    For 60 it is the entry that has the identifier, counted from 0, and for 62 the body's length; for 63 it is 0 where the book's length is
    at fault, the capacity where the contents don't fit or more entries are in use than there are, and else the first bad entry. For all
    others it is 0.
    """

    def __init__(self, number: int, input: int, place: int) -> None:
        super().__init__(number, input, place)
        self.number = number
        self.input = input
        self.place = place

    @property
    def meaning(self) -> str:
        """What the number means."""
        return MEANINGS.get(self.number, "a number that this module does not know")

    def __str__(self) -> str:
        what = _INPUTS.get(self.input, "an input that this module does not know")
        return f"refused with {self.number}: {self.meaning} (input {self.input}, {what}; place {self.place})"


class Row(NamedTuple):
    """A descriptor of the table: the low code byte, the first byte's place, the size in bytes, the depth (the top's is 1), the count of
    items, pairs, dimensions or members (else 0), the place of the name's first character (0 where there is no name) and the name's length.
    """

    code: int
    start: int
    size: int
    depth: int
    count: int  # type: ignore[assignment]  # in place of a tuple's own count
    name_place: int
    name_length: int

    def name(self, descriptor: Bytes) -> Union[bytes, None]:
        """The name, out of the descriptor whose row this is; None where there is none. An empty name is a name."""
        if self.name_place == 0:
            return None
        return bytes(memoryview(descriptor)[self.name_place:self.name_place + self.name_length])


class Kind(enum.IntEnum):
    """What a value is."""

    UNSIGNED = 1
    SIGNED = 2
    SINGLE = 3
    DOUBLE = 4
    FLAG = 5


@dataclass(frozen=True)
class Value:
    """A number by its kind and its exact bits: a signed one in 64-bit two's complement, a single in the low 32. A flag's are 0 or 1,
    whatever its byte.
    """

    kind: Kind
    bits: int

    @property
    def value(self) -> Union[int, float, bool]:
        """The number as Python has it. A single is exact as a float; of what is not a number only `bits` says which one it is."""
        if self.kind is Kind.SIGNED:
            return self.bits - (self.bits >> 63 << 64)
        if self.kind is Kind.SINGLE:
            return float(struct.unpack(">f", self.bits.to_bytes(4, "big"))[0])
        if self.kind is Kind.DOUBLE:
            return float(struct.unpack(">d", self.bits.to_bytes(8, "big"))[0])
        if self.kind is Kind.FLAG:
            return self.bits != 0
        return self.bits


def _fit(seconds: int, fraction: int) -> None:
    if not -(1 << 63) <= seconds < 1 << 63:
        raise OverflowError(f"the seconds {seconds} don't fit 64 signed bits")
    if not 0 <= fraction < 1 << 64:
        raise OverflowError(f"the fraction {fraction} doesn't fit 64 unsigned bits")


@dataclass(frozen=True, order=True)
class Stamp:
    """A time stamp: seconds since 1904-01-01 00:00 universal time, and a fraction to be added to them, in units of 2^-64 second. The
    seconds are a signed number of 64 bits, the fraction an unsigned one; others are an OverflowError. A later stamp is greater.
    """

    seconds: int
    fraction: int

    def __post_init__(self) -> None:
        _fit(self.seconds, self.fraction)

    @classmethod
    def of(cls, part: Bytes) -> Stamp:
        """The stamp whose data this is: the 16 bytes that `view` gives where a time stamp stands. Another length is a ValueError."""
        data = _lent(part)
        if len(data) != 16:
            raise ValueError(f"a time stamp's data has 16 bytes, not {len(data)}")
        return cls(*struct.unpack(">qQ", data))


@dataclass(frozen=True, order=True)
class Difference:
    """The time between two stamps: seconds, which may be negative, and a fraction to be added to them, in units of 2^-64 second. They
    have the limits of a stamp's. A longer time is greater, one back in time being less than none.
    """

    seconds: int
    fraction: int

    def __post_init__(self) -> None:
        _fit(self.seconds, self.fraction)

    def __float__(self) -> float:
        """About how many seconds it is."""
        return ((self.seconds << 64) + self.fraction) / (1 << 64)


class _Answer(ctypes.Structure):
    _fields_ = [(name, ctypes.c_uint32) for name in ("number", "input", "place")]


class _Row(ctypes.Structure):
    _fields_ = [(name, ctypes.c_uint16) for name in Row._fields]


class _Checked(ctypes.Structure):
    _fields_ = [("answer", _Answer), ("rows", _Row * 256)]


class _Compared(ctypes.Structure):
    _fields_ = [("answer", _Answer), ("equal", ctypes.c_bool)]


class _Part(ctypes.Structure):
    _fields_ = [("answer", _Answer), ("start", ctypes.c_size_t), ("length", ctypes.c_size_t)]


class _Value(ctypes.Structure):
    _fields_ = [("answer", _Answer), ("kind", ctypes.c_uint32), ("bits", ctypes.c_uint64)]


class _Difference(ctypes.Structure):
    _fields_ = [("answer", _Answer), ("seconds", ctypes.c_int64), ("fraction", ctypes.c_uint64)]


_NEEDED = tuple(int(number) for number in __version__.split("."))
_SONAME = f"libkerbcanopy.so.{_NEEDED[0]}.{_NEEDED[1]}"


def _library_name() -> str:
    named = os.environ.get("KERBCANOPY_LIBRARY")
    if named:
        return named
    here = pathlib.Path(__file__).resolve().parent
    # A folder of its own, PREFIX/lib/kerbcanopy, PREFIX/lib/pythonX.Y/site-packages, and a clone's python.
    folders = (here, here.parent, here.parent.parent, here.parent / "target" / "shared")
    for folder in folders:
        if (folder / _SONAME).is_file():
            return str(folder / _SONAME)
    try:
        ctypes.CDLL(_SONAME)
    except OSError:
        # One of another version is better than none: it says which it is.
        for folder in folders:
            for other in sorted(folder.glob("libkerbcanopy.so.*"), reverse=True):
                return str(other)
    return _SONAME


def _loaded(name: str) -> ctypes.CDLL:
    try:
        return ctypes.CDLL(name)
    except OSError as trouble:
        raise ImportError(
            f"the library of this module can't be loaded: {trouble}; `make install` puts it in place, `make shared` builds it in a clone,"
            " and the variable KERBCANOPY_LIBRARY can name it",
            name=__name__,
            path=name,
        ) from trouble


def _hold_version(library: ctypes.CDLL, name: str) -> None:
    """Takes only a library that has what this module knows, with the same meaning."""
    try:
        entry = library.kc_version
    except AttributeError:
        found = "says no version, so it is older than 0.2.0"
    else:
        entry.restype, entry.argtypes = ctypes.c_uint32, []
        number = entry()
        version = (number >> 16, number >> 8 & 255, number & 255)
        if version[:2] == _NEEDED[:2] and version >= _NEEDED:
            return
        found = "is version " + ".".join(str(part) for part in version)
    raise ImportError(
        f"the library {name} {found}; this module needs {__version__}, or a later one that starts with {_NEEDED[0]}.{_NEEDED[1]}",
        name=__name__,
        path=name,
    )


#: The shared library that was loaded.
LIBRARY = _library_name()
_library = _loaded(LIBRARY)
_hold_version(_library, LIBRARY)

_INPUT: Tuple[Any, ...] = (ctypes.c_char_p, ctypes.c_size_t)
_OUTPUT: Tuple[Any, ...] = (ctypes.c_void_p, ctypes.c_size_t)
_PATH: Tuple[Any, ...] = (ctypes.c_void_p, ctypes.c_size_t)
_STAMP: Tuple[Any, ...] = (ctypes.c_int32, ctypes.c_int32, ctypes.c_uint32, ctypes.c_uint32)
_IDENTIFIER: Tuple[Any, ...] = (ctypes.c_uint32,)
_PLACES: Tuple[Any, ...] = (ctypes.c_void_p, ctypes.c_size_t)


def _entry(name: str, result: Any, *arguments: Tuple[Any, ...]) -> Any:
    entry = getattr(_library, name)
    entry.restype = result
    entry.argtypes = [one for several in arguments for one in several]
    return entry


_check_descriptor = _entry("kc_check_descriptor", _Checked, _INPUT)
_compare = _entry("kc_compare", _Compared, _INPUT, _INPUT)
_normal_form = _entry("kc_normal_form", _Answer, _INPUT, _OUTPUT)
_check_data = _entry("kc_check_data", _Answer, _INPUT, _INPUT)
_view = _entry("kc_view", _Part, _INPUT, _INPUT, _PATH)
_read_value = _entry("kc_read_value", _Value, _INPUT, _INPUT, _PATH)
_to_little_endian = _entry("kc_to_little_endian", _Answer, _INPUT, _INPUT, _OUTPUT)
_from_little_endian = _entry("kc_from_little_endian", _Answer, _INPUT, _INPUT, _OUTPUT)
_read_record = _entry("kc_read_record", _Answer, _INPUT, _INPUT, _INPUT, _OUTPUT)
_stamp_difference = _entry("kc_stamp_difference", _Difference, _STAMP, _STAMP)
_store_check = _entry("kc_store_check", _Answer, _INPUT)
_store_add = _entry("kc_store_add", _Answer, _OUTPUT, _INPUT, _INPUT)
_store_find = _entry("kc_store_find", _Part, _INPUT, _IDENTIFIER)
_store_list = _entry("kc_store_list", _Answer, _INPUT, _PLACES)


def _lent(what: Bytes) -> bytes:
    """The bytes as they can be lent: what is not bytes is copied, so that nothing changes it during the call."""
    return what if isinstance(what, bytes) else bytes(memoryview(what))


def _inputs(*lent: bytes) -> List[Any]:
    """A pointer, which is never NULL, and a length for each."""
    return [one for what in lent for one in (what, len(what))]


def _accepted(answer: Any) -> int:
    """The place of an answer that accepts."""
    if answer.number != 0:
        raise Refusal(answer.number, answer.input, answer.place)
    return int(answer.place)


def _buffer(out: Room) -> Tuple[Any, int]:
    """What `out` is lent as, for as long as it is kept, and its length; an empty one is lent as no bytes of another."""
    with memoryview(out) as room:
        length = room.nbytes
    return (ctypes.c_ubyte * length).from_buffer(out) if length else ctypes.create_string_buffer(1), length


def _lend(entry: Any, lent: Sequence[bytes], out: Room) -> Any:
    """The answer, `out` being lent for the result."""
    buffer, length = _buffer(out)
    return entry(*_inputs(*lent), ctypes.addressof(buffer), length)


def _lend_book(store: Room, lent: Sequence[bytes]) -> Any:
    """The answer, `store` being lent for the record to be added to it."""
    buffer, length = _buffer(store)
    return _store_add(ctypes.addressof(buffer), length, *_inputs(*lent))


def _into(entry: Any, lent: Sequence[bytes], out: Room) -> int:
    # A refusal is raised when `out` is no longer lent, so that who catches it is free to make it longer.
    return _accepted(_lend(entry, lent, out))


def _given(entry: Any, lent: Sequence[bytes], room: int) -> bytes:
    """The result in bytes of its own, lent as many as the longest that can be given."""
    out = bytearray(room)
    return bytes(out[:_into(entry, lent, out)])


def _steps(path: Sequence[int]) -> Tuple[Any, int]:
    # A step that is no 32-bit number is out of range everywhere, as the highest of them is.
    steps = [step if 0 <= step < 1 << 32 else (1 << 32) - 1 for step in path]
    # One step more than there are, so that the pointer is never NULL.
    return (ctypes.c_uint32 * (len(steps) + 1))(*steps), len(steps)


def _halves(stamp: Stamp) -> Tuple[Any, ...]:
    """A time stamp's four integers."""
    if not isinstance(stamp, Stamp):
        raise TypeError(f"a Stamp is asked for, not a {type(stamp).__name__}")
    return struct.unpack(">iiII", struct.pack(">qQ", stamp.seconds, stamp.fraction))


def check_descriptor(descriptor: Bytes) -> List[Row]:
    """The descriptor's table: a row for each descriptor in it, in order of first byte, the top first.

    Refused: 1 to 12 with input 1.
    """
    checked = _check_descriptor(*_inputs(_lent(descriptor)))
    rows = checked.rows[:_accepted(checked.answer)]
    return [Row(*(getattr(row, name) for name in Row._fields)) for row in rows]


def compare(first: Bytes, second: Bytes) -> bool:
    """Whether two descriptors are equal: the same tree, codes, counts, items, pairs and names. Only reserved bytes are ignored.

    Refused: 1 to 12 with input 1 for the first, which is judged to its end before the second, or 2 for the second.
    """
    compared = _compare(*_inputs(_lent(first), _lent(second)))
    _accepted(compared.answer)
    return bool(compared.equal)


def normal_form(descriptor: Bytes) -> bytes:
    """The same descriptor with every reserved byte zero. Two are equal exactly when these are the same bytes.

    Refused: 1 to 12 with input 1.
    """
    lent = _lent(descriptor)
    return _given(_normal_form, [lent], min(len(lent), DESCRIPTOR_LIMIT))


def normal_form_into(descriptor: Bytes, out: Room) -> int:
    """Writes the normal form to the front of `out`, and returns its length.

    Refused: 1 to 12 with input 1; 50 with input 4 where `out` is too small.
    """
    return _into(_normal_form, [_lent(descriptor)], out)


def check_data(descriptor: Bytes, data: Bytes) -> int:
    """Walks the data under its descriptor, and returns how many pieces it has: scalars, whole strings, and the sizes of arrays.

    Refused: 1 to 12 with input 1, 20 to 23 or 25 with input 3.
    """
    return _accepted(_check_data(*_inputs(_lent(descriptor), _lent(data))))


def view(descriptor: Bytes, data: Bytes, path: Sequence[int] = ()) -> memoryview:
    """The part of the data that the path leads to, length and size words included. A step is a member's number in a cluster or a flat
    element's number in an array, counted from 0, or 0 in a time stamp; the empty path is the whole data. The part is of the bytes lent, or
    of a copy where they were not `bytes`.

    Refused: 1 to 12 with input 1, 20 to 23 or 25 with input 3, 30 with input 4 where a step leads nowhere.
    """
    lent = _lent(data)
    part = _view(*_inputs(_lent(descriptor), lent), *_steps(path))
    _accepted(part.answer)
    return memoryview(lent)[part.start:part.start + part.length]


def read_value(descriptor: Bytes, data: Bytes, path: Sequence[int] = ()) -> Value:
    """The number at the end of the path, whose steps are those of `view`. A Boolean is false for the byte 00 and true for every other;
    `view` gives the byte itself.

    Refused: as `view`; then 31 with input 4 where there is no single number.
    """
    read = _read_value(*_inputs(_lent(descriptor), _lent(data)), *_steps(path))
    _accepted(read.answer)
    return Value(Kind(read.kind), read.bits)


def to_little_endian(descriptor: Bytes, data: Bytes) -> bytes:
    """The data's little-endian form: each number turned around where it stands.

    Refused: 1 to 12 with input 1, 20 to 23 or 25 with input 3.
    """
    lent = _lent(data)
    return _given(_to_little_endian, [_lent(descriptor), lent], min(len(lent), DATA_LIMIT))


def to_little_endian_into(descriptor: Bytes, data: Bytes, out: Room) -> int:
    """Writes the little-endian form to the front of `out`, and returns its length.

    Refused: as `to_little_endian`; then 50 with input 4 where `out` is too small.
    """
    return _into(_to_little_endian, [_lent(descriptor), _lent(data)], out)


def from_little_endian(descriptor: Bytes, data: Bytes) -> bytes:
    """The data whose little-endian form is lent.

    Refused: 1 to 12 with input 1; 20 to 23 or 25 with input 3, as the walk with its words read reversed has them.
    """
    lent = _lent(data)
    return _given(_from_little_endian, [_lent(descriptor), lent], min(len(lent), DATA_LIMIT))


def from_little_endian_into(descriptor: Bytes, data: Bytes, out: Room) -> int:
    """Writes the data whose little-endian form is lent to the front of `out`, and returns its length.

    Refused: as `from_little_endian`; then 50 with input 4 where `out` is too small.
    """
    return _into(_from_little_endian, [_lent(descriptor), _lent(data)], out)


def read_record(writer: Bytes, reader: Bytes, data: Bytes) -> bytes:
    """The members that the reader asks for, out of data under the writer's descriptor: for each of the reader's members in order, the
    bytes of the writer's one member of that name and an equal type. They are data under the reader's descriptor.

    Refused: 1 to 12 with input 1 for the writer or 2 for the reader; 20 to 23 or 25 with input 3; 40 with input 2 where the reader is
    no cluster of members with distinct names that are not empty; 41 with input 1; 42 to 44 with input 2 for the first member that is
    missing, doubled or of another type.
    """
    lent = _lent(data)
    return _given(_read_record, [_lent(writer), _lent(reader), lent], min(len(lent), DATA_LIMIT))


def read_record_into(writer: Bytes, reader: Bytes, data: Bytes, out: Room) -> int:
    """Writes what `read_record` gives to the front of `out`, and returns its length.

    Refused: as `read_record`; then 50 with input 4 where `out` is too small.
    """
    return _into(_read_record, [_lent(writer), _lent(reader), _lent(data)], out)


def stamp_difference(first: Stamp, second: Stamp) -> Difference:
    """The first time stamp less the second, exactly; the fraction is from 0 up to one second.

        >>> stamp_difference(Stamp(1, 0), Stamp(0, 1 << 62))
        Difference(seconds=0, fraction=13835058055282163712)
        >>> float(stamp_difference(Stamp(0, 1 << 62), Stamp(1, 0)))
        -0.75

    Refused: 32 with input 4 where the seconds don't fit 64 signed bits. What is no `Stamp` is a TypeError.
    """
    given = _stamp_difference(*_halves(first), *_halves(second))
    _accepted(given.answer)
    return Difference(given.seconds, given.fraction)


def store_check(store: Bytes) -> None:
    """Reads any bytes as a blank book; what is not refused is one.

    Refused: 63 with input 4. Its place is 0 for under 4 or over 65,536 bytes; the capacity where the contents don't fit or more entries
    are in use than there are; else the first bad entry, counted from 0.
    """
    _accepted(_store_check(*_inputs(_lent(store))))


def store_add(store: Room, descriptor: Bytes, data: Bytes) -> None:
    """Adds a record to a blank book: its body behind the last one, its entry behind the last in use, and one to the count. Nothing else
    of `store` changes, which is a bytearray or the like, and nothing at all after a refusal. The record may be a part of the book: it is
    copied first.

    Refused: 63 as in `store_check`; 1 to 12 with input 1, 20 to 23 or 25 with input 3; 41 with input 1 where the record is no cluster; 42
    to 44 with input 2 where its member "blank" is missing, doubled or no unsigned number of 32 bits; then, with input 4, 60 where the
    identifier is there already, 61 where no entry is free, 62 where the body doesn't fit.
    """
    _accepted(_lend_book(store, [_lent(descriptor), _lent(data)]))


def store_find(store: Bytes, identifier: int) -> memoryview:
    """The body of the record with this identifier: its descriptor, then its data. The part is of the bytes lent, or of a copy where they
    were not `bytes`.

    Refused: 63 as in `store_check`, 64 with input 4 where the book has no such record. An identifier that is no unsigned number of 32 bits
    is an OverflowError.
    """
    if not 0 <= identifier < 1 << 32:
        raise OverflowError(f"the identifier {identifier} doesn't fit 32 unsigned bits")
    lent = _lent(store)
    part = _store_find(*_inputs(lent), identifier)
    _accepted(part.answer)
    return memoryview(lent)[part.start:part.start + part.length]


def store_list(store: Bytes) -> List[int]:
    """The identifiers of a blank book, in the order of its entries.

    Refused: 63 as in `store_check`.
    """
    lent = _lent(store)
    # As many as a book of this length can have, and one more, so that the pointer is never NULL.
    places = (ctypes.c_uint32 * (min(len(lent), BOOK_LIMIT) // 16 + 1))()
    return list(places[:_accepted(_store_list(*_inputs(lent), places, len(places)))])
