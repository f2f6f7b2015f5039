#!/usr/bin/env python3
"""The identifier of a rig's record, by its name and type. Arguments: a file with the rig's descriptor, a file with the record."""

import pathlib
import sys

import kerbcanopy

# What is asked for: a cluster of one unsigned 32-bit integer named "id".
READER = bytes.fromhex("000E 0050 0001 0008 0007 02") + b"id\0"


def main() -> int:
    if len(sys.argv) != 3:
        print("usage: blank.py DESCRIPTOR DATA", file=sys.stderr)
        return 2
    rig, data = (pathlib.Path(name).read_bytes() for name in sys.argv[1:])
    try:
        record = kerbcanopy.read_record(rig, READER, data)
    except kerbcanopy.Refusal as refusal:
        print(refusal)
        return 1
    # What was read is data under the reader's descriptor: its first member is the identifier.
    print("blank", kerbcanopy.read_value(READER, record, [0]).value)
    return 0


if __name__ == "__main__":
    sys.exit(main())
