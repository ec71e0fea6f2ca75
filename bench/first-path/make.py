#!/usr/bin/env python3
"""Writes a WebAssembly module of N functions to standard output: make.py N > MODULE

The module has one type, (i32, i32) -> i32, N functions that add their two arguments, and an exported table that holds
them all, so that each can be reached. It has no import and no custom section. Every number is written in its shortest
form. The format is the binary format of the WebAssembly core specification, section 5.
"""

import sys
from pathlib import Path

sys.path.insert(0, str(Path(__file__).resolve().parents[1]))
from shared import leb128  # noqa: E402

PREAMBLE = b"\0asm\1\0\0\0"
TYPE, FUNCTION, TABLE, EXPORT, ELEMENT, CODE = 1, 3, 4, 7, 9, 10
ADD_TYPE = bytes([0x60, 2, 0x7F, 0x7F, 1, 0x7F])
# A table of functions with so many places at least, its export, and a segment that fills it from place 0 on.
FUNCTIONS = bytes([0x70, 0])
TABLE_EXPORT = bytes([1]) + b"t" + bytes([1, 0])
FROM_ZERO = bytes([0, 0x41, 0, 0x0B])
# No locals; local.get 0, local.get 1, i32.add, end.
ADD_BODY = bytes([0, 0x20, 0, 0x20, 1, 0x6A, 0x0B])


def section(number, count, entries):
    """A section that holds a list: its number, its length, the count and the entries."""
    content = leb128(count) + entries
    return bytes([number]) + leb128(len(content)) + content


def module(count):
    """A module of `count` functions."""
    body = leb128(len(ADD_BODY)) + ADD_BODY
    return b"".join(
        [
            PREAMBLE,
            section(TYPE, 1, ADD_TYPE),
            section(FUNCTION, count, leb128(0) * count),
            section(TABLE, 1, FUNCTIONS + leb128(count)),
            section(EXPORT, 1, TABLE_EXPORT),
            section(ELEMENT, 1, FROM_ZERO + leb128(count) + b"".join(map(leb128, range(count)))),
            section(CODE, count, body * count),
        ]
    )


if __name__ == "__main__":
    if len(sys.argv) != 2 or not sys.argv[1].isdecimal():
        sys.exit(__doc__.splitlines()[0])
    sys.stdout.buffer.write(module(int(sys.argv[1])))
