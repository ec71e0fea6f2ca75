#!/usr/bin/env python3
"""Writes a described WebAssembly module to standard output: make.py N > MODULE

Its description exports N functions. The adapter of each has twenty instructions: three objects are lent, one is given, a
number, a truth and a 64-bit number are passed, and the object that comes back is taken, given again, looked at, lent and
looked at. So each printed function has four nested `try`. Function k of the module is exported as `f{k}` and gives its last
parameter. Every number is written in its shortest form. The format is the binary format of the WebAssembly core
specification, section 5; the description is that of docs/DESCRIPTION.md.
"""

import json
import sys
from pathlib import Path

sys.path.insert(0, str(Path(__file__).resolve().parents[1]))
from shared import leb128  # noqa: E402

PREAMBLE = b"\0asm\1\0\0\0"
CUSTOM, TYPE, FUNCTION, EXPORT, CODE = 0, 1, 3, 7, 10
I32, I64 = 0x7F, 0x7E
# (i32, i32, i32, i32, i32, i32, i64) -> i32
PASSED = bytes([0x60, 7, *[I32] * 6, I64, 1, I32])
FUNC = 0
# No locals, local.get 5, end.
BODY = bytes([4, 0, 0x20, 5, 0x0B])
TYPES = ["externref"] * 4 + ["s32", "bool", "u64"]
LEND, GIVE = ["IndexFromBorrow"], ["IndexFromOwned"]
STEPS = [LEND, LEND, LEND, GIVE, ["Int32ToWasm"], ["I32FromBool"], ["Int64ToWasm"]]


def name(text):
    """A name: its length in bytes and the bytes."""
    return leb128(len(text)) + text


def section(number, content):
    """A section: its number, its length and its content."""
    return bytes([number]) + leb128(len(content)) + content


def counted(number, count, entries):
    """A section that holds a list."""
    return section(number, leb128(count) + entries)


def adapter(place):
    """The adapter of a function."""
    code = [step for number, made in enumerate(STEPS) for step in (["ArgGet", number], made)]
    code += [["CallExport", place], ["TakeIndex"], GIVE, ["GetIndex"], LEND, ["GetIndex"]]
    return {"id": place, "args": TYPES, "results": ["externref"], "code": code}


def module(count):
    """A module of so many functions."""
    description = {
        "version": 1,
        "adapters": [adapter(k) for k in range(count)],
        "exports": [{"adapter": k, "kind": "function", "name": f"f{k}"} for k in range(count)],
    }
    text = json.dumps(description, separators=(",", ":")).encode()
    return b"".join(
        [
            PREAMBLE,
            counted(TYPE, 1, PASSED),
            counted(FUNCTION, count, leb128(0) * count),
            counted(EXPORT, count, b"".join(name(b"f%d" % k) + bytes([FUNC]) + leb128(k) for k in range(count))),
            counted(CODE, count, BODY * count),
            section(CUSTOM, name(b"__wbg_glue") + text),
        ]
    )


if __name__ == "__main__":
    if len(sys.argv) != 2 or not sys.argv[1].isdecimal():
        sys.exit(__doc__.splitlines()[0])
    sys.stdout.buffer.write(module(int(sys.argv[1])))
