#!/usr/bin/env python3
"""Writes a described WebAssembly module to standard output: make.py N > MODULE

Its description publishes N things in N/10 namespaces, ten in each: nine functions, one of which has a comment, and an enum of
three variants, one of which has one. Every second namespace stands in the one before it: `n0`, `n0.m`, `n2`, `n2.m` and so on.
The things are described namespace by namespace for each of the ten, so that those of one namespace stand far from one
another. Function k of the module has two 32-bit integers, is exported as `f{k}` and gives their sum. Every number is written in
its shortest form. The format is the binary format of the WebAssembly core specification, section 5; the description is that of
docs/DESCRIPTION.md.
"""

import json
import sys
from pathlib import Path

sys.path.insert(0, str(Path(__file__).resolve().parents[1]))
from shared import leb128  # noqa: E402

PREAMBLE = b"\0asm\1\0\0\0"
CUSTOM, TYPE, FUNCTION, EXPORT, CODE = 0, 1, 3, 7, 10
# (i32, i32) -> i32
SUM = bytes([0x60, 2, 0x7F, 0x7F, 1, 0x7F])
FUNC = 0
EACH = 10
FUNCTIONS = EACH - 1
# No locals, local.get 0, local.get 1, i32.add, end.
BODY = bytes([7, 0, 0x20, 0, 0x20, 1, 0x6A, 0x0B])
CODE_OF_SUM = [["ArgGet", 0], ["Int32ToWasm"], ["ArgGet", 1], ["Int32ToWasm"]]


def name(text):
    """A name: its length in bytes and the bytes."""
    return leb128(len(text)) + text


def section(number, content):
    """A section: its number, its length and its content."""
    return bytes([number]) + leb128(len(content)) + content


def counted(number, count, entries):
    """A section that holds a list."""
    return section(number, leb128(count) + entries)


def namespace(place):
    """The path of a namespace."""
    return [f"n{place}"] if place % 2 == 0 else [f"n{place - 1}", "m"]


def adapter(place):
    """The adapter of a function."""
    code = [*CODE_OF_SUM, ["CallExport", place], ["WasmToInt32", False]]
    return {"id": place, "args": ["s32", "s32"], "results": ["s32"], "code": code}


def function(spaces, place):
    """A function in a namespace; the first of each has a comment."""
    entry = {"adapter": place, "kind": "function", "name": f"f{place // spaces}", "namespace": namespace(place % spaces)}
    return {**entry, "args": ["a", "b"], **({"comments": f"Adds, as {place} does."} if place < spaces else {})}


def enum(place):
    """The enum of a namespace."""
    variants = [["None", -1, ""], ["One", 1, f"The first of {place}."], ["Two", 2, ""]]
    return {"name": "E", "namespace": namespace(place), "variants": variants}


def description(spaces):
    """The description of so many namespaces."""
    places = range(FUNCTIONS * spaces)
    return {
        "version": 1,
        "adapters": [adapter(k) for k in places],
        "exports": [function(spaces, k) for k in places],
        "enums": [enum(k) for k in range(spaces)],
    }


def module(spaces):
    """A module whose functions are published in so many namespaces."""
    count = FUNCTIONS * spaces
    text = json.dumps(description(spaces), separators=(",", ":")).encode()
    return b"".join(
        [
            PREAMBLE,
            counted(TYPE, 1, SUM),
            counted(FUNCTION, count, leb128(0) * count),
            counted(EXPORT, count, b"".join(name(b"f%d" % k) + bytes([FUNC]) + leb128(k) for k in range(count))),
            counted(CODE, count, BODY * count),
            section(CUSTOM, name(b"__wbg_glue") + text),
        ]
    )


if __name__ == "__main__":
    if len(sys.argv) != 2 or not sys.argv[1].isdecimal() or int(sys.argv[1]) % EACH != 0:
        sys.exit(__doc__.splitlines()[0])
    sys.stdout.buffer.write(module(int(sys.argv[1]) // EACH))
