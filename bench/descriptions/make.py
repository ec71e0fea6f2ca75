#!/usr/bin/env python3
"""Writes a described WebAssembly module to standard output: make.py N > MODULE

The module exports N functions of two 32-bit integers, `f0` and so on, and imports N functions of one, `g0` and so on. Its
description publishes each of the first under its name, and says that each of the second is `console.log`. Function k calls
import k with its first argument and returns the sum of both. Every number is written in its shortest form. The format is
the binary format of the WebAssembly core specification, section 5; the description is that of docs/DESCRIPTION.md.
"""

import json
import sys
from pathlib import Path

sys.path.insert(0, str(Path(__file__).resolve().parents[1]))
from shared import leb128  # noqa: E402

PREAMBLE = b"\0asm\1\0\0\0"
CUSTOM, TYPE, IMPORT, FUNCTION, EXPORT, CODE = 0, 1, 2, 3, 7, 10
# (i32, i32) -> i32 and (i32) -> ()
TYPES = bytes([0x60, 2, 0x7F, 0x7F, 1, 0x7F]) + bytes([0x60, 1, 0x7F, 0])
SUM, LOG = 0, 1
FUNC = 0
HOME = b"__wbindgen_placeholder__"


def name(text):
    """A name: its length in bytes and the bytes."""
    return leb128(len(text)) + text


def section(number, content):
    """A section: its number, its length and its content."""
    return bytes([number]) + leb128(len(content)) + content


def counted(number, count, entries):
    """A section that holds a list."""
    return section(number, leb128(count) + entries)


def body(place):
    """local.get 0, call of an import, local.get 0, local.get 1, i32.add, end; no locals."""
    code = bytes([0, 0x20, 0, 0x10]) + leb128(place) + bytes([0x20, 0, 0x20, 1, 0x6A, 0x0B])
    return leb128(len(code)) + code


def exported(place):
    """The adapter of an exported function."""
    code = [["ArgGet", 0], ["Int32ToWasm"], ["ArgGet", 1], ["Int32ToWasm"], ["CallExport", place], ["WasmToInt32", False]]
    return {"id": place, "args": ["s32", "s32"], "results": ["s32"], "code": code}


def paired(count, place):
    """The adapter that stands for an import."""
    code = [["ArgGet", 0], ["WasmToInt32", False], ["CallAdapter", 2 * count + place]]
    return {"id": count + place, "args": ["s32"], "results": [], "code": code}


def called(count, place):
    """The adapter that calls JavaScript."""
    return {"id": 2 * count + place, "args": ["s32"], "results": [], "import": "normal"}


def description(count):
    """The description of N exported and N imported functions."""
    log = ["Bare", {"global": "console", "fields": ["log"]}]
    places = range(count)
    return {
        "version": 1,
        "adapters": [exported(k) for k in places] + [paired(count, k) for k in places] + [called(count, k) for k in places],
        "exports": [{"adapter": k, "kind": "function", "name": f"f{k}", "args": ["a", "b"]} for k in places],
        "implements": [[k, count + k] for k in places],
        "imports": [{"adapter": 2 * count + k, "what": log} for k in places],
    }


def module(count):
    """A module of `count` exported and `count` imported functions."""
    text = json.dumps(description(count), separators=(",", ":")).encode()
    places = range(count)
    return b"".join(
        [
            PREAMBLE,
            counted(TYPE, 2, TYPES),
            counted(IMPORT, count, b"".join(name(HOME) + name(b"g%d" % k) + bytes([FUNC, LOG]) for k in places)),
            counted(FUNCTION, count, leb128(SUM) * count),
            counted(EXPORT, count, b"".join(name(b"f%d" % k) + bytes([FUNC]) + leb128(count + k) for k in places)),
            counted(CODE, count, b"".join(map(body, places))),
            section(CUSTOM, name(b"__wbg_glue") + text),
        ]
    )


if __name__ == "__main__":
    if len(sys.argv) != 2 or not sys.argv[1].isdecimal():
        sys.exit(__doc__.splitlines()[0])
    sys.stdout.buffer.write(module(int(sys.argv[1])))
