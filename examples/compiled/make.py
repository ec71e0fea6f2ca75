#!/usr/bin/env python3
"""Makes module.wasm of words.c and description.json: make.py

The module is what clang and wasm-ld (of Debian's `clang` and `lld`) make of the source. Behind it stands a custom
section `__wbg_glue` with the description. The description names functions and exports by their places, which another
compiler may choose otherwise: then nothing is written, and the status is 1.
"""

import json
import subprocess
import sys
import tempfile
from pathlib import Path

HERE = Path(__file__).resolve().parent

COMPILE = [
    *["clang", "--target=wasm32", "-mcpu=mvp", "-Os", "-Wall"],
    # Loops stay loops, integers wrap around, and nothing is linked to the source.
    *["-ffreestanding", "-fwrapv", "-nostdlib", "-Wl,--no-entry"],
]

# The exports that the description speaks of in their order, each with the place of its function or of the memory.
PLACES = [
    ("memory", 0),
    ("malloc", 1),
    ("free", 2),
    ("realloc", 3),
    ("free_numbers", 4),
    ("blocks", 5),
    ("count_words", 6),
    ("longest", 8),
    ("lengths", 9),
    ("sum", 10),
    ("counter", 11),
    ("count_on", 12),
    ("end_counter", 13),
]


def leb128(value):
    """The shortest unsigned LEB128 form of a number (WebAssembly core specification, 5.2.2)."""
    out = bytearray()
    while value > 0x7F:
        out.append(value & 0x7F | 0x80)
        value >>= 7
    out.append(value)
    return bytes(out)


def number(data, at):
    """The unsigned LEB128 number at an offset, and the offset behind it."""
    value = shift = 0
    while True:
        value |= (data[at] & 0x7F) << shift
        at, shift = at + 1, shift + 7
        if data[at - 1] < 0x80:
            return value, at


def exports(data):
    """The names of a module's exports in order, each with the place of what it gives (5.5.10)."""
    at, told = 8, []
    while data[at] != 7:
        size, begin = number(data, at + 1)
        at = begin + size
    _, at = number(data, at + 1)
    count, at = number(data, at)
    for _ in range(count):
        length, at = number(data, at)
        name = data[at : at + length].decode()
        place, at = number(data, at + length + 1)
        told.append((name, place))
    return told


def custom(name, content):
    """A custom section (5.5.3)."""
    named = leb128(len(name)) + name + content
    return b"\0" + leb128(len(named)) + named


def main():
    with tempfile.TemporaryDirectory() as folder:
        path = Path(folder) / "words.wasm"
        subprocess.run([*COMPILE, str(HERE / "words.c"), "-o", str(path)], check=True)
        module = path.read_bytes()
    if exports(module) != PLACES:
        sys.exit(f"make.py: the compiler chose other places: {exports(module)}")
    description = json.loads((HERE / "description.json").read_text())
    text = json.dumps(description, separators=(",", ":")).encode()
    (HERE / "module.wasm").write_bytes(module + custom(b"__wbg_glue", text))


if __name__ == "__main__":
    main()
