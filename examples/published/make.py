#!/usr/bin/env python3
"""Makes module.wasm of module.wat and description.json: make.py

The module is what `wat2wasm` (of Debian's `wabt`) makes of the text. Behind it stands a custom section `__wbg_glue` with
the description.
"""

import json
import subprocess
from pathlib import Path

HERE = Path(__file__).resolve().parent


def leb128(value):
    """The shortest unsigned LEB128 form of a number (WebAssembly core specification, 5.2.2)."""
    out = bytearray()
    while value > 0x7F:
        out.append(value & 0x7F | 0x80)
        value >>= 7
    out.append(value)
    return bytes(out)


def custom(name, content):
    """A custom section (5.5.3)."""
    named = leb128(len(name)) + name + content
    return b"\0" + leb128(len(named)) + named


def main():
    path = HERE / "module.wasm"
    subprocess.run(["wat2wasm", str(HERE / "module.wat"), "-o", str(path)], check=True)
    description = json.loads((HERE / "description.json").read_text())
    text = json.dumps(description, separators=(",", ":")).encode()
    path.write_bytes(path.read_bytes() + custom(b"__wbg_glue", text))


if __name__ == "__main__":
    main()
