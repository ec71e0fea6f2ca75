#!/usr/bin/env python3
"""Measures calls through a glue file beside the same written by hand, in one run of node, and prints a table: run.py

- sum: two 32-bit integers are passed, and their sum comes back, read as unsigned.
- wide: a 64-bit integer is passed and comes back, read as unsigned.
- lent: an object is lent to a function, which hands it to an import.
- given: an object is given to a function, which gives it back.
- text: a string of 33 letters is written to memory, a function is called, and the string is read there again and freed.
- numbers: a vector of 100 integers is written to memory, and their sum comes back.

The program is the one that the environment variable GLUE names, or else the one that the script `glue` runs. Needs node 18 or
later and Debian's wabt.
"""

import json
import subprocess
import sys
import tempfile
from pathlib import Path

sys.path.insert(0, str(Path(__file__).resolve().parents[1]))
from shared import TOP, leb128, program  # noqa: E402

HERE = Path(__file__).resolve().parent
TEXT = """(module
  (import "__wbindgen_placeholder__" "look" (func $look (param i32)))
  (func (export "sum") (param i32 i32) (result i32) (i32.add (local.get 0) (local.get 1)))
  (func (export "wide") (param i64) (result i64) (local.get 0))
  (func (export "lent") (param i32) (call $look (local.get 0)))
  (func (export "given") (param i32) (result i32) (local.get 0))
  (func (export "touch"))
  (func (export "total") (param $at i32) (param $count i32) (result i32) (local $sum i32)
    (block $done
      (loop $next
        (br_if $done (i32.eqz (local.get $count)))
        (local.set $sum (i32.add (local.get $sum) (i32.load (local.get $at))))
        (local.set $at (i32.add (local.get $at) (i32.const 4)))
        (local.set $count (i32.sub (local.get $count) (i32.const 1)))
        (br $next)))
    (local.get $sum))
  (func (export "malloc") (param i32 i32) (result i32) (i32.const 1024))
  (func (export "realloc") (param i32 i32 i32 i32) (result i32) (local.get 0))
  (func (export "free") (param i32 i32 i32))
  (memory (export "memory") 1))"""
# The places of the functions: an import and six functions stand before them.
MALLOC, REALLOC, FREE = 7, 8, 9
GET, TO_32 = [["ArgGet", place] for place in range(2)], ["Int32ToWasm"]
CODES = {
    "sum": (["u32", "u32"], ["u32"], [GET[0], TO_32, GET[1], TO_32, ["CallExport", 0], ["WasmToInt32", True]]),
    "wide": (["u64"], ["u64"], [GET[0], ["Int64ToWasm"], ["CallExport", 1], ["WasmToInt64", True]]),
    "lent": (["externref"], [], [GET[0], ["IndexFromBorrow"], ["CallExport", 2]]),
    "given": (["externref"], ["externref"], [GET[0], ["IndexFromOwned"], ["CallExport", 3], ["TakeIndex"]]),
    "text": (
        ["string"],
        ["string"],
        [GET[0], ["StringToMemory", MALLOC, REALLOC, 0], ["DeferFree", FREE, 1], ["CallExport", 4], ["MemoryToString", 0]],
    ),
    "numbers": (
        [{"vec": "I32"}],
        ["s32"],
        [GET[0], ["VecToWasm", "I32", MALLOC, 0], ["CallExport", 5], ["WasmToInt32", False]],
    ),
}


def description():
    """The six exports, and the import that looks at what is lent."""
    adapters = [
        {"id": place, "args": args, "results": results, "code": code}
        for place, (args, results, code) in enumerate(CODES.values())
    ]
    adapters.append({"id": 8, "args": ["externref"], "results": [], "code": [GET[0], ["GetIndex"], ["CallAdapter", 9]]})
    adapters.append({"id": 9, "args": ["externref"], "results": [], "import": "normal"})
    exports = [{"adapter": place, "kind": "function", "name": title} for place, title in enumerate(CODES)]
    imports = [{"adapter": 9, "what": ["Bare", {"global": "look"}]}]
    return {"version": 1, "adapters": adapters, "exports": exports, "implements": [[0, 8]], "imports": imports}


def custom(title, content):
    """A custom section (WebAssembly core specification, 5.5.3)."""
    held = leb128(len(title)) + title + content
    return b"\0" + leb128(len(held)) + held


def main():
    with tempfile.TemporaryDirectory() as folder:
        source, bare, listing = (Path(folder) / title for title in ["module.wat", "module.wasm", "listing"])
        source.write_text(TEXT)
        subprocess.run(["wat2wasm", str(source), "-o", str(bare)], check=True)
        described = bare.read_bytes() + custom(b"__wbg_glue", json.dumps(description()).encode())
        with listing.open("wb") as out:
            subprocess.run([program(), "--target", "deno"], input=described, stdout=out, check=True)
        words = ["node", str(HERE / "measure.mjs"), str(listing), str(Path(folder) / "files"), str(bare), str(TOP)]
        subprocess.run(words, check=True)


if __name__ == "__main__":
    main()
