#!/usr/bin/env python3
"""Compares the statements that imports become with texts that were typed from those of the original.

The rows of `crates/text_rows/data/import_texts.jsonl` say for imports of each kind and each operation how it is called, how each operand is
read (`i` as signed, `u` as unsigned, `b` as a truth, `n` as a truth that is read as an unsigned number), and the statements that are wanted,
or the expression, where a property of a module's name is only handed on to. Those for Deno are put into one module, whose glue file is made
by the program; then each member is compared, and the lines that bind names that aren't of the global scope. Imports that the program names
as not built are counted, and rows that ask for another target, another setting, or a name that isn't drawn here are left out.

The program is the one that the environment variable GLUE names, or else the one that the script glue runs. Needs Python
3.9. It is no part of the gate.
"""

import itertools
import json
import os
import subprocess
import sys
from pathlib import Path

HERE = Path(__file__).resolve().parent
I32 = b"\x7f"


def leb128(value):
    """The shortest unsigned LEB128 form of a number (WebAssembly core specification, 5.2.2)."""
    out = bytearray()
    while value > 0x7F:
        out.append(value & 0x7F | 0x80)
        value >>= 7
    out.append(value)
    return bytes(out)


def vector(items):
    """A list (5.1.3)."""
    return leb128(len(items)) + b"".join(items)


def name(text):
    return vector([bytes([byte]) for byte in text.encode()])


def section(number, content):
    return bytes([number]) + leb128(len(content)) + content


# The names that are drawn, and the lines that bind them.
DRAWN = {
    "Widget": 'import { Widget } from "./m.js";',
    "lAudio": 'const lAudio = (typeof Audio !== "undefined" ? Audio : '
    '(typeof webkitAudio !== "undefined" ? webkitAudio : undefined));',
    "lGadget": 'const lGadget = (typeof Gadget !== "undefined" ? Gadget : '
    '(typeof webkitGadget !== "undefined" ? webkitGadget : undefined));',
}

# The names of the exports of items.
EXPORTED = {"memory": "memory", "functions": "table"}

# What makes an operand of a 32-bit integer, by the letter that says how it is read.
MADE = {
    "i": [["WasmToInt32", False]],
    "u": [["WasmToInt32", True]],
    "b": [["BoolFromI32"]],
    "n": [["BoolFromI32"], ["I32FromBool"], ["WasmToInt32", True]],
}


def is_plain(row):
    """Whether the import of a row can stand in the module that is made here."""
    if any(key in row for key in ("target", "split", "references", "slots")):
        return False
    exports = row.get("exports", EXPORTED)
    return row.get("drawn", "Widget") in DRAWN and all(exports[kind] == EXPORTED[kind] for kind in EXPORTED)


def called(row):
    """The imports that a row is compared with: what only hands on does so with any operands and results."""
    if row["call"] == "import_text":
        return [row]
    calls = itertools.product([[], ["i"], ["i", "i"]], [False, True])
    return [{**row, "kind": "normal", "variadic": False, "args": args, "result": result} for args, result in calls]


def read_rows():
    with (HERE.parent / "crates/text_rows/data/import_texts.jsonl").open(encoding="utf-8") as lines:
        return [row for line in lines for row in called(json.loads(line))]


def adapters(case, place):
    """The adapter that stands for the import at a place, and the one that it calls."""
    code = [step for number, letter in enumerate(case["args"]) for step in [["ArgGet", number], *MADE[letter]]]
    code.append(["CallAdapter", 2 * place + 1])
    types = ["s32"] * len(case["args"])
    results = ["s32"] if case["result"] else []
    if case["result"]:
        code.append(["Int32ToWasm"])
    return [
        {"id": 2 * place, "args": types, "results": results, "code": code},
        {"id": 2 * place + 1, "args": types, "results": results, "import": case["kind"]},
    ]


def module(cases):
    """A module with a memory and a table of functions that imports a function for each case, and describes it."""
    types = [b"\x60" + vector([I32] * len(case["args"])) + vector([I32] * case["result"]) for case in cases]
    imports = [
        name("__wbindgen_placeholder__") + name(f"f{place}") + b"\0" + leb128(place) for place in range(len(cases))
    ]
    description = {
        "version": 1,
        "adapters": [adapter for place, case in enumerate(cases) for adapter in adapters(case, place)],
        "implements": [[place, 2 * place] for place in range(len(cases))],
        "imports": [{"adapter": 2 * place + 1, "what": case["what"]} for place, case in enumerate(cases)],
        "variadic": [2 * place + 1 for place, case in enumerate(cases) if case["variadic"]],
        "parts": {"function_table": 0},
    }
    glue = name("__wbg_glue") + json.dumps(description).encode()
    exports = [name("memory") + b"\2\0", name("table") + b"\1\0"]
    parts = [(1, types), (2, imports), (4, [b"\x70\0\1"]), (5, [b"\0\1"]), (7, exports)]
    return b"\0asm\x01\0\0\0" + b"".join(section(number, vector(entries)) for number, entries in parts) + section(0, glue)


def listing(command, cases):
    done = subprocess.run([*command, "--target", "deno"], input=module(cases), stdout=subprocess.PIPE)
    return done.stdout.decode()


def member(text, place):
    """The statements of the function of an import, without indentation, or the expression that stands in its place."""
    front = f"\n        f{place}: "
    begin = text.index(front) + len(front)
    if not text.startswith("function(", begin):
        return text[begin : text.index(",\n", begin)]
    inside = text[text.index("\n", begin) + 1 : text.index("\n        },", begin)]
    return "\n".join(line.strip() for line in inside.split("\n"))


def main():
    command = [os.environ.get("GLUE", str(HERE.parent / "glue"))]
    rows = read_rows()
    cases = [row for row in rows if is_plain(row)]
    told = [listing(command, [case]) for case in cases]
    built = [case for case, text in zip(cases, told) if not text.startswith("fault")]
    refused = [text for text in told if text.startswith("fault")]
    if any(text != "fault NotBuilt\n" for text in refused):
        sys.exit(f"refused in another way: {sorted(set(refused))}")
    text = listing(command, built)
    front = text[text.index("\nfile out.js") :].split("\n")[2 : 2 + len(DRAWN)]
    if sorted(front) != sorted(DRAWN.values()):
        sys.exit(f"the names are bound by {front}")
    wrong = [(case, member(text, place)) for place, case in enumerate(built)]
    wrong = [(case, got) for case, got in wrong if got != case["text"]]
    for case, got in wrong:
        print(f"{case['name']}: {got!r} in place of {case['text']!r}")
    same = len(built) - len(wrong)
    print(f"{same} of {len(cases)} texts are the same, {len(refused)} aren't built, {len(wrong)} differ, {len(rows) - len(cases)} are left out")
    sys.exit(bool(wrong))


if __name__ == "__main__":
    main()
