#!/usr/bin/env python3
"""Makes glue files of modules that import properties, memories and string constants, and has node load and call them.

- properties: five imports that only hand on to a property of a module's name, of which two aren't there, and one that takes
  less arguments than it is given.
- nowhere: one whose property would be one of a value that isn't there.
- memory, limited: an imported memory, without and with a maximum.
- strings: string constants, which a function of another module is given.

loaded.mjs says for each what the exports of its glue file have to do. Prints a line for each, and ends with status 1 where
one does something else.

The program is the one that the environment variable GLUE names, or else the one that the script glue runs. Needs Python
3.9 and node 18 or later. It is no part of the gate.
"""

import json
import os
import subprocess
import sys
import tempfile
from pathlib import Path

from imports import HERE, I32, leb128, name, section, vector

EXTERN = b"\x6f"

# Modules as URLs, which have no `?` and no `#`: these would end the text.
TOOLS = """data:text/javascript,export const tools = {
  twice: (n) => 2 * n,
  count: (...all) => all.length,
  bare() { return Number(this === undefined); },
  deep: { "c-d": (n) => n + 1 },
};
globalThis.tools = tools;""".replace("\n", "")
TAKE = "data:text/javascript,export const take = (value) => globalThis.taken.push(value);"
STRINGS = ["", "hello", "a b", "__proto__", "constructor", "get", '"\\\n\r', "\u2028*/${`", "\0é\U0001f600"]


def function_type(args, results):
    return b"\x60" + vector(args) + vector(results)


def body(code):
    """A function without locals."""
    inside = vector([]) + code + b"\x0b"
    return leb128(len(inside)) + inside


def module(types, imports, functions, exports, description):
    """A module of functions, each a type and code, with a description."""
    glue = name("__wbg_glue") + json.dumps({"version": 1, **description}).encode()
    return (
        b"\0asm\x01\0\0\0"
        + section(1, vector(types))
        + section(2, vector(imports))
        + section(3, vector([leb128(kind) for kind, _ in functions]))
        + section(7, vector(exports))
        + section(10, vector([body(code) for _, code in functions]))
        + section(0, glue)
    )


def exported(place, adapter, title, args, results):
    """The export of a function, its adapter, and what is said of it."""
    code = [step for number in range(args) for step in (["ArgGet", number], ["Int32ToWasm"])]
    code += [["CallExport", adapter]] + [["WasmToInt32", False]] * results
    return (
        name(title) + b"\0" + leb128(place),
        {"id": adapter, "args": ["s32"] * args, "results": ["s32"] * results, "code": code},
        {"adapter": adapter, "kind": "function", "name": title},
    )


def handed_on(wanted):
    """A module that hands each of its exports on to an import: a property of `tools`, called with so many of its arguments."""
    types = [function_type([I32] * args, [I32]) for _, args, _, _ in wanted]
    imports = [name("__wbindgen_placeholder__") + name(title) + b"\0" + leb128(at) for at, (title, *_) in enumerate(wanted)]
    functions, exports, adapters, published, described = [], [], [], [], []
    for at, (title, args, taken, fields) in enumerate(wanted):
        code = b"".join(b"\x20" + leb128(number) for number in range(args)) + b"\x10" + leb128(at)
        functions.append((at, code))
        export, adapter, entry = exported(len(wanted) + at, at, title, args, 1)
        exports.append(export)
        published.append(entry)
        local, call = len(wanted) + at, 2 * len(wanted) + at
        given = [step for number in range(taken) for step in (["ArgGet", number], ["WasmToInt32", False])]
        steps = [*given, ["CallAdapter", call], ["Int32ToWasm"]]
        adapters += [
            adapter,
            {"id": local, "args": ["s32"] * args, "results": ["s32"], "code": steps},
            {"id": call, "args": ["s32"] * taken, "results": ["s32"], "import": "normal"},
        ]
        described.append({"adapter": call, "what": ["Bare", {"module": TOOLS, "name": "tools", "fields": fields}]})
    pairs = [[at, len(wanted) + at] for at in range(len(wanted))]
    description = {"adapters": adapters, "exports": published, "implements": pairs, "imports": described}
    return module(types, imports, functions, exports, description)


def with_memory(limits):
    """A module that imports a memory, and tells its size and grows it."""
    size, first, said = exported(0, 0, "size", 0, 1)
    grow, second, also = exported(1, 1, "grow", 1, 1)
    types = [function_type([], [I32]), function_type([I32], [I32])]
    functions = [(0, b"\x3f\0"), (1, b"\x20\0\x40\0")]
    description = {"adapters": [first, second], "exports": [said, also]}
    return module(types, [name("env") + name("memory") + b"\2" + limits], functions, [size, grow], description)


def with_strings():
    """A module that imports string constants, and hands each to a function of another module."""
    constants = [name("wasm:js/string-constants") + name(text) + b"\3" + EXTERN + b"\0" for text in STRINGS]
    show, adapter, entry = exported(1, 0, "show", 0, 0)
    types = [function_type([EXTERN], []), function_type([], [])]
    code = b"".join(b"\x23" + leb128(place) + b"\x10\0" for place in range(len(STRINGS)))
    imports = [*constants, name(TAKE) + name("take") + b"\0\0"]
    return module(types, imports, [(1, code)], [show], {"adapters": [adapter], "exports": [entry]})


CASES = {
    "properties": handed_on(
        [
            ("twice", 1, 1, ["twice"]),
            ("next", 1, 1, ["deep", "c-d"]),
            ("count", 2, 1, ["count"]),
            ("bare", 0, 0, ["bare"]),
            ("gone", 0, 0, ["gone"]),
            ("lost", 0, 0, ["deep", "e-f"]),
        ]
    ),
    "nowhere": handed_on([("nowhere", 0, 0, ["nothing", "gone"])]),
    "memory": with_memory(b"\0\1"),
    "limited": with_memory(b"\1\1\3"),
    "strings": with_strings(),
}


def fault(command, title, content):
    """What is wrong with the glue file of a module, nothing where it does what it has to."""
    done = subprocess.run([*command, "--target", "deno"], input=content, stdout=subprocess.PIPE)
    if done.returncode != 0:
        return f"the program ends with {done.returncode}: {done.stdout.decode(errors='replace').strip()}"
    with tempfile.TemporaryDirectory() as folder:
        listing = Path(folder) / "listing"
        listing.write_bytes(done.stdout)
        words = ["node", str(HERE / "loaded.mjs"), str(listing), str(Path(folder) / "files"), title, json.dumps(STRINGS)]
        loaded = subprocess.run(words, capture_output=True)
    return "" if loaded.returncode == 0 else loaded.stderr.decode(errors="replace").strip()


def main():
    command = [os.environ.get("GLUE", str(HERE.parent / "glue"))]
    told = {title: fault(command, title, content) for title, content in CASES.items()}
    for title, said in told.items():
        print(f"{title}: {said or 'as it has to be'}")
    sys.exit(any(told.values()))


if __name__ == "__main__":
    main()
