#!/usr/bin/env python3
"""Checks descriptions against docs/description.schema.json.

The descriptions of the modules in examples/, and those of the files that are named on the command line, have to be
valid; a file holds JSON, or is a module with a section __wbg_glue. Then each of the damaged descriptions below has to
be invalid, and what it was damaged from valid. Prints a line for each, and ends with status 1 where one isn't so.

Needs the package jsonschema.
"""

import copy
import json
import sys
from pathlib import Path

from jsonschema import Draft202012Validator

HERE = Path(__file__).resolve().parent
TOP = HERE.parent

SOUND = {
    "version": 1,
    "adapters": [
        {"id": 0, "args": ["s32"], "results": [{"option": {"vec": "U8"}}], "code": [
            ["ArgGet", 0], ["Int32ToWasm"], ["CallExport", 0], ["WasmToInt32", False],
            ["StringToMemory", 3, None, 0], ["LoadRetptr", 8, "i64", 0], ["Anything", {}, 1.5]]},
        {"id": 1, "import": "normal"},
    ],
    "implements": [[0, 0]],
    "exports": [{"adapter": 0, "kind": "method", "name": "f", "class": "C", "receiver": "borrowed"}],
    "imports": [{"adapter": 1, "what": ["Bare", {"global": "console", "fields": ["log"]}]}],
    "enums": [{"name": "E", "variants": [["One", -1, ""]]}],
    "unions": [{"name": "U", "variants": [{"literal": "a"}, "bool"]}],
    "snippets": {"a-1": ["export const x = 1;"]},
    "static_slots": [None, "c"],
    "parts": {"stack_pointer": 0, "js_tag": None},
    "uses_reinit": True,
}

GONE = object()

# Where the sound description is changed, and what stands there then.
DAMAGED = [
    (["version"], 2),
    (["version"], GONE),
    (["surplus"], []),
    (["adapters"], None),
    (["adapters", 0, "id"], GONE),
    (["adapters", 0, "id"], 4294967296),
    (["adapters", 0, "import"], "normal"),
    (["adapters", 1, "import"], GONE),
    (["adapters", 0, "args", 0], "f64"),
    (["adapters", 0, "results", 0], {"option": "s32", "vec": "U8"}),
    (["adapters", 0, "code", 0], ["ArgGet"]),
    (["adapters", 0, "code", 1], ["Int32ToWasm", 0]),
    (["adapters", 0, "code", 4], ["StringToMemory", None, 3, 0]),
    (["adapters", 0, "code", 5], ["LoadRetptr", 8, "f64", 0]),
    (["implements", 0], [0, -1]),
    (["exports", 0, "kind"], "static"),
    (["exports", 0, "class"], GONE),
    (["imports", 0, "what", 1], {"global": "console", "name": "log"}),
    (["imports", 0, "what"], ["Intrinsic", "Nothing"]),
    (["enums", 0, "variants", 0], ["One", 1]),
    (["unions", 0, "variants", 0], {"literal": 1}),
    (["snippets", "a-1"], "export const x = 1;"),
    (["static_slots", 0], 0),
    (["parts", "stack_pointer"], "sp"),
    (["uses_reinit"], 1),
]


def damaged(path, value):
    """The sound description with another value at a path."""
    whole = copy.deepcopy(SOUND)
    at = whole
    for key in path[:-1]:
        at = at[key]
    if value is GONE:
        del at[path[-1]]
    else:
        at[path[-1]] = value
    return whole


def number(data, at):
    """The unsigned LEB128 number at an offset, and the offset behind it."""
    value = shift = 0
    while True:
        value |= (data[at] & 127) << shift
        at, shift = at + 1, shift + 7
        if data[at - 1] < 128:
            return value, at


def section(data):
    """The content of a module's section __wbg_glue."""
    at = 8
    while at < len(data):
        kind, (size, start) = data[at], number(data, at + 1)
        at = start + size
        if kind == 0:
            length, name = number(data, start)
            if data[name:name + length] == b"__wbg_glue":
                return data[name + length:at]
    raise ValueError("no section __wbg_glue")


def told(path):
    """The description that a file holds."""
    data = Path(path).read_bytes()
    return json.loads(section(data) if data.startswith(b"\0asm") else data)


def main():
    validator = Draft202012Validator(json.loads((TOP / "docs" / "description.schema.json").read_text()))
    Draft202012Validator.check_schema(validator.schema)
    wrong = 0

    def say(name, value, wanted):
        nonlocal wrong
        valid = validator.is_valid(value)
        wrong += valid != wanted
        print(f"{'as it has to be' if valid == wanted else 'WRONG'}: {name} is {'valid' if valid else 'not valid'}")

    for path in [*sorted((TOP / "examples").glob("*/*.wasm")), *sys.argv[1:]]:
        say(path, told(path), True)
    say("the sound description", SOUND, True)
    for path, value in DAMAGED:
        said = "gone" if value is GONE else json.dumps(value)
        say(f"{'.'.join(map(str, path))} {said}", damaged(path, value), False)
    return 1 if wrong else 0


if __name__ == "__main__":
    sys.exit(main())
