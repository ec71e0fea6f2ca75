#!/usr/bin/env python3
"""Puts hostile texts into every place of a description and a module where a text goes, and has node parse the glue files.

Each text holds a call that must not become code. For each place a description is made for each text; the program refuses
it by name, or prints a glue file. Of a file node has to find that it parses, and the call may stand in string literals and
in comments alone. Computed keys aren't tried: they stand in the file as they are written.

The program is the one that the environment variable GLUE names, or else the one that the script glue runs. Needs Python
3.9 and node. It is no part of the gate.
"""

import collections
import json
import os
import re
import subprocess
import sys
import tempfile
from pathlib import Path

from imports import HERE, I32, leb128, name, section, vector

CALL = "globalThis.taken()"
TEXTS = [
    f'"; {CALL}; "',
    f"'; {CALL}; '",
    f"\n{CALL};\n",
    f"\r{CALL};\r",
    f"\u2028{CALL};\u2028",
    f"\u2029{CALL};\u2029",
    f"*/ {CALL}; /*",
    f"// {CALL}",
    f"${{{CALL}}}",
    f"`; {CALL}; `",
    f"\\\"; {CALL}; //",
    f"\\\n{CALL};",
    f"</script>{CALL}<!--",
    f"\0{CALL}\x7f",
    f"x[{CALL}]",
    f".{CALL}.",
    f"é{CALL}",
]
OUTSIDE_CODE = re.compile(r'"(?:\\.|[^"\\\n])*"|//[^\n]*|/\*(?s:.*?)\*/')


def described(what, kind="normal", args=0, result=False):
    """A description with one import of this kind."""

    def at(text):
        types = ["s32"] * args
        results = ["s32"] if result else []
        code = [step for number in range(args) for step in (["ArgGet", number], ["WasmToInt32", False])]
        code += [["CallAdapter", 1]] + ([["Int32ToWasm"]] if result else [])
        return {
            "type": (args, result),
            "description": {
                "adapters": [
                    {"id": 0, "args": types, "results": results, "code": code},
                    {"id": 1, "args": types, "results": results, "import": kind},
                ],
                "implements": [[0, 0]],
                "imports": [{"adapter": 1, "what": what(text)}],
            },
        }

    return at


def exported(fields):
    """A description with one export whose entry has these fields too."""

    def at(text):
        entry = {"adapter": 2, "kind": "function", "name": "run", "args": ["a"]}
        entry.update(fields(text))
        code = [["ArgGet", 0], ["Int32ToWasm"], ["CallExport", 0]]
        adapter = {"id": 2, "args": ["s32"], "results": [], "code": code}
        return {"description": {"adapters": [adapter], "exports": [entry]}}

    return at


def published(key, entry):
    """A description with one entry of this key."""
    return lambda text: {"description": {key: [entry(text)]}}


def allocating(key):
    """A description with a string that goes in and is freed, whose module has this name for what allocates, or for its memory."""

    def at(text):
        code = [["ArgGet", 0], ["StringToMemory", 1, None, 0], ["DeferFree", 1, 1], ["CallExport", 0]]
        adapter = {"id": 2, "args": ["string"], "results": [], "code": code}
        entry = {"adapter": 2, "kind": "function", "name": "run", "args": ["a"]}
        return {"description": {"adapters": [adapter], "exports": [entry]}, "allocator": {key: text}}

    return at


def enum(fields):
    """An enum with these fields too."""
    return published("enums", lambda text: {"name": "E", "variants": [["A", 1, ""]], **fields(text)})


def reexport(js):
    """A re-export of this import."""
    return published("reexports", lambda text: {"name": "r", "js": js(text)})


def merged(text):
    """A re-export, and a function in a namespace of its name."""
    case = exported(lambda t: {"namespace": [t, t]})(text)
    case["description"]["reexports"] = [{"name": text, "js": {"module": text, "name": text}}]
    return case


PLACES = {
    "field of a global": described(lambda t: ["Bare", {"global": "console", "fields": [t]}]),
    "name of a global": described(lambda t: ["Bare", {"global": t}]),
    "name in a module": described(lambda t: ["Bare", {"module": "m", "name": t}], args=1),
    "module of a name": described(lambda t: ["Bare", {"module": t, "name": "f"}], args=1),
    "local module": described(lambda t: ["Bare", {"local": t, "name": "f"}], args=1),
    "crate of a snippet": described(lambda t: ["Bare", {"inline": t, "index": 0, "name": "f"}], args=1),
    "name of a class in a module": described(lambda t: ["Bare", {"module": "m", "name": t}], kind="constructor"),
    "module of a class": described(lambda t: ["Bare", {"module": t, "name": "f"}], kind="constructor"),
    "local module of a class": described(lambda t: ["Bare", {"local": t, "name": "f"}], kind="constructor"),
    "crate of a class": described(lambda t: ["Bare", {"inline": t, "index": 0, "name": "f"}], kind="constructor"),
    "field of a name in a module": described(
        lambda t: ["Static", {"module": "m", "name": "f", "fields": [t]}, True], result=True
    ),
    "field of a vendor's name": described(
        lambda t: ["Bare", {"vendor": "f", "prefixes": ["webkit"], "fields": [t]}], kind="constructor"
    ),
    "property of a name in a module": described(lambda t: ["Bare", {"module": "m", "name": "f", "fields": [t]}], args=1),
    "properties of a name in a module": described(
        lambda t: ["Bare", {"local": "m.js", "name": t, "fields": ["a.b", t, "[Symbol.iterator]", t]}], args=1, result=True
    ),
    "module of a name with a property": described(lambda t: ["Bare", {"inline": t, "index": 0, "name": "f", "fields": ["x"]}]),
    "vendor name": described(lambda t: ["Bare", {"vendor": t, "prefixes": ["webkit"]}]),
    "vendor prefix": described(lambda t: ["Bare", {"vendor": "f", "prefixes": [t]}]),
    "method of a value": described(lambda t: ["ValueWithThis", {"global": "console"}, t]),
    "method": described(lambda t: ["StructuralMethod", t], args=1),
    "getter": described(lambda t: ["StructuralGetter", t], args=1, result=True),
    "setter": described(lambda t: ["StructuralSetter", t], args=2),
    "getter of a value": described(lambda t: ["StructuralClassGetter", {"global": "g"}, t], result=True),
    "setter of a value": described(lambda t: ["StructuralClassSetter", {"global": "g"}, t], args=1),
    "accessor": described(lambda t: ["Getter", {"global": "g"}, t], kind="method", args=1, result=True),
    "accessor of a class": described(lambda t: ["ClassSetter", {"global": "g"}, t], kind="method", args=2),
    "accessor of a class in a module": described(
        lambda t: ["Setter", {"module": "m", "name": t, "fields": [t]}, t], kind="method", args=2
    ),
    "static value": described(lambda t: ["Static", {"global": "g", "fields": [t]}, False], result=True),
    "optional static value": described(lambda t: ["Static", {"global": "g", "fields": [t]}, True], result=True),
    "text": described(lambda t: ["String", t], result=True),
    "cast": described(lambda t: ["Cast", t], args=1, result=True),
    "path of a link": described(lambda t: ["LinkTo", t, "x"], result=True),
    "content of a link": described(lambda t: ["LinkTo", "a.js", t], result=True),
    "class that is tested": described(lambda t: ["Instanceof", {"global": "g", "fields": [t]}], args=1, result=True),
    "operation": described(lambda t: ["Intrinsic", t]),
    "name of an export": exported(lambda t: {"name": t}),
    "namespace": exported(lambda t: {"namespace": [t]}),
    "inner namespace": exported(lambda t: {"namespace": ["a", t, "b"]}),
    "name in a namespace": exported(lambda t: {"namespace": ["a"], "name": t}),
    "comment in a namespace": exported(lambda t: {"namespace": ["a"], "comments": t}),
    "name of an enum": enum(lambda t: {"name": t}),
    "namespace of an enum": enum(lambda t: {"namespace": [t, t]}),
    "comment of an enum": enum(lambda t: {"comments": t}),
    "variant": enum(lambda t: {"variants": [[t, 1, ""]]}),
    "comment of a variant": enum(lambda t: {"variants": [["A", 1, t], ["B", 2, t]]}),
    "string enum": published("string_enums", lambda t: {"name": t, "variants": ["a"]}),
    "variant of a string enum": published("string_enums", lambda t: {"name": "S", "variants": [t], "comments": t}),
    "name of a re-export": published("reexports", lambda t: {"name": t, "js": {"module": "m", "name": "f"}}),
    "name of a re-export and a namespace": merged,
    "module of a re-export": reexport(lambda t: {"module": t, "name": "f"}),
    "name in the module of a re-export": reexport(lambda t: {"module": "m", "name": t}),
    "local module of a re-export": reexport(lambda t: {"local": t, "name": "f"}),
    "crate of a re-export": reexport(lambda t: {"inline": t, "index": 0, "name": "f"}),
    "vendor name of a re-export": reexport(lambda t: {"vendor": t, "prefixes": ["webkit"]}),
    "vendor prefix of a re-export": reexport(lambda t: {"vendor": "f", "prefixes": [t]}),
    "global of a re-export": reexport(lambda t: {"global": t}),
    "field of a re-export": reexport(lambda t: {"module": "m", "name": "f", "fields": [t]}),
    "parameter": exported(lambda t: {"args": [t]}),
    "comment": exported(lambda t: {"comments": t}),
    "debug name": exported(lambda t: {"debug": t}),
    "name of an import": lambda t: {**described(lambda u: ["Bare", {"global": "f"}])(t), "import": t},
    "name of a WebAssembly export": lambda t: {**exported(lambda u: {})(t), "export": t},
    "module of another import": lambda t: {"description": {}, "foreign": t},
    "name of another import": lambda t: {"description": {}, "foreign": "env", "other": t},
    "name of a memory": lambda t: {"description": {}, "memory": t},
    "string constant": lambda t: {"description": {}, "string": t},
    "name of an export that allocates": allocating("function"),
    "name of an exported memory": allocating("memory"),
    "name of a function that allocates": allocating("named"),
}


def allocator(names):
    """A module of a function `run` that takes two integers, one that takes one, and a memory, with these names."""
    types = [b"\x60" + vector([I32, I32]) + vector([]), b"\x60" + vector([I32]) + vector([])]
    exports = [name("run") + b"\0\0"]
    if "function" in names:
        exports.append(name(names["function"]) + b"\0\1")
    if "memory" in names:
        exports.append(name(names["memory"]) + b"\2\0")
    body = vector([]) + b"\x0b"
    content = (
        b"\0asm\x01\0\0\0"
        + section(1, vector(types))
        + section(3, vector([b"\0", b"\1"]))
        + section(5, vector([b"\0\1"]))
        + section(7, vector(exports))
        + section(10, vector([leb128(len(body)) + body] * 2))
    )
    if "named" in names:
        content += section(0, name("name") + section(1, vector([b"\1" + name(names["named"])])))
    return content


def module(case):
    """A module of these names with this description."""
    glue = name("__wbg_glue") + json.dumps({"version": 1, **case["description"]}).encode()
    if "allocator" in case:
        return allocator(case["allocator"]) + section(0, glue)
    args, result = case.get("type", (0, False))
    types = [b"\x60" + vector([I32] * args) + vector([I32] * result), b"\x60" + vector([I32]) + vector([])]
    imports = [name("__wbindgen_placeholder__") + name(case.get("import", "f")) + b"\0\0"]
    if "implements" not in case["description"]:
        imports = []
    if "foreign" in case:
        imports.append(name(case["foreign"]) + name(case.get("other", "g")) + b"\0\1")
    exports = [name(case.get("export", "run")) + b"\0" + leb128(len(imports))]
    if "memory" in case:
        imports.append(name("env") + name(case["memory"]) + b"\2\0\1")
    if "string" in case:
        imports.append(name("wasm:js/string-constants") + name(case["string"]) + b"\3\x6f\0")
        exports.append(name("string") + b"\3\0")
    body = vector([]) + b"\x0b"
    return (
        b"\0asm\x01\0\0\0"
        + section(1, vector(types))
        + section(2, vector(imports))
        + section(3, vector([b"\1"]))
        + section(7, vector(exports))
        + section(10, vector([leb128(len(body)) + body]))
        + section(0, glue)
    )


def glue_file(command, case):
    """The glue file, or the line of a fault."""
    done = subprocess.run([*command, "--target", "deno"], input=module(case), stdout=subprocess.PIPE)
    text = done.stdout.decode()
    if text.startswith("fault"):
        return None, text.strip()
    heading = re.search(r"^file out\.js text (\d+)\n", text, re.M)
    return text[heading.end() :], None


def parses(text):
    """Whether node finds that the text is an ES module."""
    with tempfile.TemporaryDirectory() as folder:
        path = Path(folder) / "out.mjs"
        path.write_text(text, encoding="utf-8")
        return subprocess.run(["node", "--check", str(path)], capture_output=True).returncode == 0


def main():
    command = [os.environ.get("GLUE", str(HERE.parent / "glue"))]
    counts = collections.Counter()
    wrong = 0
    for place, case in PLACES.items():
        for hostile in TEXTS:
            text, fault = glue_file(command, case(hostile))
            counts[fault or "parsed"] += 1
            if text is not None and (CALL in OUTSIDE_CODE.sub("", text) or not parses(text)):
                wrong += 1
                print(f"{place} {hostile!r}: {text}")
    print(f"{len(PLACES)} places, {len(TEXTS)} texts: {dict(counts)}; {wrong} wrong")
    sys.exit(bool(wrong))


if __name__ == "__main__":
    main()
