#!/usr/bin/env python3
"""Writes a described WebAssembly module to standard output: make.py N [--only KIND] [--shape SHAPE] > MODULE

The module imports N functions of 32-bit integers, `i0` and so on, each with an adapter of its own and the import adapter
that this one calls. Import k is of the k-th kind of a list, which is gone through again and again. With --only the list has
but the kinds whose name is KIND or begins with it and a space; `make.py --list` prints the names. With --shape it has the
kinds of one of SHAPES instead, whose names clash. In all others texts, properties, globals and names of modules and vendors
have k in them, so that they differ, and there are ten modules of JavaScript of each sort. The module has a memory and a
table of functions, which it exports. The format is the binary format of the WebAssembly core specification, section 5; the
description is that of docs/DESCRIPTION.md.
"""

import argparse
import json
import sys
from collections import namedtuple
from pathlib import Path

sys.path.insert(0, str(Path(__file__).resolve().parents[1]))
from shared import leb128  # noqa: E402

PREAMBLE = b"\0asm\1\0\0\0"
CUSTOM, TYPE, IMPORT, TABLE, MEMORY, EXPORT = 0, 1, 2, 4, 5, 7
I32 = b"\x7f"
HOME = b"__wbindgen_placeholder__"
MODULES = 10
MOST = 3

# A kind: its name, what its import evaluates as a function of k, how it is called, how each operand is read (`i` signed, `u`
# unsigned), whether it has a result, whether its last argument is spread.
Kind = namedtuple("Kind", "name what call args result rest")

# The five sorts of names, of the k-th import, with a list of properties.
NAMES = {
    "global": lambda k, fields: {"global": f"g{k}", "fields": fields},
    "module": lambda k, fields: {"module": f"./m{k % MODULES}.js", "name": f"m{k}", "fields": fields},
    "local": lambda k, fields: {"local": f"l{k % MODULES}.js", "name": f"p{k}", "fields": fields},
    "inline": lambda k, fields: {"inline": f"c{k % MODULES}", "index": 0, "name": f"q{k}", "fields": fields},
    "vendor": lambda k, fields: {"vendor": f"v{k}", "prefixes": ["moz", "webkit"], "fields": fields},
}

# Kinds with a name, each of which is taken with each sort of names: kind, whether a property of the name is meant, the parts
# behind the name, how it is called, the operands, whether there is a result, whether the last argument is spread.
NAMED = [
    ("Bare", False, "", "normal", "i", True, False),
    ("Bare", True, "", "normal", "i", True, False),
    ("Bare", False, "", "normal", "u", True, False),
    ("Bare", False, "", "normal", "ii", True, True),
    ("Bare", False, "", "method", "ii", True, False),
    ("Bare", True, "", "constructor", "i", True, False),
    ("Getter", False, "p", "method", "i", True, False),
    ("Setter", False, "p", "method", "ii", False, False),
    ("ClassGetter", False, "p", "method", "", True, False),
    ("ClassSetter", False, "p", "method", "i", False, False),
    ("ValueWithThis", False, "p", "normal", "i", True, False),
    ("Instanceof", False, "", "normal", "i", True, False),
    ("Static", True, "false", "normal", "", True, False),
    ("Static", True, "true", "normal", "", True, False),
    ("StructuralClassGetter", False, "p", "normal", "", True, False),
    ("StructuralClassSetter", False, "p", "normal", "i", False, False),
    ("IndexingGetterOfClass", False, "", "normal", "i", True, False),
    ("IndexingSetterOfClass", False, "", "normal", "ii", False, False),
    ("IndexingDeleterOfClass", False, "", "normal", "i", True, False),
]

# Kinds without a name: kind, its parts as a function of k, the operands, whether there is a result, whether the last is spread.
NAMELESS = [
    ("String", lambda k: [f'say "{k}"'], "", True, False),
    ("Cast", lambda k: [f"fn(u{k}) -> u32"], "i", True, False),
    ("LinkTo", lambda k: [f"a{k}.js", f"let x = `{k}`;"], "", True, False),
    ("StructuralMethod", lambda k: [f"p{k}"], "ii", True, False),
    ("StructuralMethod", lambda k: [f"p{k}"], "iu", True, True),
    ("StructuralGetter", lambda k: [f"p{k}"], "i", True, False),
    ("StructuralSetter", lambda k: [f"p-{k}"], "ii", False, False),
    ("IndexingGetterOfObject", lambda k: [], "ii", True, False),
    ("IndexingSetterOfObject", lambda k: [], "iii", False, False),
    ("IndexingDeleterOfObject", lambda k: [], "ii", True, False),
]

# The operations that are built for Deno, by the number of their operands.
INTRINSICS = {
    0: "Exports Reinit Instance Memory FunctionTable ExternrefHeapLiveCount",
    1: "Neg BitNot IsFalsy Typeof IsUndefined IsNull IsNullOrUndefined IsFunction IsString IsSymbol IsBigInt ObjectCloneRef "
    "ObjectDropRef IsObject NumberGet StringGet BooleanGet BigIntGetAsI64 TryIntoNumber Throw Rethrow DebugString PanicError "
    "StringFromUtf8Lossy",
    2: "Add Sub Mul Div Rem Pow BitAnd BitOr BitXor Shl Shr UnsignedShr LT LE GE GT JsvalEq JsvalLooseEq In CheckedDiv "
    "CopyToTypedArray",
}
WITHOUT_RESULT = ("Throw", "Rethrow")


def named(kind, sort, property_, part, call, args, result, rest):
    """A kind with a sort of names."""

    def what(k):
        parts = {"": [], "p": [f"p{k}"], "false": [False], "true": [True]}[part]
        return [kind, NAMES[sort](k, [f"f{k}"] if property_ else []), *parts]

    words = [kind, sort, call if kind == "Bare" else "", args, "property" if property_ else "", "rest" if rest else ""]
    words.append(part if kind == "Static" else "")
    return Kind(" ".join(filter(None, words)), what, call, args, result, rest)


def nameless(kind, parts, args, result, rest):
    """A kind without a name."""
    name = " ".join(filter(None, [kind, args, "rest" if rest else ""]))
    return Kind(name, lambda k: [kind, *parts(k)], "normal", args, result, rest)


def operations(words):
    """The kinds of a table of operations."""
    for count, line in words.items():
        for word in line.split():
            what = ["Intrinsic", word]
            yield Kind(f"Intrinsic {word}", lambda k, what=what: what, "normal", "i" * count, word not in WITHOUT_RESULT, False)


def signs(k):
    """A text of nine signs that differs for each k below 4^9, and of which no sign can stand in an identifier."""
    return "".join("-+*/"[k >> 2 * place & 3] for place in range(9))


def made(*parts):
    """Kinds that make an object of a name, one for each function of k that gives the name."""
    return [Kind("shape", lambda k, part=part: ["Bare", part(k)], "constructor", "i", True, False) for part in parts]


def numbered(text, k):
    """The text as it is drawn the k-th time from 0 on."""
    return text + (str(k + 1) if k else "")


# Names that clash with one another, or with those that are drawn.
SHAPES = {
    "one name of a module": made(lambda k: {"module": "./m.js", "name": "f"}),
    "one name of each module": made(lambda k: {"module": f"./m{k}.js", "name": "f"}),
    "names that become one identifier": made(lambda k: {"module": "./m.js", "name": signs(k)}),
    "names that would be drawn next": made(
        lambda k: {"module": f"./m{k}.js", "name": "f"}, lambda k: {"module": "./m.js", "name": numbered("f", k)}
    ),
    "globals that would be drawn next": made(
        lambda k: {"module": f"./m{k}.js", "name": "f"}, lambda k: {"global": numbered("f", k)}
    ),
    "globals called as locals": made(lambda k: {"global": numbered("arg0", k)}, lambda k: {"global": numbered("ret", k)}),
    "one vendor's name with other prefixes": made(lambda k: {"vendor": "v", "prefixes": [f"p{k}"]}),
}


def kinds():
    """All kinds."""
    out = [named(row[0], sort, *row[1:]) for row in NAMED for sort in NAMES]
    out += [nameless(*row) for row in NAMELESS]
    out += operations(INTRINSICS)
    return out


def name(text):
    """A name: its length in bytes and the bytes."""
    return leb128(len(text)) + text


def section(number, content):
    """A section: its number, its length and its content."""
    return bytes([number]) + leb128(len(content)) + content


def counted(number, entries):
    """A section that holds a list."""
    return section(number, leb128(len(entries)) + b"".join(entries))


def place_of_type(kind):
    """The place of the type of an import of this kind in TYPES."""
    return 2 * len(kind.args) + kind.result


TYPES = [
    b"\x60" + leb128(count) + I32 * count + leb128(result) + I32 * result for count in range(MOST + 1) for result in range(2)
]


def adapters(kind, k):
    """The adapter that stands for import k, and the one that calls JavaScript."""
    code = []
    for number, letter in enumerate(kind.args):
        code += [["ArgGet", number], ["WasmToInt32", letter == "u"]]
    code.append(["CallAdapter", 2 * k + 1])
    code += [["Int32ToWasm"]] * kind.result
    types = {"args": ["s32"] * len(kind.args), "results": ["s32"] * kind.result}
    return [{"id": 2 * k, **types, "code": code}, {"id": 2 * k + 1, **types, "import": kind.call}]


def pieces(chosen):
    """The description in pieces of text; `chosen` holds a kind for each import."""

    def listed(entries):
        first = True
        for entry in entries:
            yield ("" if first else ",") + json.dumps(entry, separators=(",", ":"))
            first = False

    yield '{"version":1,"adapters":['
    yield from listed(adapter for k, kind in enumerate(chosen) for adapter in adapters(kind, k))
    yield '],"implements":['
    yield from listed([k, 2 * k] for k in range(len(chosen)))
    yield '],"imports":['
    yield from listed({"adapter": 2 * k + 1, "what": kind.what(k)} for k, kind in enumerate(chosen))
    yield '],"variadic":['
    yield from listed(2 * k + 1 for k, kind in enumerate(chosen) if kind.rest)
    yield '],"parts":{"function_table":0}}'


def module(chosen):
    """A module with an import for each of the kinds."""
    imports = [name(HOME) + name(b"i%d" % k) + b"\0" + leb128(place_of_type(kind)) for k, kind in enumerate(chosen)]
    parts = [PREAMBLE, counted(TYPE, TYPES), counted(IMPORT, imports)]
    parts.append(counted(TABLE, [bytes([0x70, 0, 1])]))
    parts.append(counted(MEMORY, [bytes([0, 1])]))
    parts.append(counted(EXPORT, [name(b"memory") + bytes([2, 0]), name(b"table") + bytes([1, 0])]))
    parts.append(section(CUSTOM, name(b"__wbg_glue") + "".join(pieces(chosen)).encode()))
    return b"".join(parts)


def main():
    parser = argparse.ArgumentParser(usage=__doc__.splitlines()[0])
    parser.add_argument("count", type=int, nargs="?", default=0)
    parser.add_argument("--only", action="append", default=[])
    parser.add_argument("--shape", choices=SHAPES)
    parser.add_argument("--list", action="store_true")
    words = parser.parse_args()
    all_kinds = SHAPES[words.shape] if words.shape else kinds()
    if words.only:
        fronts = tuple(front + " " for front in words.only)
        all_kinds = [kind for kind in all_kinds if f"{kind.name} ".startswith(fronts)]
    if not all_kinds:
        sys.exit("no such kind")
    if words.list:
        print("\n".join(kind.name for kind in all_kinds))
        return
    sys.stdout.buffer.write(module([all_kinds[k % len(all_kinds)] for k in range(words.count)]))


if __name__ == "__main__":
    main()
