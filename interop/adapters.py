#!/usr/bin/env python3
"""Makes glue files of modules in text form whose adapters pass values of each built kind, and has node load and call them.

- numbers: integers of 32 and 64 bits, signed and unsigned, at their ends, and truths, through exports and through imports.
- objects: values that are lent to a function, or given to it, through the object table: the table's length, its first free
  slot and its stack of lent objects are compared before and after, also where an import throws, at its first call and at a
  later one, and where a value that was given is thrown by an adapter.
- strings: strings of every kind of character, in and out, also ones that may be absent.
- vectors: vectors of each kind of integers, empty and large, in and out.
- values: vectors of any values, by the object table.
- results: several results in room on the stack of the module: strings, integers of 32 and 64 bits at their ends, and results that are
  thrown, out of exports and out of imports; where the stack ends is compared before and after, also where an import throws.
- references: values that are given, taken, looked at and thrown, and vectors of them, by a table of references of the module.
- named, unnamed: the same, where the module exports neither its memory nor its table nor the functions that allocate and
  free, and the functions have names, or none; the names of the exports that are added are compared.
- enums: texts of string enums, in and out, and those that an enum doesn't have.
- closures: functions of closures of the module that JavaScript keeps: called, called from within themselves, called where an import
  throws, given back, and called after that; a closure that makes closures; and which closures' functions the glue file has.
- caught, caughtReferences: values of every kind that imports throw and that the module takes, by the object table and by a table of
  references, also where the import gives an integer of 64 bits; and an import whose throws aren't caught.
- forms: functions that take `this`, a rest parameter, or both.

The modules from that of strings on allocate memory by functions of their own, which count what is in use, fill what is freed with
other bytes, and trap where something is freed twice. What is in use is compared before and after, also where an import
throws in between.

adapters.mjs says for each what the exports of its glue file have to do, worked out by hand. The state of the object table and
of the memory is read by lines that are appended to the glue file. Prints a line for each, and ends with status 1 where one
does something else.

The program is the one that the environment variable GLUE names, or else the one that the script glue runs. Needs Python 3.9,
node 18 or later and Debian's wabt. Where node or wabt is missing, it says so and tries nothing. It is no part of the gate.
"""

import json
import os
import shutil
import subprocess
import sys
import tempfile
from dataclasses import dataclass
from pathlib import Path

from imports import HERE, name, section, vector

NUMBERS = """(module
  (import "__wbindgen_placeholder__" "next" (func $next (param i64) (result i64)))
  (import "__wbindgen_placeholder__" "flip" (func $flip (param i32) (result i32)))
  (import "__wbindgen_placeholder__" "show" (func $show (param i32)))
  (func (export "same") (param i32) (result i32) (local.get 0))
  (func (export "wide") (param i64) (result i64) (local.get 0))
  (func (export "less") (param i64 i64) (result i32) (i64.lt_u (local.get 0) (local.get 1)))
  (func (export "not") (param i32) (result i32) (i32.eqz (local.get 0)))
  (func (export "after") (param i64) (result i64) (call $next (local.get 0)))
  (func (export "flipped") (param i32) (result i32) (call $flip (local.get 0)))
  (func (export "shown") (param i32) (call $show (local.get 0))))"""

OBJECTS = """(module
  (import "__wbindgen_placeholder__" "look" (func $look (param i32) (result i32)))
  (import "__wbindgen_placeholder__" "make" (func $make (param i32) (result i32)))
  (import "__wbindgen_placeholder__" "use" (func $use (param i32)))
  (global $kept (mut i32) (i32.const 0))
  (func (export "looked") (param i32) (result i32) (call $look (local.get 0)))
  (func (export "both") (param i32 i32) (result i32) (i32.add (call $look (local.get 0)) (call $look (local.get 1))))
  (func (export "made") (param i32) (result i32) (call $make (local.get 0)))
  (func (export "keep") (param i32) (global.set $kept (local.get 0)))
  (func (export "kept") (result i32) (global.get $kept))
  (func (export "used") (param i32) (call $use (local.get 0)))
  (func (export "settled") (result i32) (i32.const 7)))"""


# What allocates, behind the imports: its functions are the first of the module's own, in this order. A block stands behind
# eight bytes, its size and a number that says that it is in use. The first page is kept for the places of references.
ALLOCATOR = """
  (memory $memory 2)
  (global $top (mut i32) (i32.const 65536))
  (global $bytes (mut i32) (i32.const 0))
  (global $blocks (mut i32) (i32.const 0))
  (global $length (mut i32) (i32.const 0))
  (global $align (mut i32) (i32.const 0))
  (func $malloc (param $size i32) (param $align i32) (result i32) (local $at i32) (local $end i32)
    (if (i32.gt_u (local.get $size) (i32.const 1048576)) (then (unreachable)))
    (local.set $at (i32.and (i32.add (global.get $top) (i32.const 31)) (i32.const -16)))
    (local.set $end (i32.add (local.get $at) (local.get $size)))
    (block $fits (loop $grows
      (br_if $fits (i32.le_u (local.get $end) (i32.mul (memory.size) (i32.const 65536))))
      (if (i32.eq (memory.grow (i32.const 1)) (i32.const -1)) (then (unreachable)))
      (br $grows)))
    (i32.store (i32.sub (local.get $at) (i32.const 8)) (local.get $size))
    (i32.store (i32.sub (local.get $at) (i32.const 4)) (i32.const 12345678))
    (global.set $top (local.get $end))
    (global.set $bytes (i32.add (global.get $bytes) (local.get $size)))
    (global.set $blocks (i32.add (global.get $blocks) (i32.const 1)))
    (local.get $at))
  (func $free (param $at i32) (param $size i32) (param $align i32)
    (global.set $length (local.get $size))
    (global.set $align (local.get $align))
    (call $release (local.get $at)))
  (func $re-alloc (param $at i32) (param $old i32) (param $size i32) (param $align i32) (result i32) (local $to i32)
    (if (i32.ne (local.get $old) (i32.load (i32.sub (local.get $at) (i32.const 8)))) (then (unreachable)))
    (local.set $to (call $malloc (local.get $size) (local.get $align)))
    (memory.copy (local.get $to) (local.get $at)
      (select (local.get $old) (local.get $size) (i32.lt_u (local.get $old) (local.get $size))))
    (call $release (local.get $at))
    (local.get $to))
  (func $release (param $at i32) (local $size i32)
    (if (i32.ne (i32.load (i32.sub (local.get $at) (i32.const 4))) (i32.const 12345678)) (then (unreachable)))
    (local.set $size (i32.load (i32.sub (local.get $at) (i32.const 8))))
    (i32.store (i32.sub (local.get $at) (i32.const 4)) (i32.const 0))
    (memory.fill (local.get $at) (i32.const 0xAA) (local.get $size))
    (global.set $bytes (i32.sub (global.get $bytes) (local.get $size)))
    (global.set $blocks (i32.sub (global.get $blocks) (i32.const 1)))
    (if (i32.eqz (global.get $blocks)) (then (global.set $top (i32.const 65536)))))"""

# A table of references, and what gives and frees its places: a byte of the first page says whether a place is in use.
REFERENCES = """
  (table $table 4 externref)
  (global $places (mut i32) (i32.const 0))
  (func $alloc (result i32) (local $place i32)
    (local.set $place (i32.const 1))
    (block $found (loop $next
      (br_if $found (i32.eqz (i32.load8_u (local.get $place))))
      (local.set $place (i32.add (local.get $place) (i32.const 1)))
      (br $next)))
    (if (i32.ge_u (local.get $place) (i32.const 65536)) (then (unreachable)))
    (if (i32.ge_u (local.get $place) (table.size $table))
      (then (drop (table.grow $table (ref.null extern) (table.size $table)))))
    (i32.store8 (local.get $place) (i32.const 1))
    (global.set $places (i32.add (global.get $places) (i32.const 1)))
    (local.get $place))
  (func $drop (param $place i32)
    (if (i32.eqz (i32.load8_u (local.get $place))) (then (unreachable)))
    (i32.store8 (local.get $place) (i32.const 0))
    (table.set $table (local.get $place) (ref.null extern))
    (global.set $places (i32.sub (global.get $places) (i32.const 1))))
  (func $drop.slice (param $at i32) (param $count i32)
    (block $done (loop $next
      (br_if $done (i32.eqz (local.get $count)))
      (call $drop (i32.load (local.get $at)))
      (local.set $at (i32.add (local.get $at) (i32.const 4)))
      (local.set $count (i32.sub (local.get $count) (i32.const 1)))
      (br $next))))"""

# How much is in use, and what was freed last. The exports of what allocates stand behind all others.
COUNTS = """
  (func (export "bytes") (result i32) (global.get $bytes))
  (func (export "blocks") (result i32) (global.get $blocks))
  (func (export "length") (result i32) (global.get $length))
  (func (export "align") (result i32) (global.get $align))"""

EXPORTED = """
  (export "memory" (memory $memory))
  (export "malloc" (func $malloc))
  (export "free" (func $free))
  (export "realloc" (func $re-alloc))"""

EXPORTED_REFERENCES = """
  (export "table" (table $table))
  (export "take place" (func $alloc))
  (export "free place" (func $drop))
  (export "free places" (func $drop.slice))"""


def module(imports, *parts):
    """The text of a module of functions that it imports, each with its type, and of parts."""
    lines = [f'  (import "__wbindgen_placeholder__" "{title}" (func ${title} {kind}))' for title, kind in imports]
    return "\n".join(["(module", *lines]) + "".join(parts) + ")"


STRINGS = module(
    [("hear", "(param i32 i32)"), ("see", "(param i32 i32)")],
    ALLOCATOR,
    """
  (func (export "size") (param i32 i32) (result i32) (local.get 1))
  (func (export "say") (param i32 i32) (call $hear (local.get 0) (local.get 1)))
  (func (export "show") (param i32 i32) (call $see (local.get 0) (local.get 1)))
  (func (export "both") (param i32 i32 i32 i32)
    (call $hear (local.get 0) (local.get 1))
    (call $hear (local.get 2) (local.get 3)))
  (func (export "option") (param i32 i32) (result i32)
    (if (i32.eqz (local.get 0)) (then (return (i32.const -1))))
    (call $free (local.get 0) (local.get 1) (i32.const 1))
    (local.get 1))
  (func (export "made") (param i32 i32) (result i32) (local i32)
    (local.set 2 (call $malloc (local.get 0) (i32.const 1)))
    (memory.fill (local.get 2) (local.get 1) (local.get 0))
    (local.get 2))""",
    COUNTS,
    EXPORTED,
)

# Of each kind of integers how many bytes one takes.
KINDS = {"I8": 1, "U8": 1, "I16": 2, "U16": 2, "I32": 4, "U32": 4, "I64": 8, "U64": 8}

VECTORS = module(
    [(f"see{kind}", "(param i32 i32)") for kind in KINDS],
    ALLOCATOR,
    *(f'\n  (func (export "pass{kind}") (param i32 i32) (call $see{kind} (local.get 0) (local.get 1)))' for kind in KINDS),
    """
  (func (export "made") (param i32 i32) (result i32) (local i32 i32)
    (local.set 3 (i32.mul (local.get 0) (i32.const 8)))
    (local.set 2 (call $malloc (local.get 3) (i32.const 8)))
    (memory.fill (local.get 2) (local.get 1) (local.get 3))
    (local.get 2))""",
    COUNTS,
    EXPORTED,
)

PASSED = """
  (func (export "pass") (param i32 i32) (call $see (local.get 0) (local.get 1)))
  (func (export "same") (param i32 i32) (result i32) (local.get 0))"""

VALUES = module([("see", "(param i32 i32)")], ALLOCATOR, PASSED, COUNTS, EXPORTED)

ENUMS = """(module
  (import "__wbindgen_placeholder__" "next" (func $next (param i32) (result i32)))
  (func (export "same") (param i32) (result i32) (local.get 0))
  (func (export "after") (param i32) (result i32) (call $next (local.get 0))))"""

# A closure is the address of a number and what it is multiplied by. Destroying one that has no address does nothing.
CLOSURES = """(module
  (import "__wbindgen_placeholder__" "hold" (func $hold (param i32 i32)))
  (import "__wbindgen_placeholder__" "lend" (func $lend (param i32 i32)))
  (import "__wbindgen_placeholder__" "nest" (func $nest (param i32 i32)))
  (import "__wbindgen_placeholder__" "again" (func $again (param i32)))
  (memory 1)
  (global $destroyed (mut i32) (i32.const 0))
  (func (export "held") (param i32 i32) (call $hold (local.get 0) (local.get 1)))
  (func (export "lent") (param i32 i32) (call $lend (local.get 0) (local.get 1)))
  (func (export "nested") (param i32 i32) (call $nest (local.get 0) (local.get 1)))
  (func (export "grow") (param $at i32) (param $by i32) (param $more i32) (result i32)
    (if (i32.eqz (local.get $at)) (then (unreachable)))
    (call $again (local.get $more))
    (i32.store (local.get $at) (i32.add (i32.load (local.get $at)) (local.get $more)))
    (i32.mul (i32.load (local.get $at)) (local.get $by)))
  (func (export "same") (param i32) (result i32) (local.get 0))
  (func (export "spare") (param i32 i32))
  (func (param $at i32) (param $by i32)
    (if (local.get $at) (then (global.set $destroyed (i32.add (global.get $destroyed) (i32.const 1))))))
  (func (export "destroyed") (result i32) (global.get $destroyed)))"""

# Where the stack of the module ends, and functions whose results stand there.
STACK = """
  (global $stack (mut i32) (i32.const 1024))"""

RESULTS = module(
    [
        ("look", ""),
        ("fail", "(result i32)"),
        ("tell", "(param i32)"),
        ("hear", "(param i32 i32)"),
        ("end", "(param i32)"),
    ],
    STACK,
    ALLOCATOR,
    """
  (func (export "made") (param $at i32) (param $count i32) (param $byte i32)
    (call $look)
    (i32.store (local.get $at) (call $malloc (local.get $count) (i32.const 1)))
    (i32.store offset=4 (local.get $at) (local.get $count))
    (memory.fill (i32.load (local.get $at)) (local.get $byte) (local.get $count)))
  (func (export "wide") (param $at i32) (param $value i64)
    (i32.store offset=4 (local.get $at) (i32.wrap_i64 (local.get $value)))
    (i64.store offset=8 (local.get $at) (local.get $value)))
  (func (export "checked") (param $at i32) (param $value i32)
    (i32.store (local.get $at) (local.get $value))
    (i32.store offset=8 (local.get $at) (i32.eqz (local.get $value)))
    (if (i32.eqz (local.get $value)) (then (i32.store offset=4 (local.get $at) (call $fail)))))
  (func (export "told") (local $at i32)
    (global.set $stack (local.tee $at (i32.sub (global.get $stack) (i32.const 16))))
    (call $tell (local.get $at))
    (call $hear (i32.load (local.get $at)) (i32.load offset=4 (local.get $at)))
    (call $free (i32.load (local.get $at)) (i32.load offset=4 (local.get $at)) (i32.const 1))
    (global.set $stack (i32.add (local.get $at) (i32.const 16))))
  (func (export "ended") (result i64) (local $at i32)
    (global.set $stack (local.tee $at (i32.sub (global.get $stack) (i32.const 16))))
    (call $end (local.get $at))
    (global.set $stack (i32.add (local.get $at) (i32.const 16)))
    (i64.load offset=8 (local.get $at)))
  (func (export "stack") (result i32) (global.get $stack))""",
    COUNTS,
    EXPORTED,
)

# The functions of OBJECTS, less those that lend.
HANDLED = """
  (global $kept (mut i32) (i32.const 0))
  (func (export "keep") (param i32) (global.set $kept (local.get 0)))
  (func (export "kept") (result i32) (global.get $kept))
  (func (export "used") (param i32) (call $use (local.get 0)))
  (func (export "looked") (param i32) (result i32) (local i32)
    (local.set 1 (call $look (local.get 0)))
    (call $drop (local.get 0))
    (local.get 1))
  (func (export "made") (param externref) (result i32) (call $make (local.get 0)))
  (func (export "settled") (result i32) (i32.const 7))"""

HANDLING = [
    ("see", "(param i32 i32)"),
    ("use", "(param i32)"),
    ("look", "(param i32) (result i32)"),
    ("make", "(param externref) (result i32)"),
]

# Names that the exports to be added want: those of a memory and of `free`, and one of a function without a name.
TAKEN = """
  (func (export "memory"))
  (func (export "free"))
  (func (export "__wbindgen_export2"))"""

PLACES = """
  (func (export "placed") (result i32) (global.get $places))"""

# The first function takes what imports throw.
CATCHING = """
  (global $stored (mut i32) (i32.const 0))
  (global $count (mut i32) (i32.const 0))
  (func $store (param i32)
    (global.set $stored (local.get 0))
    (global.set $count (i32.add (global.get $count) (i32.const 1))))
  (func (export "risked") (param i32) (result i32) (call $risk (local.get 0)))
  (func (export "widened") (param i32) (result i64) (call $wide (local.get 0)))
  (func (export "told") (param i32) (call $tell (local.get 0)))
  (func (export "failed") (param i32) (call $fail (local.get 0)))
  (func (export "stored") (result i32) (global.get $stored))
  (func (export "count") (result i32) (global.get $count))"""

RISKS = [
    ("risk", "(param i32) (result i32)"),
    ("wide", "(param i32) (result i64)"),
    ("tell", "(param i32)"),
    ("fail", "(param i32)"),
]

FORMS = module(
    [("see", "(param i32 i32)")],
    """
  (func (export "add") (param i32 i32) (result i32) (i32.add (local.get 0) (local.get 1)))
  (func (export "seen") (param i32 i32) (call $see (local.get 0) (local.get 1)))""",
)

REFERRED = module(HANDLING, ALLOCATOR, REFERENCES, PASSED, HANDLED, COUNTS, PLACES, EXPORTED, EXPORTED_REFERENCES)

HIDDEN = module(HANDLING, ALLOCATOR, REFERENCES, PASSED, HANDLED, COUNTS, PLACES, TAKEN)


def adapter(number, args, results, code):
    return {"id": number, "args": args, "results": results, "code": code}


def published(number, title):
    return {"adapter": number, "kind": "function", "name": title}


def called(number, args, results):
    return {"id": number, "args": args, "results": results, "import": "normal"}


def described(number, title):
    return {"adapter": number, "what": ["Bare", {"global": title}]}


def description(exports, imports):
    """Of each export its title, its place, the types, and its code with `call` for the call of the export; of each import
    its title, the types of its call, the code before and behind it, and the types of its own arguments and of its own
    results where they are others."""
    adapters, told, pairs, entries = [], [], [], []
    for number, (title, place, args, results, code) in enumerate(exports):
        steps = [["CallExport", place] if step == "call" else step for step in code]
        adapters.append(adapter(number, args, results, steps))
        told.append(published(number, title))
    for place, (title, args, results, before, behind, *own) in enumerate(imports):
        local, call = 100 + place, 200 + place
        given, back = [*own, *[args, results][len(own) :]]
        adapters.append(adapter(local, given, back, [*before, ["CallAdapter", call], *behind]))
        adapters.append(called(call, args, results))
        pairs.append([place, local])
        entries.append(described(call, title))
    return {"version": 1, "adapters": adapters, "exports": told, "implements": pairs, "imports": entries}


def step(text):
    return [text]


def get(place):
    return ["ArgGet", place]


def numbers():
    to_32, to_64, truth = step("Int32ToWasm"), step("Int64ToWasm"), step("BoolFromI32")
    return description(
        [
            ("signed", 0, ["s32"], ["s32"], [get(0), to_32, "call", ["WasmToInt32", False]]),
            ("unsigned", 0, ["u32"], ["u32"], [get(0), to_32, "call", ["WasmToInt32", True]]),
            ("signedWide", 1, ["s64"], ["s64"], [get(0), to_64, "call", ["WasmToInt64", False]]),
            ("unsignedWide", 1, ["u64"], ["u64"], [get(0), to_64, "call", ["WasmToInt64", True]]),
            ("less", 2, ["u64", "u64"], ["bool"], [get(0), to_64, get(1), to_64, "call", truth]),
            ("not", 3, ["bool"], ["bool"], [get(0), step("I32FromBool"), "call", truth]),
            ("after", 4, ["s64"], ["u64"], [get(0), to_64, "call", ["WasmToInt64", True]]),
            ("flipped", 5, ["bool"], ["bool"], [get(0), step("I32FromBool"), "call", truth]),
            # The operand of the call is a comparison, and then one that is read as unsigned.
            ("shown", 6, ["u32"], [], [get(0), to_32, "call"]),
        ],
        [
            ("next", ["u64"], ["s64"], [get(0), ["WasmToInt64", True]], [to_64]),
            ("flip", ["bool"], ["bool"], [get(0), truth], [step("I32FromBool")]),
            ("show", ["u32"], [], [get(0), truth, step("I32FromBool"), ["WasmToInt32", True]], []),
        ],
    )


def objects():
    lend, give, take, see = (step(text) for text in ["IndexFromBorrow", "IndexFromOwned", "TakeIndex", "GetIndex"])
    plain = ["WasmToInt32", False]
    return description(
        [
            ("looked", 0, ["externref"], ["s32"], [get(0), lend, "call", plain]),
            ("both", 1, ["externref", "externref"], ["s32"], [get(0), lend, get(1), lend, "call", plain]),
            ("made", 2, ["externref"], ["externref"], [get(0), lend, "call", take]),
            ("keep", 3, ["externref"], [], [get(0), give, "call"]),
            ("seen", 4, [], ["externref"], ["call", see]),
            ("taken", 4, [], ["externref"], ["call", take]),
            ("used", 5, ["externref"], [], [get(0), give, "call"]),
            # A value and a flag: the value is thrown where the flag is true, before anything is called.
            (
                "settled",
                6,
                ["externref", "bool"],
                ["s32"],
                [get(0), give, get(1), step("I32FromBool"), step("UnwrapResult"), "call", plain],
            ),
        ],
        [
            ("look", ["externref"], ["s32"], [get(0), see], [step("Int32ToWasm")]),
            ("make", ["externref"], ["externref"], [get(0), see], [give]),
            ("use", ["externref"], [], [get(0), take], []),
        ],
    )


def enums():
    to_place, to_text = ["EnumIndex", "Color"], ["EnumText", "Color"]
    color, odd = {"string_enum": "Color"}, {"string_enum": "Odd"}
    said = description(
        [
            ("same", 0, [color], [color], [get(0), to_place, "call", to_text]),
            ("place", 0, [color], ["s32"], [get(0), to_place, "call", ["WasmToInt32", False]]),
            ("text", 0, ["s32"], [color], [get(0), step("Int32ToWasm"), "call", to_text]),
            ("odd", 0, ["s32"], [odd], [get(0), step("Int32ToWasm"), "call", ["EnumText", "Odd"]]),
            ("after", 1, [color], [color], [get(0), to_place, "call", to_text]),
        ],
        [("next", [color], [color], [get(0), to_text], [to_place], ["i32"])],
    )
    listed = [
        {"name": "Unnamed", "variants": ["a"]},
        {"name": "Odd", "variants": ['a "quote"', "a\nline", "\u2028", "", "\\"]},
        {"name": "Color", "variants": ["red", "green", "blue"]},
    ]
    return said | {"string_enums": listed}


def closures():
    to_32, plain, two = step("Int32ToWasm"), ["WasmToInt32", False], ["i32", "i32"]

    # The import is given a function of the closure that has these two numbers.
    def given(title, number, mutable):
        return title, ["externref"], [], [get(0), get(1), ["Closure", number, mutable]], [], two, []

    def passed(title, place):
        return title, place, ["u32", "u32"], [], [get(0), to_32, get(1), to_32, "call"]

    grow, make, spare = 300, 301, 302
    said = description(
        [
            passed("give", 0),
            passed("share", 1),
            passed("deepen", 2),
            ("destroyed", 6, [], ["s32"], ["call", plain]),
        ],
        [
            given("hold", grow, True),
            given("lend", grow, False),
            given("nest", make, False),
            ("again", ["s32"], [], [get(0), plain], []),
        ],
    )
    made = [get(0), get(1), ["Closure", grow, True], step("IndexFromOwned"), ["CallExport", 4], step("TakeIndex")]
    said["adapters"] += [
        adapter(grow, [*two, "s32"], ["s32"], [get(0), get(1), get(2), to_32, ["CallExport", 3], plain]),
        adapter(make, two, ["externref"], made),
        adapter(spare, two, [], [get(0), get(1), ["CallExport", 5]]),
    ]
    called_back = [[3, grow], [4, make], [5, spare]]
    return said | {"adapter_exports": called_back, "parts": {"destroy_closure": 10}}


def caught(parts):
    to_32, plain, take = step("Int32ToWasm"), ["WasmToInt32", False], step("TakeIndex")

    def called_by(title):
        return title, ["s32"], [], [get(0), plain], []

    said = description(
        [
            ("risked", 0, ["s32"], ["s32"], [get(0), to_32, "call", plain]),
            ("widened", 1, ["s32"], ["s64"], [get(0), to_32, "call", ["WasmToInt64", False]]),
            ("told", 2, ["s32"], [], [get(0), to_32, "call"]),
            ("failed", 3, ["s32"], [], [get(0), to_32, "call"]),
            ("thrown", 4, [], ["externref"], ["call", take]),
            ("count", 5, [], ["s32"], ["call", plain]),
        ],
        [
            ("risk", ["s32"], ["s32"], [get(0), plain], [to_32]),
            ("wide", ["s32"], ["s64"], [get(0), plain], [step("Int64ToWasm")]),
            called_by("tell"),
            called_by("fail"),
        ],
    )
    # All adapters of imports but the last.
    return said | {"catch": [100, 101, 102], "parts": parts}


def forms():
    to_32, lend, see = step("Int32ToWasm"), step("IndexFromBorrow"), step("GetIndex")
    two, lent = ["externref", "externref"], [get(0), lend, get(1), lend, "call"]
    said = description(
        [
            ("own", 0, ["s32", "s32"], ["s32"], [get(0), to_32, get(1), to_32, "call", ["WasmToInt32", False]]),
            ("rest", 1, two, [], lent),
            ("both", 1, two, [], lent),
        ],
        [("see", two, [], [get(0), see, get(1), see], [])],
    )
    own, rest, both = said["exports"]
    for export in [own, both]:
        export["kind"] = "function_this"
    for export in [rest, both]:
        export["variadic"] = True
    return said


# The functions that allocate, behind so many imports, and the memory.
def allocating(imports):
    return imports, imports + 1, imports + 2, 0


def string_in(place, malloc, realloc, memory):
    return [get(place), ["StringToMemory", malloc, realloc, memory]]


def strings():
    malloc, free, realloc, memory = allocating(2)
    freed = ["DeferFree", free, 1]
    text = string_in(0, malloc, realloc, memory)
    return description(
        [
            ("size", 0, ["string"], ["u32"], [*text, freed, "call", ["WasmToInt32", True]]),
            ("say", 1, ["string"], [], [*text, freed, "call"]),
            # Without the function that moves what was allocated.
            ("short", 1, ["string"], [], [*string_in(0, malloc, None, memory), freed, "call"]),
            ("show", 2, ["string"], [], [*text, freed, "call"]),
            (
                "both",
                3,
                ["string", "string"],
                [],
                [*text, freed, *string_in(1, malloc, realloc, memory), freed, "call"],
            ),
            (
                "option",
                4,
                [{"option": "string"}],
                ["s32"],
                [get(0), ["OptionStringToMemory", malloc, realloc, memory], "call", ["WasmToInt32", False]],
            ),
            # So many bytes of one value: the export gives the address, and the first argument is the length.
            (
                "made",
                5,
                ["u32", "u32"],
                ["string"],
                [
                    *[get(0), step("Int32ToWasm"), get(1), step("Int32ToWasm"), "call"],
                    *[get(0), step("Int32ToWasm"), freed, ["MemoryToString", memory]],
                ],
            ),
        ],
        [
            ("hear", ["string"], [], [get(0), get(1), ["MemoryToString", memory]], [], ["i32", "i32"]),
            ("see", [{"vec": "U8"}], [], [get(0), get(1), ["VecFromWasm", "U8", memory]], [], ["i32", "i32"]),
        ],
    )


def vectors():
    malloc, free, _, memory = allocating(len(KINDS))
    exports, imports = [], []
    for place, (kind, size) in enumerate(KINDS.items()):
        vec, freed = {"vec": kind}, ["DeferFree", free, size]
        read = ["VecFromWasm", kind, memory]
        exports.append((f"pass{kind}", place, [vec], [], [get(0), ["VecToWasm", kind, malloc, memory], freed, "call"]))
        exports.append(
            (
                f"made{kind}",
                len(KINDS),
                ["u32", "u32"],
                [vec],
                [
                    *[get(0), step("Int32ToWasm"), get(1), step("Int32ToWasm"), "call"],
                    *[get(0), step("Int32ToWasm"), freed, read],
                ],
            )
        )
        imports.append((f"see{kind}", [vec], [], [get(0), get(1), read], [], ["i32", "i32"]))
    return description(exports, imports)


def results():
    malloc, free, realloc, memory = allocating(5)
    number = step("Int32ToWasm")
    low, high = ["LoadRetptr", 0, "i32", memory], ["LoadRetptr", 4, "i32", memory]
    freed = ["DeferFree", free, 1]
    said = description(
        [
            (
                "made",
                0,
                ["u32", "u32"],
                ["string"],
                [["Retptr", 16], get(0), number, get(1), number, "call", low, high, freed, ["MemoryToString", memory]],
            ),
            (
                "wide",
                1,
                ["s64"],
                ["s64"],
                [["Retptr", 16], get(0), step("Int64ToWasm"), "call", ["LoadRetptr", 8, "i64", memory], ["WasmToInt64", False]],
            ),
            (
                "low",
                1,
                ["s64"],
                ["u32"],
                [["Retptr", 16], get(0), step("Int64ToWasm"), "call", high, ["WasmToInt32", True]],
            ),
            # A value, the handle of what is thrown, and the flag that says which of both counts.
            (
                "checked",
                2,
                ["s32"],
                ["s32"],
                [
                    *[["Retptr", 16], get(0), number, "call", high, ["LoadRetptr", 8, "i32", memory]],
                    *[step("UnwrapResult"), low, ["WasmToInt32", False]],
                ],
            ),
            ("told", 3, [], [], ["call"]),
            ("ended", 4, [], ["s64"], ["call", ["WasmToInt64", False]]),
        ],
        [
            ("look", [], [], [], []),
            ("fail", [], ["externref"], [], [step("IndexFromOwned")]),
            (
                "tell",
                [],
                ["string"],
                [],
                [["StringToMemory", malloc, realloc, memory], ["StoreRetptr", 4, "i32", memory], ["StoreRetptr", 0, "i32", memory]],
                ["i32"],
                [],
            ),
            ("hear", ["string"], [], [get(0), get(1), ["MemoryToString", memory]], [], ["i32", "i32"]),
            ("end", [], ["s64"], [], [step("Int64ToWasm"), ["StoreRetptr", 8, "i64", memory]], ["i32"], []),
        ],
    )
    return said | {"parts": {"stack_pointer": 0}}


def passing(imports):
    """The exports that pass vectors of any values, and the import that is given one, where there are so many imports."""
    malloc, free, _, memory = allocating(imports)
    vec, freed = {"vec": "Value"}, ["DeferFree", free, 4]
    given, read = [get(0), ["VecToWasm", "Value", malloc, memory]], ["VecFromWasm", "Value", memory]
    return (
        [
            ("pass", 0, [vec], [], [*given, freed, "call"]),
            # The vector comes out as it went in, where the second argument is its length.
            ("same", 1, [vec, "u32"], [vec], [*given, "call", get(1), step("Int32ToWasm"), freed, read]),
        ],
        ("see", [vec], [], [get(0), get(1), read], [], ["i32", "i32"]),
    )


def values():
    exports, see = passing(1)
    return description(exports, [see])


def references():
    give, take, see = (step(text) for text in ["IndexFromOwned", "TakeIndex", "GetIndex"])
    plain = ["WasmToInt32", False]
    exports, shown = passing(4)
    said = description(
        [
            *exports,
            ("keep", 2, ["externref"], [], [get(0), give, "call"]),
            ("seen", 3, [], ["externref"], ["call", see]),
            ("taken", 3, [], ["externref"], ["call", take]),
            ("used", 4, ["externref"], [], [get(0), give, "call"]),
            ("looked", 5, ["externref"], ["s32"], [get(0), give, "call", plain]),
            # A reference that goes in by itself, and one that an import makes of it and gives.
            ("made", 6, ["externref"], ["externref"], [get(0), "call", take]),
            (
                "settled",
                7,
                ["externref", "bool"],
                ["s32"],
                [get(0), give, get(1), step("I32FromBool"), step("UnwrapResult"), "call", plain],
            ),
        ],
        [
            shown,
            ("use", ["externref"], [], [get(0), take], []),
            ("look", ["externref"], ["s32"], [get(0), see], [step("Int32ToWasm")]),
            ("make", ["externref"], ["externref"], [get(0)], [give]),
        ],
    )
    # The functions of the table stand behind the four that allocate.
    parts = {"externref_table": 0, "externref_alloc": 8, "externref_drop": 9, "externref_drop_slice": 10}
    return said | {"parts": parts}


@dataclass
class Case:
    """A module in text form, its description, what is appended to its glue file, whether the functions have names, and
    whether values are kept in a table of references."""

    text: str
    said: dict
    appended: str = ""
    has_names: bool = False
    has_references: bool = False


STATE = "export const state = () => [heap.length, heap_next, stack_pointer];\n"

# The lists that the glue file has.
LISTS = "export const lists = [__wbindgen_enum_Color, __wbindgen_enum_Odd, typeof __wbindgen_enum_Unnamed];\n"

# Which functions of closures the glue file has.
FUNCTIONS = "export const functions = [typeof grow, typeof same, typeof spare];\n"

IN_USE = """export const last = () => [wasm.length(), wasm.align()];
export const state = () => [wasm.bytes(), wasm.blocks()];
"""

# How long the object table is, and its first free place; how many places of the table of references are in use.
SLOTS = "export const state = () => [heap.length, heap_next];\n"

PLACED = "export const state = () => [wasm.placed()];\n"

# The free places of the object table are a list: each holds the next one, and the last one the table's length.
WITH_OBJECTS = """export const last = () => [wasm.length(), wasm.align()];
export const state = () => {
    let free = 0;
    for (let place = heap_next; place < heap.length; place = heap[place]) free += 1;
    return [wasm.bytes(), wasm.blocks(), heap.length - 1028 - free];
};
"""

# So it is, behind where the stack of the module ends.
WITH_STACK = WITH_OBJECTS.replace("return [", "return [wasm.stack(), ")

WITH_PLACES = """export const last = () => [wasm.length(), wasm.align()];
export const state = () => [wasm.bytes(), wasm.blocks(), wasm.placed()];
"""

CASES = {
    "numbers": Case(NUMBERS, numbers()),
    "objects": Case(OBJECTS, objects(), STATE),
    "enums": Case(ENUMS, enums(), LISTS),
    "closures": Case(CLOSURES, closures(), FUNCTIONS),
    "caught": Case(module(RISKS, CATCHING), caught({"exn_store": 4}), SLOTS),
    "caughtReferences": Case(
        module(RISKS, ALLOCATOR, REFERENCES, CATCHING, PLACES),
        caught({"exn_store": 11, "externref_table": 0, "externref_alloc": 8, "externref_drop": 9}),
        PLACED,
        has_references=True,
    ),
    "forms": Case(FORMS, forms()),
    "strings": Case(STRINGS, strings(), IN_USE),
    "vectors": Case(VECTORS, vectors(), IN_USE),
    "values": Case(VALUES, values(), WITH_OBJECTS),
    "results": Case(RESULTS, results(), WITH_STACK),
    "references": Case(REFERRED, references(), WITH_PLACES, has_references=True),
    "named": Case(HIDDEN, references(), WITH_PLACES, has_names=True, has_references=True),
    "unnamed": Case(HIDDEN, references(), WITH_PLACES, has_references=True),
}

# The section that says that a module uses references: a list of features, each behind a plus sign.
FEATURES = section(0, name("target_features") + vector([b"+" + name("reference-types")]))


def assembled(case, folder):
    """The bytes of the module of a case with its description, or nothing where its text is no module."""
    source, made = Path(folder) / "module.wat", Path(folder) / "module.wasm"
    source.write_text(case.text)
    names = ["--debug-names"] if case.has_names else []
    done = subprocess.run(["wat2wasm", *names, str(source), "-o", str(made)])
    if done.returncode != 0:
        return None
    told = section(0, name("__wbg_glue") + json.dumps(case.said).encode())
    return made.read_bytes() + told + (FEATURES if case.has_references else b"")


def fault(command, title, case):
    """What is wrong with the glue file of a module, nothing where it does what it has to."""
    with tempfile.TemporaryDirectory() as folder:
        content = assembled(case, folder)
        if content is None:
            return "wat2wasm refuses the module"
        done = subprocess.run([*command, "--target", "deno"], input=content, stdout=subprocess.PIPE)
        if done.returncode != 0:
            return f"the program ends with {done.returncode}: {done.stdout.decode(errors='replace').strip()}"
        listing = Path(folder) / "listing"
        listing.write_bytes(done.stdout)
        words = ["node", str(HERE / "adapters.mjs"), str(listing), str(Path(folder) / "files"), title, case.appended]
        loaded = subprocess.run(words, capture_output=True)
    return "" if loaded.returncode == 0 else loaded.stderr.decode(errors="replace").strip()


def main():
    missing = [word for word in ["node", "wat2wasm"] if shutil.which(word) is None]
    if missing:
        print(f"skipped: {' and '.join(missing)} missing")
        return
    command = [os.environ.get("GLUE", str(HERE.parent / "glue"))]
    told = {title: fault(command, title, case) for title, case in CASES.items()}
    for title, said in told.items():
        print(f"{title}: {said or 'as it has to be'}")
    sys.exit(any(told.values()))


if __name__ == "__main__":
    main()
