#!/usr/bin/env python3
"""Makes glue files of modules that publish random trees, and has node load them: trees.py [COUNT [SEED [FOLDER]]]

A tree has functions, enums, private ones too, and re-exports of modules that this script writes beside the glue file, at
paths of up to six names. Names are reserved words, names of the host and of helpers, texts that are no identifiers, and
letters of several scripts. trees.mjs compares what `import` sees with the tree: the names of each level, what each function
returns, the numbers and names of each enum, and each re-exported value by identity, with what it held before and what is put
into it.

In about a third of the descriptions something is wrong: two things share a path or a qualified name, or the path of one runs
through another, or a name can't stand, or a re-export. The program has to refuse exactly these, by the fault that `verdict`
tells.

COUNT trees are made, or else 500; the same SEED makes the same ones. Their modules, descriptions and files are kept in
FOLDER where it is given. Prints a line for each tree that differs and one for all, and ends with status 1 where one differs.
The program is the one that the environment variable GLUE names, or else the one that the script glue runs. Needs Python 3.9
and node 18 or later. It is no part of the gate.
"""

import collections
import itertools
import json
import os
import random
import subprocess
import sys
import tempfile
from dataclasses import dataclass, field
from pathlib import Path

from imports import HERE, I32, leb128, name, section, vector

PLAIN = "a b f g x E ns a__b _ __ a_ _b then name length caller of async".split()
RESERVED = "default class await delete new null true eval arguments let static yield enum function in typeof void this".split()
INHERITED = "constructor prototype toString valueOf hasOwnProperty isPrototypeOf".split()
TAKEN = (
    "heap heap_next getObject Error Object exports undefined NaN memory wasm wasmUrl wasmInstance import0 import1 fetch URL "
    "WebAssembly notDefined debugString __wbg_get_imports __wbindgen_start globalThis Widget0 mozWidget0 lWidget0 E2 f2"
).split()
OTHER = [
    *["", " ", "a b", "a-b", "a.b", ".", "[x]", "[Symbol.iterator]", "1", "1x", "-1", "'", '"', "`${x}`", "\\", "\\u0061"],
    *["a\nb", "\r", "\u2028", "\0", "\x7f", "*/", "//", "</script>", "é", "e\u0301", "ñu", "Ω", "名前", "ªb", "𝒳", "𠮷", "😀"],
    *["\u200d", "x\u200d", "·", "x·", "٠", "x٠"],
]
NAMES = PLAIN * 4 + ["default"] * 6 + RESERVED + INHERITED + TAKEN + OTHER
VARIANTS = "One Two $ _x é Ω 名前 async get set of constructor toString then name prototype heap Error undefined E".split()
BAD_VARIANTS = ["class", "default", "await", "", "a-b", "1", "x y", "__proto__"]
NUMBERS = [0, 1, 2, -1, -5, 255, 2**31, 2**32 - 1, 2**53, 2**53 + 1, 2**63 - 1, -(2**63)]
COMMENTS = ["", "", " one line", "two\nlines\n", " ends */ here", "\u2028\r\n", "* / **/ /*", "// `${x}` \\"]
DEPTH = 6
MOST = 40


@dataclass
class Thing:
    """A function, an enum or a re-export, where it is published, and what is said of it."""

    kind: str
    path: list
    said: dict = field(default_factory=dict)

    @property
    def qualified(self):
        return "__".join(self.path)

    @property
    def is_private(self):
        """`private` hides a name of the top level alone."""
        return len(self.path) == 1 and self.said.get("private", False)


# ---- the rules


def runs_through(long, short):
    """Whether a path goes through another one, and on."""
    return len(short) < len(long) and long[: len(short)] == short


def clash(one, other):
    """Whether two things can't stand beside one another."""
    if one.path == other.path or one.qualified == other.qualified:
        return True
    return any(
        runs_through(long.path, short.path) and short.kind != "reexport" for long, short in [(one, other), (other, one)]
    )


def has_bad_name(thing):
    """Whether something in it has a name that it can't have; all other names can stand."""
    variants = [variant for variant, _, _ in thing.said.get("variants", [])]
    return "__proto__" in thing.path or any(variant in BAD_VARIANTS for variant in variants)


def cannot_be_exported(reexport):
    """Whether the import has properties, or is a global, which no line of the glue file binds."""
    return bool(reexport.said["js"].get("fields")) or "global" in reexport.said["js"]


def share_members(one, other, things):
    """Whether two re-exports are of one import, and something is published below one of them."""
    carry = any(runs_through(thing.path, reexport.path) for thing in things for reexport in (one, other))
    return carry and one.said["js"] == other.said["js"]


def verdict(things):
    """The fault of a description that publishes these, nothing where it has none. The first one decides."""
    reexports = [thing for thing in things if thing.kind == "reexport"]
    if any(map(has_bad_name, things)):
        return "BadName"
    if any(itertools.starmap(clash, itertools.combinations(things, 2))):
        return "ExportClash"
    twice = any(share_members(one, other, things) for one, other in itertools.combinations(reexports, 2))
    return "BadReexport" if twice or any(map(cannot_be_exported, reexports)) else ""


def published(things):
    """The tree that these make: a list of names and nodes. A node says what stands there, and what stands below it."""
    tree = {}
    for thing in things:
        if not thing.is_private:
            level = tree
            for segment in thing.path[:-1]:
                level = level.setdefault(segment, {"below": {}})["below"]
            level.setdefault(thing.path[-1], {"below": {}})[thing.kind] = told(thing)
    return listed(tree)


def told(thing):
    """What node has to find: a variant's number as a text, of which nothing is lost."""
    if thing.kind == "enum":
        return [[variant, str(number)] for variant, number, _ in thing.said["variants"]]
    return thing.said["gives" if thing.kind == "function" else "from"]


def listed(tree):
    """Levels as lists, since a key `1` of an object would go before others."""
    return [[key, {**node, "below": listed(node["below"])}] for key, node in tree.items()]


# ---- random trees


class Maker:
    """Makes one description, the files beside its glue file, and the values that are told of them."""

    def __init__(self, seed):
        self.rng = random.Random(seed)
        self.pool = sorted(set(self.rng.choices(NAMES, k=self.rng.randint(6, 40))))
        self.files = {}
        self.globals = {}

    def pick(self):
        return self.rng.choice(self.pool)

    def level(self, front, depth):
        """Paths of which none runs through another."""
        for segment in self.rng.sample(self.pool, self.rng.randint(1, min(5, len(self.pool)))):
            if depth > 1 and self.rng.random() < 0.45:
                yield from self.level([*front, segment], depth - 1)
            else:
                yield [*front, segment]

    def leaf(self, path):
        """A function, or one in four times an enum."""
        comments = self.rng.choice(COMMENTS)
        if self.rng.random() < 0.75:
            number, unsigned = self.rng.randint(-(2**31), 2**31 - 1), self.rng.random() < 0.5
            gives = number % 2**32 if unsigned else number
            return Thing("function", path, {"number": number, "unsigned": unsigned, "gives": gives, "comments": comments})
        names = self.rng.sample(VARIANTS, self.rng.randint(0, 4))
        variants = [[variant, self.rng.choice(NUMBERS), self.rng.choice(COMMENTS)] for variant in names]
        return Thing("enum", path, {"variants": variants, "private": self.rng.random() < 0.3, "comments": comments})

    def value(self, below):
        """An object that holds some of the names that the tree has below it: a number, or an object that holds some of these."""
        made = {"mark": self.rng.randint(0, 99)}
        for key in self.rng.sample(sorted(below), self.rng.randint(0, len(below))):
            made[key] = 0 if self.rng.random() < 0.3 else self.value(below[key])
        return made

    def import_of(self, below):
        """An import that gives such a value: of a module of some sort, under any name, or a global with a prefix."""
        key, number = self.pick(), len(self.files)
        if self.rng.random() < 0.25:
            title = self.rng.choice(["Widget", "Gadget", "é", "$v"]) + str(len(self.globals))
            there = self.rng.choice(["", "moz", "webkit"])
            self.globals[there + title] = self.value(below)
            return {"vendor": title, "prefixes": ["moz", "webkit"]}, ["", there + title]
        js, path = self.rng.choice(
            [
                ({"module": f"./m{number}.js"}, f"./m{number}.js"),
                ({"local": f"l {number}.js"}, f"./snippets/l {number}.js"),
                ({"inline": "krate", "index": number}, f"./snippets/krate/inline{number}.js"),
            ]
        )
        self.files[path] = f"const value = {json.dumps(self.value(below))};\nexport {{ value as {json.dumps(key)} }};\n"
        return {**js, "name": key}, [path, key]

    def reexport(self, path, things):
        """A re-export with this name, which may be that of a namespace, of an object that can take what is put below it."""
        below = {}
        for thing in things:
            level = below if runs_through(thing.path, path) else {}
            for segment in thing.path[1:]:
                level = level.setdefault(segment, {})
        js, source = self.import_of(below)
        return Thing("reexport", path, {"js": js, "from": source})

    def reexports(self, things):
        """Re-exports under the names of some namespaces, and one under another name."""
        tops = {thing.path[0] for thing in things}
        roots = sorted({thing.path[0] for thing in things if len(thing.path) > 1})
        others = sorted(set(self.pool) - tops)
        names = self.rng.sample(roots, self.rng.randint(0, len(roots))) + self.rng.sample(others, min(1, len(others)))
        return [self.reexport([key], things) for key in names]

    def spoil(self, things):
        """One more thing, or a name, or an import, that may be one that can't stand."""
        one = self.rng.choice(things)
        front = one.path[: self.rng.randint(1, len(one.path))]
        wrong = self.rng.choice([0, 1, 2, 3, 3, 3, 4, 5, 6, 7, 8])
        if wrong == 0:
            things.append(self.leaf(list(one.path)))
        elif wrong == 1:
            things.append(self.leaf(front))
        elif wrong == 2:
            things.append(self.leaf([*one.path, self.pick()]))
        elif wrong == 3:
            things.append(self.leaf(["__".join(front), *one.path[len(front) :]]))
        elif wrong == 4:
            things.append(self.reexport(["__".join(front)], things))
        elif wrong == 5:
            things.append(self.leaf([*front[:-1], "__proto__", *one.path[len(front) :]]))
        elif wrong == 6 and one.kind == "enum":
            one.said["variants"].append([self.rng.choice(BAD_VARIANTS), 1, ""])
        else:
            reexports = [thing for thing in things if thing.kind == "reexport"] or [self.reexport([self.pick()], things)]
            again = self.rng.choice(reexports)
            js = self.rng.choice([again.said["js"], {**again.said["js"], "fields": ["mark"]}, {"global": "console"}])
            things.append(Thing("reexport", [self.pick()], {**again.said, "js": js}))

    def things(self):
        """What one description publishes, in any order."""
        paths = list(itertools.islice(self.level([], DEPTH), MOST))
        things = [self.leaf(path) for path in paths]
        if self.rng.random() < 0.5:
            things += self.reexports(things)
        if self.rng.random() < 0.35:
            self.spoil(things)
        self.rng.shuffle(things)
        return own_names(things)


def own_names(things):
    """The same things, where no namespace within a re-exported object has a name that each object has already.

    Such a namespace would be that of the object's prototype: `||=` finds a value there.
    """
    roots = {thing.path[0] for thing in things if thing.kind == "reexport"}
    for thing in things:
        if thing.path[0] in roots:
            inner = [segment + "_" * (segment in INHERITED) for segment in thing.path[1:-1]]
            thing.path[1:-1] = inner
    return things


# ---- modules


def signed_leb128(value):
    """The shortest signed LEB128 form of a number."""
    out = bytearray()
    while not -0x40 <= value < 0x40:
        out.append(value & 0x7F | 0x80)
        value >>= 7
    out.append(value & 0x7F)
    return bytes(out)


def body(number):
    """A function without locals that gives a number."""
    inside = vector([]) + b"\x41" + signed_leb128(number) + b"\x0b"
    return leb128(len(inside)) + inside


def described(things, string_enums):
    """The description: function k is over export k."""
    functions = [thing for thing in things if thing.kind == "function"]

    def entry(thing, keys):
        said = {key: thing.said[key] for key in keys}
        return {"name": thing.path[-1], "namespace": thing.path[:-1], **said}

    def adapter(place, thing):
        code = [["CallExport", place], ["WasmToInt32", thing.said["unsigned"]]]
        return {"id": place, "args": [], "results": ["s32"], "code": code}

    return {
        "version": 1,
        "adapters": [adapter(place, thing) for place, thing in enumerate(functions)],
        "exports": [
            {"adapter": place, "kind": "function", **entry(thing, ["comments"])} for place, thing in enumerate(functions)
        ],
        "enums": [entry(thing, ["variants", "private", "comments"]) for thing in things if thing.kind == "enum"],
        "string_enums": string_enums,
        "reexports": [{"name": thing.path[0], "js": thing.said["js"]} for thing in things if thing.kind == "reexport"],
    }


def module(things, description):
    """A module that exports a function for each that is published."""
    numbers = [thing.said["number"] for thing in things if thing.kind == "function"]
    places = range(len(numbers))
    parts = [
        (1, [b"\x60" + vector([]) + vector([I32])]),
        (3, [leb128(0) for _ in places]),
        (7, [name(f"f{place}") + b"\0" + leb128(place) for place in places]),
        (10, [body(number) for number in numbers]),
    ]
    glue = name("__wbg_glue") + json.dumps(description).encode()
    return b"\0asm\x01\0\0\0" + b"".join(section(number, vector(entries)) for number, entries in parts) + section(0, glue)


# ---- the run


def make(command, seed, folder):
    """Makes a tree's files in a folder. Its fault where the program tells another one than it has to, else nothing."""
    maker = Maker(seed)
    things = maker.things()
    strings = [{"name": key, "variants": ["a", "b-c"]} for key in maker.rng.sample(PLAIN, maker.rng.randint(0, 2))]
    description = described(things, strings)
    wanted = verdict(things)
    content = module(things, description)
    folder.mkdir(parents=True)
    (folder / "module.wasm").write_bytes(content)
    (folder / "description.json").write_text(json.dumps(description, indent=1))
    for path, text in maker.files.items():
        (folder / path).parent.mkdir(parents=True, exist_ok=True)
        (folder / path).write_text(text)
    done = subprocess.run([*command, "--target", "deno"], input=content, stdout=subprocess.PIPE)
    told = "" if done.returncode == 0 else done.stdout.decode(errors="replace").strip().removeprefix("fault ")
    if done.returncode == 0:
        tree = {"modules": sorted(maker.files), "globals": maker.globals, "tree": published(things)}
        (folder / "listing").write_bytes(done.stdout)
        (folder / "tree.json").write_text(json.dumps(tree))
    return wanted, "" if told == wanted else f"the program tells {told or 'no fault'} in place of {wanted or 'none'}"


def load(folder):
    """What node finds wrong with the glue files, by the names of their folders."""
    done = subprocess.run(["node", str(HERE / "trees.mjs"), str(folder)], stdout=subprocess.PIPE)
    told = dict(json.loads(line) for line in done.stdout.splitlines())
    made = {path.parent.name for path in folder.glob("*/listing")}
    missing = {key: "node doesn't come to its end" for key in made - set(told)}
    return {**told, **missing}


def run(command, count, seed, folder):
    kinds = collections.Counter()
    differing = {}
    for number in range(count):
        wanted, differing[str(number)] = make(command, f"{seed}:{number}", folder / str(number))
        kinds[wanted] += 1
    for number, told in load(folder).items():
        differing[number] = differing[number] or told
    differing = {number: told for number, told in differing.items() if told}
    for number, told in differing.items():
        print(f"tree {number}: {told}")
    refused = ", ".join(f"{kinds[fault]} {fault}" for fault in sorted(kinds) if fault)
    print(f"{count} trees of seed {seed}: {kinds['']} loaded, {refused or 'none refused'}; {len(differing)} differ")
    return bool(differing)


def main():
    count, seed, folder = [*sys.argv[1:], *[None] * 3][:3]
    command = [os.environ.get("GLUE", str(HERE.parent / "glue"))]
    with tempfile.TemporaryDirectory() as spare:
        sys.exit(run(command, int(count or 500), seed or "1", Path(folder or spare)))


if __name__ == "__main__":
    main()
