#!/usr/bin/env python3
"""Writes a WebAssembly module of so many bytes to standard output: make.py BYTES [SHAPE] > MODULE

Without a shape the module has at least so many bytes of code. It has one memory and functions that take two numbers and
give one. Their bodies hold locals, constants, arithmetic, loads and stores, blocks, loops, branches and calls, in an order
that a fixed seed decides. A table that is exported holds every function, so all of them can be reached.

With a shape, which is one of SHAPES and may have several words, the module has about so many bytes. It is made of entries
of one kind, and of what makes these reachable, where they aren't so by themselves.

The module is valid, and every number is written in its shortest form. Sections stand in the order of the specification, and
custom sections last. The format is the binary format of the WebAssembly core specification, section 5, and for names and
producers that of the tool conventions.
"""

import random
import sys
from pathlib import Path

sys.path.insert(0, str(Path(__file__).resolve().parents[1]))
from shared import leb128 as unsigned  # noqa: E402

PREAMBLE = b"\0asm\1\0\0\0"
CUSTOM, TYPE, IMPORT, FUNCTION, TABLE, MEMORY, GLOBAL, EXPORT = range(8)
ELEMENT, CODE, DATA, DATA_COUNT = range(9, 13)
# The order in which sections stand in a module, but for custom ones.
ORDER = [TYPE, IMPORT, FUNCTION, TABLE, MEMORY, GLOBAL, EXPORT, ELEMENT, DATA_COUNT, CODE, DATA]
I32, I64, F64, FUNCREF = 0x7F, 0x7E, 0x7C, 0x70
# Without a shape every function is (i32, i32) -> i32, with four i32, two i64 and one f64 as locals.
PARAMETERS, LOCALS_I32, LOCALS_I64, LOCALS_F64 = 2, 4, 2, 1
FIRST_I64 = PARAMETERS + LOCALS_I32
FIRST_F64 = FIRST_I64 + LOCALS_I64
# What the shapes share: the type () -> (), the body of a function without operators, exports, and letters of names.
NOTHING = b"\x60\x00\x00"
EMPTY_BODY = b"\x02\x00\x0b"
TABLE_EXPORT, MEMORY_EXPORT, FUNCTION_EXPORT = b"\x05table\x01\x00", b"\x06memory\x02\x00", b"\x03run\x00"
LETTERS = b"abcdefghijklmnopqrstuvwxyz0123456789"


def signed(value):
    """The shortest signed LEB128 form of a number."""
    out = bytearray()
    while not -64 <= value < 64:
        out.append(value & 0x7F | 0x80)
        value >>= 7
    out.append(value & 0x7F)
    return bytes(out)


def section(number, content):
    """A section: its number, its length and its content."""
    return bytes([number]) + unsigned(len(content)) + content


def listed(entries):
    """A list: the count and the entries."""
    return unsigned(len(entries)) + b"".join(entries)


class Body:
    """Writes one body. Each statement leaves the operand stack as it was."""

    def __init__(self, rng, functions):
        self.rng = rng
        self.functions = functions

    def get(self):
        return b"\x20" + unsigned(self.rng.randrange(FIRST_I64))

    def set(self):
        return b"\x21" + unsigned(self.rng.randrange(FIRST_I64))

    def constant(self):
        return b"\x41" + signed(self.rng.choice([0, 1, -1, 8, 255, 65536, self.rng.randrange(-(2**31), 2**31)]))

    def add(self):
        operator = self.rng.choice([0x6A, 0x6B, 0x6C, 0x71, 0x72, 0x73, 0x74, 0x76])
        return self.get() + self.rng.choice([self.get, self.constant])() + bytes([operator]) + self.set()

    def load(self):
        return self.get() + b"\x28\x02" + unsigned(self.rng.randrange(4096)) + self.set()

    def store(self):
        return self.get() + self.get() + b"\x36\x02" + unsigned(self.rng.randrange(4096))

    def wide(self):
        i, j = (FIRST_I64 + self.rng.randrange(LOCALS_I64) for _ in range(2))
        value = b"\x42" + signed(self.rng.randrange(-(2**62), 2**62))
        return b"\x20" + unsigned(i) + value + b"\x7c" + b"\x21" + unsigned(j)

    def real(self):
        return b"\x20" + unsigned(FIRST_F64) + b"\x44" + self.rng.randbytes(7) + b"\x3f" + b"\xa0\x21" + unsigned(FIRST_F64)

    def call(self):
        return self.get() + self.get() + b"\x10" + unsigned(self.rng.randrange(self.functions)) + self.set()

    def branch(self, depth):
        kind = self.rng.choice([0x02, 0x03])
        return bytes([kind, 0x40]) + self.get() + b"\x0d\x00" + self.statements(depth + 1) + b"\x0b"

    def choice(self, depth):
        return self.get() + b"\x04\x40" + self.statements(depth + 1) + b"\x05" + self.statements(depth + 1) + b"\x0b"

    def statements(self, depth):
        plain = [self.add, self.add, self.add, self.load, self.load, self.store, self.wide, self.real, self.call]
        out = bytearray()
        for _ in range(self.rng.randrange(2, 9)):
            if depth < 4 and self.rng.random() < 0.2:
                out += self.rng.choice([self.branch, self.choice])(depth)
            else:
                out += self.rng.choice(plain)()
        return bytes(out)

    def entry(self):
        """The body with its locals, behind its length."""
        runs = [(LOCALS_I32, I32), (LOCALS_I64, I64), (LOCALS_F64, F64)]
        local = listed([unsigned(count) + bytes([kind]) for count, kind in runs])
        code = local + self.statements(0) + self.statements(0) + self.get() + b"\x0b"
        return unsigned(len(code)) + code


def assembled(parts, customs=b""):
    """The module of the contents of sections by their numbers, and of custom sections."""
    return PREAMBLE + b"".join(section(number, parts[number]) for number in ORDER if number in parts) + customs


def table(count):
    """The section of one table, which holds so many functions."""
    return listed([bytes([FUNCREF, 0]) + unsigned(count)])


def filled(places):
    """The section of one element segment, which puts functions into the table from its start on."""
    return listed([b"\x00\x41\x00\x0b" + listed([unsigned(place) for place in places])])


def code(size):
    """At least `size` bytes of code."""
    rng = random.Random(size)
    # A call names one of the first functions, which are always there.
    bodies, length = [], 0
    while length < size or len(bodies) < 100:
        bodies.append(Body(rng, 100).entry())
        length += len(bodies[-1])
    count = len(bodies)
    return assembled(
        {
            TYPE: listed([bytes([0x60, 2, I32, I32, 1, I32])]),
            FUNCTION: listed([unsigned(0)] * count),
            TABLE: table(count),
            MEMORY: listed([b"\x00\x11"]),
            EXPORT: listed([TABLE_EXPORT, MEMORY_EXPORT]),
            ELEMENT: filled(range(count)),
            CODE: listed(bodies),
        }
    )


def short_name(number):
    """The name of a number, other than that of each other number: its length and its letters."""
    out = bytearray()
    while number >= 0:
        number, letter = divmod(number, len(LETTERS))
        out.append(LETTERS[letter])
        number -= 1
    return unsigned(len(out)) + bytes(out)


def custom(name, content):
    """A custom section of a name."""
    return section(CUSTOM, unsigned(len(name)) + name + content)


def running(operators, parts=()):
    """A module of one exported function with these operators, and of further parts."""
    body = b"\x00" + operators + b"\x0b"
    function = {TYPE: listed([NOTHING]), FUNCTION: listed([b"\x00"]), EXPORT: listed([FUNCTION_EXPORT + b"\x00"])}
    return assembled({**function, CODE: listed([unsigned(len(body)) + body]), **dict(parts)})


def element_expressions(size):
    """One active element segment of expressions, which give the function and null in turn. The table is exported."""
    count = size // 6
    segment = b"\x04\x41\x00\x0b" + listed([b"\xd2\x00\x0b", b"\xd0\x70\x0b"] * count)
    return assembled(
        {
            TYPE: listed([NOTHING]),
            FUNCTION: listed([b"\x00"]),
            TABLE: table(2 * count),
            EXPORT: listed([TABLE_EXPORT]),
            ELEMENT: listed([segment]),
            CODE: listed([EMPTY_BODY]),
        }
    )


def data_segments(size):
    """Active data segments of one byte. The memory is exported."""
    segment = b"\x00\x41\x00\x0b\x01a"
    count = size // len(segment)
    return assembled(
        {
            MEMORY: listed([b"\x00\x01"]),
            EXPORT: listed([MEMORY_EXPORT]),
            DATA_COUNT: unsigned(count),
            DATA: listed([segment] * count),
        }
    )


def imports(size):
    """Imported functions of one module, each with a name of its own. An exported table holds them."""
    count = size // 12
    return assembled(
        {
            TYPE: listed([NOTHING]),
            IMPORT: listed([b"\x01m" + short_name(number) + b"\x00\x00" for number in range(count)]),
            TABLE: table(count),
            EXPORT: listed([TABLE_EXPORT]),
            ELEMENT: filled(range(count)),
        }
    )


def producers(size):
    """Values of one field of producers, each with a name of its own and a version of one digit."""
    values = [short_name(number) + b"\x011" for number in range(size // 7)]
    return assembled({}, custom(b"producers", listed([b"\x08language" + listed(values)])))


def global_variables(size):
    """Globals that are 0. An exported function reads each, and returns with all of them left."""
    entry = bytes([I32, 0]) + b"\x41\x00\x0b"
    count = size // (len(entry) + 4)
    reads = b"".join(b"\x23" + unsigned(place) for place in range(count))
    return running(reads + b"\x0f", {GLOBAL: listed([entry] * count)})


def nops(size):
    """One exported function of operators that do nothing."""
    return running(b"\x01" * size)


def custom_sections(size):
    """Custom sections without content, of a name of one letter."""
    entry = custom(b"a", b"")
    return assembled({}, entry * (size // len(entry)))


def types(size):
    """Function types () -> (i32). An exported function calls through a table by each, at the place that the last call gave."""
    entry = bytes([0x60, 0, 1, I32])
    count = size // (len(entry) + 5)
    calls = b"".join(b"\x11" + unsigned(place) + b"\x00" for place in range(1, count + 1))
    return running(b"\x41\x00" + calls + b"\x1a", {TYPE: listed([NOTHING, *[entry] * count]), TABLE: table(1)})


def references(size):
    """One exported function of references to itself, each of which is dropped."""
    return running(b"\xd2\x00\x1a" * (size // 3))


def functions(size, customs=b"", cost=7):
    """Functions without operators. An exported table holds them."""
    count = size // cost
    return assembled(
        {
            TYPE: listed([NOTHING]),
            FUNCTION: listed([b"\x00"] * count),
            TABLE: table(count),
            EXPORT: listed([TABLE_EXPORT]),
            ELEMENT: filled(range(count)),
            CODE: listed([EMPTY_BODY] * count),
        },
        customs,
    )


def function_names(size):
    """Functions without operators, each with a name of its own in the name section. An exported table holds them."""
    cost = 15
    names = [unsigned(place) + short_name(place) for place in range(size // cost)]
    return functions(size, custom(b"name", section(1, listed(names))), cost)


SHAPES = {
    "element expressions": element_expressions,
    "data segments": data_segments,
    "imports": imports,
    "producers": producers,
    "globals": global_variables,
    "nops": nops,
    "custom sections": custom_sections,
    "types": types,
    "references": references,
    "functions": functions,
    "names": function_names,
}


def main():
    shape = " ".join(sys.argv[2:])
    makers = {"": code, **SHAPES}
    if len(sys.argv) < 2 or not sys.argv[1].isdecimal() or shape not in makers:
        sys.exit(__doc__.splitlines()[0])
    sys.stdout.buffer.write(makers[shape](int(sys.argv[1])))


if __name__ == "__main__":
    main()
