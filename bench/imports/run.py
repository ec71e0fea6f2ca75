#!/usr/bin/env python3
"""Measures the program on imports of all kinds, and prints tables: run.py [mixed] [counted] [helpers] [kinds] [shapes]

`mixed` is 1,000, 10,000 and 100,000 imports of all kinds in turn; `counted` is the instructions of the processor for these,
counted by valgrind, which other work on the machine doesn't change; `helpers` is what the helpers add to the glue file, and as
many imports of which each asks for one of them; `kinds` is imports of each kind alone, and those that ask for helpers, the
seconds for 10,000 and 100,000 and the instructions for 1,000 and 10,000; `shapes` is the instructions for names that clash.
Without a word `mixed` and `helpers` are printed. The program is the one that the environment variable GLUE names, or else the one that the script `glue` runs.
"""

import math
import re
import subprocess
import sys
import tempfile
from collections import Counter
from pathlib import Path
from statistics import median

sys.path.insert(0, str(Path(__file__).resolve().parents[1]))
from make import SHAPES  # noqa: E402
from shared import instructions, program, spent  # noqa: E402

HERE = Path(__file__).resolve().parent
SIZES = [1_000, 10_000, 100_000]
RUNS = 3
# A kind that asks for a helper, the kinds that do, the helper's name, and how the line begins that declares it.
HELPERS = [
    ("Getter global", r"(Class)?[GS]etter .*", "GetOwnOrInheritedPropertyDescriptor", b"function GetOwn"),
    ("Intrinsic DebugString", "Intrinsic DebugString", "debugString", b"function debugString("),
    ("Intrinsic StringFromUtf8Lossy", "Intrinsic StringFromUtf8Lossy", "decodeText", b"function decodeText("),
    ("Intrinsic PanicError", "Intrinsic PanicError", "PanicError", b"class PanicError "),
    ("Intrinsic ExternrefHeapLiveCount", "Intrinsic ExternrefHeapLiveCount", "heap, heap_next", b"let heap "),
    ("Bare module normal i property", "Bare (module|local|inline) normal i property", "notDefined", b"function notDefined("),
]
ASKING = [row[0] for row in HELPERS]
WITHOUT = "Intrinsic Add"
# A definition in the frame: of a function, of a property that is handed on.
DEFINED = re.compile(rb"        i\d+: ")


def make(count, path, words):
    """Writes a module to a file, in a process of its own (see `spent`)."""
    with path.open("wb") as out:
        subprocess.run([sys.executable, str(HERE / "make.py"), str(count), *words], stdout=out, check=True)


def only(kinds):
    """The words for make.py that choose kinds."""
    return [word for kind in kinds for word in ("--only", kind)]


def look(command, path):
    """What the glue file holds, gone through line by line: definitions, helpers, words, and words of helpers (see `spent`).

    The helpers stand between the frame and the line that names the written module. Words are parted by white space.
    """
    seen = Counter()
    where = "module"
    with path.open("rb") as module, subprocess.Popen(command, stdin=module, stdout=subprocess.PIPE) as child:
        for line in child.stdout:
            if line.startswith(b"file out.js "):
                where = "front"
                continue
            if where == "module":
                continue
            if line.startswith(b"const wasmUrl "):
                where = "end"
            words = len(line.split())
            seen["words"] += words
            seen["defined"] += DEFINED.match(line) is not None
            if where == "helpers":
                seen["helper words"] += words
                for _, _, helper, front in HELPERS:
                    seen[helper] += line.startswith(front)
            if line.startswith(b"function __wbg_get_imports("):
                where = "frame"
            elif where == "frame" and line == b"}\n":
                where = "helpers"
    if child.returncode != 0:
        sys.exit(f"{path.name}: status {child.returncode}")
    return seen


def handed_on(kind):
    """Whether an import of this kind is the name of a module itself: it moves there, and has no definition."""
    return re.fullmatch(r"Bare (module|local|inline) normal i", kind) is not None


def listed(words):
    """The names of the kinds that make.py takes."""
    text = subprocess.run([sys.executable, str(HERE / "make.py"), "--list", *words], stdout=subprocess.PIPE, check=True).stdout
    return text.decode().split("\n")[:-1]


def check(command, path, count, kinds):
    """Runs the program once, and stops where an import has no definition, or where other helpers are there than asked for."""
    seen = look(command, path)
    wanted = sum(not handed_on(kinds[k % len(kinds)]) for k in range(count))
    if seen["defined"] != wanted:
        sys.exit(f"{path.name}: {seen['defined']} definitions in place of {wanted}")
    for _, asks, helper, _ in HELPERS:
        if seen[helper] != any(re.fullmatch(asks, kind) for kind in kinds[:count]):
            sys.exit(f"{path.name}: {helper} is there {seen[helper]} times")
    return seen


def measure(command, count, folder, words):
    """The figures of one module: the medians of the runs, each by itself, and what its glue file holds."""
    path = folder / f"{count}.wasm"
    make(count, path, words)
    seen = check(command, path, count, listed(words))
    runs = [spent(command, path) for _ in range(RUNS)]
    figures = {name: median(run[place] for run in runs) for place, name in enumerate(("processor", "wall", "memory"))}
    spread = [run[0] for run in runs]
    return {"count": count, "bytes": path.stat().st_size, **figures, "least": min(spread), "most": max(spread), **seen}


def count_one(command, count, folder, words):
    """The instructions of one module."""
    path = folder / f"{count}.wasm"
    make(count, path, words)
    return {"count": count, "instructions": instructions(command, path)}


def exponent(before, after, name, by="count"):
    """How a figure grows between two sizes: 1 where it grows as the other one does."""
    if before is None:
        return ""
    return f"{math.log(after[name] / before[name]) / math.log(after[by] / before[by]):.2f}"


def line(cells):
    print("| " + " | ".join(cells) + " |", flush=True)


def shared_cells(f):
    """The cells that both tables of growth have."""
    return [f"{f['processor']:.2f}", f"{f['least']:.2f} to {f['most']:.2f}", f"{f['wall']:.2f}", f"{f['memory'] / 2**20:.1f}"]


def mixed(command, folder):
    print(
        "| imports | bytes | processor, s | of the runs | wall, s | peak MiB | memory by bytes "
        "| exponent, processor | exponent, memory |"
    )
    print("|---:|" + "---:|" * 8)
    before = None
    for count in SIZES:
        f = measure(command, count, folder, [])
        cells = [f"{count:,}", f"{f['bytes']:,}", *shared_cells(f), f"{f['memory'] / f['bytes']:.1f}"]
        line([*cells, exponent(before, f, "processor"), exponent(before, f, "memory")])
        before = f


def counted(command, folder):
    print("| imports | instructions, millions | for each import | exponent |")
    print("|---:|---:|---:|---:|")
    before = None
    for count in SIZES:
        f = count_one(command, count, folder, [])
        total = f["instructions"]
        line([f"{count:,}", f"{total / 1e6:,.0f}", f"{total / count:,.0f}", exponent(before, f, "instructions")])
        before = f


def helpers(command, folder):
    path = folder / "one.wasm"
    print("| asked for | words of helpers | words of the glue file |")
    print("|---|---:|---:|")
    one_by_one = [("`" + helper.replace(", ", "`, `") + "`", [kind]) for kind, _, helper, _ in HELPERS]
    for told, kinds in [("none", [WITHOUT]), *one_by_one, ("all", ASKING)]:
        make(len(kinds), path, only(kinds))
        seen = check(command, path, len(kinds), kinds)
        line([told, str(seen["helper words"]), str(seen["words"])])
    print()
    print(
        "| imports | words of helpers | words of the glue file | processor, s | of the runs | wall, s | peak MiB "
        "| exponent by imports | exponent by words |"
    )
    print("|---:|" + "---:|" * 8)
    before = None
    for count in SIZES:
        f = measure(command, count, folder, only(ASKING))
        cells = [f"{count:,}", str(f["helper words"]), f"{f['words']:,}", *shared_cells(f)]
        line([*cells, exponent(before, f, "processor"), exponent(before, f, "processor", "words")])
        before = f


def kind_seconds(command, folder, words):
    few, many = (measure(command, count, folder, words) for count in SIZES[1:])
    return [f"{few['processor']:.2f}", f"{many['processor']:.2f}", exponent(few, many, "processor")]


def kind_instructions(command, folder, words):
    few, many = (count_one(command, count, folder, words) for count in SIZES[:2])
    return [f"{many['instructions'] / SIZES[1]:,.0f}", exponent(few, many, "instructions")]


def each_kind(command, folder):
    print("| kind | 10,000, s | 100,000, s | exponent, seconds | instructions for each of 10,000 | exponent, instructions |")
    print("|---|" + "---:|" * 5)
    rows = [(f"`{kind}`", only([kind])) for kind in dict.fromkeys(name.split()[0] for name in listed([]))]
    for told, words in [*rows, ("helpers", only(ASKING))]:
        line([told, *kind_seconds(command, folder, words), *kind_instructions(command, folder, words)])


def shapes(command, folder):
    print("| shape | instructions for each of 10,000 | exponent, instructions |")
    print("|---|---:|---:|")
    for shape in SHAPES:
        line([shape, *kind_instructions(command, folder, ["--shape", shape])])


TABLES = {"mixed": mixed, "counted": counted, "helpers": helpers, "kinds": each_kind, "shapes": shapes}


def main():
    words = sys.argv[1:]
    chosen = words or ["mixed", "helpers"]
    if any(word not in TABLES for word in chosen):
        sys.exit(__doc__.splitlines()[0])
    command = [program(), "--target", "deno"]
    with tempfile.TemporaryDirectory() as folder:
        for word in chosen:
            TABLES[word](command, Path(folder))
            print(flush=True)


if __name__ == "__main__":
    main()
