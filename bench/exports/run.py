#!/usr/bin/env python3
"""Measures the program on 1,000, 10,000 and 100,000 exports in a tenth as many namespaces, and prints a table: run.py [counted]

With `counted` the table has the instructions of the processor, which valgrind counts and other work on the machine doesn't change.
The program is the one that the environment variable GLUE names, or else the one that the script `glue` runs.
"""

import math
import re
import subprocess
import sys
import tempfile
from collections import Counter
from pathlib import Path

sys.path.insert(0, str(Path(__file__).resolve().parents[1]))
from shared import instructions, program, spent  # noqa: E402

HERE = Path(__file__).resolve().parent
SIZES = [1_000, 10_000, 100_000]
RUNS = 3
# A line of the glue file, and for how many of ten exports it stands.
LINES = {
    "functions": (rb"function n\d+__(m__)?f\d\(a, b\) \{", 9),
    "enums": (rb"const n\d+__(m__)?E = Object\.freeze\(\{", 1),
    "namespaces": (rb"export const n\d+ = \{\};|n\d+\.m = \{\};", 1),
    "functions put there": (rb"n\d+(\.m)?\.f\d = n\d+__(m__)?f\d;", 9),
    "enums put there": (rb"n\d+(\.m)?\.E = n\d+__(m__)?E;", 1),
    "comments": (rb" +\* The first of \d+\.| \* Adds, as \d+ does\.", 2),
}


def make(count, path):
    """Writes the module of `count` exports to a file, in a process of its own (see `spent`)."""
    with path.open("wb") as out:
        subprocess.run([sys.executable, str(HERE / "make.py"), str(count)], stdout=out, check=True)


def check(command, path, count):
    """Runs the program once, and stops where its glue file doesn't hold each line as often as it has to.

    The listing is gone through line by line, so that this process stays small (see `spent`).
    """
    patterns = {told: re.compile(rb"(?:%b)\n" % pattern) for told, (pattern, _) in LINES.items()}
    seen = Counter()
    with path.open("rb") as module, subprocess.Popen(command, stdin=module, stdout=subprocess.PIPE) as child:
        for line in child.stdout:
            seen.update(told for told, pattern in patterns.items() if pattern.fullmatch(line))
    if child.returncode != 0:
        sys.exit(f"{path.name}: status {child.returncode}")
    for told, (_, of_ten) in LINES.items():
        if seen[told] != count // 10 * of_ten:
            sys.exit(f"{path.name}: {seen[told]} {told} in place of {count // 10 * of_ten}")


def measure(command, path):
    """The figures of one size: the least of the runs, each by itself."""
    runs = [spent(command, path) for _ in range(RUNS)]
    return {name: min(run[place] for run in runs) for place, name in enumerate(("processor", "wall", "memory"))}


def count_one(command, path):
    """The instructions of one size."""
    return {"instructions": instructions(command, path)}


def exponent(before, after, name):
    """How a figure grows between two sizes: 1 where it grows as the number of exports does."""
    if before is None:
        return ""
    return f"{math.log(after[name] / before[name]) / math.log(after['count'] / before['count']):.2f}"


def measured_row(f, before):
    """The cells of a line, behind the number of exports."""
    return [
        f"{f['bytes']:,}",
        f"{f['processor']:.2f}",
        f"{f['wall']:.2f}",
        f"{f['memory'] / 2**20:.1f}",
        f"{f['memory'] / f['bytes']:.1f}",
        exponent(before, f, "processor"),
        exponent(before, f, "memory"),
    ]


def counted_row(f, before):
    """The same of instructions."""
    total = f["instructions"]
    return [f"{total / 1e6:,.0f}", f"{total / f['count']:,.0f}", exponent(before, f, "instructions")]


# What is found out about a size, its line, and how the table begins.
TABLES = {
    "measured": (
        measure,
        measured_row,
        "bytes | processor, s | wall, s | peak MiB | memory by bytes | exponent, processor | exponent, memory",
    ),
    "counted": (count_one, counted_row, "instructions, millions | for each export | exponent"),
}


def main():
    words = sys.argv[1:] or ["measured"]
    if len(words) != 1 or words[0] not in TABLES:
        sys.exit(__doc__.splitlines()[0])
    figures_of, row, head = TABLES[words[0]]
    command = [program(), "--target", "deno"]
    print(f"| exports | {head} |")
    print("|---:|" + "---:|" * (head.count("|") + 1))
    before = None
    with tempfile.TemporaryDirectory() as folder:
        for count in SIZES:
            path = Path(folder) / f"{count}.wasm"
            make(count, path)
            check(command, path, count)
            figures = {"count": count, "bytes": path.stat().st_size, **figures_of(command, path)}
            print("| " + " | ".join([f"{count:,}", *row(figures, before)]) + " |", flush=True)
            before = figures


if __name__ == "__main__":
    main()
