#!/usr/bin/env python3
"""Measures the program on 100, 1,000 and 10,000 adapters of twenty instructions each, and prints a table: run.py

Before it measures a size, it runs the program once, and stops where the glue file doesn't hold four `try` for each function, or
their ends. The program is the one that the environment variable GLUE names, or else the one that the script `glue` runs.
"""

import math
import subprocess
import sys
import tempfile
from pathlib import Path

sys.path.insert(0, str(Path(__file__).resolve().parents[1]))
from shared import program, spent  # noqa: E402

HERE = Path(__file__).resolve().parent
SIZES = [100, 1_000, 10_000]
RUNS = 3
TRIES = 4
# How a line of the printed functions reads, and how often it stands in each.
LINES = {b"try {\n": TRIES, b"heap[stack_pointer++] = undefined;\n": TRIES, b"return v8;\n": 1}


def checked(command, path, count):
    """Stops where the glue file of so many functions doesn't hold each line as often as it has to."""
    seen = dict.fromkeys(LINES, 0)
    with path.open("rb") as module, subprocess.Popen(command, stdin=module, stdout=subprocess.PIPE) as child:
        for line in child.stdout:
            line = line.lstrip(b" ")
            if line in seen:
                seen[line] += 1
    if child.returncode != 0 or any(seen[line] != count * each for line, each in LINES.items()):
        sys.exit(f"{path.name}: status {child.returncode}, {seen}")


def growth(before, after, place):
    """The exponent by which a figure grows between two sizes."""
    return f"{math.log(after[place] / before[place]) / math.log(after[0] / before[0]):.2f}" if before else ""


def main():
    command = [program(), "--target", "deno"]
    print("| adapters | bytes | processor, s | peak MiB | exponent, processor | exponent, memory |")
    print("|---:|---:|---:|---:|---:|---:|")
    before = None
    with tempfile.TemporaryDirectory() as folder:
        for count in SIZES:
            path = Path(folder) / f"{count}.wasm"
            with path.open("wb") as out:
                subprocess.run([sys.executable, str(HERE / "make.py"), str(count)], stdout=out, check=True)
            checked(command, path, count)
            runs = [spent(command, path) for _ in range(RUNS)]
            figures = (count, min(run[0] for run in runs), min(run[2] for run in runs))
            cells = [f"{count:,}", f"{path.stat().st_size:,}", f"{figures[1]:.3f}", f"{figures[2] / 2**20:.1f}"]
            print("| " + " | ".join([*cells, growth(before, figures, 1), growth(before, figures, 2)]) + " |", flush=True)
            before = figures


if __name__ == "__main__":
    main()
