#!/usr/bin/env python3
"""Measures the program on modules of 100,000, 300,000 and 1,000,000 functions, and prints a table.

The program is the one that the environment variable GLUE names, or else the one that the script `glue` runs.
"""

import math
import subprocess
import sys
import tempfile
from pathlib import Path

sys.path.insert(0, str(Path(__file__).resolve().parents[1]))
from shared import program, run  # noqa: E402

HERE = Path(__file__).resolve().parent
SIZES = [100_000, 300_000, 1_000_000]
RUNS = 5
PIECE = 1 << 16
# The producers section that the program adds: `processed-by` with `wasm-bindgen` and its version.
ADDED = 48


def make(count, path):
    """Writes the module of `count` functions to a file, in a process of its own (see `run`)."""
    with path.open("wb") as out:
        subprocess.run([sys.executable, str(HERE / "make.py"), str(count)], stdout=out, check=True)


def check(command, path):
    """Runs the program once, and stops where the module that it prints doesn't begin with the one that it read."""
    with path.open("rb") as module, path.open("rb") as digits:
        with subprocess.Popen(command, stdin=module, stdout=subprocess.PIPE) as child:
            header = child.stdout.readline().decode().rstrip("\n")
            wanted = f"file out_bg.wasm hex {path.stat().st_size + ADDED}"
            same = header == wanted
            while same and (piece := digits.read(PIECE)):
                same = child.stdout.read(2 * len(piece)) == piece.hex().encode()
            while child.stdout.read(PIECE):
                pass
    if not same or child.returncode != 0:
        sys.exit(f"{path.name}: status {child.returncode}, first line: {header}")


def exponent(before, after, name):
    """How a figure grows between two sizes: 1 where it grows as the number of functions does."""
    return math.log(after[name] / before[name]) / math.log(after["count"] / before["count"])


def measure(command, count, folder):
    """The figures of one size: the least of the runs, of the seconds and of the memory."""
    path = folder / f"{count}.wasm"
    make(count, path)
    check(command, path)
    runs = [run(command, path) for _ in range(RUNS)]
    return {
        "count": count,
        "bytes": path.stat().st_size,
        "seconds": min(seconds for seconds, _ in runs),
        "memory": min(memory for _, memory in runs),
    }


def row(figures, before):
    """A line of the table."""
    growth = ["", ""]
    if before is not None:
        growth = [f"{exponent(before, figures, name):.2f}" for name in ("seconds", "memory")]
    cells = [
        f"{figures['count']:,}",
        f"{figures['bytes']:,}",
        f"{figures['seconds']:.3f}",
        f"{figures['memory'] / 2**20:.1f}",
        *growth,
    ]
    return "| " + " | ".join(cells) + " |"


def main():
    command = [program(), "--target", "deno"]
    print("| functions | bytes | seconds | peak MiB | exponent, seconds | exponent, memory |")
    print("|---:|---:|---:|---:|---:|---:|")
    before = None
    with tempfile.TemporaryDirectory() as folder:
        for count in SIZES:
            figures = measure(command, count, Path(folder))
            print(row(figures, before), flush=True)
            before = figures


if __name__ == "__main__":
    main()
