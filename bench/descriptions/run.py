#!/usr/bin/env python3
"""Measures the program on descriptions of 1,000, 10,000 and 100,000 exported and as many imported functions.

Prints a table. The program is the one that the environment variable GLUE names, or else the one that the script `glue` runs.
"""

import math
import subprocess
import sys
import tempfile
from pathlib import Path

sys.path.insert(0, str(Path(__file__).resolve().parents[1]))
from shared import program, run  # noqa: E402

HERE = Path(__file__).resolve().parent
SIZES = [1_000, 10_000, 100_000]
RUNS = 3


def make(count, path):
    """Writes the module of `count` functions of each kind to a file, in a process of its own (see `run`)."""
    with path.open("wb") as out:
        subprocess.run([sys.executable, str(HERE / "make.py"), str(count)], stdout=out, check=True)


def check(command, path, count):
    """Runs the program once, and stops where its glue file doesn't hold each function once.

    The listing is gone through line by line, so that this process stays small (see `run`).
    """
    exports = members = 0
    with path.open("rb") as module, subprocess.Popen(command, stdin=module, stdout=subprocess.PIPE) as child:
        for line in child.stdout:
            exports += line.startswith(b"export function f")
            members += line.endswith(b": function(arg0) {\n")
    if child.returncode != 0 or exports != count or members != count:
        sys.exit(f"{path.name}: status {child.returncode}, {exports} exports and {members} members for {count} of each")


def exponent(before, after, name):
    """How a figure grows between two sizes: 1 where it grows as the number of functions does."""
    return math.log(after[name] / before[name]) / math.log(after["count"] / before["count"])


def measure(command, count, folder):
    """The figures of one size: the least of the runs, of the seconds and of the memory."""
    path = folder / f"{count}.wasm"
    make(count, path)
    check(command, path, count)
    runs = [run(command, path) for _ in range(RUNS)]
    return {
        "count": count,
        "bytes": path.stat().st_size,
        "seconds": min(seconds for seconds, _ in runs),
        "memory": min(memory for _, memory in runs),
    }


def row(figures, before):
    """A line of the table."""
    growth = ["", ""]
    if before is not None:
        growth = [f"{exponent(before, figures, name):.2f}" for name in ("seconds", "memory")]
    cells = [
        f"{figures['count']:,}",
        f"{figures['bytes']:,}",
        f"{figures['seconds']:.3f}",
        f"{figures['memory'] / 2**20:.1f}",
        f"{figures['memory'] / figures['bytes']:.1f}",
        *growth,
    ]
    return "| " + " | ".join(cells) + " |"


def main():
    command = [program(), "--target", "deno"]
    print("| functions of each kind | bytes | seconds | peak MiB | memory by bytes | exponent, seconds | exponent, memory |")
    print("|---:|---:|---:|---:|---:|---:|---:|")
    before = None
    with tempfile.TemporaryDirectory() as folder:
        for count in SIZES:
            figures = measure(command, count, Path(folder))
            print(row(figures, before), flush=True)
            before = figures


if __name__ == "__main__":
    main()
