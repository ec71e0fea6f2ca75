#!/usr/bin/env python3
"""Measures the program beside wasm-strip, wasm-opt and xxd on the same modules, and prints tables: run.py [code] [shapes]

The program reads a module, writes it again and prints the listing, whose greater part is the module in hexadecimal.
wasm-strip reads every operator and copies the module; wasm-opt -O0 --all-features reads it and writes it again; xxd -p
prints its bytes in hexadecimal.

`code` is modules of 1, 4, 16 and 64 MB of code (make.py), and those that rustc makes of program.rs, without optimisation
with debug sections, and optimised, both without their name section. `shapes` is modules of about 4 MB, each of entries of
one kind and of what makes these reachable (SHAPES in make.py), without wasm-opt. Without a word both are printed. The
program is the one that the environment variable GLUE names, or else the one that the script `glue` runs.
"""

import math
import shutil
import subprocess
import sys
import tempfile
from itertools import chain
from pathlib import Path

sys.path.insert(0, str(Path(__file__).resolve().parents[1]))
from make import SHAPES  # noqa: E402
from shared import program, run  # noqa: E402

HERE = Path(__file__).resolve().parent
SIZES = [1_000_000, 4_000_000, 16_000_000, 64_000_000]
SHAPE_SIZE = 4_000_000
RUNS = 3
PIECE = 1 << 16
# What the program adds to a module: a producers section with the field `processed-by`, or where there is one the field alone.
ADDED, ADDED_FIELD = 48, 35


def commands(glue, path, folder):
    """What is measured: a name and the words."""
    out = str(folder / "out.wasm")
    return [
        ("program", [glue, "--target", "deno"]),
        ("wasm-strip", ["wasm-strip", str(path), "-o", out]),
        ("wasm-opt", ["wasm-opt", "-O0", "--all-features", str(path), "-o", out]),
        ("xxd", ["xxd", "-p", str(path)]),
    ]


def make(path, size, shape=""):
    """Writes a generated module to a file, in a process of its own (see `spent` in shared.py)."""
    with path.open("wb") as out:
        subprocess.run([sys.executable, str(HERE / "make.py"), str(size), *shape.split()], stdout=out, check=True)


def generated(folder):
    for size in SIZES:
        path = folder / f"{size // 1_000_000} MB.wasm"
        make(path, size)
        yield path


def compiled(folder):
    rustc = next((path for path in ("/usr/bin/rustc", shutil.which("rustc")) if path and Path(path).exists()), None)
    linker = shutil.which("rust-lld") or shutil.which("lld")
    if rustc is None or linker is None:
        print("program.rs is left out, since rustc or lld is missing", file=sys.stderr)
        return
    for name, flags in (("debug build", ["-g"]), ("optimised build", ["-C", "opt-level=3"])):
        path = folder / f"{name}.wasm"
        target = ["--target", "wasm32-unknown-unknown", "--crate-type", "cdylib", "-C", f"linker={linker}"]
        words = [rustc, *target, "-C", "linker-flavor=wasm-ld", *flags, str(HERE / "program.rs"), "-o", str(path)]
        if subprocess.run(words, stdout=subprocess.DEVNULL, stderr=subprocess.DEVNULL).returncode != 0:
            print(f"the {name} is left out, since rustc doesn't compile program.rs for wasm32-unknown-unknown", file=sys.stderr)
            continue
        subprocess.run([sys.executable, str(HERE / "nameless.py"), str(path)], check=True)
        yield path


def check(glue, path, shape):
    """Stops where a module isn't valid, and where the program refuses it or drops something of it.

    That nothing was dropped is read off the heading of the listing, which gives the length of the module that was written.
    """
    subprocess.run(["wasm-validate", "--enable-all", str(path)], check=True)
    with path.open("rb") as module, subprocess.Popen([glue, "--target", "deno"], stdin=module, stdout=subprocess.PIPE) as child:
        heading = child.stdout.readline().decode().rstrip("\n")
        while child.stdout.read(PIECE):
            pass
    added = ADDED_FIELD if shape == "producers" else ADDED
    if child.returncode != 0 or heading != f"file out_bg.wasm hex {path.stat().st_size + added}":
        sys.exit(f"{shape}: status {child.returncode}, first line: {heading}")


def measure(chosen, path):
    """The least of the runs of each of some commands, of the seconds and of the memory."""
    figures = {"bytes": path.stat().st_size}
    for name, words in chosen:
        runs = [run(words, path) for _ in range(RUNS)]
        figures[name] = min(seconds for seconds, _ in runs)
        figures[name, "memory"] = min(memory for _, memory in runs)
    return figures


def line(cells):
    print("| " + " | ".join(cells) + " |", flush=True)


def of_strip_and_xxd(f):
    """The program's time by that of wasm-strip and xxd together."""
    return f"{f['program'] / (f['wasm-strip'] + f['xxd']):.2f}"


def memory_by_bytes(f):
    """The program's memory by the length of the module."""
    return f"{f['program', 'memory'] / f['bytes']:.1f}"


def code(glue, folder):
    print(
        "| module | bytes | program, s | wasm-strip, s | wasm-opt, s | xxd, s | of wasm-opt | of strip and xxd "
        "| program, MiB | wasm-opt, MiB | memory by bytes | exponent |"
    )
    print("|---|" + "---:|" * 11)
    before = None
    for path in chain(generated(folder), compiled(folder)):
        f = measure(commands(glue, path, folder), path)
        growth = ""
        if before is not None and path.stem.endswith(" MB"):
            growth = f"{math.log(f['program'] / before['program']) / math.log(f['bytes'] / before['bytes']):.2f}"
        cells = [path.stem, f"{f['bytes']:,}"]
        cells += [f"{f[name]:.3f}" for name in ("program", "wasm-strip", "wasm-opt", "xxd")]
        cells += [f"{f['program'] / f['wasm-opt']:.2f}", of_strip_and_xxd(f)]
        cells += [f"{f[name, 'memory'] / 2**20:.0f}" for name in ("program", "wasm-opt")]
        line([*cells, memory_by_bytes(f), growth])
        before = f


def shapes(glue, folder):
    print("| shape | bytes | program, s | wasm-strip, s | xxd, s | of strip and xxd | program, MiB | memory by bytes |")
    print("|---|" + "---:|" * 7)
    for shape in SHAPES:
        path = folder / f"{shape}.wasm"
        make(path, SHAPE_SIZE, shape)
        check(glue, path, shape)
        f = measure([(name, words) for name, words in commands(glue, path, folder) if name != "wasm-opt"], path)
        cells = [shape, f"{f['bytes']:,}"]
        cells += [f"{f[name]:.3f}" for name in ("program", "wasm-strip", "xxd")]
        line([*cells, of_strip_and_xxd(f), f"{f['program', 'memory'] / 2**20:.0f}", memory_by_bytes(f)])


TABLES = {"code": code, "shapes": shapes}


def main():
    chosen = sys.argv[1:] or list(TABLES)
    if any(word not in TABLES for word in chosen):
        sys.exit(__doc__.splitlines()[0])
    missing = [name for name in ("wasm-validate", "wasm-strip", "wasm-opt", "xxd") if shutil.which(name) is None]
    if missing:
        sys.exit(f"missing: {', '.join(missing)}")
    glue = program()
    with tempfile.TemporaryDirectory() as folder:
        for word in chosen:
            TABLES[word](glue, Path(folder))
            print(flush=True)


if __name__ == "__main__":
    main()
