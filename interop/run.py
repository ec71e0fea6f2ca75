#!/usr/bin/env python3
"""Runs the program over modules that others made, and checks what it writes with a validator.

Each text of texts/ is made a module by wat2wasm, and the program of bench/modules/program.rs is compiled by rustc, once
without optimisation and with debug sections and once optimised; its name section is dropped, since its names are mangled,
and demangling isn't built. Each module has to be valid. The program reads it and
writes the listing; the module in the listing has to be valid too. Given that module, the program has to write the same
bytes again. Prints a line for each module, and ends with status 1 where one isn't so.

The program is the one that the environment variable GLUE names, or else the one that the script `glue` runs.

Needs wabt (wat2wasm, wasm-validate). The compiled modules are left out, with a line that says so, where rustc or its
library for wasm32-unknown-unknown is missing.
"""

import shutil
import subprocess
import sys
import tempfile
from pathlib import Path

HERE = Path(__file__).resolve().parent
TOP = HERE.parent
sys.path.insert(0, str(TOP / "bench"))
from shared import program, without_names  # noqa: E402

FEATURES = [f"--enable-{name}" for name in ("exceptions", "tail-call", "memory64", "multi-memory", "extended-const")]
LINKERS = ["rust-lld", "lld"]


class Wrong(Exception):
    """What isn't as it has to be."""


def run(words, **options):
    """Runs a command and answers its standard output."""
    done = subprocess.run(words, capture_output=True, **options)
    if done.returncode != 0:
        said = (done.stderr or done.stdout).decode(errors="replace").splitlines()
        raise Wrong(f"{Path(words[0]).name}: status {done.returncode} {said[0] if said else ''}")
    return done.stdout


def validate(path):
    run(["wasm-validate", *FEATURES, str(path)])


def written(glue, path):
    """The module in the listing that the program writes for a module."""
    with path.open("rb") as module:
        listing = run([glue, "--target", "deno"], stdin=module)
    header, digits, _ = listing.split(b"\n", 2)
    if not header.startswith(b"file out_bg.wasm hex "):
        raise Wrong(f"the listing begins with {header[:40]!r}")
    return bytes.fromhex(digits.decode())


def check(glue, path, folder):
    """Checks a module, and answers its length and that of the module that is written."""
    validate(path)
    first = written(glue, path)
    again = folder / "again.wasm"
    again.write_bytes(first)
    validate(again)
    if written(glue, again) != first:
        raise Wrong("the module that was written is written otherwise")
    return path.stat().st_size, len(first)


def texts(folder):
    """Each text's module."""
    for text in sorted((HERE / "texts").glob("*.wat")):
        path = folder / f"{text.stem}.wasm"
        yield text.name, path, ["wat2wasm", *FEATURES, "--debug-names", str(text), "-o", str(path)]


def compiled(folder):
    """The program as the compiler makes it, in a debug and in an optimised build."""
    rustc = next((path for path in ("/usr/bin/rustc", shutil.which("rustc")) if path and Path(path).exists()), None)
    linker = next(filter(None, map(shutil.which, LINKERS)), None)
    if rustc is None or linker is None:
        print("program.rs: left out, since rustc or lld is missing")
        return
    (folder / "compiled").mkdir()
    for name, flags in (("debug", ["-g"]), ("optimised", ["-C", "opt-level=3"])):
        path = folder / "compiled" / f"{name}.wasm"
        source = str(TOP / "bench/modules/program.rs")
        target = ["--target", "wasm32-unknown-unknown", "--crate-type", "cdylib", "-C", f"linker={linker}"]
        yield f"program.rs, {name}", path, [rustc, *target, "-C", "linker-flavor=wasm-ld", *flags, source, "-o", str(path)]


def main():
    if shutil.which("wat2wasm") is None:
        sys.exit("wat2wasm is missing: it is part of the Debian package wabt")
    glue = program()
    wrong = 0
    with tempfile.TemporaryDirectory() as name:
        folder = Path(name)
        for title, path, make in [*texts(folder), *compiled(folder)]:
            try:
                run(make)
                if path.parent.name == "compiled":
                    path.write_bytes(without_names(path.read_bytes()))
                before, after = check(glue, path, folder)
                print(f"{title}: {before:,} bytes, written in {after:,}")
            except Wrong as fault:
                wrong += 1
                print(f"{title}: WRONG: {fault}")
    sys.exit(1 if wrong else 0)


if __name__ == "__main__":
    main()
