"""What the scripts of this folder share: the program, a number's bytes, modules without names, what a run takes."""

import os
import re
import subprocess
import sys
import time
from pathlib import Path

TOP = Path(__file__).resolve().parents[1]


def program():
    """The path of the program: the environment variable GLUE, or else the program that the script `glue` runs.

    Where GLUE is missing or empty and that program isn't built yet, it is proved and built, which takes minutes.
    """
    named = os.environ.get("GLUE")
    if named:
        return named
    done = subprocess.run([str(TOP / "dist/program")], stdin=subprocess.DEVNULL, stdout=subprocess.PIPE, text=True)
    if done.returncode != 0:
        sys.exit("the program is not there, and was not built")
    return done.stdout.rstrip("\n")


def leb128(value):
    """The shortest unsigned LEB128 form of a number (WebAssembly core specification, 5.2.2)."""
    out = bytearray()
    while value > 0x7F:
        out.append(value & 0x7F | 0x80)
        value >>= 7
    out.append(value)
    return bytes(out)


def read_leb128(data, at):
    """The number that stands at a place in unsigned LEB128, and the place behind it."""
    value = shift = 0
    while True:
        byte = data[at]
        at += 1
        value |= (byte & 0x7F) << shift
        shift += 7
        if byte < 0x80:
            return value, at


def without_names(module):
    """The module without its name section (WebAssembly core specification, 7.4.1).

    Compilers mangle the names of functions. The program, which demangles them by default, doesn't do so yet and refuses a
    module with such names.
    """
    out, at = bytearray(module[:8]), 8
    while at < len(module):
        content = read_leb128(module, at + 1)
        end = content[1] + content[0]
        length, name = read_leb128(module, content[1])
        if module[at] != 0 or module[name : name + length] != b"name":
            out += module[at:end]
        at = end
    return bytes(out)


def spent(words, path):
    """One run with a file as standard input: seconds of the processor, seconds by the wall clock, the peak memory in bytes.

    The seconds of the processor are those of the process and of the system for it. Linux counts what this process held at the
    start of the command as the command's memory, so this process stays small.
    """
    with path.open("rb") as module:
        begin = time.perf_counter()
        child = subprocess.Popen(words, stdin=module, stdout=subprocess.DEVNULL, stderr=subprocess.DEVNULL)
        _, status, usage = os.wait4(child.pid, 0)
        seconds = time.perf_counter() - begin
    child.returncode = os.waitstatus_to_exitcode(status)
    if child.returncode != 0:
        sys.exit(f"{path.name}: {Path(words[0]).name} ended with status {child.returncode}")
    return usage.ru_utime + usage.ru_stime, seconds, usage.ru_maxrss * 1024


def run(words, path):
    """One run with a file as standard input: seconds by the wall clock, and the peak resident memory in bytes (see `spent`)."""
    return spent(words, path)[1:]


def instructions(words, path):
    """How many instructions of the processor one run takes with a file as standard input, counted by valgrind."""
    counter = ["valgrind", "--tool=cachegrind", "--cache-sim=no", "--cachegrind-out-file=/dev/null", *words]
    with path.open("rb") as module:
        done = subprocess.run(counter, stdin=module, stdout=subprocess.DEVNULL, stderr=subprocess.PIPE, check=True)
    return int(re.search(rb"I +refs: +([0-9,]+)", done.stderr)[1].replace(b",", b""))
