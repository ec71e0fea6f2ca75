#!/usr/bin/env python3
"""Drops the name section of a module in its file: nameless.py FILE. A process of its own, so that run.py stays small."""

import sys
from pathlib import Path

sys.path.insert(0, str(Path(__file__).resolve().parents[1]))
from shared import without_names  # noqa: E402

path = Path(sys.argv[1])
path.write_bytes(without_names(path.read_bytes()))
