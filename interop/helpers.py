#!/usr/bin/env python3
"""Parses the texts of helpers, and runs some of those that need no module.

The texts are those that the rows `helper_texts` of text_rows expect. node parses each one as strict code, as a module's is,
and helpers.js runs some of them and compares what they answer with values that follow from the standards of ECMAScript and
of Encoding. Prints a line for each helper that was run, and ends with status 1 where one answers otherwise.

Needs Python 3.9 and node 18 or later. It is no part of the gate.
"""

import json
import shutil
import subprocess
import sys
from pathlib import Path

HERE = Path(__file__).resolve().parent
ROWS = HERE.parent / "crates/text_rows/data/helper_texts.jsonl"


def cases():
    """The key, what the text depends on, and the text of each helper."""
    rows = [json.loads(line) for line in ROWS.read_text(encoding="utf-8").splitlines()]
    helpers = [row for row in rows if row["call"] == "helper" and row["text"] is not None]
    return [{"key": row["key"], "parts": row.get("parts", {}), "text": row["text"]} for row in helpers]


def main():
    node = shutil.which("node")
    if node is None:
        sys.exit("node is missing")
    done = subprocess.run([node, str(HERE / "helpers.js")], input=json.dumps(cases()).encode())
    sys.exit(done.returncode)


if __name__ == "__main__":
    main()
