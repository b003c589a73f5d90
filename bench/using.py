#!/usr/bin/env python3
"""Fails where docs/USING.md shows code that doesn't stand in the file that it names.

A block of code stands behind a sentence that names its file, as (`crates/session_runs/src/tests.rt`): and a colon. Its text has
to be a whole file, or whole lines of it, one behind the other. A block that names no file fails too.
Usage: python3 bench/using.py
"""
import os
import re
import sys

ROOT = os.path.join(os.path.dirname(os.path.abspath(__file__)), "..")
PAGE = os.path.join(ROOT, "docs", "USING.md")
NAMED = re.compile(r"\(`(crates/[\w/.]+)`\):\n\n```rust\n(.*?)```\n", re.S)


def stands_in(block, path):
    """Whether the block is whole lines of the file."""
    with open(os.path.join(ROOT, path)) as file:
        return ("\n" + block) in ("\n" + file.read())


def main():
    with open(PAGE) as page:
        text = page.read()
    named = NAMED.findall(text)
    faults = [f"{path}: a block isn't as in it" for path, block in named if not stands_in(block, path)]
    if text.count("```rust\n") != len(named):
        faults.append("a block names no file")
    if not named:
        faults.append("no block names a file")
    for fault in faults:
        print("docs/USING.md: " + fault)
    if not faults:
        print(f"{len(named)} blocks of docs/USING.md are as in their files")
    return 1 if faults else 0


if __name__ == "__main__":
    sys.exit(main())
