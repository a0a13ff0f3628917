#!/usr/bin/env python3
"""Checks that each must-fail edit fits its file: what it takes out stands there once, and what it puts in, in the line behind it, is
something else.

    tools/edits.py

Exit status 1 where one doesn't. Whether the prover refuses an edit, and at which fact, is for `rt must-fail`.
"""
import sys

import sources


def wrong(path):
    """What is wrong with an edit: a line of text for each fault."""
    crate = path.split("/must-fail/")[0]
    text, old = None, None
    for line in sources.read(path).split("\n"):
        word, _, rest = line.partition(": ")
        if word == "file":
            text = sources.read(f"{crate}/{rest}")
        elif word == "old":
            if old is not None:
                yield f"{path}: nothing is put in for: {old}"
            old = rest
            if text.count(old) != 1:
                yield f"{path}: {text.count(old)} times there: {old}"
        elif word == "new" and old is None:
            yield f"{path}: nothing is taken out for: {rest}"
        elif word == "new":
            if rest == old:
                yield f"{path}: changes nothing: {old}"
            text = text.replace(old, rest)
            old = None
    if old is not None:
        yield f"{path}: nothing is put in for: {old}"


def main():
    paths = sources.files("crates/*/must-fail/*.edit")
    faults = [fault for path in paths for fault in wrong(path)]
    print("\n".join(faults + [f"edits: {len(paths)} edits, {len(faults)} that don't fit"]))
    return 1 if faults else 0


sys.exit(main())
