#!/usr/bin/env python3
"""Brings the names of definitions and lemmas to snake case: tools/respell.py, once, at the top.

A name of antt that begins with a small letter loses its capitals (kindOf becomes kind_of), between dashes too. Names of types, modules
and constructors stay, as do those of Rust. ALONE has what the rule doesn't reach: facts, which are spelled as types, and names that would
fall together with others. CYCLE is the short name of the readers' cycle, whose folder had been named after all its members.
It prints names that fall together all the same, and then changes nothing.
"""

import glob
import os
import re
import subprocess
import sys

TOKEN = r"[^\s(){}.;,@\"«»`:]+"

# File or folder, old name, new name.
ALONE = [
    ("crates/agreement/", "first_alike", "first_alike-named"),
    ("crates/agreement/specs/Statements.antt", "goes_on", "not-closed"),
    ("crates/interner/specs/Search.antt", "is_name", "is_named"),
    ("crates/lexer/specs/Examples.antt", "alone", "Alone"),
    ("crates/chart/specs/Examples.antt", "isFailed", "IsFailed"),
    ("crates/chart/specs/Outcome.antt", "isOk", "IsDerived"),
]

CYCLE = "readers"


def part(word):
    if not (word[:1].islower() or word[:1] == "_"):
        return word
    return re.sub(r"(?<=[a-z0-9'])[A-Z]", lambda m: "_" + m[0].lower(), word)


def spelled(word):
    return "◌".join("-".join(map(part, it.split("-"))) for it in word.split("◌"))


def read(path):
    with open(path, encoding="utf-8") as f:
        return f.read()


def below(pattern):
    return sorted(it for it in glob.glob(pattern, recursive=True) if "/out/" not in it)


def words(text):
    code = re.sub(r"--[^\n]*", " ", text)
    return set(re.findall(TOKEN, re.sub(r'"[^"\n]*"', " ", code)))


def main():
    antt = below("crates/*/specs/**/*.antt") + below("crates/*/proofs/**/*.antt")
    rust = below("crates/*/src/**/*.rt")
    found = {it: words(read(it)) for it in antt}
    names = {old: spelled(old) for each in found.values() for old in each}
    names = {old: new for old, new in names.items() if old != new}
    names.update({old: new for _, old, new in ALONE if old in names})
    alone = {old: new for _, old, new in ALONE}
    met = [
        f"{it}: {old} would be {names[old]}, which is there"
        for it in antt
        if "/specs/" in it
        for old in sorted(found[it] & set(names))
        if names[old] in found[it] and names[old] not in alone
    ]
    if met:
        print("\n".join(met))
        return 1

    def turn(path, text, one):
        def new(m):
            old = m[0]
            for at, it, to in ALONE:
                if it == old and path.startswith(at):
                    return to
            return one.get(old, old)

        return re.sub(TOKEN, new, text)

    pages = ["README.md"] + below("docs/*.md") + below("tools/*.md")
    edits = below("crates/*/must-fail/*.edit")
    for path in antt + rust + edits + pages:
        text = read(path)
        turned = turn(path, text, names)
        turned = re.sub(r"(?<=#\[cycle\()alts_arm_\w+(?=\)\])", CYCLE, turned)
        turned = re.sub(r"\+alts_arm_[a-z_]+", "+" + CYCLE, turned)
        if turned != text:
            with open(path, "w", encoding="utf-8") as f:
                f.write(turned)
    for path in below("tools/*.py"):
        if os.path.basename(path) != "respell.py":
            text = read(path)
            turned = re.sub(r"\b[a-z]\w*(?:-\w+)*\b", lambda m: names.get(m[0], m[0]), text)
            if turned != text:
                with open(path, "w", encoding="utf-8") as f:
                    f.write(turned)
    for path in glob.glob("crates/*/proofs/+alts_arm_*"):
        subprocess.run(["git", "mv", path, os.path.join(os.path.dirname(path), "+" + CYCLE)], check=True)
    return 0


if __name__ == "__main__":
    sys.exit(main())
