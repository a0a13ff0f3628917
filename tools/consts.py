#!/usr/bin/env python3
"""Compares the numbers of kinds, operators, flags, refusals and accessors wherever they stand.

    tools/consts.py [FOLDER]

Compared are code (crates/words/src, crates/accessors/src), definitions (crates/words/specs), docs/FORMAT.md, the C header and the Rust
crate of bindings/; with the folder that holds the Rust parser's sources (or PLANK_SRC), also its enums, from which flags are
derived. Names are compared without case, `_` and `-`. Exit status 1 where two differ.
"""
import os
import re
import sys

import sources


def key(name):
    return re.sub(r"[_\-]", "", name).lower()


def table(rows):
    return {key(name): int(str(number).replace("_", "")) for name, number in rows}


def code(path):
    """The constants of a source, and the cases of its enums: a case without a number is one more than the case before."""
    text = sources.read(path)
    return {**table(re.findall(r"^\s*(?:pub(?:\(\w+\))? )?const (\w+): \w+ = ([\d_]+);", text, re.M)), **table(cases(text))}


def cases(text):
    for body in re.findall(r"^pub enum \w+ \{\n(.*?)^\}", text, re.M | re.S):
        number = -1
        for name, own in re.findall(r"^    ([A-Z]\w*)(?: = (\d+))?,$", body, re.M):
            number = int(own) if own else number + 1
            yield name, number


def definitions(module):
    return table(re.findall(r"^([^\s:=]+) = (\d+)$", sources.read(f"crates/words/specs/{module}.antt"), re.M))


def header(prefix):
    text = sources.read("bindings/c/plank.h")
    return table(re.findall(rf"^\s*PLANK_{prefix}_(\w+) = (\d+)", text, re.M))


def crate(enum, path="bindings/rust/src/numbers.rs"):
    text = sources.read(path)
    start = re.search(rf"pub(?:\(\w+\))? enum {enum} {{", text)
    return table(re.findall(r"(\w+) = (\d+),", text[start.end():text.index("}", start.end())]))


def page(start):
    """The rows `| number | Name |` of the first table of docs/FORMAT.md behind a line; where rows have no name, the numbers alone."""
    text = sources.read("docs/FORMAT.md")
    text = text[text.index(start):]
    rows = re.search(r"^\|.*?(?=\n\n)", text, re.M | re.S).group(0)
    named = re.findall(r"^\| (\d+) \| ([A-Z]\w*) \|", rows, re.M)
    return table((name, number) for number, name in named) or {int(number) for number in re.findall(r"^\| (\d+) \|", rows, re.M)}


def enum(text, name):
    """The cases of a Rust enum, in their order: (name, fields or type)."""
    body = text[text.index(f"pub enum {name} {{"):]
    body = re.sub(r"//.*|#\[[^\n]*\]", "", body[:body.index("\n}")])
    return re.findall(r"^    ([A-Z]\w*)\s*(\{[^}]*\}|\([^)]*\))?", body, re.M)


def order(cases):
    return table((name, number) for number, (name, _) in enumerate(cases))


def flags(cases):
    """"Flags as bits, first flag highest": the fields of type bool."""
    for name, fields in cases:
        names = re.findall(r"(\w+): bool", fields) or (["true"] if fields == "(bool)" else [])
        for place, field in enumerate(reversed(names)):
            yield name + field, 2 ** place


def found(folder, path):
    for at, _, _ in os.walk(folder):
        if os.path.exists(os.path.join(at, path)):
            with open(os.path.join(at, path), encoding="utf-8") as file:
                return file.read()
    raise SystemExit(f"consts: no {path} below {folder}")


def widths():
    """The bits of low parts, and the words of a node and of a report: (what, where, number)."""
    text = sources.read("crates/words/specs/Words.antt")
    own = {**code("crates/words/src/lib.rt"), **{k: v for m in ("node", "report") for k, v in code(f"crates/words/src/{m}.rt").items()}}
    defines = table(re.findall(r"^#define PLANK_(\w+) (\d+)$", sources.read("bindings/c/plank.h"), re.M))
    rust = code("bindings/rust/src/numbers.rs")
    rows = dict(re.findall(r"^\| (token|node|value|report)[^|]*\|[^|]*\|[^|]*\| (\d+) \|", sources.read("docs/FORMAT.md"), re.M))
    for what, packed in (("token", "token_word"), ("node", "node_head"), ("value", "value_head"), ("report", "report_head")):
        name = what + "low"
        stated = int(re.search(rf"^{packed} .*= pack (\d+)", text, re.M).group(1))
        yield name, {"code": own[name], "definitions": stated, "header": defines[name], "crate": rust[name], "FORMAT.md": int(rows[what])}
    for what in ("node", "report"):
        name = what + "width"
        stated = int(re.search(rf"^{what}_width = (\d+)$", text, re.M).group(1))
        yield name, {"code": own[name], "definitions": stated, "header": defines[name], "crate": rust[name]}


def tables(folder):
    """(what, {where: numbers by name}); the first place is the one that the others are held against."""
    lexer = found(folder, "lexer.rs") if folder else None
    cst = found(folder, os.path.join("cst", "mod.rs")) if folder else None
    for module, names, prefix, case, start, text, rust in (
        ("token", "Token", "TOKEN", "Token", "## Tokens", lexer, "Token"),
        ("node", "Node", "NODE", "NodeTag", "| kind | name | what it is", cst, "NodeKind"),
        ("binary_op", "BinaryOp", "BINARY_OP", "BinaryOp", "The operators of a BinaryExpr", cst, "BinaryOp"),
        ("unary_op", "UnaryOp", "UNARY_OP", "UnaryOp", "The operators of a UnaryExpr", cst, "UnaryOp"),
        ("error_token", "ErrorToken", "ERROR_TOKEN", "ErrorToken", "The details of kind 1", lexer, "ErrorToken"),
        ("report", "Report", "REPORT", "ReportTag", "## Reports", None, None),
        ("refusal", "Refusal", "REFUSAL", "RefusalTag", "## Refusals", None, None),
        ("value", "Value", "VALUE", "ValueTag", None, None, None),
    ):
        own = {name: number for name, number in code(f"crates/words/src/{module}.rt").items() if not name.endswith("width")}
        places = {"code": own, "definitions": definitions(names), "header": header(prefix), "crate": crate(case)}
        if start:
            places["FORMAT.md"] = page(start)
        if text:
            places["the Rust"] = order(enum(text, rust))
        yield module, places
    rust = code("bindings/rust/src/numbers.rs")
    own = code("crates/words/src/flag.rt")
    places = {"code": own, "definitions": definitions("Flag"), "header": header("FLAG")}
    places["crate"] = {name: number for name, number in rust.items() if name in own}
    if cst:
        places["the Rust"] = table(flags(enum(cst, "NodeKind")))
    yield "flag", places
    own = code("crates/accessors/src/number.rt")
    yield "accessor", {"code": own, "header": header("VIEW"), "crate": code("bindings/rust/src/accessor.rs")}


def main():
    folder = sys.argv[1] if len(sys.argv) > 1 else os.environ.get("PLANK_SRC")
    count = wrong = 0
    for what, places in tables(folder):
        (first, own), *others = places.items()
        assert own, what
        count += len(own)
        for where, numbers in others:
            wanted = set(own.values()) if isinstance(numbers, set) else own
            if numbers == wanted:
                continue
            wrong += 1
            if isinstance(numbers, set):
                print(f"{what}: {where} has not the numbers of {first}: {sorted(numbers ^ wanted)}")
                continue
            for name in sorted(set(own) | set(numbers)):
                if own.get(name) != numbers.get(name):
                    print(f"{what}: {name}: {first} has {own.get(name)}, {where} has {numbers.get(name)}")
    for what, places in widths():
        count += 1
        if len(set(places.values())) > 1:
            wrong += 1
            print(f"{what}: {places}")
    print(f"consts: {count} numbers, {'with' if folder else 'without'} the Rust's enums, {wrong} differences between two places")
    sys.exit(1 if wrong else 0)


if __name__ == "__main__":
    main()
