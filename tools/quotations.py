#!/usr/bin/env python3
"""Checks that what comments quote from 01 stands in docs/SPEC.md, and that the sections they cite are there.

    tools/quotations.py [PAGE]

Looked at are the comments of crates/*/specs and crates/*/src, and of the files right in crates/*/proofs. A quotation stands in quotation marks, over several lines too; `..` in it
marks a cut, and its parts must follow one another in the page. Where a citation `(01, Section)` stands right behind it, it must stand in
that section. Its first letter may be a capital or not, and a last full stop may be its own. A quotation counts as the page's unless it is
code, or comes from a source in ELSEWHERE. Exit status 1 where one isn't found.
"""
import glob
import os
import re
import sys

ROOT = os.path.dirname(os.path.dirname(os.path.abspath(__file__)))

# Quotations from other sources: where they stand, what they are, and whose they are.
ELSEWHERE = [
    ("crates/utf8/", r".*", "RFC 3629"),
    ("crates/position/", r".*", "texts that are looked at"),
    ("crates/tables/src/", r".*", "bytes, as the tables name them"),
    ("crates/", r"[A-Z \-()]+", "headings of parser/mod.rs"),
    ("crates/expr/", r"ParenExpr nodes are transparently peeled", "ast/expr.rs"),
]


def comments(path):
    """The comments of a file as (line, text), neighbouring lines joined."""
    mark = "--" if path.endswith(".antt") else "//"
    found, first = [], 0
    with open(path, encoding="utf-8") as lines:
        for number, line in enumerate(lines, 1):
            line = line.strip()
            if line.startswith(mark):
                first = first if found else number
                found.append(line[len(mark):].lstrip("/!").strip())
            elif found:
                yield first, " ".join(found)
                found = []
    if found:
        yield first, " ".join(found)


def quoted(text):
    """What stands in quotation marks, as (words, what follows). Marks inside backquotes are none."""
    spans = [match.span() for match in re.finditer(r"`[^`]*`", text)]
    marks = [at for at, c in enumerate(text) if c == '"' and not any(a <= at < b for a, b in spans)]
    for opening, closing in zip(marks[::2], marks[1::2]):
        yield text[opening + 1:closing], text[closing + 1:]


def plain(text):
    """Without bold and line ends, and without blanks that end a stretch of code."""
    text = re.sub(r"\s+", " ", text.replace("**", ""))
    return re.sub(r"`([^`]*)`", lambda code: f"`{code.group(1).strip()}`", text)


def sections(page):
    """The page as a list of (heading, text); a section holds those below it."""
    heads = [(m.start(), len(m.group(1)), m.group(2).strip()) for m in re.finditer(r"^(#+) (.*)$", page, re.M)]
    for at, (start, depth, name) in enumerate(heads):
        end = next((s for s, d, _ in heads[at + 1:] if d <= depth), len(page))
        yield name, plain(page[start:end])


def section(all_sections, cited):
    """The section that is cited: by its name, the beginning of it up to a comma, or the last part of a path."""
    cited = cited.rstrip(".")
    for name, text in all_sections:
        if name == cited or name.startswith(cited + ",") or any(n.endswith("/" + cited) for n in name.split(", ")):
            return text
    return None


def parts(words):
    """The parts of a quotation between its cuts; `..` inside backquotes is code."""
    code = re.findall(r"`[^`]*`", words)
    hollow = re.sub(r"`[^`]*`", "\0", words)
    for part in re.split(r"\s*\.\.\s*", hollow):
        part = re.sub("\0", lambda _: code.pop(0), part).strip(" ;,")
        part = part[:-1] if part.endswith(".") else part
        if part:
            yield plain(part)


def stands(words, text):
    """Whether the parts stand in the text, one behind the other."""
    at = 0
    for part in parts(words):
        places = [text.find(first + part[1:], at) for first in (part[0].lower(), part[0].upper())]
        places = [place for place in places if place >= 0]
        if not places:
            return False
        at = min(places) + len(part)
    return True


def elsewhere(path, words):
    if re.fullmatch(r"`[^`\"]*`", words):
        return True
    return any(path.startswith(where) and re.fullmatch(what, words) for where, what, _ in ELSEWHERE)


def main():
    page_path = sys.argv[1] if len(sys.argv) > 1 else os.path.join(ROOT, "docs", "SPEC.md")
    with open(page_path, encoding="utf-8") as page:
        page = page.read()
    all_sections, whole = list(sections(page)), plain(page)
    os.chdir(ROOT)
    paths = glob.glob("crates/*/specs/**/*.antt", recursive=True) + glob.glob("crates/*/src/**/*.rt", recursive=True) + glob.glob("crates/*/proofs/*.antt")
    count = cited = missing = 0
    for path in sorted(paths):
        for line, text in comments(path):
            for name in re.findall(r"\(01, ([^,;()\"]+)", text):
                cited += 1
                if section(all_sections, name) is None:
                    missing += 1
                    print(f"{path}:{line}: no section: {name}")
            for words, behind in quoted(text):
                if elsewhere(path, words):
                    continue
                count += 1
                names = re.match(r"\s*\(01, ([^,;()\"]+)", behind)
                where = section(all_sections, names.group(1)) if names else None
                if not stands(words, whole if where is None else where):
                    missing += 1
                    print(f"{path}:{line}: not there: {words}")
    print(f"quotations: {count} quotations, {cited} citations of a section, {missing} not found")
    sys.exit(1 if missing else 0)


if __name__ == "__main__":
    main()
