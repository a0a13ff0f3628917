#!/usr/bin/env python3
"""Lays the tables of crates/tables out for the eye, in docs/TABLES.md.

    tools/layout.py [--write]

Reads the arrays of crates/tables/src/lib.rt and what the comment above NEXT says of each state. Without --write it changes nothing: exit
status 1 where the page is not what the source gives.
"""
import re
import sys

import sources

SOURCE = "crates/tables/src/lib.rt"
PAGE = "docs/TABLES.md"
FIRST_CLASS = ord("0")
FIRST_KIND = 32
FIRST_KEYWORD = ord("A")
LENGTHS = 8
NOT_OF_IT = "·"


def bytes_of(text, name):
    """The lines of a constant that is a byte string."""
    body = re.search(rf'^const {name}: \[u8; \d+\] = \*b"\\\n(.*?)";$', text, re.M | re.S).group(1)
    return body.split("\\\n")


def kinds_of(text):
    """The kind of each state, by its code, but for Eof."""
    body = re.search(r"^const KINDS: .*?= \[\n(.*?)^\];$", text, re.M | re.S).group(1)
    names = re.findall(r"^    token::(\w+),", body, re.M)
    named = enumerate((name.replace("_", " ").title().replace(" ", "") for name in names), FIRST_KIND)
    return {chr(code): name for code, name in named if name != "Eof"}


def states_of(text):
    """What each state stands for."""
    return dict(re.findall(r"^//     ([a-z])  (.*)$", text, re.M))


def ends_of(text):
    """The spelling that ends in each state of a longer one."""
    rows = re.findall(r"^//     ((?:[A-Q0-9] +\S+ *)+)$", text, re.M)
    return [pair for row in rows for pair in re.findall(r"(\S) +(\S+)", row)]


def shown(byte):
    return chr(byte) if 32 < byte < 127 else f"{byte:02x}"


def ranges(codes):
    """Bytes as text, neighbours joined."""
    parts, codes = [], sorted(codes)
    while codes:
        run = 1
        while run < len(codes) and codes[run] == codes[0] + run and shown(codes[run]).isalnum() == shown(codes[0]).isalnum():
            run += 1
        first, last = shown(codes[0]), shown(codes[run - 1])
        parts.append(first if run == 1 else f"{first} {last}" if run == 2 else f"{first} to {last}")
        codes = codes[run:]
    return " ".join(parts)


def class_lines(classes, heads):
    for column, head in enumerate(heads):
        code = FIRST_CLASS + column
        members = [byte for byte, entry in enumerate(classes) if ord(entry) == code]
        yield f"{head}  {chr(code)}  {ranges(members)}"


def state_lines(rows, heads, states):
    width = max(map(len, states.values())) + 3
    yield " " * (width + 3) + " ".join(heads)
    for code, row in zip(sorted(states), rows):
        yield f"{code}  {states[code]:<{width}}" + " ".join(row.replace("-", NOT_OF_IT))


def keyword_lines(keys, spellings):
    yield "   " + " ".join(f"{length:<9}" for length in range(1, LENGTHS + 1)).rstrip()
    for line, row in enumerate(keys):
        words = [spellings[ord(c) - FIRST_KEYWORD].rstrip("-") if c != "-" else NOT_OF_IT for c in row]
        if set(words) != {NOT_OF_IT}:
            yield f"{chr(ord('a') + line)}  " + " ".join(f"{word:<9}" for word in words).rstrip()


def page(text):
    states, kinds = states_of(text), kinds_of(text)
    heads = re.search(r"^//     (h\S+ \S+\?)$", text, re.M).group(1).replace(" ", "␣")
    block = lambda lines: "```\n" + "\n".join(lines) + "\n```\n"
    kind_lines = [f"{code}  {states[code]:<24}{kinds.get(code, '')}".rstrip() for code in sorted(states)]
    end_lines = [f"{code}  {spelling:<24}{kinds.get(code, '')}".rstrip() for code, spelling in ends_of(text)]
    single = [f"{code}  {code:<24}{kinds[code]}" for code in sorted(kinds) if not code.isalnum()]
    return f"""# The tables of the lexer

Written by `tools/layout.py` from the arrays of [crates/tables](../crates/tables/src/lib.rt); `tools/check.sh` fails where the two differ.
That the arrays are what the rules say is proved: [the rules](../crates/rules/specs/Rule.antt), [the tests](../crates/rules/specs/Tables.antt).

## Classes of bytes (CLASSES)

The sign that stands for the class below, its code in the array, and its bytes; those that have no sign by their two hexadecimal digits. `␣` stands for blanks, `?` for all that
no rule names.

{block(class_lines("".join(bytes_of(text, "CLASSES")), heads))}
## The state after a byte (NEXT)

A line for each state: its code, what is read so far, and the state after a byte of each class. `·` (in the array `-`): the byte is not of the token,
which ends in front of it.

{block(state_lines(bytes_of(text, "NEXT"), heads, states))}
## What ends in a state (KINDS)

A token that ends in one of these states has this kind. Where none stands, more than the state says it: a name is a keyword by its spelling, a string
and a comment go on, and where nothing was read there is an invalid character.

{block(kind_lines)}
These are reached by the last byte of a token, or of the beginning of a string or a comment:

{block(single + end_lines)}
## Keywords (KEYS, SPELLINGS)

By the first letter and the length there is one keyword at most, and with it the word is compared. `Self` is the only one that begins with a capital.

{block(keyword_lines(bytes_of(text, "KEYS"), bytes_of(text, "SPELLINGS")))}"""


def main():
    made = page(sources.read(SOURCE))
    if sys.argv[1:] == ["--write"]:
        with open(f"{sources.ROOT}/{PAGE}", "w", encoding="utf-8") as out:
            out.write(made)
        return 0
    is_same = sources.read(PAGE) == made
    print(f"{PAGE} is {'as' if is_same else 'not as'} {SOURCE} gives it")
    return 0 if is_same else 1


if __name__ == "__main__":
    sys.exit(main())
