#!/usr/bin/env python3
"""Counts the forms that docs/DESIGN-PASS.md speaks of: tools/design.py [--list] [POINT] [FOLDER]

FOLDER is a checkout of the project (this one, where it is left out). POINT is 1 to 8. `--list` prints each place: file, line, name.
It reports only: that a form is listed does not say that it should go."""
import collections
import glob
import os
import re
import sys

HAND = {"comparing and choosing": {"same", "is_some", "either", "or", "and", "or_else", "less", "least", "kept", "is_pair", "is_within", "within", "is_bare", "is_line_end",
                                   "begins_at", "pair_if", "bytes_between", "bytes_from"},
        "copying and filling": {"copy", "clear"}, "conversion": {"wide", "joined"}, "printing of bytes and numbers": {"bytes", "digit"}}
CONSTS = ["node", "token", "report", "binary_op", "unary_op", "error_token", "refusal", "flag", "value"]
LENT = {"text", "tokens", "nodes", "values", "reports"}


def bare(text):
    """A source without comments and without what stands in strings and characters; as long as it was."""
    keep = lambda m: re.sub(r"[^\n]", " ", m.group()) if m.group().startswith("/") else m.group()[0] + re.sub(r"[^\n]", " ", m.group()[1:-1]) + m.group()[-1]
    return re.sub(r'//[^\n]*|/\*.*?\*/|b?"(?:\\.|[^"\\])*"|b?\'(?:\\[^\n]{1,4}|[^\\\n])\'', keep, text, flags=re.S)


def closing(text, at):
    depth = 0
    for here in range(at, len(text)):
        depth += (text[here] in "({[") - (text[here] in ")}]")
        if depth == 0:
            return here
    raise SystemExit("a bracket is not closed")


class Function:
    def __init__(self, path, text, match):
        self.path, self.name, self.line = path, match[1], text.count("\n", 0, match.start(1)) + 1
        opened = text.index("(", match.end())
        at = closing(text, opened)
        self.params = [p.strip() for p in re.split(r",(?![^<(\[]*[>)\]])", text[opened + 1:at]) if p.strip()]
        self.names = [re.sub(r"^mut ", "", p.split(":")[0].strip(" &")) for p in self.params]
        self.clauses, self.start = [], at
        while True:
            brace = re.compile(r"[{;]").search(text, at).start()
            end = closing(text, brace) if text[brace] == "{" else brace
            if not re.search(r"\b(requires|ensures)( \w+)?\s*$", text[at:brace]):
                break
            self.clauses.append(" ".join(text[brace + 1:end].split()))
            at = end + 1
        self.answer = " ".join(re.sub(r"\b(requires|ensures)\b.*", "", text[self.start + 1:brace], flags=re.S).split())
        self.body, self.at, self.end = text[brace:end + 1], brace, end


def facts(clause):
    """What a clause says, one by one: the parts of its product."""
    parts, depth, last = [], 0, 0
    for at, sign in enumerate(clause):
        depth += (sign in "({[") - (sign in ")}]")
        if sign == "×" and depth == 0:
            parts.append(clause[last:at])
            last = at + 1
    return [re.sub(r"^\((.*)\)$", r"\1", p.strip()) for p in parts + [clause[last:]]]


def shape(f):
    """A function's parameters, answer and body without its name, types of numbers, sizes and constants."""
    text = " ".join(p.split(":", 1)[-1] for p in f.params) + f.answer + f.body
    text = re.sub(r"\b(u8|u16|u32|u64|usize)\b", "T", re.sub(rf"\b{f.name}\b", "F", text))
    return " ".join(re.sub(r"\b(?:\w+::)*(?:[A-Z][A-Z0-9_]+|\d\w*)\b|b?'[^']*'|\b(?:node|token)::\w+", "C", text).split())


def count(root):
    points = {n: collections.defaultdict(list) for n in range(1, 9)}
    everything = []
    for path in sorted(glob.glob(os.path.join(root, "crates/*/src/**/*.rt"), recursive=True)):
        short = os.path.relpath(path, root)
        text = bare(open(path, encoding="utf-8").read())
        line = lambda at, text=text: text.count("\n", 0, at) + 1
        functions = [Function(short, text, m) for m in re.finditer(r"\bfn (\w+)", text)]
        everything += functions
        for m in re.finditer(r"\benum (\w+)[^{;]*\{", text):
            inside = re.sub(r"\s+", " ", text[m.end():closing(text, m.end() - 1)])
            variants = [v.strip() for v in re.split(r",(?![^({]*[)}])", inside) if v.strip()]
            full = sum("(" in v or "{" in v for v in variants)
            kind = "plain" if full == 0 else "Option or Result" if len(variants) == 2 else "several"
            points[1]["enums, " + kind].append((short, line(m.start(1)), m[1] + ": " + ", ".join(variants)))
        for m in re.finditer(r"\bstruct (\w+)[^{;(]*\{", text):
            inside = " ".join(text[m.end():closing(text, m.end() - 1)].split())
            if re.search(r"\bat: Reading\b", inside):
                points[1]["structs of an answer and where reading stands"].append((short, line(m.start(1)), m[1]))
            if re.search(r"\brefusal: u32\b", inside):
                points[1]["structs with a refusal's number, 0 for none"].append((short, line(m.start(1)), m[1]))
        for m in re.finditer(r"\brefusal [!=]= 0\b", text):
            points[1]["a refusal's number against 0"].append((short, line(m.start()), next((f.name for f in functions if f.at < m.start() < f.end), "?")))
        kind = os.path.basename(path)[:-3]
        if (short.startswith("crates/words/") and kind in CONSTS) or short == "crates/accessors/src/number.rt":
            for m in re.finditer(r"\bconst ([A-Z_0-9]+): u32", text):
                points[1][f"numbers in {kind}"].append((short, line(m.start(1)), m[1]))
        for m in re.finditer(r"\bwhile\b", text):
            inside = text[text.index("{", m.end()):closing(text, text.index("{", m.end())) + 1]
            name = next((f.name for f in functions if f.at < m.start() < f.end), "?")
            steps = re.findall(r"\w+ [+-]= 1;", inside)
            points[3]["while, counting by one" if steps else "while, other"].append((short, line(m.start()), " ".join([name] + steps)))
        for m in re.finditer(r"^\s*for\b", text, re.M):
            points[3]["for"].append((short, line(m.end()), next((f.name for f in functions if f.at < m.start() < f.end), "?")))
        for m in re.finditer(r"(match which / 32|\bsteps::eat_first\(|\bbranching: bool\b)", text):
            points[7]["switches on a number or a flag"].append((short, line(m.start()), m[1].rstrip("(")))
    twins, said = collections.defaultdict(list), collections.defaultdict(list)
    for f in everything:
        at = (f.path, f.line, f.name)
        twins[f.path.split("/")[1], shape(f)].append(at)
        for label, names in HAND.items():
            if f.name in names:
                points[4][label].append(at)
        if f.name.startswith("print_"):
            points[4]["print_*"].append(at)
        for label, names in (("text, tokens, nodes, values, reports", LENT), ("from, to", {"from", "to"}), ("low, high", {"low", "high"}), ("nodes, n", {"nodes", "n"}),
                             ("of the tables: classes, states, kinds, keys, spellings", None)):
            if names <= set(f.names) if names else any(re.match(r"(classes|states|kinds|keys|spellings): &\[", p) for p in f.params):
                points[5]["parameters " + label].append(at)
        if "p: &mut Parser" in f.params or "p: &Parser" in f.params:
            points[5]["parameters p: Parser"].append(at)
        for fact in {fact for clause in f.clauses for fact in facts(clause)}:
            said[fact].append(at)
        for i, p in enumerate(f.params[:-1]):
            if re.search(r": &(mut )?\[u(8|32)\]$", p) and re.match(r"(len|count|length|size)\b", f.names[i + 1]):
                points[6]["a slice, then its length"].append(at)
        if len(re.findall(r"&mut \[u32\]", " ".join(f.params))) > 1:
            points[6]["two or more lent slices of words to write"].append(at)
    for (_, text), places in twins.items():
        if len(places) > 1:
            points[2]["one call or literal each" if len(text.split("{", 1)[-1].split(";")) < 2 else "longer"] += places
    for fact, places in said.items():
        if len(places) > 2:
            points[5]["facts in three or more contracts"].append((fact, len(places), "contracts"))
    proofs = [(name, f"crates/*/proofs/*/**/{name}.antt") for name in ("Answers", "Invariants", "Proof")]
    for label, pattern in proofs + [("files right in proofs/", "crates/*/proofs/*.antt"), ("files of specs/", "crates/*/specs/*.antt"), ("files of src/", "crates/*/src/**/*.rt")]:
        for path in sorted(glob.glob(os.path.join(root, pattern), recursive=True)):
            points[8][label].append((os.path.relpath(path, root), sum(1 for _ in open(path, encoding="utf-8")), "lines"))
    return points


words = [w for w in sys.argv[1:] if w != "--list"]
only = int(words.pop(0)) if words and words[0].isdigit() else None
found = count(words[0] if words else os.path.dirname(os.path.dirname(os.path.abspath(__file__))))
for point in [only] if only else sorted(found):
    for label, places in sorted(found[point].items()):
        print(f"{point}  {label}: {len(places)}" + (f", {sum(p[1] for p in places)} lines" if point == 8 else ""))
        if "--list" in sys.argv:
            for path, line, name in places:
                print(f"     {path}:{line} {name}")
