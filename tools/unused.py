#!/usr/bin/env python3
"""Lists what nothing uses: imports, public items with no user outside their crate, names of specs/ and proofs/ that nothing cites.

    tools/unused.py [imports | items | names]

All three lists without an argument, and how many there are. It reports only: the exit status is 0. A listed name may still be needed (a
type in a public signature, a law that is a result in itself), so look before it goes.
"""
import collections
import re
import sys

import sources

# Crates whose public items are calls for other programs.
CALLS = {"plank", "exports", "exports_c", "node_view"}
# Modules of worked cases: each is a result in itself.
CASES = re.compile(r"/(proofs\.)?(Examples?|Cases|Limits)$")
# Traits of std that are imported for their methods: their own names need not stand in the file.
TRAITS = {"Read", "Write", "BufRead"}


def antt_parts(path):
    """The uses of an .antt file as (line, module, {local name: name}, alias, public), and the words of the rest, each with its line."""
    uses, rest = [], []
    for number, line in enumerate(sources.read(path).split("\n"), 1):
        line = re.sub(r"(^|\s)--(\s.*)?$", "", line)
        names = re.match(r"\s*(pub )?use (\S+?)\.\{(.*)\}\s*$", line)
        whole = re.match(r"\s*(pub )?use (\S+)(?: as (\S+))?\s*$", line)
        if names:
            pairs = [part.strip().partition(" as ") for part in names.group(3).split(",") if part.strip()]
            local = {(own or name).strip(): name.strip() for name, _, own in pairs}
            uses.append((number, sources.module_name(names.group(2)), local, None, bool(names.group(1))))
        elif whole:
            alias = whole.group(3) or whole.group(2).split(".")[-1]
            uses.append((number, sources.module_name(whole.group(2)), {}, alias, bool(whole.group(1))))
        else:
            rest += [(word, number) for word in sources.words_of(line)]
            rest += [("[]", number)] if "[]" in line else []
            # `do` stands for its two operators
            rest += [(word, number) for word in (">>=", ">>")] if re.search(r"\bdo\b", line) else []
    return uses, rest


def is_used(name, words):
    """Whether a name, or for `◌⊕◌` each of its pieces, stands among words; `a.b` is a use of `a`."""
    return name in words or all(piece in words for piece in sources.pieces(name))


def heads(words):
    """The words, and what stands before their first full stop."""
    words = set(words)
    return words | {word.split(".")[0] for word in words if "." in word}


def told(tree):
    """The names that a Rust `use` gives: of `std::io::{self, Read}` io and Read, of `a::b as c` c."""
    path, brace, inside = tree.strip().partition("{")
    last = path.strip().rstrip(":").split("::")[-1]
    if not brace:
        name, _, local = last.partition(" as ")
        yield (local or name).strip()
        return
    depth, part = 0, ""
    for sign in inside[:inside.rindex("}")] + ",":
        depth += (sign == "{") - (sign == "}")
        if sign == "," and depth == 0:
            if part.strip():
                yield from (last if name == "self" else name for name in told(part))
            part = ""
        else:
            part += sign


def unused_imports():
    for path in sources.files("crates/*/specs/**/*.antt") + sources.files("crates/*/proofs/**/*.antt"):
        uses, rest = antt_parts(path)
        words = heads(word for word, _ in rest)
        for line, module, local, alias, public in uses:
            if public:
                continue
            for name in [name for name in local if not is_used(name, words)] + ([alias] if alias and alias not in words else []):
                yield f"{path}:{line}: {name} of {module}"
    for path in sources.files("crates/*/src/**/*.rt"):
        text = sources.uncommented(sources.read(path))
        rest = re.sub(r"^\s*(?:pub )?(?:ghost )?use [^;]*;", "", text, flags=re.M)
        words = heads(sources.words_of(rest)) | ({"[]"} if "[]" in rest else set())
        code = set(re.findall(r"\w+", rest))
        for match in re.finditer(r"^\s*(pub )?(ghost )?use ([^;]*);", text, re.M):
            public, ghost, what = match.groups()
            inside = re.search(r"\{(.*)\}$", what, re.S)
            if not ghost:
                names = [name for name in told(what) if name not in code | TRAITS]
            else:
                names = inside.group(1).split(",") if inside else [what]
                pairs = [name.strip().partition(" as ") for name in names if name.strip()]
                names = [local or (name if inside else name.split(".")[-1]) for name, _, local in pairs]
                names = [name for name in names if not is_used(name, words)]
            line = text[:match.start(3)].count("\n") + 1
            yield from (f"{path}:{line}: {name} ({'ghost ' if ghost else ''}use)" for name in names if not public)


def lonely_items():
    """Public items of a crate that no other crate's source names."""
    code = collections.defaultdict(set)
    specs = collections.defaultdict(set)
    for path in sources.files("crates/*/src/**/*.rt"):
        code[path.split("/")[1]] |= set(re.findall(r"\w+", sources.uncommented(sources.read(path))))
    for path in sources.files("crates/*/specs/**/*.antt") + sources.files("crates/*/proofs/**/*.antt"):
        for _, module, local, _, _ in antt_parts(path)[0]:
            if "declared" in module:
                specs[path.split("/")[1]] |= {module, *local.values()}
    for crate in filter(sources.is_library, sources.crates()):
        if crate in CALLS:
            continue
        others = set().union(*(words for name, words in code.items() if name != crate))
        for path in sources.files(f"crates/{crate}/src/**/*.rt"):
            text = sources.uncommented(sources.read(path))
            signatures = " ".join(re.findall(r"pub fn [^{]*", text)) + " ".join(re.findall(r"pub struct [^}]*}", text))
            for match in re.finditer(r'^\s*pub (?:extern "C" )?(fn|const|struct|enum|mod|static) (\w+)', text, re.M):
                sort, name = match.groups()
                if name in others:
                    continue
                line = text[:match.start(2)].count("\n") + 1
                notes = ["in a public signature"] if sort in ("struct", "enum") and len(re.findall(rf"\b{name}\b", signatures)) > (sort == "struct") else []
                notes += ["named by specs or proofs of other crates"] if any(name in words for other, words in specs.items() if other != crate) else []
                yield f"{path}:{line}: {sort} {name}" + (f" ({', '.join(notes)})" if notes else "")


def uncited_names():
    """Top-level names of specs/, and of the files right in proofs/, that no other file and no other item of their own file cites."""
    modules = sources.modules()
    cited = collections.defaultdict(set)
    for path in sources.files("crates/*/specs/**/*.antt") + sources.files("crates/*/proofs/**/*.antt"):
        uses, rest = antt_parts(path)
        words = {word for word, _ in rest}
        for _, module, local, alias, public in uses:
            cited[module] |= {name for own, name in local.items() if public or is_used(own, heads(words))}
            if alias:
                cited[module] |= {word.partition(".")[2] for word in words if word.startswith(alias + ".")}
    for path in sources.files("crates/*/src/**/*.rt"):
        text = sources.uncommented(sources.read(path))
        names, aliases = sources.ghost_uses(text)
        words = set(sources.words_of(re.sub(r"ghost use [^;]*;", "", text)))
        for local, (module, name) in names.items():
            if is_used(local, heads(words)):
                cited[module].add(name)
        for local, module in aliases.items():
            cited[module] |= {word.partition(".")[2] for word in words if word.startswith(local + ".")}
    pages = " ".join(sources.read(path) for path in sources.files("*.md") + sources.files("docs/*.md") + sources.files("*/README.md") if path != "docs/DESIGN-PASS.md")
    for at, module in sorted(modules.items()):
        if CASES.search(at):
            continue
        inside = collections.Counter()
        for item in module.items.values():
            for word in set(sources.words_of(item.statement + "\n" + item.body)):
                inside[word] += 1
        for name, item in module.items.items():
            known = {name, *item.inner}
            if cited[at] & known or any(inside[piece] > 1 for piece in sources.pieces(name)):
                continue
            if item.kind == "data" and any(inside[inner] > 1 for inner in item.inner):
                continue
            note = " (named in a page)" if f"`{name}`" in pages else ""
            yield f"{module.path}:{item.line}: {item.kind} {name}{note}"


LISTS = {"imports": unused_imports, "items": lonely_items, "names": uncited_names}


def main():
    wanted = sys.argv[1:] or list(LISTS)
    counts = []
    for name in wanted:
        found = list(LISTS[name]())
        for line in found:
            print(line)
        counts.append(f"{len(found)} {name}")
    print(f"unused: {', '.join(counts)}")


if __name__ == "__main__":
    main()
