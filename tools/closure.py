#!/usr/bin/env python3
"""Checks that docs/TRUST.md names every definition that a contract rests on.

    tools/closure.py [--list]

Walks from the contracts of the public functions of all library crates, and from that of `read` alone, through `ghost use`, `use` and the
bodies of definitions to all definitions of specs/ that are reached. Of a law only its statement is walked. docs/TRUST.md has tables whose
rows name modules (`tree/Stored`, or several of a crate: `words/Token`, `Node`) and, where only a part of a file is believed, the
names; the tables under "For `read`" must hold all that `read`'s contract reaches, all tables together what any contract reaches. With
--list all that was reached is printed. Exit status 1 where a file or a name is missing, where the page names what is not reached, or where
a public function has no contract.
"""
import collections
import re
import sys

import sources

PAGE = "docs/TRUST.md"
# The laws that the page names as headlines, in specs/ or in proofs/: their statements are walked too.
LAWS = [("viewed/Unrefused", "never-refused"), ("viewed/Proved", "reads-viewed"), ("viewed/Walks", "reads-walked"), ("viewed/Table", "tells"), ("viewed/Table", "unfailing")]


def public_functions():
    """(path, name, contract, source) of each public function of a library crate; a private module's functions are not public."""
    for crate in filter(sources.is_library, sources.crates()):
        library = sources.uncommented(sources.read(f"crates/{crate}/src/lib.rt"))
        public = ["lib"] + re.findall(r"^pub mod (\w+);", library, re.M)
        for path in (f"crates/{crate}/src/{module}.rt" for module in public):
            source = sources.uncommented(sources.read(path))
            for name, is_public, contract in sources.functions(source):
                if is_public:
                    yield path, name, contract, source


def cited(contract, source):
    """The definitions that a contract names."""
    names, aliases = sources.ghost_uses(source)
    for word in sources.words_of(contract):
        first, dot, rest = word.partition(".")
        if word in names:
            yield names[word]
        elif dot and first in aliases:
            yield aliases[first], rest
        elif dot and first in names:
            yield names[first]


def stated(modules, at, law):
    """The definitions that a law's statement names."""
    if at not in modules or law not in modules[at].items:
        at = at.replace("/", "/proofs.")
    module = modules[at]
    for word in set(sources.words_of(module.items[law].statement)) - {law}:
        target = module.reference(word, module.items[law])
        if target:
            yield target[0] or at, target[1]


def reached(modules, roots):
    """All definitions reached from the roots, as {module: {name}}."""
    found, todo, passed_on = collections.defaultdict(set), list(roots), sources.passed_on()
    while todo:
        at, name = todo.pop()
        at = passed_on.get(at, at)
        if at not in modules:
            continue  # the kit's, or a type that the code declares
        module = modules[at]
        name = module.owners.get(name, name)
        if name not in module.items:
            target = module.reference(name)
            if target is None:
                raise SystemExit(f"closure: {at} has no {name}")
            todo.append((target[0] or at, target[1]))
            continue
        if name in found[at]:
            continue
        found[at].add(name)
        for word in set(sources.words_of(module.items[name].meaning())):
            target = module.reference(word, module.items[name])
            if target:
                todo.append((target[0] or at, target[1]))
    return found


def named(page, heading):
    """What the tables under a heading name: {module: None for the whole file, or {name}}."""
    part = re.search(rf"^#+ {re.escape(heading)}$(.*?)(?=^#|\Z)", page, re.M | re.S)
    if part is None:
        raise SystemExit(f"closure: {PAGE} has no heading '{heading}'")
    found = {}
    for first, second in re.findall(r"^\| (`[^|]*) \| ([^|]*) \|", part.group(1), re.M):
        crate = None
        for module in re.findall(r"`([^`]+)`", first):
            if "/" in module:
                crate = module.split("/")[0]
            else:
                module = f"{crate}/{module}"
            found[module] = None if second.startswith("all") else set(re.findall(r"`([^`]+)`", second))
    return found


def compare(what, found, tables):
    """Prints what is reached and not named; the number of such names."""
    missing = 0
    for module in sorted(found):
        if module not in tables:
            lacking = found[module]
        elif tables[module] is None:
            lacking = set()
        else:
            lacking = found[module] - tables[module]
        missing += len(lacking)
        if lacking:
            print(f"{what}: {module}: not named: {', '.join(sorted(lacking))}")
    return missing


def main():
    modules = sources.modules()
    functions = list(public_functions())
    bare = [(path, name) for path, name, contract, _ in functions if not contract]
    for path, name in bare:
        print(f"{path}: {name} has no contract")
    every = {target for _, _, contract, source in functions for target in cited(contract, source)}
    every |= {target for module, law in LAWS for target in stated(modules, module, law)}
    read = {t for path, name, contract, source in functions if (path, name) == ("crates/plank/src/lib.rt", "read") for t in cited(contract, source)}
    of_all, of_read = reached(modules, every), reached(modules, read)
    if "--list" in sys.argv:
        for what, found in (("read", of_read), ("all", of_all)):
            for module in sorted(found):
                print(f"{what}: {module}: {', '.join(sorted(found[module]))}")
    page = sources.read(PAGE)
    for_read, others = named(page, "For `read`"), named(page, "For the other contracts")
    both = dict(for_read)
    for module, names in others.items():
        both[module] = None if names is None or both.get(module, set()) is None else names | both.get(module, set())
    wrong = len(bare) + compare("read", of_read, for_read) + compare("all", of_all, both)
    for tables, found, what in ((for_read, of_read, "For `read`"), (both, of_all, "all tables")):
        for module, names in sorted(tables.items()):
            idle = [] if module in found and names is None else sorted((names or {"the file"}) - found.get(module, set()))
            wrong += len(idle)
            if idle:
                print(f"{PAGE}, {what}: {module}: named and not reached: {', '.join(idle)}")
    count = sum(len(names) for names in of_all.values())
    print(f"closure: {len(functions)} public functions, {count} definitions in {len(of_all)} files"
          f" ({sum(map(len, of_read.values()))} in {len(of_read)} for read), {wrong} wrong")
    sys.exit(1 if wrong else 0)


if __name__ == "__main__":
    main()
