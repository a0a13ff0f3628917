"""The project's sources as the other scripts see them: the items of an .antt file, and the imports, contracts and items of an .rt file."""
import glob
import os
import re

ROOT = os.path.dirname(os.path.dirname(os.path.abspath(__file__)))
MODIFIERS = {"pub", "abbrev", "unfoldable", "opaque", "private"}
WORD = re.compile(r'[^\s(){}\[\],;"]+')


def read(path):
    with open(os.path.join(ROOT, path), encoding="utf-8") as file:
        return file.read()


def crates():
    return sorted(os.path.basename(os.path.dirname(path)) for path in glob.glob(os.path.join(ROOT, "crates", "*", "src")))


def is_library(crate):
    return os.path.exists(os.path.join(ROOT, "crates", crate, "src", "lib.rt"))


def files(pattern):
    """Paths below the project's folder, sorted."""
    return sorted(os.path.relpath(path, ROOT) for path in glob.glob(os.path.join(ROOT, pattern), recursive=True))


def words_of(text):
    """The names that stand in a text: no strings, no projections, no binders' full stops."""
    for word in WORD.findall(re.sub(r'"(?:[^"\\]|\\.)*"', " ", text)):
        if not word.startswith("."):
            yield word.rstrip(".") or word


def pieces(name):
    """How a name is written where it is used: `◌⊕◌` as `⊕`."""
    return [piece for piece in name.split("◌") if piece] if "◌" in name else [name]


# ---- antt


class Item:
    """A top-level name: `kind` is data, record, definition (what is unfolded) or law (what isn't); `statement` is its type with the
    parameters of the modules around it, `body` the rest; `inner` are its constructors or fields; those that are `together` in one
    `mutual` may name one another."""

    def __init__(self, name, kind, line, public):
        self.name, self.kind, self.line, self.public = name, kind, line, public
        self.statement, self.body, self.inner, self.together = "", "", [], 0

    def meaning(self):
        """What must be read to know what the name means."""
        return self.statement if self.kind == "law" else self.statement + "\n" + self.body


class Module:
    """An .antt file: `items` by name, `owners` from constructors to their data, `imports` from local names to (module, name), `aliases`
    from local names to modules; `uses` are (line, local names or alias, whether public)."""

    def __init__(self, path):
        self.path = path
        self.items, self.owners, self.imports, self.aliases, self.uses = {}, {}, {}, {}, []
        lines = []
        for number, line in enumerate(read(path).split("\n"), 1):
            line = re.sub(r"(^|\s)--(\s.*)?$", "", line).rstrip()
            if line.strip():
                lines.append((number, line))
        self.last, self.group = None, 0
        self.block(lines, "", False)

    def block(self, lines, around, unfoldable):
        """The lines of a file or of the inside of a `module` or `mutual`: the least indented of them start something."""
        if not lines:
            return
        indent = min(len(line) - len(line.lstrip()) for _, line in lines)
        chunk = []
        for number, line in lines:
            if len(line) - len(line.lstrip()) == indent and chunk:
                self.chunk(chunk, around, unfoldable)
                chunk = []
            chunk.append((number, line))
        self.chunk(chunk, around, unfoldable)

    def chunk(self, lines, around, unfoldable):
        number, first = lines[0]
        words = first.split()
        modifiers = set()
        while words and words[0] in MODIFIERS:
            modifiers.add(words.pop(0))
        text = "\n".join(line for _, line in lines)
        head = words[0] if words else ""
        if head == "use":
            self.use(number, " ".join(text.split()), "pub" in modifiers)
        elif head == "module":
            end = next(at for at, (_, line) in enumerate(lines) if re.search(r"\bwhere$", line))
            self.block(lines[end + 1:], around + "\n" + "\n".join(line for _, line in lines[:end + 1]), unfoldable)
        elif head == "mutual":
            outer, self.group = self.group, self.group or number
            self.block(lines[1:], around, unfoldable or "unfoldable" in modifiers)
            self.group = outer
        elif head == "ruleset":
            self.last = self.items[words[1]] = Item(words[1], "law", number, "pub" in modifiers)
            self.last.body = text
        elif head in ("data", "record"):
            self.declared(words[1], head, number, modifiers, around, lines)
        elif head in ("mod", "infix", "infixl", "infixr"):
            pass
        elif head == "unfolding":
            if self.last:
                self.last.body += text + "\n"
        else:
            self.equation_or_type(text, number, modifiers, around, unfoldable)

    def use(self, number, text, public):
        match = re.match(r"(?:pub )?use (\S+?)\.\{(.*)\}$", text)
        if match:
            names = {}
            for name in match.group(2).split(","):
                name, _, local = name.strip().partition(" as ")
                names[(local or name).strip()] = (module_name(match.group(1)), name.strip())
            self.imports.update(names)
            self.uses.append((number, list(names), None, public))
            return
        match = re.match(r"(?:pub )?use (\S+)(?: as (\S+))?$", text)
        local = match.group(2) or match.group(1).split(".")[-1]
        self.aliases[local] = module_name(match.group(1))
        self.uses.append((number, [], local, public))

    def declared(self, name, kind, number, modifiers, around, lines):
        item = Item(name, kind, number, "pub" in modifiers)
        item.together = self.group
        item.statement, item.body = around, "\n".join(line for _, line in lines)
        self.items[name] = self.last = item
        inside = [line for _, line in lines[1:]]
        if not inside:
            return
        indent = min(len(line) - len(line.lstrip()) for line in inside)
        for line in inside:
            if len(line) - len(line.lstrip()) == indent and ":" in line.split():
                names = line.split(" :")[0].split()
                for inner in names:
                    if inner not in MODIFIERS:
                        item.inner.append(inner)
                        if kind == "data":
                            self.owners[inner] = name

    def equation_or_type(self, text, number, modifiers, around, unfoldable):
        name = stated(text)
        if name:
            definition = unfoldable or modifiers & {"abbrev", "unfoldable"}
            item = Item(name, "definition" if definition else "law", number, "pub" in modifiers)
            item.statement, item.together = around + "\n" + text, self.group
            self.items[name] = self.last = item
            return
        left = set(words_of(text.split("=")[0]))
        owner = next((item for item in reversed(self.items.values()) if left & set(pieces(item.name))), self.last)
        if owner is None:
            raise SystemExit(f"{self.path}:{number}: an equation of nothing")
        owner.body += text + "\n"
        self.last = owner

    def reference(self, word, item=None):
        """What a word means here, in an item: (module, name), or None. `""` is this module. An item knows those before it, and those
        that stand together with it in a `mutual`."""
        if word in self.imports:
            return self.imports[word]
        names = [word] if word in self.items or word in self.owners else []
        names += [name for name in [*self.items, *self.owners] if "◌" in name and word in pieces(name)]
        for name in names:
            there = self.items[self.owners.get(name, name)]
            if item is None or there.line <= item.line or there.together == item.together != 0:
                return "", name
        first, dot, rest = word.partition(".")
        if dot and first in self.aliases:
            return self.aliases[first], rest
        if dot and first:
            return self.reference(first, item)  # a projection
        return next((target for name, target in self.imports.items() if "◌" in name and word in pieces(name)), None)


def stated(text):
    """The name whose type a text states, as `name (a : A) : B`; None where it is an equation."""
    depth = 0
    words = re.findall(r"[(){}\[\]]|[^\s(){}\[\]]+", text)
    while words and words[0] in MODIFIERS:
        words.pop(0)
    for word in words:
        if word in "({[":
            depth += 1
        elif word in ")}]":
            depth -= 1
        elif depth == 0 and word == ":":
            return words[0]
        elif depth == 0 and word == "=":
            return None
    return None


def module_name(name):
    """`Rattle.tree.specs.Grown` is `tree/Grown`, and `Rattle.chart.proofs.Sound` is `chart/proofs.Sound`; modules of the kit stay as they are."""
    match = re.match(r"Rattle\.(\w+)\.(specs|proofs)\.(.*)$", name)
    if not match or match.group(1) == "std":
        return name
    crate, folder, inner = match.groups()
    return f"{crate}/{inner}" if folder == "specs" else f"{crate}/proofs.{inner}"


def modules():
    """All modules of specs/ by name, as `tree/Grown`, and those that stand right in proofs/, as `chart/proofs.Sound`."""
    found = {}
    for path in files("crates/*/specs/*.antt") + files("crates/*/proofs/*.antt"):
        crate, folder, inner = re.match(r"crates/(\w+)/(specs|proofs)/(.*)\.antt$", path).groups()
        if inner != "Lib":
            found[module_name(f"Rattle.{crate}.{folder}.{inner}")] = Module(path)
    return found


def passed_on():
    """The modules that a crate passes on in its Lib.antt, `lexer/Lexer` for one, and what they are: `scan/Lexer`."""
    found = {}
    for path in files("crates/*/specs/Lib.antt"):
        for name in re.findall(r"^pub use (\S+)$", read(path), re.M):
            found[f"{path.split('/')[1]}/{name.split('.')[-1]}"] = module_name(name)
    return found


# ---- rt


def uncommented(text):
    return re.sub(r"//[^\n]*", "", text)


def ghost_uses(text):
    """The names and aliases that `ghost use` gives a source: ({local: (module, name)}, {local: module})."""
    names, aliases = {}, {}
    for module, inside in re.findall(r"ghost use ([^\s;{}]+?)\.\{([^}]*)\};", text):
        for name in inside.split(","):
            name, _, local = name.strip().partition(" as ")
            names[(local or name).strip()] = (module_name(module), name.strip())
    for module, local in re.findall(r"ghost use ([^\s;{}]+?)(?: as (\w+))?;", text):
        aliases[local or module.split(".")[-1]] = module_name(module)
    return names, aliases


def closing(text, at):
    """Where the bracket that opens at `at` is closed."""
    depth = 0
    for here in range(at, len(text)):
        if text[here] in "({[":
            depth += 1
        elif text[here] in ")}]":
            depth -= 1
            if depth == 0:
                return here
    raise SystemExit("a bracket is not closed")


def functions(text):
    """The functions of a source: (name, public, contract)."""
    for match in re.finditer(r'^\s*(pub(?:\((\w+)\))? )?(?:extern "C" )?fn (\w+)', text, re.M):
        at = closing(text, text.index("(", match.end()))
        contract = ""
        while True:
            brace = text.index("{", at)
            end = closing(text, brace)
            if not re.search(r"\b(requires|ensures)( \w+)?\s*$", text[at:brace]):
                break
            contract += text[brace:end + 1]
            at = end
        yield match.group(3), bool(match.group(1)) and not match.group(2), contract
