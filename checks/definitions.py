"""The definitions of crates/*/specs/*.antt, and the types, constants, traits and clauses of crates/*/src, each with what it names."""
import re
from collections import namedtuple
from pathlib import Path

ROOT = Path(__file__).resolve().parent.parent

# A definition, or what a source declares. The file is its path in the crate.
Node = namedtuple("Node", "crate file name")
# What a name stands for, and whether it is a constructor of that.
Meaning = namedtuple("Meaning", "node is_constructor")


class Unreadable(Exception):
    """What has a form that is unknown here."""


def crates():
    lines = (ROOT / "crates.txt").read_text().splitlines()
    return [re.split(r"[\s:]", line)[0] for line in lines if line.strip()]


CRATES = crates()

# Terms

WORD = r'[^\s(){}.;,@"«»]+'
NAME = rf"(?:«{WORD}»|{WORD})"
TOKEN = re.compile(rf'"(?:\\.|[^"\\])*"|\.?{NAME}(?:\.{NAME})*|[(){{}};,.@]')
SIGNS = (":", "=", "→", "×", "λ", "←")


def tokens_of(text):
    """The tokens of a text without comments and quoted texts. A name with its path is one, as `call.Read`."""
    text = re.sub(r"(?m)(^|\s)--.*$", " ", text)
    return [token for token in TOKEN.findall(text) if not token.startswith('"')]


def is_name(token):
    return re.match(NAME, token) is not None and token not in SIGNS


def parts_of(name):
    return name.replace("«", "").replace("»", "").split(".")


class Scope:
    """The names of a term that nothing binds, from left to right."""

    def __init__(self, bound=()):
        self.found, self.bound, self.groups = [], [set(bound)], []

    def bind(self, names):
        self.bound[-1].update(names)

    def see(self, name):
        if not any(parts_of(name)[0] in bound for bound in self.bound):
            self.found.append(parts_of(name))

    def open(self, group):
        self.bound.append(set())
        self.groups.append(group)

    def close(self):
        self.bound.pop()
        self.bind(self.groups.pop())

    def see_term(self, tokens):
        at, before = 0, ""
        while at < len(tokens):
            token, after = tokens[at], "".join(tokens[at + 1 : at + 2])
            at += 1
            if token in ("(", "{"):
                group, at = group_at(tokens, at)
                self.open(group)
            elif token in (")", "}"):
                self.close()
            elif token == ";":
                self.bound[-1].clear()
            elif token == "λ":
                at = self.see_binders(tokens, at)
            elif token == "←":
                self.see(">>=")
            elif before == "let" or after in (":", "←"):
                self.bind([token])
            elif is_name(token) and after != "=":
                self.see(token)
            before = token

    def see_binders(self, tokens, at):
        """Binds the names between a λ and its dot, and sees their types. Returns the place behind the dot."""
        end = tokens.index(".", at)
        names, in_type = [], False
        for token in tokens[at:end]:
            if token in ("(", ")", ":"):
                in_type = token == ":"
            elif is_name(token) and in_type:
                self.see(token)
            elif is_name(token):
                names.append(token)
        self.bind(names)
        return end + 1

    def see_clause(self, tokens, is_constructor):
        """Sees a clause `name patterns = term`. A name of a pattern is a constructor, or is bound in the term."""
        depth, at = 0, 0
        while depth > 0 or tokens[at] != "=":
            depth += (tokens[at] in "({") - (tokens[at] in ")}")
            at += 1
        for name in filter(is_name, tokens[:at]):
            if is_constructor(parts_of(name)):
                self.see(name)
            else:
                self.bind([name])
        self.see_term(tokens[at + 1 :])


def group_at(tokens, at):
    """The names that a bracket binds, as in `(x y : A)`, and where it goes on behind them."""
    end = at
    while end < len(tokens) and is_name(tokens[end]):
        end += 1
    if at < end < len(tokens) and tokens[end] == ":":
        return tokens[at:end], end + 1
    return [], at


# Imports

USE = re.compile(r"Rattle\.(\w+)\.(?:specs|proofs)\.([\w.]+?)(?:\.\{([^{}]*)\}|\s+as\s+(\S+))?$")


def meaning_at(crate, path, name):
    """What a name of a module means; None where it is none of the project's."""
    if crate not in CRATES:
        return None
    if path[0] != "declared":
        return Meaning(Node(crate, f"specs/{path[0]}.antt", (path[1:] or [name])[0]), len(path) > 1)
    modules = [part for part in path[1:] if part[0].islower()]
    owner = (path[1 + len(modules) :] or [name])[0]
    file = "/".join(modules or ["lib"])
    return Meaning(Node(crate, f"src/{file}.rt", name if owner == "TheConstants" else owner), "TheVariants" in path)


class Names:
    """What the names of a file mean."""

    def __init__(self):
        self.meanings, self.modules = {}, {}

    def add(self, name, meaning):
        if self.meanings.setdefault(name, meaning) != meaning:
            raise Unreadable(f"{name} has two meanings, one in {meaning.node.crate} {meaning.node.file}")
        for part in name.split("◌"):
            if part not in ("", name):
                self.add(part, meaning)

    def use(self, text):
        """Adds what an import brings in. Of modules outside of Rattle nothing is needed."""
        if not text.startswith("Rattle."):
            return
        match = USE.match(text.strip())
        if not match:
            raise Unreadable(f"use {text}")
        crate, path, items, alias = match[1], match[2].split("."), match[3], match[4]
        if items is None:
            self.modules[alias or path[-1]] = (crate, path)
        for item in filter(None, map(str.strip, (items or "").split(","))):
            name, _, other = item.partition(" as ")
            meaning = meaning_at(crate, path, name)
            if meaning:
                self.add(other or name, meaning)

    def meaning(self, parts):
        if len(parts) > 1 and parts[0] in self.modules:
            return meaning_at(*self.modules[parts[0]], parts[1])
        meaning = self.meanings.get(parts[0])
        return meaning and Meaning(meaning.node, meaning.is_constructor or len(parts) > 1)

    def is_constructor(self, parts):
        meaning = self.meaning(parts)
        return meaning is not None and meaning.is_constructor

    def nodes(self, scope):
        return [meaning.node for meaning in map(self.meaning, scope.found) if meaning]


# Files of definitions

HEAD = re.compile(rf"(?:(?:pattern|unfoldable|abbrev|axiom|pub) +)*(?:(data|record) +)?({NAME})(?= |$)")
MARKS = re.compile(rf"(?:pattern|unfoldable|abbrev|axiom|pub|data|record) |{NAME}(?: +\{{[^}}]*\}})? +: ")


class Definition:
    def __init__(self, text, line, above):
        self.kind, self.name = HEAD.match(text).groups()
        self.line, self.count, self.pieces = line, 1 + above, [text]

    def add(self, text, above):
        """Adds a line with the comments above it: a clause, or what goes on with the line before."""
        self.count += 1 + above
        if text[0] in " }":
            self.pieces[-1] += "\n" + text
        elif not text.startswith("unfolding "):
            self.pieces.append(text)

    def constructors(self):
        lines = re.findall(rf"(?m)^ +({NAME}(?: {NAME})*) +:", self.pieces[0]) if self.kind == "data" else []
        return [name for line in lines for name in line.split()]

    def nodes(self, names):
        """What is named in the signature and in the clauses."""
        scope = Scope()
        scope.see_term(tokens_of(HEAD.sub("", self.pieces[0], count=1)))
        found = names.nodes(scope)
        for clause in self.pieces[1:]:
            scope = Scope([self.name])
            scope.see_clause(tokens_of(clause), names.is_constructor)
            found += names.nodes(scope)
        return found


class SpecFile:
    def __init__(self, crate, file):
        self.crate, self.file = crate, file
        self.names, self.definitions = Names(), {}
        self.read((ROOT / "crates" / crate / file).read_text().splitlines())
        for definition in self.definitions.values():
            node = Node(crate, file, definition.name)
            self.names.add(definition.name, Meaning(node, False))
            for constructor in definition.constructors():
                self.names.add(constructor, Meaning(node, True))

    def read(self, lines):
        """Reads the file. `above` counts the lines of comments, and of an operator's precedence, that a definition's line follows at once."""
        above, current, at_head = 0, None, True
        for number, line in enumerate(lines, 1):
            at_head = at_head and line.startswith("--")
            if at_head or not line.strip():
                above = 0
            elif line.lstrip().startswith("--") or line.startswith("infix"):
                above += 1
            elif line.startswith(("use ", "pub use ")):
                self.names.use(line.split("use ", 1)[1])
            elif not line.startswith("pub mod "):
                current = self.read_line(current, number, line, above)
                above = 0

    def read_line(self, current, number, line, above):
        if MARKS.match(line):
            current = Definition(line, number, above)
            self.definitions[current.name] = current
        elif current and (line.startswith((" ", "}", "unfolding ")) or is_clause_of(current.name, line)):
            current.add(line, above)
        else:
            raise Unreadable(f"{self.crate} {self.file} line {number}: {line}")
        return current

    def lines(self):
        return sum(definition.count for definition in self.definitions.values())


def is_clause_of(name, line):
    words = tokens_of(line)
    return words[0] == name or any(part in words for part in name.split("◌") if part not in ("", name))


# Sources

ITEM = re.compile(r"(?m)^(?:pub )?(struct|enum|trait|const|type) (\w+)")
FUNCTION = re.compile(r"(?m)^( *)pub fn (\w+)")


def block_at(text, start):
    """The text from there to the end of its statement or block."""
    depth = 0
    for at in range(start, len(text)):
        depth += (text[at] in "{([") - (text[at] in "})]")
        if depth == 0 and text[at] in "};":
            return text[start : at + 1]
    raise Unreadable(f"a block without an end: {text[start : start + 60]}")


def inside(text, opening):
    """What stands in the braces behind each of these words."""
    return [block_at(text, match.end() - 1)[1:-1] for match in re.finditer(opening + r"\s*\{", text)]


class Source:
    def __init__(self, crate, file):
        self.crate, self.file, self.names = crate, file, Names()
        self.text = re.sub(r"//.*", "", (ROOT / "crates" / crate / file).read_text())
        for use in re.findall(r"ghost use ([^;]+);", self.text):
            self.names.use(use)
        self.items = {match[2]: match for match in ITEM.finditer(self.text)}
        self.imports = {}
        for other, words in re.findall(r"(?<!ghost )\buse (mf_\w+)::([^;]+);", self.text):
            self.imports.update(dict.fromkeys(re.findall(r"\w+", words), other))

    def line(self, name):
        return self.text.count("\n", 0, self.items[name].start()) + 1

    def words_nodes(self, words):
        return [node for node in (declared_as(self, word) for word in words) if node]

    def term_nodes(self, term, traits=()):
        """What a term names, and the traits of the type parameters whose members it names."""
        scope = Scope()
        scope.see_term(tokens_of(term))
        bounds = [trait for parts in scope.found for parameter, trait in traits if parts[0] == parameter]
        return self.names.nodes(scope) + self.words_nodes(bounds)

    def nodes(self, name):
        """What contracts see of an item: the `Value` of its model, or else the types of its parts; of a trait its ghost members' types."""
        kind, block = self.items[name][1], block_at(self.text, self.items[name].start())
        terms = [value for model in inside(self.text, rf"Model for {name}\b[^{{]*") for value in inside(model, "ghost Value =")]
        if kind == "trait":
            terms = inside(block, r"ghost \w+:")
        if terms or kind == "trait":
            return [node for term in terms for node in self.term_nodes(term)]
        if kind == "enum":
            block = re.sub(r"(?m)^ +\w+", "", block)
        return self.words_nodes(word for word in re.findall(r"\w+", block) if word != name)

    def contract_nodes(self, name=None):
        """What is named in signature and clauses of the public function of that name, or of all of that type or, without a name, of the file."""
        text = self.text
        if name in self.items:
            text = "\n".join(inside(text, rf"(?m)^impl(?:<[^>]*>)? {name}(?:<[^>]*>)?"))
        for match in FUNCTION.finditer(text):
            if name in (None, match[2]) or name in self.items:
                function = text[match.start() : text.index(f"\n{match[1]}}}\n", match.end())]
                contract = function.partition(f"\n{match[1]}{{\n")[0]
                signature = re.split(r"\b(?:requires|ensures)\b", contract)[0]
                yield from self.words_nodes(re.findall(r"\w+", signature))
                for clause in inside(contract, r"\b(?:requires|ensures)(?: \w+)?"):
                    yield from self.term_nodes(clause, re.findall(r"\b([A-Z]\w*): (\w+)", signature))


def declared_as(source, word):
    """The type, constant or trait that a word of a source names; None where it is none of the project's."""
    if word in source.imports:
        return declared_as(SOURCES[source.imports[word], "src/lib.rt"], word)
    return next((Node(other.crate, other.file, word) for other in SOURCES.values() if other.crate == source.crate and word in other.items), None)


def public_nodes(crate):
    """What signatures and clauses of the public calls of a crate name."""
    library = SOURCES[crate, "src/lib.rt"].text
    calls = [(module, None) for module in re.findall(r"\bpub mod (\w+);", library)]
    for module, words in re.findall(r"\bpub use (\w+)::([^;]+);", library):
        calls += [(module, word) for word in re.findall(r"\w+", words)]
    return [node for module, name in calls for node in SOURCES[crate, f"src/{module}.rt"].contract_nodes(name)]


# All files

def files_of(kind, folder, ending):
    for crate in CRATES:
        home = ROOT / "crates" / crate
        for path in sorted((home / folder).rglob(f"*.{ending}")):
            file = str(path.relative_to(home))
            yield (crate, file), kind(crate, file)


SPECS = dict(files_of(SpecFile, "specs", "antt"))
SOURCES = dict(files_of(Source, "src", "rt"))


def settled(node):
    """The node where it stands, by what the file named passes on."""
    if (node.crate, node.file) in SPECS:
        file = SPECS[node.crate, node.file]
        return node if node.name in file.definitions else settled(file.names.meanings[node.name].node)
    return node


def nodes_of(node):
    """What a definition, type, constant or trait names."""
    if (node.crate, node.file) in SPECS:
        file = SPECS[node.crate, node.file]
        return map(settled, file.definitions[node.name].nodes(file.names))
    return map(settled, SOURCES[node.crate, node.file].nodes(node.name))
