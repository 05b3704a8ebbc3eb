#!/usr/bin/env python3
"""What has to be believed for the program's theorem: the definitions that its clauses reach, clause by clause.

First comes the clause `headline` of the program's call, with the signature and the premises of that call; then what each other clause of it
adds, and what the other public calls of mf_top add. The names in them are followed through the `ghost use` lines of the .rt files and the `use` lines of
crates/*/specs/*.antt, definition by definition. Types, constants and traits that the sources declare are followed by what contracts see of
them: a type with a `Model` by its `Value`, any other by the types of its parts, a trait by the types of its ghost members. They are printed,
and counted by themselves. std's own definitions are neither. Not followed are the contracts of the traits that a public call is generic in, as
`Source` and `Policy`: they are premises, which each implementation is proved to meet.

The lines of a definition are its own and those of the comments in it or directly above it. Nothing else counts: no import, no blank line,
no comment at the head of a file, and none that a blank line parts from the definition.

    believed.py              prints what is reached and the figures, and fails where the reading list of docs/THEOREM.md doesn't say so
    believed.py --write      puts files and figures into the reading list, and keeps what each row says
    believed.py --unreached  prints the definitions that aren't reached, and the files that have some of either
"""
import re
import sys

sys.dont_write_bytecode = True

import definitions
from definitions import CRATES, ROOT, SOURCES, SPECS

PROGRAM = "mf_top"
CALL = "macsim"
OTHERS = "other calls"
DOCUMENT = ROOT / "docs" / "THEOREM.md"
ORDER = "| What one wants to believe | Crates | Lines | Minutes |"
SECTION = "## The reading list"
TOTAL = "Together "

# The specs, of a crate or single ones, that say how something is written or read as a text; all others say what is meant. A file that has
# some of either counts as meaning.
SYNTAX = {
    "mf_errno Names": "the names of errors and modules",
    "mf_errno Privilege": "the names of privileges",
    "mf_text": "numbers and bytes as texts",
    "mf_labeltext": "labels as texts",
    "mf_item Operation": "the names of operations in a history's text",
    "mf_rule RuleGrammar": "the words of rules",
    "mf_rule PortRules": "rules about ports as a text",
    "mf_rule Words": "ranges and letters as words",
    "mf_rule Reading": "rules as words",
    "mf_rule Canonical": "rules as texts",
    "mf_words": "the lines and words of a text",
    "mf_calls Names": "which texts are names",
    "mf_spelling": "how scripts are spelled",
    "mf_script": "scripts as texts",
    "mf_flow SourcesText": "the sources as a text",
    "mf_matrix MatrixText": "the matrix as a text",
    "mf_chains ChainsText": "chains as a text",
    "mf_why ReasonText": "the words of reasons",
    "mf_load Summary": "the summary of a load as a text",
    "mf_hist": "histories as texts",
    "mf_verdict Header": "the header of what is checked",
    "mf_top Commands": "the program's words",
}


# How many lines of definitions are read in a minute, where each is to be understood.
LINES_A_MINUTE = 10

# What one may want to believe of the headline, from its clause down, each with the crates whose definitions say it.
PARTS = {
    "what was read and what was written": ["mf_top", "mf_io"],
    "which histories are legal and complete": ["mf_core"],
    "what one call does: its checks, its reply, its effect": ["mf_perform", "mf_plan"],
    "what the policies answer, and when they are listed": ["mf_policy", "mf_list", "mf_compose", "mf_item", "mf_errno"],
    "what a call works on: live entities, credentials, labels": ["mf_objects", "mf_cred", "mf_elem"],
    "which bytes are a script": ["mf_calls", "mf_spelling", "mf_words", "mf_text"],
    "what label texts and rules say": ["mf_labeltext", "mf_rule"],
    "that each label slot is made and ended once": ["mf_lifetimes"],
    "that each source dominates": ["mf_flow"],
    "what the text of a history is": ["mf_hist"],
}


def is_syntax(file):
    return file.crate in SYNTAX or f"{file.crate} {title(file)}" in SYNTAX


def title(file):
    return file.file.removeprefix("specs/").removesuffix(".antt")


# What is reached


def clauses():
    """The clauses of the program's call, each with what it names, the first with signature and premises too; last the other public calls."""
    source = SOURCES[PROGRAM, "src/top.rt"]
    call = next(match for match in definitions.FUNCTION.finditer(source.text) if match[2] == CALL)
    contract = source.text[call.start() :].partition(f"\n{call[1]}{{\n")[0]
    signature = re.split(r"\b(?:requires|ensures)\b", contract)[0]
    bounds = re.findall(r"\b([A-Z]\w*): (\w+)", signature)
    given = source.words_nodes(re.findall(r"\w+", signature)) + terms_nodes(source, contract, r"\brequires(?: \w+)?", bounds)
    for name in re.findall(r"\bensures (\w+)", contract):
        yield name, given + terms_nodes(source, contract, rf"\bensures {name}", bounds)
        given = []
    yield OTHERS, definitions.public_nodes(PROGRAM)


def terms_nodes(source, contract, head, bounds):
    return [node for term in definitions.inside(contract, head) for node in source.term_nodes(term, bounds)]


def add_reached(names, reached):
    """Adds every definition, type, constant and trait that these reach, with what each names."""
    left = list(map(definitions.settled, names))
    while left:
        node = left.pop()
        if node not in reached:
            reached[node] = set(definitions.nodes_of(node)) - {node}
            left += reached[node]


class Reached:
    """What the clauses reach, and what each of them adds to those before it."""

    def __init__(self):
        self.nodes, self.added = {}, {}
        for name, names in clauses():
            before = set(self.nodes)
            add_reached(names, self.nodes)
            self.added[name] = Added(self, set(self.nodes) - before)
        self.whole = Added(self, set(self.nodes))

    def declared(self):
        """Each type, constant and trait with its source, by crate, file and line."""
        items = [(SOURCES[node[:2]], node.name) for node in self.nodes if node[:2] in SOURCES]
        return sorted(items, key=lambda item: (CRATES.index(item[0].crate), item[0].file, item[0].line(item[1])))

    def print(self):
        for added in self.added.values():
            for file in added.reading_order():
                for definition in added.files[file]:
                    print(f"crates/{file.crate}/{file.file}:{definition.line}: {definition.name}, {definition.count} lines")
        for source, name in self.declared():
            print(f"crates/{source.crate}/{source.file}:{source.line(name)}: {source.items[name][1]} {name}")


class Added:
    """Some of what is reached."""

    def __init__(self, reached, nodes):
        self.reached, self.nodes = reached, nodes
        self.files = {file: [d for d in file.definitions.values() if self.has(file, d)] for file in SPECS.values()}
        self.files = {file: found for file, found in self.files.items() if found}

    def has(self, file, definition):
        return definitions.Node(file.crate, file.file, definition.name) in self.nodes

    def lines(self, file):
        return sum(definition.count for definition in self.files.get(file, []))

    def reading_order(self):
        """The files crate by crate, and in a crate each behind those that it names."""
        order, left = [], list(self.files)
        while left:
            here = {file for file in left if file.crate == left[0].crate}
            order.append(next(file for file in left if not self.named_by(file) & here))
            left.remove(order[-1])
        return order

    def named_by(self, file):
        """The other files that these definitions of this one name."""
        named = [node for d in self.files[file] for node in self.reached.nodes[definitions.Node(file.crate, file.file, d.name)]]
        return {SPECS[node[:2]] for node in named if node[:2] in SPECS} - {file}

    def counts(self):
        """How many definitions there are, the lines of the meaning and of the syntax, and how many types and constants."""
        syntax = sum(self.lines(file) for file in self.files if is_syntax(file))
        declared = sum(node[:2] in SOURCES for node in self.nodes)
        return sum(map(len, self.files.values())), sum(map(self.lines, self.files)) - syntax, syntax, declared

    def figures(self):
        count, meaning, syntax, declared = self.counts()
        return f"{count} definitions, {meaning + syntax} lines, of them meaning {meaning}, syntax {syntax}; {declared} types and constants"


# The reading order


def order_row(words, crates, lines):
    return f"| {words} | {', '.join(crates)} | {lines:,} | {-(-lines // LINES_A_MINUTE)} |"


def order_rows(reached):
    """What one may want to believe, part by part and clause by clause, each with its lines and the minutes that they take."""
    headline = next(iter(reached.added.values()))
    left = {file.crate for file in headline.files} - {crate for crates in PARTS.values() for crate in crates}
    if left:
        raise definitions.Unreadable(f"no part of the headline has {', '.join(sorted(left))}")
    for words, crates in PARTS.items():
        yield order_row(words, crates, sum(headline.lines(file) for file in headline.files if file.crate in crates))
    for name, added in reached.added.items():
        yield order_row(f"**{name}**", [], sum(map(added.lines, added.files)))


# The reading list


def entry(added, file):
    """How a row names a file: with the lines that are reached, and all, where they aren't the same."""
    lines, whole = added.lines(file), file.lines()
    return title(file) if lines == whole else f"{title(file)} ({lines} of {whole})"


def row(added, crate, words):
    files = [file for file in added.reading_order() if file.crate == crate]
    syntax = sum(added.lines(file) for file in files if is_syntax(file))
    meaning = sum(map(added.lines, files)) - syntax
    names = ", ".join(entry(added, file) for file in files)
    return f"| {crate} {names} | {meaning or ''} | {syntax or ''} | {words} |"


def head(name, added):
    """The row in front of what a clause adds."""
    count, meaning, syntax, declared = added.counts()
    return f"| **{name}**: {count} definitions, {declared} types and constants | {meaning or ''} | {syntax or ''} | |"


def total(reached):
    count, meaning, syntax, declared = reached.whole.counts()
    return f"{TOTAL}{count} definitions on {meaning + syntax:,} lines, of them meaning {meaning:,}, syntax {syntax:,}; and {declared} types and constants."


class ReadingList:
    """The rows of the order and of the list, in this clause by clause one for each crate, and the line of the total, as the document has them."""

    def __init__(self):
        self.lines = DOCUMENT.read_text().splitlines()
        section = self.lines.index(SECTION)
        self.places = [at for at, line in enumerate(self.lines) if at > section and re.match(r"\| (mf_|\*\*)", line)]
        self.total_place = next(at for at, line in enumerate(self.lines) if at > section and line.startswith(TOTAL))
        head = self.lines.index(ORDER)
        self.order = slice(head + 2, next(at for at in range(head, section) if not self.lines[at].startswith("|")))
        self.rows = [self.lines[at] for at in self.places]
        self.words = dict(self.words_of_rows())

    def words_of_rows(self):
        clause = ""
        for line in self.rows:
            if line.startswith("| **"):
                clause = line.split("**")[1]
            else:
                yield (clause, line.split()[1]), line.split("|")[-2].strip()

    def wanted_rows(self, reached):
        for name, added in reached.added.items():
            if added.files:
                yield head(name, added)
            for crate in dict.fromkeys(file.crate for file in added.reading_order()):
                yield row(added, crate, self.words.get((name, crate), "?"))

    def faults(self, reached):
        wanted = list(self.wanted_rows(reached))
        yield from (f"wanted: {line}" for line in wanted if line not in self.rows)
        yield from (f"not wanted: {line}" for line in self.rows if line not in wanted)
        yield from (f"no words: {line}" for line in wanted if line.endswith("| ? |"))
        if sorted(wanted) == sorted(self.rows) and wanted != self.rows:
            yield "the rows are not in the order " + ", ".join(line.split()[1] for line in wanted)
        if self.lines[self.order] != list(order_rows(reached)):
            yield "wanted as the reading order:\n" + "\n".join(order_rows(reached))
        if self.lines[self.total_place] != total(reached):
            yield f"wanted: {total(reached)}"

    def write(self, reached):
        self.lines[self.total_place] = total(reached)
        self.lines[self.places[0] : self.places[-1] + 1] = list(self.wanted_rows(reached))
        self.lines[self.order] = order_rows(reached)
        DOCUMENT.write_text("\n".join(self.lines) + "\n")


def print_unreached(reached):
    for file in SPECS.values():
        left = [definition for definition in file.definitions.values() if not reached.whole.has(file, definition)]
        for definition in left:
            print(f"crates/{file.crate}/{file.file}:{definition.line}: {definition.name}, {definition.count} lines")
    for file in SPECS.values():
        if 0 < reached.whole.lines(file) < file.lines():
            print(f"crates/{file.crate}/{file.file}: {reached.whole.lines(file)} of {file.lines()} lines are reached")


def main(mode=""):
    reached = Reached()
    if mode == "--unreached":
        print_unreached(reached)
        return 0
    if mode == "--write":
        ReadingList().write(reached)
    reached.print()
    faults = list(ReadingList().faults(reached))
    for fault in faults:
        print(f"docs/THEOREM.md: {fault}")
    for name, added in reached.added.items():
        print(f"{name}: {added.figures()}")
    print(f"believed: {reached.whole.figures()}")
    return 1 if faults else 0


if __name__ == "__main__":
    sys.exit(main(*sys.argv[1:]))
