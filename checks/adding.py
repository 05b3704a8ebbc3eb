"""Compares the tables of "Where to add" in docs/ARCHITECTURE.md with the sources. See checks/adding.sh.

A file is found to have a row by the names in it: variants of `Call` or `Command`, or that of the matrix of `Telling`; and of modules a variant of `Module` that isn't among
WITH_MATTERS_OF_THEIR_OWN, three of any, or three in lower case, as texts, label texts and fields have them. Of the tables of calls, modules, words and tellings each
file that is left out is told: one that is found by no such name has to stand in BY_READING, which the tables are held to as well.

It doesn't find a new file with a row that goes by one or two modules alone, by an `other`, by a number, or by a part of a name. The tables of settings
and tunables have no rule: of them it finds a file that isn't there, and not one that is left out.
"""
import re
import sys
from collections import defaultdict
from pathlib import Path

ROOT = Path(__file__).resolve().parent.parent
PAGE = ROOT / "docs" / "ARCHITECTURE.md"
FOLDERS = ("src", "specs", "proofs")
# Tests name what they please.
TESTS = r".*_tables$|.*scenarios$"
# What one of these has alone is told elsewhere on that page, as mac_lomac's lowering; a file that names one or two of them is about that.
WITH_MATTERS_OF_THEIR_OWN = {"Biba", "Lomac", "Partition", "Bsdextended"}
# Files and words of the tables that no rule below finds: they go by one module, which stands for all or for one that is unlike the rest, or by a
# number; they are answers in which no call and no word stands by its name; or they stand in two tables. That they have rows was seen by reading.
BY_READING = {
    "A module and its policy": {
        *("mf_policy src/operations", "mf_policy src/spec", "mf_policy specs/Operations", "mf_policy specs/Modules", "mf_policy specs/Answer"),
        *("mf_policy specs/Settings", "mf_calls proofs/FewBoots", "mf_flow proofs/Answering", "mf_top proofs/Modules"),
        "mf_answers src/reasons",
    },
    "A call": {"mf_plan proofs/ask_on_pipe", "mf_plan proofs/ask_on_socket"},
    "A word of the program": {"mf_top proofs/top/macsim/Answers"},
}
# What stands in front of the first of these in a part of a cell is a list of files.
LIST_END = r":|, where\b|, for\b"
LIST = r"[\w/]+((, | and | or |, and )[\w/]+)*"


def section_of(title):
    return PAGE.read_text().split(f"\n**{title}.**", 1)[1].split("\n**", 1)[0]


def parts_of(section):
    """Each part of a cell of the section's tables, up to what is said of its files, with crate and folder; what is in backticks is no file."""
    folders = []
    for line in re.sub("`[^`]*`", "", section).splitlines():
        crate, *words = [cell.strip() for cell in line.strip("|\n ").split("|")]
        if crate == "Crate":
            folders = words
        elif line.startswith("| "):
            for folder, cell in zip(folders, words):
                yield from ((crate, folder, re.split(LIST_END, part)[0].strip()) for part in cell.split(";"))


def table_of(section):
    """The words of each cell of the section's tables that may be files, by crate and folder."""
    cells = defaultdict(set)
    for crate, folder, part in parts_of(section):
        cells[crate, folder] |= set(re.findall(r"[\w/]+", part))
    return cells


def files_of(section):
    """The files that the section's tables name for sure: all words of a list; else those that begin as files of definitions do, or are paths."""
    for crate, folder, part in parts_of(section):
        words, is_list = re.findall(r"[\w/]+", part), re.fullmatch(LIST, part)
        yield from (f"{crate} {folder}/{word}" for word in words if word not in ("and", "or") and (is_list or word[0].isupper() or "/" in word))


def variants(file, name):
    """The variants of an enum of the sources, in their order."""
    body = (ROOT / "crates" / file).read_text().split(f"pub enum {name} {{", 1)[1].split("\n}", 1)[0]
    return re.findall(r"^    ([A-Z]\w*)", body, re.M)


class Source:
    """A file of code, definitions or proofs."""

    def __init__(self, file):
        self.crate, self.folder, *rest = file.relative_to(ROOT / "crates").parts
        self.name = "/".join(rest).rsplit(".", 1)[0]
        self.code = re.sub(r"//.*|--.*", "", file.read_text())

    def __str__(self):
        return f"{self.crate} {self.folder}/{self.name}"

    def names(self, pattern):
        return set(re.findall(pattern, self.code))


def sources():
    files = sorted(file for folder in FOLDERS for file in (ROOT / "crates").glob(f"*/{folder}/**/*.*t*"))
    found = [Source(file) for file in files]
    return [it for it in found if not re.match(TESTS, it.crate) and it.name not in ("lib", "Lib")]


def policies(found):
    """The modules of which each crate has the policy."""
    crates = {it.crate for it in found if " Policy for " in it.code and it.folder == "src" and "flags_of(" in it.code}
    return {crate: {name for it in found if it.crate == crate for name in it.names(r"flags_of\(Module::(\w+)\)")} for crate in crates}


def not_there(title, found):
    """Files that stand in the section's tables and aren't there. A folder of answers goes for what is in it, and what is seen by reading may be such."""
    there = [f"{it}/" for it in found]
    folders = {f"{it.crate} {it.folder}/{part}" for it in found for part in it.name.split("/")}
    missing = [file for file in files_of(section_of(title)) if not any(it.startswith(f"{file}/") for it in there)]
    missing += sorted(BY_READING.get(title, set()) - folders - {str(it) for it in found})
    return [f"{title}: {file} is in the table, and isn't there" for file in dict.fromkeys(missing)]


class Table:
    """A table of the page, with what stands in it and what has to."""

    def __init__(self, title, *others):
        self.title = title
        self.cells = table_of(section_of(title))
        self.others = [table_of(section_of(other)) for other in others]
        self.by_reading = BY_READING.get(title, set())

    def has(self, source):
        return source.name in self.cells.get((source.crate, source.folder), ())

    def is_elsewhere(self, source):
        return any(source.name in cells.get((source.crate, source.folder), ()) for cells in self.others)

    def faults(self, found, is_row, is_about):
        """Files that have a row and don't stand here; that stand here and aren't about such, or wouldn't be missed; and that aren't there."""
        here = [it for it in found if self.has(it)]
        words = {f"{crate} {folder}/{word}" for (crate, folder), names in self.cells.items() for word in names}
        is_missed = lambda it: str(it) in self.by_reading or is_row(it) and not self.is_elsewhere(it)
        return (
            [f"{self.title}: {it} isn't in the table" for it in found if is_row(it) and not self.has(it) and not self.is_elsewhere(it)]
            + [f"{self.title}: {file} isn't in the table" for file in sorted(self.by_reading - words)]
            + [f"{self.title}: {it} is in the table, and has no row" for it in here if not is_about(it)]
            + [f"{self.title}: {it} is in the table, and wouldn't be missed there" for it in here if is_about(it) and not is_missed(it)]
            + not_there(self.title, found)
        )


def files_of_each(names, found, pattern):
    """In how many files each of the names stands."""
    named = [it.names(pattern) for it in found]
    return {name: sum(name in it for it in named) for name in names}


def told(what, counts):
    most, least = max(counts, key=counts.get), min(counts, key=counts.get)
    average = sum(counts.values()) / len(counts)
    return f"{what} stands in {average:.1f} files on the average of {len(counts)}, in {counts[most]} at most ({most}) and {counts[least]} at least ({least})"


def calls(found):
    names = variants("mf_calls/src/script.rt", "Call")
    pattern = rf"\b(?:Call::|call\.)({'|'.join(names)})\b"
    is_row = lambda it: bool(it.names(pattern)) or (it.crate, it.name) == ("mf_calls", "script")
    faults = Table("A call").faults(found, is_row, is_row)
    counts = files_of_each(names, [it for it in found if it.crate != "mf_moves"], pattern)
    return faults, told("a call, tests and the laws of movements apart,", counts)


def modules(found):
    names = variants("mf_errno/src/module.rt", "Module")
    pattern = rf"\b({'|'.join(names)})\b"
    # (as texts, label texts, and the fields and definitions that are named by modules have them)
    in_lower_case = rf"(?<![A-Za-z])({'|'.join(names).lower()})(?![A-Za-z])"
    own = policies(found)
    outside = [it for it in found if it.crate not in own]
    is_row = lambda it: bool(it.names(pattern) - WITH_MATTERS_OF_THEIR_OWN) or any(len(it.names(some)) > 2 for some in (pattern, in_lower_case))
    is_about = lambda it: re.search(rf"(?i){'|'.join(names)}", it.code)
    faults = Table("A module and its policy", "A setting of a policy").faults(outside, is_row, is_about)
    for it in found:
        others = it.names(pattern) - own.get(it.crate, set(names))
        faults += [f"A module and its policy: {it} names another module than its own: {other}" for other in sorted(others)]
    facts = (ROOT / "crates/mf_policy/specs/Modules.antt").read_text()
    counts = files_of_each(unlabelled(names, facts), outside, pattern)
    return faults, told("a module without labels, its own crate and tests apart,", counts)


def words(found):
    names = variants("mf_top/src/command.rt", "Command")
    pattern = rf"\b(?:Command::|command\.)({'|'.join(names)})\b"
    is_about = lambda it: re.search(rf"(?i){'|'.join(names)}", it.code)
    return Table("A word of the program").faults(found, lambda it: it.names(pattern), is_about)


def tellings(found):
    """Of `matrix`, which has nothing that a telling hasn't; what `Sources` and `Chains` have alone is named in clauses too."""
    is_row = lambda it: bool(it.names(r"\b(?:Telling::|telling\.)Matrix\b"))
    return Table("A telling").faults(found, is_row, is_row)


def unlabelled(names, facts):
    """The modules that label nothing, by the table of modules."""
    return [name for name in names if re.search(rf"facts_of modules\.{name} = [^\n]*labels = Nothing", facts)]


if __name__ == "__main__":
    all_sources = sources()
    (of_calls, calls_told), (of_modules, modules_told) = calls(all_sources), modules(all_sources)
    of_settings = [fault for title in ("A setting of a policy", "A tunable") for fault in not_there(title, all_sources)]
    all_faults = [*of_modules, *of_calls, *words(all_sources), *tellings(all_sources), *of_settings]
    print("\n".join([*all_faults, calls_told, modules_told, f"where to add: {len(all_faults)} faults"]))
    sys.exit(1 if all_faults else 0)
