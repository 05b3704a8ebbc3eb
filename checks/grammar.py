#!/usr/bin/env python3
"""That docs/MANUAL.md says of each line and each call what words it has, as the pieces of mf_spelling do.

The first column of the tables of calls is compared with `call_pieces`, and the grammar of boot, tunable, file, task and step lines with their
pieces; and the table of settings with `sysctl_row` of mf_policy.
What a word of a call may be is taken from `IsFormedCall` of mf_calls: the manual has another name for each.
"""
import re
import sys
from pathlib import Path

ROOT = Path(__file__).resolve().parent.parent
SPELLING = (ROOT / "crates/mf_spelling/specs/Spelling.antt").read_text()
WELL_FORMED = (ROOT / "crates/mf_calls/specs/WellFormed.antt").read_text()
SYSCTLS = (ROOT / "crates/mf_policy/specs/Sysctls.antt").read_text()
MANUAL = (ROOT / "docs/MANUAL.md").read_text()

# A piece, and how the manual names it.
PIECES = [
    (r'Word \(codes "(.*)"\)', r'"\1"'),
    (r"Word \(if .*\)", "KIND"),
    (r"Word \(module_text .*\)", "MODULE"),
    (r"Word \(privilege_text .*\)", "PRIVILEGE"),
    (r"Word \(open_mode .*\)", "MODE"),
    (r"Word \(protocol .*\)", "PROTOCOL"),
    (r"Word \w\.(?:name|task)", "NAME"),
    (r"path .*", "PATH"),
    (r"Decimal \(MOST_DESCRIPTORS - 1\) .*", "FD"),
    (r"Decimal LAST_PORT .*", "PORT"),
    (r"Decimal .*", "N"),
    (r"Octal .*", "OCTAL"),
    (r"Groups .*", "GROUPS"),
    (r"Text .*", "TEXT"),
    (r"Setting .*", "NAME=VALUE"),
    (r"Label .*", "L"),
    (r"Rules .*", "RULE"),
    (r"text_pieces .*", '[ "text" TEXT ]'),
]

# What a word of a call may be, and the names that the manual has for it.
WORDS = {"IsName": ("NAME", "FROM", "TO"), "is_process_name": ("PROCESS",), "IsWord": ("LABEL", "MODULE")}


def pieces_of(name):
    """The pieces of a kind of line."""
    body = re.search(rf"(?m)^{name} \w+ =\s(.*(?:\n    .*)*)", SPELLING)[1]
    return [piece.strip() for piece in body.split("∷")]


def named(piece):
    for pattern, name in PIECES:
        if re.fullmatch(pattern, piece):
            return re.sub(pattern, name, piece)
    return piece


def lines():
    """Each kind of line, as the grammar of the manual has it."""
    kinds = re.findall(r'(?m)^step_word step\.\w+ = codes "(\w+)"', SPELLING)
    step = "( " + " | ".join(f'"{kind}"' for kind in kinds) + " )"
    for kind in ("boot", "tunable", "file", "task", "step"):
        words = [named(piece) for piece in pieces_of(f"{kind}_pieces") if piece != "[]"]
        yield kind, " ".join(step if "step_word" in word else word for word in words)


def grammar(kind):
    line = re.search(rf"(?m)^    {kind} +(= .*)", MANUAL)[1]
    return line.removeprefix("= ").split("  newline")[0]


def forms():
    """Of each call its words, of which each is a set of names."""
    for call, variables, body in re.findall(r"(?m)^call_pieces \(?call\.(\w+)([ \w]*)\)? = (.*)", SPELLING):
        formed = re.search(rf"(?m)^IsFormedCall \(?call\.{call}([ \w]*)\)? = (.*)", WELL_FORMED)
        positions = dict(zip(variables.split(), formed[1].split()))
        predicates = {variable: predicate for predicate, variable in re.findall(r"([Ii]s_?\w+) (\w+)", formed[2])}
        words = []
        for piece in body.removesuffix(" ∷ []").split(" ∷ "):
            word = re.fullmatch(r"Word (\w+)", piece)
            words.append(WORDS[predicates[positions[word[1]]]] if word else (named(piece).strip('"'),))
        yield words


# How the values of a setting are read, and how the manual names them.
VALUES = {
    "switch": "`0`, `1`",
    "number 0 LAST_ID": "a number from 0 to 4294967295",
    "number 0 LAST_PORT": "a number from 0 to 65535",
    "port_rules_in": "rules about ports",
}


def settings():
    """The first cells of each row of the table of settings."""
    for body in re.findall(r"(?m)^sysctl_row \w+ = (.*)", SYSCTLS):
        module, leaf = re.search(r'variable modules\.(\w+) \(codes "(\w+)"\)', body).groups()
        values = next(values for read, values in VALUES.items() if re.search(rf"\b{read}\b", body))
        yield [f"`security.mac.{module.lower()}.{leaf}`", f"mac_{module.lower()}", values]


def table(text, header):
    """The rows of the tables whose first cell is this."""
    tables = re.findall(rf"(?m)^\| {header} \|.*\n\|[-|]*\n((?:\|.*\n)*)", text)
    return [[cell.strip() for cell in row.strip("|").split("|")] for rows in tables for row in rows.splitlines()]


def is_of(words, row):
    return len(words) == len(row) and all(found in names for names, found in zip(words, row))


def faults():
    for kind, wanted in lines():
        if grammar(kind) != wanted:
            yield f"the grammar has {kind} = {grammar(kind)}, where the pieces are {wanted}"
    calls = MANUAL.split("\n## CALLS\n")[1].split("\n## ")[0]
    rows = [row[0].strip("`").split() for row in table(calls, "Call")]
    found = list(forms())
    for row in rows:
        if sum(is_of(words, row) for words in found) != 1:
            yield f"no call has the words {' '.join(row)}"
    for words in found:
        if sum(is_of(words, row) for row in rows) != 1:
            yield f"no row for the call {' '.join(names[0] for names in words)}"
    told, wanted = [row[:3] for row in table(calls, "NAME")], list(settings())
    if told != wanted:
        yield f"the table of settings is {told}, where the rows are {wanted}"
    print(f"grammar: {len(list(lines()))} lines, {len(found)} calls, {len(wanted)} settings")


def main():
    found = list(faults())
    for fault in found:
        print(f"docs/MANUAL.md: {fault}")
    return 1 if found else 0


if __name__ == "__main__":
    sys.exit(main())
