"""Rules of mac_bsdextended as ugidfw(8) has them on a machine, and as a script does. Nothing of it is proved.

The words are the same, but for `not`: on the machine it turns each test of its part, and in a script the part as a whole. So each test that is
turned gets a `!` of its own here.
"""
from __future__ import annotations

import re
from dataclasses import dataclass

from macsim_host_names import Names
from macsim_host_remarks import Remarks
from macsim_host_text import HostText, Line, number_in
from macsim_text import BadInput, Fault

IDS = ("uid", "gid")
# The tests with a word behind them, and those without one.
WITH_WORD = (*IDS, "jailid", "filesys", "type")
ALONE = ("suid", "sgid", "uid_of_subject", "gid_of_subject")
TYPES, LETTERS = "[ardbclsp]+", "[arswxn]+"
MOST_RULE = 249


@dataclass(frozen=True)
class Test:
    """A test of a part: its words, and whether a `!` stands before it."""

    words: tuple[str, ...]
    is_turned: bool

    def __str__(self) -> str:
        return " ".join(["!", *self.words] if self.is_turned else self.words)


@dataclass(frozen=True)
class Part:
    """What stands behind `subject` or `object`."""

    has_not: bool
    tests: tuple[Test, ...]


@dataclass(frozen=True)
class Rule:
    """A rule: its parts, and the letters that it gives."""

    subject: Part
    object: Part
    letters: str


class Unsayable(Exception):
    """Why a script can't say a rule."""


# Reading


def part_of(words: list[str]) -> Part:
    has_not, words = words[:1] == ["not"], words[words[:1] == ["not"] :]
    tests = []
    while words:
        is_turned = words[0] == "!"
        words = words[is_turned:]
        length = 2 if words and words[0] in WITH_WORD else 1
        if len(words) < length or (length == 1 and words[0] not in ALONE):
            raise Fault(f"`{words[0]}` is no test of a rule" if words and length == 1 else "a test of the rule ends too early")
        tests.append(Test(tuple(words[:length]), is_turned))
        words = words[length:]
    names = [test.words[0] for test in tests]
    if len(set(names)) < len(names):
        raise Fault("a part of the rule has a test twice")
    return Part(has_not, tuple(tests))


def rule_of(words: list[str]) -> Rule:
    """Reads `subject PART object PART mode LETTERS`."""
    if words[:1] != ["subject"] or "object" not in words or len(words) < 4 or words[-2] != "mode":
        raise Fault("a rule `subject .. object .. mode LETTERS` is wanted")
    if not re.fullmatch(LETTERS, words[-1]):
        raise Fault(f"`{words[-1]}` stands where the letters of a rule are wanted")
    place = words.index("object")
    return Rule(part_of(words[1:place]), part_of(words[place + 1 : -2]), words[-1])


# From a machine


def ids_of(word: str, names: dict[str, int], what: str) -> list[int]:
    """The ends of a range of ids. A single id may be a name."""
    if re.fullmatch(r"\d{1,10}(?::\d{1,10})?", word):
        ends = [number_in(end, what) for end in word.split(":")]
        return [ends[0], ends[-1]]
    if word not in names:
        raise Unsayable(f"no line of names has the {what} `{word}`")
    return [names[word]] * 2


def range_text(first: int, last: int) -> str:
    return str(first) if first == last else f"{first}:{last}"


def test_here(test: Test, names: Names) -> Test | bool:
    """A test as a script has it, or whether it holds always, or never, of what a script has, which are processes outside of jails."""
    name, *rest = test.words
    if name == "jailid":
        return False
    if name == "filesys":
        raise Unsayable(f"a script has no file systems, as {rest[0]}")
    if name == "type" and not re.fullmatch(TYPES, rest[0]):
        raise Fault(f"`{rest[0]}` stands where types of files are wanted")
    if name in IDS:
        first, last = ids_of(rest[0], names.users if name == "uid" else names.groups, name)
        return first <= last and Test((name, range_text(first, last)), False)
    return Test(test.words, False)


def part_here(part: Part, names: Names) -> list[Test] | None:
    """The tests of a part as a script has them, or None where it never fits."""
    tests = []
    for test in part.tests:
        here, is_turned = test_here(test, names), test.is_turned != part.has_not
        if isinstance(here, Test):
            tests.append(Test(here.words, is_turned))
        elif here == is_turned:
            return None
    return tests


def rule_here(rule: Rule, names: Names) -> str | None:
    """The rule in the words of a script, or None where it never matches there."""
    parts = [part_here(part, names) for part in (rule.subject, rule.object)]
    if None in parts:
        return None
    subject, thing = (" ".join(map(str, part)) for part in parts)
    return " ".join(f"subject {subject} object {thing} mode {rule.letters}".split())


def read_rule(line: Line, names: Names, rules: dict[int, str | None], remarks: Remarks) -> None:
    words = line.text.split()
    number = number_in(words[0], "the number of a rule")
    if number in rules:
        raise Fault(f"an earlier line has rule {number}")
    rule = rule_of(words[1:])
    try:
        rules[number] = rule_here(rule, names)
        if number > MOST_RULE:
            raise Unsayable(f"the numbers of rules end at {MOST_RULE}")
    except Unsayable as why:
        rules[number] = None
        remarks.left_out("rules", f"rule {number}: {why} (`{' '.join(words)}`)")
        remarks.beware("rules", f"without rule {number} each answer of mac_bsdextended about what it matches may be wrong, by the later rules too")
        return
    if rules[number] is None:
        remarks.left_out("rules", f"rule {number}, which never matches outside of jails (`{' '.join(words)}`)")


def rules_of(text: HostText, names: Names, remarks: Remarks) -> dict[int, str]:
    """The rules by number, in the words of a script."""
    rules: dict[int, str | None] = {}
    count: list[int] = []

    def read(line: Line) -> None:
        heading = re.fullmatch(r"(\d{1,10}) slots, (\d{1,10}) rules", line.text.strip())
        if heading and not count and not rules:
            count.append(int(heading[2]))
        elif not count:
            raise Fault("the first line, `N slots, N rules`, is lacking")
        else:
            read_rule(line, names, rules, remarks)
            if len(rules) > count[0]:
                raise Fault(f"it is one more than the {count[0]} rules of the first line")

    text.each("ugidfw", read)
    if count and len(rules) < count[0]:
        last = text.lines("ugidfw")[-1]
        raise BadInput(text.name, last.number, f"it is the last of {len(rules)} rules, and the first line says {count[0]}")
    return {number: rule for number, rule in sorted(rules.items()) if rule is not None}


# To a machine


def rule_there(words: list[str]) -> str:
    """The rule of a script in the words of ugidfw(8), or Unsayable. A `not` before one test is written as its `!`."""
    rule = rule_of(words)
    parts = []
    for part in (rule.subject, rule.object):
        if part.has_not and len(part.tests) != 1:
            many = "`not` before several tests turns each of them on the machine" if part.tests else "`not` alone fits everything on the machine"
            raise Unsayable(f"{many}, and here the part")
        parts.append(" ".join(str(Test(test.words, test.is_turned != part.has_not)) for test in part.tests))
    return " ".join(f"subject {parts[0]} object {parts[1]} mode {rule.letters}".split())
