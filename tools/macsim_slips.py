"""The faults of the words of a line, of a label text and of a rule, each with its place and what was expected there, by docs/MANUAL.md (THE
SCRIPT, LABELS, RULES), limits among it. Nothing of it is proved.
"""
from __future__ import annotations

import difflib
import re
from functools import lru_cache
from typing import NamedTuple

from macsim_labels import GRADE, LATTICES, LOMAC, MODULES, PARTITION, VALUES, Levels, boot_label, dominates, is_valid, request_of
from macsim_text import CALLS, DIGITS, UGIDFW, is_word, number_of


class Word(NamedTuple):
    """A word of a line, with the columns where it begins and ends."""

    text: str
    start: int
    end: int


class Slip(NamedTuple):
    """A fault of a line: its name, with the errno behind BootRefused; the columns of what is wrong; and what was expected there."""

    fault: str
    start: int
    end: int
    wanted: str


class Want(NamedTuple):
    """What a word may be, and the fault of another one."""

    fault: str
    said: str


LAST_ID, LAST_PORT, LAST_RULE = 4294967295, 65535, 249
LAST_GRADE, LAST_COMPARTMENT, LAST_PARTITION = 65535, 256, 2147483647
NAME_SAID = "1 to 32 letters, digits, `_` and `-`"
ID_SAID = f"a number from 0 to {LAST_ID}"
# The words of forms that stand for others, as in macsim_text. Each other word of a form stands there itself.
WANTS = {
    "PATH": Want("BadPath", "a path: `/`, or 1 to 8 components, each behind a `/`: 1 to 32 letters, digits, `.`, `_` and `-`, but neither `.` nor `..`"),
    "KIND": Want("UnknownWord", "`reg` or `dir`"),
    "N": Want("BadNumber", ID_SAID),
    "RULE_NUMBER": Want("BadNumber", f"the number of a rule, from 0 to {LAST_RULE}"),
    "OCTAL": Want("BadNumber", "an octal number from 0 to 7777"),
    "GROUPS": Want("BadNumber", f"1 to 16 numbers from 0 to {LAST_ID} in one word, with a comma between each two"),
    "NAME": Want("BadPath", f"a name: {NAME_SAID}"),
    "PROCESS": Want("BadPath", "the full name of a process: that of a task, or a task's name, a dot and its child's"),
    "L": Want("BadLabel", "`-` or a label text"),
    "LABEL": Want("BadLabel", "a label text"),
    "WORD": Want("UnknownWord", "the name of a module"),
    "PRIVILEGE": Want("UnknownWord", "`KLD_LOAD`, `KLD_UNLOAD`, `MAC_PARTITION`, `SCHED_RTPRIO` or `SCHED_IDPRIO`"),
    "NAME=VALUE": Want("Missing", "a name and a value in one word, with `=` between them"),
    "MODE": Want("UnknownWord", "`r`, `w` or `rw`"),
    "FD": Want("BadNumber", "the number of a descriptor, from 0 to 15"),
    "PROTOCOL": Want("UnknownWord", "`tcp` or `udp`"),
    "PORT": Want("BadNumber", f"a port: a number from 0 to {LAST_PORT}"),
    "TEXT": Want("BadText", "a text in one word, in which two hexadecimal digits stand behind each `\\`"),
}
MOST = {"N": LAST_ID, "GROUPS": LAST_ID, "PORT": LAST_PORT, "RULE_NUMBER": LAST_RULE}
UGIDFW_SAID = "`list`, `add`, `set` or `remove`"


def words_of(line: str) -> list[Word]:
    return [Word(found[0], *found.span()) for found in re.finditer(r"[^ \t]+", line)]


def at(word: Word, fault: str, wanted: str) -> Slip:
    return Slip(fault, word.start, word.end, wanted)


def missing(words: list[Word], wanted: str) -> Slip:
    """What is missing behind the last word."""
    end = words[-1].end
    return Slip("Missing", end + 1, end + 2, wanted)


# Forms


def is_fixed(want: str) -> bool:
    return want not in WANTS


def fits(text: str, want: str) -> bool:
    """Whether a word may stand where this one is wanted, by its limits too."""
    is_one = is_word(text, "N" if want == "RULE_NUMBER" else want)
    return is_one and (want not in MOST or all(number_of(number) <= MOST[want] for number in text.split(",")))


def said_of(want: str) -> str:
    return f"`{want}`" if is_fixed(want) else WANTS[want].said


def slip_at(word: Word, want: str) -> Slip:
    return at(word, "UnknownWord" if is_fixed(want) else WANTS[want].fault, said_of(want))


def extra(word: Word) -> Slip:
    why = ": a comment has a line of its own" if word.text.startswith("#") else ""
    return at(word, "Extra", f"the end of the line{why}")


def has_form(words: list[Word], first: int, form: list[str]) -> bool:
    """Whether so many words stand behind the first ones, and each fixed one in its place."""
    behind = words[first:]
    return len(behind) == len(form) and all(word.text == want for word, want in zip(behind, form) if is_fixed(want))


def slips_of(words: list[Word], first: int, form: list[str]) -> list[Slip]:
    """The faults of the words behind the first ones, which are to be those of a form. What may come of an earlier one isn't told: what stands
    behind a fixed word that isn't there, and a wrong count where no word of the form is fixed."""
    slips = []
    for word, want in zip(words[first:], form):
        if not fits(word.text, want):
            if is_fixed(want):
                return slips or [slip_at(word, want)]
            slips.append(slip_at(word, want))
    count = len(words) - first
    is_told = not slips or any(map(is_fixed, form))
    if count < len(form) and is_told:
        slips.append(missing(words, said_of(form[count])))
    if count > len(form) and is_told:
        slips.append(extra(words[first + len(form)]))
    return slips


# Calls


@lru_cache
def call_wanted(name: str, may_end: bool) -> str:
    """What is said where a call is wanted, or the end of a task: with names that are like this one."""
    like = difflib.get_close_matches(name, [*CALLS, "ugidfw"], n=2)
    said = f"a call, as {' or '.join(f'`{call}`' for call in like)}" if like else "a call (docs/MANUAL.md, CALLS)"
    return f"{said}, or `end`" if may_end else said


def slips_of_call(words: list[Word], first: int) -> list[Slip]:
    """The faults of a call, whose name stands behind the first words."""
    if len(words) == first:
        return [missing(words, "a call")]
    name = words[first]
    if name.text == "ugidfw":
        return slips_of_ugidfw(words, first + 1)
    if name.text not in CALLS:
        return [at(name, "UnknownWord", call_wanted(name.text, first == 0))]
    return slips_of(words, first + 1, CALLS[name.text].split())


def slips_of_ugidfw(words: list[Word], first: int) -> list[Slip]:
    if len(words) == first:
        return [missing(words, UGIDFW_SAID)]
    name = words[first].text
    if name not in UGIDFW:
        return [at(words[first], "UnknownWord", UGIDFW_SAID)]
    form = ["RULE_NUMBER"] * len(UGIDFW[name].split())
    if name not in ("add", "set"):
        return slips_of(words, first + 1, form)
    behind = first + 1 + len(form)
    slips = slips_of(words[:behind], first + 1, form)
    if slips and not words[-1 if len(words) < behind else behind - 1].text.isdigit():
        return slips
    if len(words) <= behind:
        return slips or [missing(words, "a rule, which begins with `subject`")]
    return slips + slips_of_rule(words, behind)


# Rules

RANGE, TYPES, LETTERS = "a range of ids", "types", "letters"
SUBJECT_TESTS = {"uid": RANGE, "gid": RANGE}
OBJECT_TESTS = {**SUBJECT_TESTS, **dict.fromkeys(("suid", "sgid", "uid_of_subject", "gid_of_subject")), "type": TYPES}
VALUES_SAID = {
    RANGE: f"{ID_SAID}, or two of them with a `:` between them, the first not above the second",
    TYPES: "types: one or more of `a`, `r`, `d`, `b`, `c`, `l`, `s` and `p`",
    LETTERS: "what the rule gives: one or more of `a`, `r`, `s`, `w`, `x` and `n`",
}


def is_range(text: str) -> bool:
    if not re.fullmatch(f"{DIGITS}(:{DIGITS})?", text):
        return False
    ends = [number_of(end) for end in text.split(":")]
    return ends == sorted(ends) and ends[-1] <= LAST_ID


FITS_VALUE = {
    RANGE: is_range,
    TYPES: lambda text: re.fullmatch("[ardbclsp]+", text) is not None,
    LETTERS: lambda text: re.fullmatch("[arswxn]+", text) is not None,
}


class RuleFault(Exception):
    """The first word of a rule that is wrong, and what was expected there."""


class RuleReader:
    """Reads the words of a rule from left to right, up to the first fault."""

    def __init__(self, words: list[Word]) -> None:
        self.words, self.place = [word.text for word in words], 0

    def next(self, wanted: str) -> str:
        if self.place == len(self.words):
            raise RuleFault(wanted)
        return self.words[self.place]

    def take(self, is_right: bool, wanted: str) -> None:
        if not is_right:
            raise RuleFault(wanted)
        self.place += 1

    def read_value(self, kind: str) -> None:
        said = VALUES_SAID[kind]
        self.take(FITS_VALUE[kind](self.next(said)), said)

    def read_part(self, tests: dict[str, str | None], closing: str) -> None:
        """The tests of a part, each at most once, and the word that closes it."""
        left = dict(tests)
        if self.next(f"`{closing}` or a test") == "not":
            self.place += 1
        while True:
            names = ", ".join(f"`{name}`" for name in left)
            said = f"`{closing}`" + (f", `!` or a test that this part hasn't yet: {names}" if left else "")
            word = self.next(said)
            if word == closing:
                self.place += 1
                return
            if word == "!":
                self.place += 1
                said = f"a test that this part hasn't yet: {names}"
                word = self.next(said)
            self.take(word in left, said)
            kind = left.pop(word)
            if kind is not None:
                self.read_value(kind)

    def read(self) -> None:
        self.take(self.next("`subject`") == "subject", "`subject`")
        self.read_part(SUBJECT_TESTS, "object")
        self.read_part(OBJECT_TESTS, "mode")
        self.read_value(LETTERS)
        if self.place < len(self.words):
            raise RuleFault("the end of the line")


def slips_of_rule(words: list[Word], first: int) -> list[Slip]:
    """The first fault of a rule."""
    reader = RuleReader(words[first:])
    try:
        reader.read()
    except RuleFault as fault:
        place = first + reader.place
        slip = missing(words, str(fault)) if place == len(words) else at(words[place], "", str(fault))
        return [slip._replace(fault="BadRule")]
    return []


# Label texts

ELEMENT_SAID = "`low`, `high`, `equal`, or a grade from 0 to 65535"
WITH_COMPARTMENTS = f"{ELEMENT_SAID}, with compartments from 1 to 256 as in `5:1+2`, and a range as in `5(1-9)`"
VALUE_SAID = {
    "biba": WITH_COMPARTMENTS,
    "mls": WITH_COMPARTMENTS,
    "lomac": f"{ELEMENT_SAID}, without compartments and without a range",
    "partition": f"`none`, or a number from 0 to {LAST_PARTITION}",
}


def is_element(element: tuple[int, ...] | None) -> bool:
    if element is None or element[0] != GRADE:
        return True
    return element[1] <= LAST_GRADE and all(1 <= number <= LAST_COMPARTMENT for number in element[2:])


def is_value(name: str, text: str) -> bool:
    """Whether a text is a value of this name in a label text."""
    try:
        value = VALUES[name](text)
    except ValueError:
        return False
    if not isinstance(value, Levels):
        return value <= LAST_PARTITION
    return all(map(is_element, [value.effective, *(value.range or ())]))


def element_wanted(element: str, kind: str, booted: set[str]) -> str | None:
    """What is expected in the place of an element of the label of a file (`vnode`) or a process (`proc`), where these modules are booted."""
    name, slash, value = element.partition("/")
    if not slash or not re.fullmatch("[a-z0-9_]+", name):
        return "an element: a name, a `/` and a value, as `biba/5`"
    if name not in MODULES:
        return f"one of the names {', '.join(f'`{known}`' for known in MODULES)}"
    if not is_value(name, value):
        return f"behind `{name}/` {VALUE_SAID[name]}"
    if kind == "vnode" and MODULES[name] == PARTITION:
        return "no partition, which a file hasn't"
    if kind == "vnode" and MODULES[name] != LOMAC and VALUES[name](value).range is not None:
        return "an element without a range, which processes alone have"
    return None if MODULES[name] in booted else f"an element of a module that is booted: there is no line `boot {MODULES[name]}` before"


def modules_of(text: str) -> set[str]:
    """The modules that a label text names."""
    return {MODULES[name] for name in (part.partition("/")[0] for part in text.split(",")) if name in MODULES}


def slips_of_label(word: Word, kind: str, booted: set[str]) -> list[Slip]:
    """The faults of the label of a file (`vnode`) or a process (`proc`), where these modules are booted."""
    slips, start = [], word.start
    elements = [] if word.text == "-" else word.text.split(",")
    for element in elements:
        wanted = element_wanted(element, kind, booted)
        if wanted is not None:
            slips.append(Slip("BadLabel", start, start + max(1, len(element)), wanted))
        start += len(element) + 1
    return slips or slips_of_ranges(word, elements, kind, booted)


def slips_of_ranges(word: Word, elements: list[str], kind: str, booted: set[str]) -> list[Slip]:
    """The faults of ranges in which the effective element doesn't lie: that of the last part of its policy, or the default."""
    slips, start = [], word.start
    slots = {module: place for place, module in enumerate(sorted(booted & set(LATTICES)))}
    label = boot_label(slots, kind, request_of(word.text))
    for element in elements:
        module = MODULES[element.partition("/")[0]]
        is_last = modules_of(word.text[start - word.start + len(element) :]).isdisjoint({module})
        if is_last and module in slots and not is_valid(label[slots[module]]):
            slips.append(Slip("BadLabel", start, start + len(element), "an effective element that lies in the range, as in `5(1-9)`"))
        start += len(element) + 1
    return slips
