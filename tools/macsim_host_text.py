"""The text that collect.sh writes: its sections, the lines of each, and columns of a line. Nothing of it is proved.

A line that hasn't the form of its section is a Fault, which the reader of the text tells with the line's number: nothing is guessed.
"""
from __future__ import annotations

import re
from collections.abc import Callable, Iterator
from dataclasses import dataclass
from typing import TypeVar

from macsim_host_remarks import Remarks
from macsim_text import BadInput, Fault

SECTIONS = ("uname", "kldstat", "sysctl", "ugidfw", "passwd", "group", "mount", "ls", "ps", "procstat")
END, RULES = "end", "ugidfw"
MOST_NUMBER = 4294967295
Read = TypeVar("Read")


@dataclass(frozen=True)
class Line:
    """A line, with its number in the whole text, from 1."""

    number: int
    text: str


@dataclass(frozen=True)
class Column:
    """What stands in a line, up to the blanks behind it."""

    name: str
    form: str


class HostText:
    """The sections of a text, by name. Every byte of it is a character of its own."""

    def __init__(self, name: str, sections: dict[str, list[Line]]) -> None:
        self.name, self.sections = name, sections

    def lines(self, section: str) -> list[Line]:
        """The lines of a section that say something."""
        return [line for line in self.sections.get(section, []) if line.text.strip()]

    def each(self, section: str, read: Callable[[Line], None]) -> None:
        """Reads each line of a section, and tells the number of a faulty one."""
        for line in self.lines(section):
            with_number(self.name, line, lambda: read(line))

    def rows(self, section: str, known: tuple[str, ...], spaced: str, remarks: Remarks) -> Iterator[tuple[Line, dict[str, str]]]:
        """The rows below a heading, by its words. One column may have spaces in it; those that aren't known are told and left out."""
        heading, *lines = self.lines(section) or [None]
        if heading is None:
            return
        names = heading.text.split()
        with_number(self.name, heading, lambda: judge_heading(names, spaced))
        for name in names:
            if name not in known:
                remarks.left_out("columns", f"the column {name} of {section}: what it says isn't known here")
        for line in lines:
            yield line, with_number(self.name, line, lambda: row_of(line.text, names, names.index(spaced)))


def with_number(name: str, line: Line, read: Callable[[], Read]) -> Read:
    try:
        return read()
    except Fault as fault:
        raise BadInput(name, line.number, fault) from None


# Sections


def host_text_of(text: str, name: str) -> HostText:
    """The sections. Each begins with `== NAME`, and the last is `== end`, by which a text that is cut is known."""
    sections: dict[str, list[Line]] = {}
    now: list[Line] | None = None
    lines = text.split("\n")
    for number, line in enumerate(lines[:-1], 1):
        heading = re.fullmatch(r"== (\S+)", line)
        if END in sections or (heading and heading[1] in sections):
            raise BadInput(name, number, "it goes on behind `== end`" if END in sections else f"there is a section `{heading[1]}` already")
        if heading:
            now = sections[heading[1]] = []
        elif now is None:
            raise BadInput(name, number, "it doesn't begin with a section `== NAME`, as what tools/collect.sh writes does")
        else:
            now.append(Line(number, line))
    if lines[-1] or END not in sections:
        raise BadInput(name, len(lines), "it ends before its line `== end`")
    return HostText(name, sections)


def tell_sections(text: HostText, remarks: Remarks) -> None:
    """Tells the sections that aren't known, and those that are lacking."""
    for section in text.sections:
        if section not in (*SECTIONS, END):
            remarks.left_out("sections", f"the section `{section}`: what it says isn't known here")
    for section in SECTIONS:
        if not text.lines(section) and section != RULES:
            remarks.beware("sections", f"the section `{section}` is lacking or empty: nothing of it is known")


# Lines


def columns_of(text: str, columns: list[Column]) -> dict[str, str]:
    """The columns of a line from the left. The last takes the rest of it, behind one space."""
    found, place = {}, len(text) - len(text.lstrip(" "))
    for column in columns:
        match = re.compile(rf"(?:{column.form})(?=\s|$)").match(text, place)
        if match is None:
            stands = f"`{text[place:].split(' ')[0]}` stands" if place < len(text) else "it ends"
            raise Fault(f"{stands} where {column.name} is wanted")
        found[column.name], place = match[0], match.end()
        place += 1 if column is columns[-2] else len(text[place:]) - len(text[place:].lstrip(" "))
    return found


def judge_heading(names: list[str], spaced: str) -> None:
    if spaced not in names:
        raise Fault(f"the heading has no column {spaced}")
    if len(set(names)) < len(names):
        raise Fault("the heading has a column twice")


def row_of(text: str, names: list[str], spaced: int) -> dict[str, str]:
    """The words of a row: those before the column with spaces from the left, those behind it from the right."""
    behind = len(names) - spaced - 1
    front = text.split(None, spaced)
    rest = front.pop() if len(front) > spaced else ""
    words = [*front, *(rest.rsplit(None, behind) if behind else [rest.strip()])]
    if len(words) < len(names) or not words[spaced].strip():
        raise Fault(f"it has {len(text.split())} words, and the heading has {len(names)} columns")
    return dict(zip(names, words))


def number_in(word: str, what: str, most: int = MOST_NUMBER) -> int:
    if not re.fullmatch(r"\d{1,10}", word) or int(word) > most:
        raise Fault(f"`{word}` stands where {what} is wanted")
    return int(word)


def shown(text: str) -> str:
    """The text in printing characters, with `\\xNN` for each other byte, for a space and for a backslash."""
    return "".join(byte if "!" <= byte <= "~" and byte != "\\" else f"\\x{ord(byte):02x}" for byte in text)


def said(text: str) -> str:
    """The same of a text with spaces, which stay."""
    return " ".join(map(shown, text.split(" ")))
