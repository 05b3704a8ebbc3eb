"""The lines that `why` and `why all` write behind the text of a run: what they say of each call, and the rows of docs/MANUAL.md (WHY) that tell
what has to hold and what helps. Nothing of it is proved.
"""
from __future__ import annotations

import re
from dataclasses import dataclass, field
from pathlib import Path

from macsim_text import NAME, BadInput, Denial

KINDS = ("lowered", "let", "denied", "why", "also")
CALL = rf"(?P<task>{NAME}) (?P<line>[1-9]\d*)"
LINES = {
    "lowered": rf"lowered {CALL} (?P<check>\d+) (?P<title>\S+) (?P<old>\S+) (?P<new>\S+) (?P<object>\S+)",
    "let": rf"let {CALL} (?P<check>\d+) (?P<module>mac_[a-z]+) (?P<words>.+)",
    "denied": rf"denied {CALL} (?P<check>\d+) (?P<operation>[a-z_]+) (?P<subject>\S+) (?P<object>\S+)",
    "why": rf"why {CALL} (?P<module>-|mac_[a-z]+) (?P<mark>decides|also) (?P<errno>E[A-Z]+) (?P<words>.+)",
    "also": rf"also {CALL} (?P<module>mac_[a-z]+) (?P<words>rule .+)",
}
HEADER = "| By | TEST and WORDS | What has to hold | What helps |"
# Both tests are made of these, `observe` and `modify`: under mac_biba and mac_mls they hold together for the very element alone.
BOTH_TESTS = ("proc_signal", "proc_debug", "proc_sched")
# What stands for a word of the line: a word of capital letters in a form of the table.
PLACE = re.compile(r"[A-Z]+")


@dataclass
class Reason:
    """Why a policy denies a check. `others` are the words of the further rules that deny it."""

    module: str
    decides: bool
    errno: str
    words: str
    others: list[str] = field(default_factory=list)


@dataclass
class Told:
    """What the lines say of a call. `denied` is what its line says, by name, and None where there is none."""

    number: int
    lowered: list[dict[str, str]] = field(default_factory=list)
    let: list[dict[str, str]] = field(default_factory=list)
    denied: dict[str, str] | None = None
    reasons: list[Reason] = field(default_factory=list)


@dataclass
class Row:
    """A row of the table: by whom, the words with their places, and what has to hold and what helps, where such places stand too."""

    modules: list[str]
    form: str
    wanted: str
    remedy: str

    def found(self, reason: Reason) -> re.Match[str] | None:
        """What stands in the places, where the row is about such a reason."""
        pattern = PLACE.sub(lambda place: rf"(?P<{place[0]}>\S+)", self.form)
        return re.fullmatch(pattern, reason.words) if reason.module in self.modules else None


# What is read


def history_of(text: str) -> str:
    """The text of the run, in front of these lines."""
    return re.split(rf"^(?:{'|'.join(KINDS)}) ", text, maxsplit=1, flags=re.MULTILINE)[0]


def is_of_why(line: str) -> bool:
    return line.partition(" ")[0] in KINDS


def told_of(lines: list[tuple[int, str]], name: str) -> dict[tuple[str, int], Told]:
    """What lines say, each with its number, by the task and its line."""
    told: dict[tuple[str, int], Told] = {}
    for number, line in lines:
        kind = line.partition(" ")[0]
        found = re.fullmatch(LINES.get(kind, "(?!)"), line)
        if found is None:
            raise BadInput(name, number, f"no line of `why`: {line}")
        call = told.setdefault((found["task"], int(found["line"])), Told(number))
        if (kind == "why" and call.denied is None) or (kind == "also" and not call.reasons):
            raise BadInput(name, number, f"the line before this is lacking: {line}")
        add(call, kind, found.groupdict())
    return told


def add(call: Told, kind: str, found: dict[str, str]) -> None:
    if kind == "denied":
        call.denied = found
    elif kind == "why":
        call.reasons.append(Reason(found["module"], found["mark"] == "decides", found["errno"], found["words"]))
    elif kind == "also":
        call.reasons[-1].others.append(found["words"])
    else:
        {"lowered": call.lowered, "let": call.let}[kind].append(found)


def is_about(call: Told, denial: Denial) -> bool:
    """Whether the lines are about this denial, and whole."""
    if call.denied is None or (int(call.denied["check"]), call.denied["operation"]) != (denial.check, denial.operation):
        return False
    return [(reason.module, reason.errno) for reason in call.reasons if reason.decides] == [(denial.module, denial.errno)]


# The table


def table_of(manual: Path) -> list[Row]:
    try:
        lines = manual.read_text().split("\n")
    except OSError as error:
        raise BadInput(manual, None, error.strerror) from None
    if HEADER not in lines:
        raise BadInput(manual, None, "the table of reasons isn't there")
    rows = []
    for line in lines[lines.index(HEADER) + 2 :]:
        if not line.startswith("|"):
            break
        by, form, wanted, remedy = (cell.strip() for cell in line.strip("|").split("|"))
        rows.append(Row(re.findall(r"`([a-z_]+|-)`", by), form.strip("`"), wanted, remedy))
    return rows


def exact(remedy: str, module: str, operation: str) -> str:
    """What helps, without what the other test of the operation would deny."""
    if module in ("mac_biba", "mac_mls") and operation in BOTH_TESTS:
        return re.sub(r" or (?:higher|lower)\b", "", remedy)
    return remedy


def explained(table: list[Row], reason: Reason, denied: dict[str, str]) -> tuple[str, str]:
    """What has to hold, and what helps, with what was compared in its places."""
    for row in table:
        found = row.found(reason)
        if found is not None:
            policy = reason.module.removeprefix("mac_")
            values = {"SUBJECT": denied["subject"], "OBJECT": denied["object"], "POLICY": policy, **found.groupdict()}
            fill = lambda cell: re.sub(r"\b[A-Z]+\b", lambda place: values.get(place[0], place[0]), cell)
            return fill(row.wanted), exact(fill(row.remedy), reason.module, denied["operation"])
    raise BadInput("docs/MANUAL.md", None, f"it has no row for `{reason.words}` by {reason.module}")
