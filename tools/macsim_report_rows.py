"""What a report shows of each line of a history: its line of the script, why it was denied, and the tasks, things and modules that it is about.
Nothing of it is proved.
"""
from __future__ import annotations

import re
from collections import defaultdict
from collections.abc import Iterable
from typing import NamedTuple

from macsim_chains import History
from macsim_replay import Happening, Replay
from macsim_report_run import WHY, Told
from macsim_text import BadInput, Event, Script

REASON = re.compile(r"(lowered|let|denied|why|also) (\S+) ([1-9]\d{0,3}) (\S.*)")
LOWERING, RULES = "mac_lomac", "mac_bsdextended"
# The places of the words that name modules and things in a line of reasons.
MODULE_AT = {"let": 4, "why": 3, "also": 3}
TITLES_AT = {"lowered": (4, 7), "denied": (5, 6)}
# The letter that the keys of each kind begin with.
KINDS = {"task": "a", "thing": "b", "module": "c"}


class Facets:
    """The tasks, things and modules of a page, by which it is filtered, each with a key."""

    def __init__(self) -> None:
        self.keys: dict[str, dict[str, str]] = {kind: {} for kind in KINDS}

    def key(self, kind: str, name: str) -> str:
        keys = self.keys[kind]
        return keys.setdefault(name, f"{KINDS[kind]}{len(keys)}")

    def of(self, tasks: Iterable[str], things: Iterable[str], modules: Iterable[str]) -> str:
        """The keys of what something is about, in one text."""
        found = [("task", tasks), ("thing", things), ("module", modules)]
        return " ".join(dict.fromkeys(self.key(kind, name) for kind, names in found for name in names))

    def of_titles(self, titles: Iterable[str], modules: Iterable[str]) -> str:
        """The keys of things, and of the tasks whose processes are among them."""
        told = list(titles)
        return self.of([task_of(title) for title in told if title.startswith("proc:")], told, modules)


class Reason(NamedTuple):
    """A line of why a call was denied, or of what came of a check, and its words."""

    text: str
    words: list[str]

    def modules(self) -> list[str]:
        kind = self.words[0]
        named = [self.words[place] for place in [MODULE_AT.get(kind, 0)] if place] + [LOWERING] * (kind == "lowered")
        return [module for module in named if module.startswith("mac_")]

    def titles(self) -> list[str]:
        return [self.words[place] for place in TITLES_AT.get(self.words[0], ()) if ":" in self.words[place]]


class Row(NamedTuple):
    """A line of a history, with the number of its line of the script, its keys, and its reasons."""

    event: Event
    line: int | None
    keys: str
    is_denied: bool
    reasons: list[Reason]

    def is_reply(self) -> bool:
        return self.event.reply is not None

    def is_refused(self) -> bool:
        return self.event.reply is not None and self.event.reply.startswith("no ") and not self.is_denied


class Followed(NamedTuple):
    """A history that was followed: its rows without the sources, the things that came, and how all ended."""

    rows: list[Row]
    history: History
    replay: Replay


def task_of(title: str) -> str:
    """The task of a process, also of a child."""
    return title.removeprefix("proc:").partition("#")[0].partition(".")[0]


def reasons_of(told: Told) -> dict[tuple[str, int], list[Reason]]:
    """The lines of reasons by the task and the number of the call."""
    found = defaultdict(list)
    for place, line in enumerate(told.behind[WHY], told.history.count("\n") + 1):
        match, words = REASON.fullmatch(line), line.split(" ")
        least = max(TITLES_AT.get(words[0], (MODULE_AT.get(words[0], 0),))) + 1
        if match is None or len(words) < least:
            raise BadInput(told.name, place, f"no line of why a call was denied: {line}")
        found[match[2], int(match[3])].append(Reason(line, words))
    return found


def modules_of(happening: Happening, reasons: list[Reason]) -> list[str]:
    """The modules that a call is about: those that denied it, and what it loads, labels or changes the rules of."""
    if happening.event.kind == "boot":
        return [happening.event.text.split(" ")[1]]
    named = [module for reason in reasons for module in reason.modules()]
    if happening.denial is not None and happening.denial.module != "-":
        named.append(happening.denial.module)
    if happening.call is None:
        return named
    words = happening.call.words
    asked = [*happening.relabelled[1]] if happening.relabelled is not None else []
    loaded = words[1:2] if words[0] in ("kldload", "kldunload") else []
    return [*named, *asked, *loaded, *[RULES] * (words[0] == "ugidfw")]


def things_of(happening: Happening, reasons: list[Reason]) -> list[str]:
    checked = [thing for check in happening.checks for thing in (check.subject, check.object)]
    own = [happening.caller, happening.made, *(happening.relabelled or ())[:1]]
    titles = [thing.title for thing in [*own, *checked] if thing is not None]
    return [*titles, *(title for reason in reasons for title in reason.titles())]


def row_of(happening: Happening, reasons: list[Reason], facets: Facets) -> Row:
    event = happening.event
    tasks = [event.task] if event.task is not None else []
    keys = facets.of(tasks, things_of(happening, reasons), modules_of(happening, reasons))
    return Row(event, happening.line, keys, happening.denial is not None, reasons)


def followed(script: Script, told: Told, facets: Facets) -> Followed:
    """The lines of a history, each with what it is about."""
    replay, reasons, rows = Replay(script), reasons_of(told), []
    history = History(replay.opening)
    facets.of(script.tasks, (thing.title for thing in replay.opening), (boot.module for boot in script.boots))
    for happening in replay.follow(told.events, told.name):
        history.add(happening)
        event = happening.event
        if event.kind != "source":
            of_event = reasons.pop((event.task, event.line), []) if event.reply is not None else []
            rows.append(row_of(happening, of_event, facets))
    if reasons:
        task, line = next(iter(reasons))
        raise BadInput(told.name, None, f"it tells why of line {line} of task {task}, and has no such line")
    return Followed(rows, history, replay)
