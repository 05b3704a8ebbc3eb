"""Has the program print what a report shows of a script: the history, and what is told behind it, all of one order of the calls. Nothing of it is
proved.
"""
from __future__ import annotations

from pathlib import Path
from typing import NamedTuple

from macsim_command import ended, lines_before_steps, name_of_program, with_steps
from macsim_text import BadInput, Event, Script, events_of

# What may be told behind a history, in the order of the page, each by the words behind `run` or `step`.
WHY = "why"
TELLINGS = ("matrix", "chains", "reach")
# Words that were there before those behind `run` were.
SHORT = {"run matrix": "matrix", "run chains": "chains"}
UNKNOWN_WORDS = 2
TOO_MANY = {11: "There are too many chains to be printed (status 11).", 13: "There are too many ways to be printed (status 13)."}
# How often a script is run until its calls come in the order of the history.
MOST_RUNS = 20
STEPS_MOST = 65536
HISTORY = ("boot", "enter", "done", "leave", "changed", "waits", "stale", "source")


class Printed(NamedTuple):
    """What the program printed: the history with its sources, and the lines behind it."""

    history: str
    behind: list[str]
    too_many: str | None


class Told(NamedTuple):
    """What was told of a script: the lines behind the history by telling, and what stands in place of those that couldn't be had. A telling that
    the program doesn't know is in neither. The events and the name of the history are those of its lines."""

    order: str
    history: str
    events: list[Event]
    name: str
    behind: dict[str, list[str]]
    lacking: dict[str, str]


def parted(text: str) -> tuple[str, list[str]]:
    """The history of a text, and the lines behind it."""
    lines = text.splitlines(keepends=True)
    end = next((place for place, line in enumerate(lines) if line.split(" ", 1)[0] not in HISTORY), len(lines))
    return "".join(lines[:end]), [line.rstrip("\n") for line in lines[end:]]


class Teller:
    """A program, and a script that it runs in one order."""

    def __init__(self, program: str | Path | None, script: Script, order: str, whys: str) -> None:
        self.program, self.script, self.order, self.whys = program, script, order, whys
        self.text = "".join(f"{line}\n" for line in script.lines)

    def printed(self, words: str, text: str) -> Printed | None:
        """What is printed, or None where the program doesn't know the words."""
        status, told = ended(self.program, words, text)
        if status == UNKNOWN_WORDS and words in SHORT:
            status, told = ended(self.program, SHORT[words], text)
        if status == UNKNOWN_WORDS:
            return None
        if status != 0 and status not in TOO_MANY:
            raise BadInput(f"{name_of_program(self.program)} {words}", None, f"status {status}: {told.strip() or 'nothing was printed'}")
        return Printed(*parted(told), TOO_MANY.get(status))

    def first(self) -> Printed:
        """The history, with why its denials came where the program knows that."""
        found = self.printed(f"{self.order} {self.whys}", self.text) or self.printed(self.order, self.text)
        if found is None:
            raise BadInput(name_of_program(self.program), None, f"it doesn't know the word {self.order}")
        return found

    def stepped(self, events: list[Event]) -> str | None:
        """The script with the steps of a history, where there aren't too many."""
        steps = [step for event in events for step in steps_of_event(event)]
        return with_steps(lines_before_steps(self.script), steps) if len(steps) <= STEPS_MOST else None

    def behind(self, telling: str, history: str, stepped: str | None) -> Printed | str | None:
        """What is told behind this very history; None where the program doesn't know the word, and else why it can't be had."""
        words = f"{self.order} {telling}"
        found = self.printed(words, self.text)
        if found is None or found.history == history:
            return found
        by_steps = stepped and self.printed(f"step {telling}", stepped)
        if by_steps and by_steps.history == history:
            return by_steps
        for _ in range(1, MOST_RUNS):
            found = self.printed(words, self.text)
            if found is not None and found.history == history:
                return found
        return f"The calls came in the order of the history above in none of {MOST_RUNS} runs, so there is nothing to show of it."


def steps_of_event(event: Event) -> list[str]:
    """The steps that make an event of a `run` again."""
    steps = {"enter": ["enter"], "done": ["plan", "done"], "leave": ["leave"], "changed": ["change"]}
    return [f"{step} {event.task}" for step in steps.get(event.kind, [])]


def told_of(program: str | Path | None, script: Script, order: str, whys: str) -> Told:
    """All that the program tells of a script."""
    teller = Teller(program, script, order, whys)
    first, name = teller.first(), f"what macsim {order} printed"
    events = events_of(first.history, name)
    told = Told(order, first.history, events, name, {WHY: first.behind}, {})
    stepped = teller.stepped(events) if order == "run" else None
    for telling in TELLINGS:
        found = teller.behind(telling, first.history, stepped)
        if isinstance(found, str):
            told.lacking[telling] = found
        elif found is not None and found.too_many is not None:
            told.lacking[telling] = found.too_many
        elif found is not None:
            told.behind[telling] = found.behind
    return told
