"""The ways of a report: the chains of a history, and what may come to whom by `reach`, each from one thing to another by hops. Nothing of it is proved."""
from __future__ import annotations

import re
from typing import NamedTuple

from macsim_chains import History, chain_told, steps_told
from macsim_chains import row_of as chain_of
from macsim_text import BadInput

TITLE = r"[a-z-]+:\S+"
REACH = re.compile(rf"reach ({TITLE}) ({TITLE})((?: \S+ [a-z_]+ {TITLE})+)")
RELABELS = re.compile(rf"relabels ({TITLE})((?: \S+)+)")
ACTOR_AND_OPERATION = 2


class Hop(NamedTuple):
    """What one thing gets of another, and by what, in short."""

    giver: str
    receiver: str
    by: str


class Way(NamedTuple):
    """A line of a telling: what it says in short, the picture that it is in, the things that it goes through, its hops, and the words below it."""

    line: str
    said: str
    picture: str
    things: list[str]
    hops: list[Hop]
    below: list[str]


class Ways(NamedTuple):
    """All ways of a telling, and who may relabel what: each line with its thing and the processes."""

    ways: list[Way]
    relabels: list[tuple[str, str, list[str]]]


def counted(count: int, one: str) -> str:
    return f"{count} {one}" if count == 1 else f"{count} {one}s"


# Chains


def said_of_step(told: str) -> str:
    """A line of a chain in short: its call, with the number of its line."""
    return told.rpartition(", line ")[2]


def way_of_chain(history: History, line: str, number: int, name: str) -> Way:
    row = chain_of(line, number, name)
    steps = steps_told(history, row, number, name)
    names = [history.name(step.thing) for step in steps]
    hops = [Hop(giver, step_name, said_of_step(step.told)) for giver, step_name, step in zip(names, names[1:], steps[1:])]
    came = f"from {names[0]} in {counted(len(hops), 'step')}" if hops else "its own"
    return Way(line, f"{row.title} {row.element}: {came}", row.policy, names, hops, chain_told(steps))


def ways_of_chains(history: History, lines: list[str], first: int, name: str) -> Ways:
    return Ways([way_of_chain(history, line, number, name) for number, line in enumerate(lines, first)], [])


# What may come to whom


def way_of_reach(start: str, end: str, words: list[str], line: str) -> Way:
    hops, below, giver = [], [], start
    for place in range(0, len(words), ACTOR_AND_OPERATION + 1):
        actor, operation, receiver = words[place : place + ACTOR_AND_OPERATION + 1]
        hops.append(Hop(giver, receiver, f"{operation} by {actor}"))
        below.append(f"    {' '.join((actor, operation, receiver))}")
        giver = receiver
    if giver != end:
        raise ValueError(f"it doesn't end at {end}")
    return Way(line, f"{start} to {end}: {counted(len(hops), 'hop')}", "reach", [start, *(hop.receiver for hop in hops)], hops, below)


def ways_of_reach(lines: list[str], first: int, name: str) -> Ways:
    ways, relabelled = [], []
    for number, line in enumerate(lines, first):
        reach, relabels = REACH.fullmatch(line), RELABELS.fullmatch(line)
        if reach is not None:
            try:
                ways.append(way_of_reach(reach[1], reach[2], reach[3].split(), line))
            except ValueError as fault:
                raise BadInput(name, number, fault) from None
        elif relabels is not None:
            relabelled.append((line, relabels[1], relabels[2].split()))
        else:
            raise BadInput(name, number, f"no line of what may come to whom: {line}")
    return Ways(ways, relabelled)
