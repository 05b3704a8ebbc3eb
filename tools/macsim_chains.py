"""Reads the lines that `macsim chains` writes, and tells each chain in words, by the history that stands before them. Nothing of it is proved."""
from __future__ import annotations

import re
from collections import namedtuple
from collections.abc import Iterable
from typing import NamedTuple

from macsim_replay import Happening, Replay
from macsim_text import BadInput, Call, Event, Script
from macsim_things import Names, Thing

ROW = re.compile(r"chain (biba|mls|lomac) (\S+) (\S+) (\d+)@(\d+)((?: \d+@\d+\.\d+)*)")
STEP = re.compile(r"(\d+)@(\d+)\.(\d+)")
COUNTED = ("enter", "done", "leave", "changed")
INDENT = "    "
# How a check is told: the subject, these words, and the object.
WORDS = {
    "vnode_lookup": "looked it up in",
    "vnode_readdir": "listed it from",
    **dict.fromkeys(("vnode_open_read", "vnode_read", "pipe_read"), "read it from"),
    "vnode_exec": "ran it from",
    **dict.fromkeys(("vnode_stat", "pipe_stat"), "saw it by stat of"),
    "socket_receive": "received it from",
    **dict.fromkeys(("vnode_open_write", "vnode_write", "pipe_write"), "wrote it to"),
    **dict.fromkeys(("vnode_create", "vnode_unlink_dir"), "brought it into the entries of"),
    "vnode_unlink": "brought it to what it removed,",
    "vnode_setmode": "brought it into the mode of",
    "socket_send": "sent it by",
    "socket_deliver": "delivered it to",
    "proc_signal": "brought it by a signal to",
    "proc_sched": "brought it by a priority to",
    "proc_debug": "debugged",
}

# What an event did: the call, the process that made it, its checks, and what came or was relabelled by it.
Done = namedtuple("Done", "call caller checks made relabelled")


class Row(NamedTuple):
    """The words of a line: what a chain leads to, its element, where it begins, and its steps."""

    policy: str
    title: str
    element: str
    origin: str
    event: str
    steps: str


class Step(NamedTuple):
    """A word of a chain, the thing that it tells of, and what it means."""

    word: str
    thing: Thing
    told: str


class Mismatch(Exception):
    """What a chain says can't be so by the history."""


class History:
    """The events of a history by their numbers, and the things that ever came, by their ids."""

    def __init__(self, opening: Iterable[Thing]) -> None:
        self.names, self.number = Names(), 0
        self.things: list[Thing] = []
        self.done: dict[int, Done] = {}
        for thing in opening:
            self.add_thing(thing)

    @staticmethod
    def followed(script: Script, events: list[Event], name: str) -> History:
        """That of a script, by all lines of its history."""
        replay = Replay(script)
        history = History(replay.opening)
        for happening in replay.follow(events, name):
            history.add(happening)
        return history

    def add(self, happening: Happening) -> None:
        self.number += happening.event.kind in COUNTED
        if happening.call is not None:
            self.done[self.number] = Done(*happening[2:5], happening.made, happening.relabelled)
        if happening.made is not None:
            self.add_thing(happening.made)

    def add_thing(self, thing: Thing) -> None:
        self.things.append(thing)
        self.names.add(thing)

    def name(self, thing: Thing) -> str:
        return self.names.names[thing]

    def thing(self, number: int) -> Thing:
        """The thing of an id."""
        if number >= len(self.things):
            raise Mismatch("it names an id that no thing has")
        return self.things[number]


# Words


def told_line(call: Call) -> str:
    return f"line {call.number}: {call.text}"


def origin_told(history: History, thing: Thing, event: int) -> str:
    """Where a chain begins."""
    if event == 0:
        return f"{history.name(thing)} has it from the opening"
    done = history.done.get(event)
    if done is not None and done.made is thing:
        return f"{history.name(thing)} was made with it, {told_line(done.call)}"
    if done is not None and done.relabelled is not None and done.relabelled[0] is thing:
        return f"{history.name(thing)} was relabelled to it, {told_line(done.call)}"
    raise Mismatch(f"{history.name(thing)} got no element of its own at event {event}")


def step_told(history: History, giver: Thing, receiver: Thing, event: int, item: int) -> str:
    """How what a thing had came to the next one."""
    done = history.done.get(event)
    if done is None:
        raise Mismatch(f"event {event} is no call")
    if item == 0:
        if (done.caller, done.made) != (giver, receiver):
            raise Mismatch(f"event {event} makes no {history.name(receiver)}")
        return f"{history.name(giver)} made {history.name(receiver)} with it, {told_line(done.call)}"
    check = done.checks[item - 1] if item <= len(done.checks) else None
    if check is None or check.operation not in WORDS or {giver, receiver} != {check.subject, check.object}:
        raise Mismatch(f"check {item} of event {event} moves nothing from {history.name(giver)} to {history.name(receiver)}")
    said = f"{history.name(check.subject)} {WORDS[check.operation]} {history.name(check.object)}"
    handed = f", and {history.name(receiver)} got it" if check.operation == "proc_debug" else ""
    return f"{said}{handed}, {told_line(done.call)}"


def steps_of(history: History, row: Row) -> list[Step]:
    """What each word of a chain means, the origin first."""
    words = [(int(number), int(event), int(item)) for number, event, item in STEP.findall(row.steps)]
    things = [history.thing(number) for number in [int(row.origin), *(number for number, _, _ in words)]]
    if things[-1].title != row.title:
        raise Mismatch(f"it doesn't end at {row.title}")
    steps = [Step(f"{row.origin}@{row.event}", things[0], origin_told(history, things[0], int(row.event)))]
    for giver, receiver, (number, event, item) in zip(things, things[1:], words):
        steps.append(Step(f"{number}@{event}.{item}", receiver, step_told(history, giver, receiver, event, item)))
    return steps


def chain_told(steps: list[Step]) -> list[str]:
    """The lines below a chain: each has its word and what it means."""
    width = max(len(step.word) for step in steps)
    return [f"{INDENT}{step.word.ljust(width)}  {step.told}" for step in steps]


def steps_told(history: History, row: Row, number: int, name: str) -> list[Step]:
    """What a line of a chain means, which has to be one of the script."""
    try:
        return steps_of(history, row)
    except Mismatch as fault:
        raise BadInput(name, number, f"it doesn't belong to this script: {fault}") from None


# Lines


def row_of(line: str, number: int, name: str) -> Row:
    found = ROW.fullmatch(line)
    if found is None:
        raise BadInput(name, number, f"no line of a chain: {line}")
    return Row(*found.groups())
