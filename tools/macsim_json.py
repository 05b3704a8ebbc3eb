"""The lines that macsim prints as JSON, one object for each, and back. Nothing of it is proved.

Each kind of line is a row of LINES, each kind of reply a row of REPLIES, and each reason a row of TESTS: its text, with the names of fields in braces. What a
field holds stands in FIELDS by its name, or in OWN_FIELDS where a row has another of that name. So a new kind of line is a row, and a new field another.
"""
from __future__ import annotations

import json
import re
from collections.abc import Callable
from dataclasses import dataclass
from functools import cache
from typing import Any

from macsim_text import NAME, BadInput, Fault

LINES = {
    "boot": "boot {module} {slot}",
    "enter": "enter {task}",
    "leave": "leave {task}",
    "stale": "stale {task}",
    "waits": "waits {task} {inside}",
    "done": "done {task} {call} {reply}",
    "changed": "changed {task} {call} {reply}",
    "source": "source {policy} {title} {elements}",
    "matrix": "matrix {subject} {object} {letters}",
    "chain": "chain {policy} {title} {element} {origin}{steps}",
    "lowered": "lowered {task} {call} {check} {title} {old} {new} {object}",
    "let": "let {task} {call} {check} {module} {reason}",
    "denied": "denied {task} {call} {check} {operation} {subject} {object}",
    "why": "why {task} {call} {module} {mark} {errno} {reason}",
    "also": "also {task} {call} {module} {reason}",
    "error": "macsim: {said}",
}
REPLIES = {
    "ok": "ok",
    "bytes": "ok bytes {length} ={text}",
    "fd": "ok fd {fd}",
    "size": "ok size {size}",
    "stat": "ok stat {type} uid {uid} gid {gid} mode {mode} size {size}",
    "names": "ok names {count} {names}",
    "label": "ok label {label}",
    "modules": "ok modules {modules}",
    "rules": "ok rules {count}{rules}",
    "rule": "ok rule {rule}",
    "slot": "ok slot {slot}",
    "refused": "no {errno} - -",
    "denied": "no {errno} {operation} {decider} {check}",
}
TESTS = {
    "observe": "observe subject {subject} object {object}",
    "modify": "modify subject {subject} object {object}",
    "level": "level subject {subject} object {object}",
    "fit": "fit element {element} asked {asked}",
    "range": "range asked {asked} own {own}",
    "element": "element asked {element} own {own}",
    "present": "present object {object} own {own}",
    "plain": "plain asked {asked}",
    "equal": "equal subject {subject} own {own}",
    "equal_alone": "equal subject {subject}",
    "dominate": "dominate subject {subject} asked {element}",
    "dominate_object": "dominate subject {subject} object {object}",
    "privileged": "privileged subject {subject} own {own}",
    "partition": "partition subject {subject} object {object}",
    "join": "join asked {asked} uid {uid}",
    "rule": "rule {rule} wants {wants} gives {gives}",
    "user": "user subject {subject} object {object}",
    "port": "port {protocol} {port} uid {uid}",
    "privilege": "privilege {privilege} uid {uid}",
    "place": "place {place} {whose} {id} {protocol} {port}",
}


@dataclass(frozen=True)
class Field:
    """What stands in a place of a line: a pattern of it, and what it is in JSON and back. Where the value isn't of the kind, it is a fault."""

    pattern: str
    kind: type
    to_json: Callable[[str], Any] = str
    to_text: Callable[[Any], str] = str


def text(pattern: str) -> Field:
    return Field(pattern, str)


def optional(pattern: str) -> Field:
    """A word, or `-`, which is null."""
    return Field(f"-|{pattern}", object, lambda word: None if word == "-" else word, lambda value: "-" if value is None else value)


def several(field: Field, before: str, between: str, none: str) -> Field:
    """A list: each one behind a sign, the first behind another, and a text for none."""

    def to_json(word: str) -> list[Any]:
        return [] if word == none else [field.to_json(part) for part in word.removeprefix(before).split(between)]

    def to_text(values: list[Any]) -> str:
        return before + between.join(map(field.to_text, values)) if values else none

    one, sign = f"(?:{field.pattern})", re.escape(between)
    return Field(f"{re.escape(none)}|{re.escape(before)}{one}(?:{sign}{one})*", list, to_json, to_text)


def record(template: str, **fields: Field) -> Field:
    """An object in one word, by the text of its fields."""
    row = Row(template, fields)
    return Field(row.pattern(is_named=False), dict, row.object_of, row.text_of)


@dataclass(frozen=True)
class Row:
    """A text with fields in it."""

    template: str
    fields: dict[str, Field]

    def pattern(self, is_named: bool) -> str:
        parts = re.split(r"\{(\w+)\}", self.template)
        groups = [f"({'?P<' + part + '>' if is_named else '?:'}{self.fields[part].pattern})" for part in parts[1::2]]
        return "".join(re.escape(part) + group for part, group in zip(parts[::2], [*groups, ""]))

    def object_of(self, word: str) -> dict[str, Any]:
        found = compiled(self.pattern(is_named=True)).fullmatch(word)
        if found is None:
            raise Fault(f"`{word}` stands where `{self.template}` is wanted")
        return {name: self.fields[name].to_json(told) for name, told in found.groupdict().items()}

    def text_of(self, value: dict[str, Any]) -> str:
        names = re.findall(r"\{(\w+)\}", self.template)
        if sorted(value) != sorted(names):
            raise Fault(f"the fields {', '.join(value)} stand where {', '.join(names) or 'none'} are wanted")
        for name in names:
            if not isinstance(value[name], self.fields[name].kind) or isinstance(value[name], bool):
                raise Fault(f"{json.dumps(value[name])} stands where {name} is wanted")
        return self.template.format(**{name: self.fields[name].to_text(value[name]) for name in names})


@cache
def compiled(pattern: str) -> re.Pattern[str]:
    return re.compile(pattern)


# The tables, by the field that says which row of them an object is told by.
TABLES = {"line": LINES, "kind": REPLIES, "test": TESTS}


@cache
def table_of(called: str) -> list[tuple[str, Row, re.Pattern[str]]]:
    rows = [(kind, Row(template, {**FIELDS, **OWN_FIELDS.get((called, kind), {})})) for kind, template in TABLES[called].items()]
    return [(kind, row, compiled(row.pattern(is_named=True))) for kind, row in rows]


def told_by(called: str) -> Field:
    """An object that is told by a row of a table."""

    def to_json(word: str) -> dict[str, Any]:
        for kind, row, pattern in table_of(called):
            if pattern.fullmatch(word):
                return {called: kind, **row.object_of(word)}
        raise Fault(f"macsim prints no such line: {word}")

    def to_text(value: dict[str, Any]) -> str:
        fields = dict(value)
        kind = fields.pop(called, None)
        rows = {name: row for name, row, _ in table_of(called)}
        if kind not in rows:
            raise Fault(f"{json.dumps(kind)} stands where {called} is wanted")
        return rows[kind].text_of(fields)

    return Field(".+", dict, to_json, to_text)


NUMBER = Field("0|[1-9][0-9]*", int, int)
ELEMENT = text(r"low|high|equal|[0-9]+(?::[0-9]+(?:\+[0-9]+)*)?")
SLOT = Field("-|[0-9]", object, lambda word: None if word == "-" else int(word), lambda value: "-" if value is None else str(value))
TITLE = text("(?:proc|vnode|pipe|socket):[^ ]+")
MODULE = text("mac_[a-z]+")
ORIGIN = record("{id}@{event}", id=NUMBER, event=NUMBER)
STEP = record("{id}@{event}.{item}", id=NUMBER, event=NUMBER, item=NUMBER)
# Two elements, or none.
RANGE = Field(
    f"-|(?:{ELEMENT.pattern})-(?:{ELEMENT.pattern})",
    object,
    lambda word: None if word == "-" else word.split("-"),
    lambda value: "-" if value is None else "-".join(value),
)
LOADED = record("{module}:{slot}", module=MODULE, slot=SLOT)
RULE = record("{number} {rule}", number=NUMBER, rule=text("subject [^;]+"))
FIELDS = {
    **dict.fromkeys(("inside", "call", "length", "fd", "size", "uid", "gid", "count", "check", "port", "place", "id"), NUMBER),
    **dict.fromkeys(("title", "object"), TITLE),
    **dict.fromkeys(("old", "new"), ELEMENT),
    **dict.fromkeys(("wants", "gives"), text("a?r?s?w?x?|n")),
    "reason": told_by("test"),
    "mark": text("decides|also"),
    "protocol": text("tcp|udp"),
    "privilege": text("[A-Z_]+"),
    "whose": text("uid|gid"),
    "subject": text("proc:[^ ]+"),
    "module": MODULE,
    "slot": SLOT,
    "task": text(NAME),
    "reply": told_by("kind"),
    "policy": text("biba|mls|lomac"),
    "element": ELEMENT,
    "elements": several(ELEMENT, "", ",", "-"),
    "letters": text("[a-z-]+"),
    "origin": ORIGIN,
    "steps": several(STEP, " ", " ", ""),
    "said": text(".+"),
    "text": text("[^ ]*"),
    "type": text("reg|dir"),
    "mode": text("[0-7]+"),
    "names": Field("[^ ]+", list, lambda word: word.split(","), ",".join),
    "label": text("[^ ]+"),
    "modules": several(LOADED, "", ",", "-"),
    "rules": several(RULE, " ; ", " ; ", ""),
    "rule": NUMBER,
    "errno": text("E[A-Z]+"),
    "operation": text("[a-z_]+"),
    "decider": optional("mac_[a-z]+"),
}
NUMBERS = dict.fromkeys(("subject", "object", "asked"), NUMBER)
ELEMENTS = {**dict.fromkeys(("subject", "object"), ELEMENT), "asked": RANGE, "own": RANGE}
OWN_FIELDS = {
    ("line", "denied"): {"subject": text("(?:proc|socket):[^ ]+"), "object": optional(TITLE.pattern)},
    ("line", "why"): {"module": optional(MODULE.pattern)},
    **{("test", kind): ELEMENTS for kind in TESTS},
    **dict.fromkeys((("test", "partition"), ("test", "user"), ("test", "join")), NUMBERS),
}
LINE = told_by("line")


def each_line(whole: str, name: str, change: Callable[[str], str]) -> str:
    """The text with each line changed. A line that can't be is told by its number."""
    lines = whole.split("\n")
    if lines[-1]:
        raise BadInput(name, len(lines), "it ends inside a line")
    changed = []
    for number, line in enumerate(lines[:-1], 1):
        try:
            changed.append(change(line) + "\n")
        except Fault as fault:
            raise BadInput(name, number, fault) from None
    return "".join(changed)


def json_of(line: str) -> str:
    """The object of a line, which is told by it alone: the line comes back, byte for byte."""
    if re.search("[^ -~]", line):
        raise Fault("it has a byte that macsim doesn't print")
    value = LINE.to_json(line)
    if LINE.to_text(value) != line:
        raise Fault(f"macsim prints no such line: {line}")
    return json.dumps(value)


def line_of(told: str) -> str:
    """The line of an object."""
    try:
        value = json.loads(told)
    except ValueError as error:
        raise Fault(f"it is no JSON: {error}") from None
    if not isinstance(value, dict):
        raise Fault("it is no object")
    line = object_text(value)
    json_of(line)
    return line


def object_text(value: dict[str, Any]) -> str:
    try:
        return LINE.to_text(value)
    except (TypeError, AttributeError, KeyError) as error:
        raise Fault(f"a field isn't of its kind: {error}") from None
