"""Reads scripts of macsim and the histories that it prints, for the tools beside this file. Nothing of it is proved.

Scripts are read by the grammar of docs/MANUAL.md (THE SCRIPT), without its limits and without what rules and label texts say: those the
program judges. What can't be read is BadInput, which tells the file and the line; so no tool answers by a part of its input.
"""
from __future__ import annotations

import re
from collections import namedtuple

# A script. Each of its parts has the number of its line, from 1; `lines` are all lines as they stand there, comments too. `steps` is None
# where the script has no such part, `files` and `tasks` are by path and by name. `revocation` is the value of the tunable, None without its line.
Script = namedtuple("Script", "name lines boots revocation files tasks steps")
Boot = namedtuple("Boot", "number module")
File = namedtuple("File", "number path is_directory uid gid mode label")
Task = namedtuple("Task", "number name uid groups label calls")
# `child` is the name behind `@`, or None; `words` are the call's name and its arguments.
Call = namedtuple("Call", "number text child words")
Step = namedtuple("Step", "number kind task")

# A line of a history: its number and text, its first word, and of `done` and `changed` the task, its line and the reply.
Event = namedtuple("Event", "number text kind task line reply")
# What the reply to a denied call says.
Denial = namedtuple("Denial", "errno operation module check")


# How many characters of what is wrong are told.
MOST_SAID = 300


class BadInput(Exception):
    """An input that can't be read, or doesn't belong to another."""

    def __init__(self, name: object, number: int | None, fault: object) -> None:
        said = str(fault)
        said = said if len(said) <= MOST_SAID else f"{said[:MOST_SAID]}.."
        super().__init__(f"{name} line {number}: {said}" if number else f"{name}: {said}")


class Fault(Exception):
    """What is wrong with the words of a line."""


# Numbers

# Leading zeros may be any number.
DIGITS = "0*[0-9]{1,10}"


def number_of(word: str) -> int:
    """The value of DIGITS."""
    return int(word[-10:])


# Words

COMPONENT = r"/(?!\.{1,2}(?:/|$))[A-Za-z0-9._-]{1,32}"
NAME = r"[A-Za-z0-9_-]{1,32}"
# The words of the manual that stand for others. Each other word of a form stands there itself.
WORDS = {
    "PATH": rf"/|(?:{COMPONENT}){{1,8}}",
    "KIND": "reg|dir",
    "N": DIGITS,
    "OCTAL": "0*[0-7]{1,4}",
    "GROUPS": f"{DIGITS}(?:,{DIGITS}){{0,15}}",
    "NAME": NAME,
    "PROCESS": rf"{NAME}(?:\.{NAME})?",
    "L": ".+",
    "LABEL": ".+",
    "WORD": ".+",
    "MODULE": "mac_biba|mac_mls|mac_lomac|mac_partition|mac_bsdextended|mac_priority|mac_seeotheruids|mac_portacl",
    "PRIVILEGE": "KLD_LOAD|KLD_UNLOAD|MAC_PARTITION|SCHED_RTPRIO|SCHED_IDPRIO",
    "NAME=VALUE": "[^=]*=.*",
    "MODE": "r|w|rw",
    "FD": "0*(?:[0-9]|1[0-5])",
    "PROTOCOL": "tcp|udp",
    "PORT": "0*[0-9]{1,5}",
    "TEXT": r"(?:[^\\]|\\[0-9A-Fa-f]{2})+",
}
CALLS = {
    **dict.fromkeys(("exit", "getpmac", "kldstat"), ""),
    **dict.fromkeys(("see", "signal", "debug", "sched"), "PROCESS"),
    **dict.fromkeys(("exec", "create", "mkdir", "read", "stat", "getfmac", "readdir", "unlink"), "PATH"),
    **dict.fromkeys(("fork", "pipe", "socket", "pread", "pstat", "recv", "seesock"), "NAME"),
    **dict.fromkeys(("kldload", "kldunload"), "WORD"),
    "priv": "PRIVILEGE",
    "setpmac": "LABEL",
    "write": "PATH TEXT",
    "open": "PATH MODE",
    "fread": "FD",
    "fwrite": "FD TEXT",
    "close": "FD",
    "setfmac": "LABEL PATH",
    "chmod": "PATH OCTAL",
    "pwrite": "NAME TEXT",
    "setpipemac": "LABEL NAME",
    "setsockmac": "LABEL NAME",
    "bind": "NAME PROTOCOL PORT",
    "send": "NAME NAME TEXT",
    "sysctl": "NAME=VALUE",
}
UGIDFW = {"list": "", "add": "", "set": "N", "remove": "N"}
STEPS = ("enter", "plan", "done", "leave", "change")
# The only tunable, the module that has it, and its values.
TUNABLE, TUNED = "security.mac.biba.revocation_enabled", "mac_biba"
SWITCH = {"0": False, "1": True}


def is_word(word: str, want: str) -> bool:
    return re.fullmatch(WORDS[want], word) is not None if want in WORDS else word == want


def match_words(words: list[str], form: str) -> None:
    """Faults where the words aren't those of the form."""
    wanted = form.split()
    for word, want in zip(words, wanted):
        if not is_word(word, want):
            raise Fault(f"`{word}` stands where {want} is wanted")
    if len(words) < len(wanted):
        raise Fault(f"it ends where {wanted[len(words)]} is wanted")
    if len(words) > len(wanted):
        raise Fault(f"`{words[len(wanted)]}` is too much")


def match_ugidfw(words: list[str]) -> None:
    if not words or words[0] not in UGIDFW:
        raise Fault(f"there is no call `{' '.join(['ugidfw', *words[:1]])}`")
    arguments = len(UGIDFW[words[0]].split())
    has_rule = words[0] in ("add", "set")
    match_words(words[1 : 1 + arguments] if has_rule else words[1:], UGIDFW[words[0]])
    if has_rule and len(words) == 1 + arguments:
        raise Fault("it ends where a rule is wanted")


def match_call(words: list[str]) -> None:
    if not words:
        raise Fault("it ends where a call is wanted")
    if words[0] == "ugidfw":
        match_ugidfw(words[1:])
    elif words[0] in CALLS:
        match_words(words[1:], CALLS[words[0]])
    else:
        raise Fault(f"there is no call `{words[0]}`")


# Scripts


class ScriptReader:
    """Reads the lines of a script one after another."""

    def __init__(self, name: str, lines: list[str]) -> None:
        self.script = Script(name, lines, [], None, {}, {}, None)
        # The part that is read, and the task whose lines are.
        self.part, self.task = "boot", None

    def read_boot(self, number: int, words: list[str]) -> None:
        match_words(words[1:], "MODULE")
        if words[1] in (boot.module for boot in self.script.boots):
            raise Fault(f"{words[1]} is booted already")
        self.script.boots.append(Boot(number, words[1]))

    def read_tunable(self, number: int, words: list[str]) -> None:
        match_words(words[1:], "NAME=VALUE")
        name, _, value = words[1].partition("=")
        if name != TUNABLE or TUNED not in (boot.module for boot in self.script.boots):
            raise Fault(f"there is no tunable {name} of a module that is booted")
        if value not in SWITCH:
            raise Fault(f"`{value}` is neither 0 nor 1")
        if self.script.revocation is not None:
            raise Fault(f"{name} is set already")
        self.script = self.script._replace(revocation=SWITCH[value])

    def read_file(self, number: int, words: list[str]) -> None:
        has_text = len(words) > 11 and words[2] == "reg"
        match_words(words[1:], "PATH KIND uid N gid N mode OCTAL label L" + " text TEXT" * has_text)
        path, kind, _, uid, _, gid, _, mode, _, label = words[1:11]
        if path == "/" or path in self.script.files:
            raise Fault(f"{path} is there already")
        directory = path.rpartition("/")[0]
        if directory and not (directory in self.script.files and self.script.files[directory].is_directory):
            raise Fault(f"there is no directory {directory}")
        self.script.files[path] = File(number, path, kind == "dir", number_of(uid), number_of(gid), int(mode, 8), label)

    def read_task(self, number: int, words: list[str]) -> None:
        match_words(words[1:], "NAME uid N gid GROUPS label L")
        name, _, uid, _, groups, _, label = words[1:]
        if name in self.script.tasks:
            raise Fault(f"there is a task {name} already")
        self.task = Task(number, name, number_of(uid), [number_of(group) for group in groups.split(",")], label, [])

    def read_in_task(self, number: int, words: list[str]) -> None:
        if words == ["end"]:
            self.script.tasks[self.task.name] = self.task
            self.task = None
            return
        child = words[0][1:] if words[0].startswith("@") else None
        if child is not None:
            match_words([child], "NAME")
        call = words[child is not None :]
        match_call(call)
        self.task.calls.append(Call(number, " ".join(words), child, call))

    def read_in_steps(self, number: int, words: list[str]) -> None:
        if words == ["end"]:
            self.part = "end"
        elif words[0] in STEPS:
            match_words(words[1:], "NAME")
            self.script.steps.append(Step(number, words[0], words[1]))
        else:
            raise Fault(f"there is no step `{words[0]}`")

    def read_part(self, number: int, words: list[str]) -> None:
        """Reads a line outside tasks and steps. The parts stand in this order."""
        parts = ("boot", "tunable", "file", "task", "steps")
        if words[0] not in parts or self.part not in parts[: parts.index(words[0]) + 1]:
            raise Fault(f"`{words[0]}` may not stand here")
        self.part = words[0]
        if words[0] == "steps":
            match_words(words[1:], "")
            self.script = self.script._replace(steps=[])
        else:
            readers = {"boot": self.read_boot, "tunable": self.read_tunable, "file": self.read_file, "task": self.read_task}
            readers[words[0]](number, words)

    def read_line(self, number: int, line: str) -> None:
        if re.search(r"[^\t -~]", line):
            raise Fault("it has a byte that may not stand in a script")
        words = line.split()
        if not words or words[0].startswith("#"):
            return
        if self.task is not None:
            self.read_in_task(number, words)
        elif self.part == "steps":
            self.read_in_steps(number, words)
        else:
            self.read_part(number, words)


def script_of(text: str, name: str) -> Script:
    lines = text.removesuffix("\n").split("\n") if text else []
    reader = ScriptReader(name, lines)
    for number, line in enumerate(lines, 1):
        try:
            reader.read_line(number, line)
        except Fault as fault:
            raise BadInput(name, number, fault) from None
    if reader.task is not None or reader.part == "steps":
        raise BadInput(name, len(lines) + 1, "the script ends inside a task or the steps")
    return reader.script


# Histories

# The words of each kind of line, but for what is handed back with `ok` and the elements of a source, which may hold any.
DENIED = r"no (E[A-Z]+) ([a-z_]+) (-|mac_[a-z]+) ([1-9]\d?)"
TASK = rf"(?P<task>{NAME})"
EVENTS = {
    "boot": r"boot mac_[a-z]+ (?:\d|-)",
    **dict.fromkeys(("enter", "leave", "stale"), rf"[a-z]+ {TASK}"),
    "waits": rf"waits {TASK} [1-9]\d?",
    **dict.fromkeys(("done", "changed"), rf"[a-z]+ {TASK} (?P<line>[1-9]\d{{0,3}}) (?P<reply>ok(?: .+)?|no E[A-Z]+ - -|{DENIED})"),
    "source": r"source (?:biba|mls|lomac) \S+ \S+",
}


def event_of(line: str, number: int, name: str) -> Event:
    if re.search("[^ -~]", line):
        raise BadInput(name, number, "it has a byte that may not stand in a history")
    kind = line.partition(" ")[0]
    found = re.fullmatch(EVENTS.get(kind, "(?!)"), line)
    if found is None:
        said = "macsim printed no history, but an error" if kind == "macsim:" else "no line of a history"
        raise BadInput(name, number, f"{said}: {line}")
    told = found.groupdict()
    return Event(number, line, kind, told.get("task"), int(told["line"]) if "line" in told else None, told.get("reply"))


def events_of(text: str, name: str) -> list[Event]:
    if text and not text.endswith("\n"):
        raise BadInput(name, text.count("\n") + 1, "the history ends inside a line")
    return [event_of(line, number, name) for number, line in enumerate(text.split("\n")[:-1], 1)]


def denial_of(reply: str | None) -> Denial | None:
    """What a reply says of a denial, or None where the call wasn't denied."""
    found = re.fullmatch(DENIED, reply or "")
    return found and Denial(found[1], found[2], found[3], int(found[4]))
