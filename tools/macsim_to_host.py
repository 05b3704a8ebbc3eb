"""Commands for a machine of a script and its history, and the labels of its files as setfsmac(8) takes them. Nothing of it is proved."""
from __future__ import annotations

import re
import shlex
from dataclasses import dataclass, field

from macsim_host_remarks import Remarks
from macsim_host_rules import Unsayable, rule_there
from macsim_labels import LATTICES, PARTITION, Label, value_text
from macsim_replay import Happening, Replay
from macsim_text import TUNABLE, BadInput, Event, Fault, Script, number_of

# How login.conf(5) has a colon in a value.
BACKSLASH_COLON = "\\072"
# The calls that have a command.
COMMANDS = ("setfmac", "setpmac", "ugidfw", "sysctl", "chmod", "kldload", "kldunload")
MULTILABEL = "a file system needs its flag multilabel (tunefs -l enable, while it isn't mounted), and else setfmac is refused there"
RESERVED = "sysctl net.inet.ip.portrange.reservedhigh=0 is needed besides, and opens the low ports to all where mac_portacl isn't loaded"


@dataclass
class Commands:
    """What is to be done on a machine: lines of files that are read at boot, commands, and comments; and the labels of files, by path."""

    boot: list[str] = field(default_factory=list)
    lines: list[str] = field(default_factory=list)
    labels: dict[str, tuple[bool, str]] = field(default_factory=dict)


def quoted(words: list[str]) -> str:
    return " ".join(map(shlex.quote, words))


def whole_label(slots: dict[str, int], label: Label, with_partition: bool) -> str:
    """A label with a part for each policy: what a text leaves out stays on the machine as it was there."""
    modules = [module for module in (*LATTICES, PARTITION) if label.get(slots.get(module)) is not None]
    return ",".join(value_text(module, label[slots[module]]) for module in modules if module in LATTICES or with_partition)


def rule_words(words: list[str]) -> str:
    """The rule, with its `!` quoted: csh(1), which root has, takes it for itself."""
    try:
        return rule_there(words).replace("!", "'!'")
    except Fault as fault:
        raise Unsayable(fault) from None


class Writer:
    """Writes the commands as the history goes on."""

    def __init__(self, replay: Replay) -> None:
        self.replay, self.script = replay, replay.script
        self.commands = Commands()

    def opening(self) -> None:
        """What is there before the first call."""
        self.commands.boot += [f'/boot/loader.conf: {boot.module}_load="YES"' for boot in self.script.boots]
        if self.script.revocation is not None:
            self.commands.boot.append(f"/etc/sysctl.conf: {TUNABLE}={int(self.script.revocation)}")
            self.commands.lines.append(quoted(["sysctl", f"{TUNABLE}={int(self.script.revocation)}"]))
        for thing, label in self.replay.opening.items():
            text = whole_label(self.replay.slots, label, thing.kind == "proc")
            if thing.kind == "vnode" and thing.number and text:
                self.label_file(thing.title.partition(":")[2], thing.facts.is_directory, text)
            elif thing.kind == "proc" and text:
                login = f":label={text.replace(':', BACKSLASH_COLON)}: and cap_mkdb /etc/login.conf"
                self.commands.lines.append(f"# {thing.name}: setpmac {shlex.quote(text)} COMMAND, or in its class of /etc/login.conf {login}")

    def label_file(self, path: str, is_directory: bool, label: str) -> None:
        self.commands.labels[path] = (is_directory, label)
        self.commands.lines.append(quoted(["setfmac", "-h", label, path]))

    def follow(self, happening: Happening) -> None:
        """Writes what a call does, where it was done."""
        event, call = happening.event, happening.call
        if call is None:
            return
        if call.words[0] == "unlink" and event.reply == "ok":
            self.commands.labels.pop(call.words[1], None)
        elif call.words[0] in COMMANDS and call.words[:2] != ["ugidfw", "list"]:
            if event.reply.startswith("ok"):
                self.write(happening)
            else:
                self.commands.lines.append(f"# line {call.number}, not done here ({event.reply}): {call.text}")

    def write(self, happening: Happening) -> None:
        call, words = happening.call, happening.call.words
        if words[0] == "setpmac":
            text = whole_label(happening.slots, happening.relabelled[0].label, True)
            self.commands.lines.append(f"# line {call.number}, {happening.caller.name}: setpmac {shlex.quote(text)} COMMAND, which relabels no process that runs")
        elif words[0] == "setfmac":
            thing = happening.relabelled[0]
            self.label_file(words[2], thing.facts.is_directory, whole_label(happening.slots, thing.label, False))
        elif words[0] == "ugidfw":
            self.write_rule(happening)
        elif words[0] == "chmod":
            self.commands.lines.append(quoted(["chmod", words[2], words[1]]))
        else:
            self.commands.boot += [f"/etc/sysctl.conf: {words[1]}"] if words[0] == "sysctl" else []
            self.commands.lines.append(quoted(words))

    def write_rule(self, happening: Happening) -> None:
        call, words = happening.call, happening.call.words
        if words[1] == "remove":
            self.commands.lines.append(f"ugidfw remove {number_of(words[2])}")
            return
        is_added = words[1] == "add"
        number = happening.event.reply.removeprefix("ok rule ") if is_added else number_of(words[2])
        try:
            self.commands.lines.append(f"ugidfw set {number} {rule_words(words[2 if is_added else 3 :])}")
        except Unsayable as why:
            self.commands.lines.append(f"# line {call.number}, rule {number} has no words on the machine, and stays there as it was: {why}: {call.text}")


def commands_of(script: Script, events: list[Event], name: str) -> Commands:
    """The commands of a script, by the history with that name. Where these don't fit each other it is BadInput."""
    try:
        replay = Replay(script)
    except ValueError as fault:
        raise BadInput(script.name, None, fault) from None
    writer = Writer(replay)
    writer.opening()
    for happening in replay.follow(events, name):
        writer.follow(happening)
    return writer.commands


def remarks_of(script: Script) -> Remarks:
    """What misleads about the commands of a script. The comments of tools/from-host say which of its paths are others on the machine."""
    remarks, modules = Remarks(), [boot.module for boot in script.boots]
    others = sum(re.match(r"# /\S* (?:is|stands for) ", line) is not None for line in script.lines)
    if others:
        told = f"{others} comments of the script tell of paths that stand for more, or have other names"
        remarks.beware("paths", f"{told}: a command here is about its own path alone")
    remarks.beware("all", "modes, owners and ACLs are judged on the machine besides")
    if set(modules) & set(LATTICES):
        remarks.beware("mounts", MULTILABEL)
    if "mac_portacl" in modules:
        remarks.beware("ports", RESERVED)
    return remarks


def script_of_commands(commands: Commands, script: Script) -> str:
    """The commands as a script of sh(1)."""
    head = [*remarks_of(script).all(), *commands.boot]
    return "".join(f"{line}\n" for line in ["#!/bin/sh", *(f"# {line}" for line in head), *commands.lines])


def specification(commands: Commands) -> str:
    """The labels as a file for `setfsmac -ef FILE /`: a line for each path, which fits no other, so their order is no matter."""
    lines = []
    for path, (is_directory, label) in sorted(commands.labels.items()):
        exact = re.sub(r"([.+*?()\[\]{}|^$\\])", r"\\\1", path)
        lines.append(f"{exact}\t{'-d' if is_directory else '--'}\t{label}")
    return "".join(f"{line}\n" for line in lines)
