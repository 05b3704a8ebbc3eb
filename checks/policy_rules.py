"""What the policies look at, by operation, and which are listed as a history goes on, in walk order, each with its settings as the
changes before have left them: by rules of their own, as docs/MANUAL.md (POLICIES, RULES, Settings) says it. Stands on the tools, which
read scripts.
"""
from __future__ import annotations

import sys
from pathlib import Path
from typing import NamedTuple

ROOT = Path(__file__).resolve().parent.parent
sys.path.insert(0, str(ROOT / "tools"))

from macsim_labels import BIBA, LOMAC, MLS
from macsim_text import Script, number_of
from macsim_things import Credential, FileFacts

RULES, USERS, PORTS = "mac_bsdextended", "mac_seeotheruids", "mac_portacl"
# Those that can't be unloaded: the static list.
STATIC = (BIBA, MLS, LOMAC)
SETUID, SETGID = 0o4000, 0o2000
# What the three policies of elements test, by operation, with the error where something isn't observed.
OBSERVED = {
    **dict.fromkeys("vnode_lookup vnode_readdir vnode_open_read vnode_read vnode_exec vnode_stat".split(), "EACCES"),
    **dict.fromkeys("pipe_read pipe_stat socket_receive".split(), "EACCES"),
    **dict.fromkeys("proc_visible proc_signal proc_debug proc_sched".split(), "ESRCH"),
    "socket_visible": "ENOENT",
}
MODIFIED = set(
    "vnode_open_write vnode_write vnode_create vnode_unlink_dir vnode_unlink vnode_setmode"
    " pipe_write socket_send proc_signal proc_debug proc_sched".split()
)
TRANSFERS = ("vnode_read", "vnode_write")
# What mac_partition looks at.
HIDDEN = {operation: errno for operation, errno in OBSERVED.items() if operation.startswith("proc_") or operation == "socket_visible"}
# The letters that rules about files have to give; what goes through an open file wants none.
WANTED = {
    **dict.fromkeys(TRANSFERS, ""),
    **dict.fromkeys(("vnode_open_read", "vnode_readdir"), "r"),
    **dict.fromkeys(("vnode_open_write", "vnode_create", "vnode_unlink_dir", "vnode_unlink"), "w"),
    **{"vnode_exec": "rx", "vnode_stat": "s", "vnode_lookup": "x", "vnode_setmode": "a"},
}


class Seen(NamedTuple):
    """What a side of a rule about files looks at."""

    uid: int
    groups: list[int]
    file: FileFacts | None
    subject: Credential


class Rule(NamedTuple):
    """A rule about files that matches: its number, and the letters that it gives."""

    number: int
    letters: str


class Place(NamedTuple):
    """A rule about ports: what it is about, its id, the protocol and the port."""

    kind: str
    id: int
    protocol: str
    port: int


# Rules about files


def is_within(number: int, text: str) -> bool:
    first, _, last = text.partition(":")
    return number_of(first) <= number <= number_of(last or first)


def holds(test: str, value: str, seen: Seen) -> bool:
    """Whether one test of a rule holds. There are no real and saved ids but the effective one."""
    file = seen.file
    if test == "uid":
        return is_within(seen.uid, value)
    if test == "gid":
        return any(is_within(group, value) for group in seen.groups)
    if test == "type":
        return "a" in value or ("d" if file.is_directory else "r") in value
    mode = {"suid": SETUID, "sgid": SETGID}
    if test in mode:
        return bool(file.mode & mode[test])
    return seen.subject.uid == file.uid if test == "uid_of_subject" else file.gid in seen.subject.groups


def fits(words: list[str], seen: Seen) -> bool:
    """Whether a side of a rule fits."""
    negated = words[:1] == ["not"]
    words, found = words[negated:], []
    while words:
        is_not = words[0] == "!"
        test, words = words[is_not], words[is_not + 1 :]
        has_value = test in ("uid", "gid", "type")
        found.append(holds(test, words[0] if has_value else "", seen) != is_not)
        words = words[has_value:]
    return all(found) != negated


class Rules:
    """The rules about files."""

    def __init__(self) -> None:
        self.rules: dict[int, list[str]] = {}
        self.first_match = True

    def change(self, words: list[str], reply: str) -> None:
        if words[:2] == ["ugidfw", "add"]:
            self.rules[number_of(reply.split()[-1])] = words[2:]
        elif words[:2] == ["ugidfw", "set"]:
            self.rules[number_of(words[2])] = words[3:]
        elif words[:2] == ["ugidfw", "remove"]:
            del self.rules[number_of(words[2])]
        elif words[1].startswith("security.mac.bsdextended."):
            self.first_match = words[1].endswith("=1")

    def matching(self, subject: Credential, file: FileFacts) -> list[Rule]:
        """Those that match, by their numbers."""
        found = []
        for number, words in sorted(self.rules.items()):
            place, end = words.index("object"), words.index("mode")
            theirs = Seen(subject.uid, subject.groups, None, subject)
            its = Seen(file.uid, [file.gid], file, subject)
            if fits(words[1:place], theirs) and fits(words[place + 1 : end], its):
                found.append(Rule(number, words[end + 1]))
        return found

    def denying(self, subject: Credential, file: FileFacts, wanted: str) -> list[Rule]:
        """Those that deny the letters, each by itself: with first match one at most."""
        matching = self.matching(subject, file)
        return [rule for rule in (matching[:1] if self.first_match else matching) if not set(wanted) <= set(rule.letters)]


# Who sees whom


class Users:
    """The settings of mac_seeotheruids."""

    def __init__(self) -> None:
        self.values = {"primarygroup_enabled": 0, "specificgid_enabled": 0, "specificgid": 0, "suser_privileged": 1}

    def change(self, words: list[str], _: str) -> None:
        name, _, value = words[1].partition("=")
        self.values[name.rpartition(".")[2]] = number_of(value)

    def allow(self, subject: Credential, other: Credential) -> bool:
        values = self.values
        return bool(
            subject.uid == other.uid
            or values["primarygroup_enabled"] and subject.groups[0] == other.groups[0]
            or values["specificgid_enabled"] and values["specificgid"] in subject.groups
            or values["suser_privileged"] and subject.uid == 0
        )


# Who binds a port


class Ports:
    """The settings of mac_portacl."""

    def __init__(self) -> None:
        self.values = {"port_high": 1023, "suser_exempt": 1, "autoport_exempt": 1}
        self.rules: list[Place] = []

    def change(self, words: list[str], _: str) -> None:
        name, _, value = words[1].partition("=")
        if name.endswith(".rules"):
            parts = [rule.split(":") for rule in value.split(",") if rule]
            self.rules = [Place(kind, number_of(who), protocol, number_of(port)) for kind, who, protocol, port in parts]
        else:
            self.values[name.rpartition(".")[2]] = number_of(value)

    def are_needless(self, subject: Credential, port: int) -> bool:
        """Whether the port is given without any rule."""
        values = self.values
        return bool(
            port > values["port_high"]
            or values["autoport_exempt"] and port == 0
            or values["suser_exempt"] and subject.uid == 0
        )

    def place(self, subject: Credential, protocol: str, port: int) -> int | None:
        """The place, from 0, of the first rule that gives the port."""
        about = lambda rule: subject.uid == rule.id if rule.kind == "uid" else rule.id in subject.groups
        giving = (place for place, rule in enumerate(self.rules) if rule[2:] == (protocol, port) and about(rule))
        return next(giving, None)


# The lists


class Listed:
    """The settings of each listed policy, by its module."""

    def __init__(self, script: Script) -> None:
        self.settings: dict[str, Rules | Users | Ports | None] = {}
        for boot in script.boots:
            self.load(boot.module)

    def load(self, module: str) -> None:
        self.settings[module] = {RULES: Rules, USERS: Users, PORTS: Ports}.get(module, lambda: None)()

    def modules(self) -> list[str]:
        """The modules in walk order: the static list and then the dynamic one, each from its newest."""
        newest_first = list(self.settings)[::-1]
        return sorted(newest_first, key=lambda module: module not in STATIC)

    def change(self, words: list[str], reply: str) -> None:
        """Follows a change that was done."""
        if words[0] == "kldload":
            self.load(words[1])
        elif words[0] == "kldunload":
            del self.settings[words[1]]
        elif words[0] == "ugidfw":
            self.settings[RULES].change(words, reply)
        else:
            self.settings[f"mac_{words[1].split('.')[2]}"].change(words, reply)
