"""Writes a script of what was read of a machine: files under names that a script takes, tasks for its processes, and its settings. Nothing of it is
proved.
"""
from __future__ import annotations

import re
from collections import Counter
from dataclasses import dataclass, field

from macsim_host_files import MOST_NAME, ROOT, is_sayable
from macsim_host_labels import differs_from_boot
from macsim_host_processes import Process
from macsim_host_remarks import Remarks
from macsim_host_settings import Settings
from macsim_host_text import said, shown
from macsim_host_tree import Node, left_of
from macsim_text import TUNABLE

MOST_FILES, MOST_TASKS, MOST_DEPTH = 256, 16, 8
# How many of those that a line stands for are named in its comment.
MOST_NAMED = 6
SETUP = "setup"


@dataclass
class TaskOf:
    """A task, with the processes for which it stands, and the calls that it is to make."""

    name: str
    uid: int
    groups: tuple[int, ...]
    label: str
    members: list[Process] = field(default_factory=list)
    calls: list[str] = field(default_factory=list)


# Names


class FreeNames:
    """Names of a script for those of a machine, each given once."""

    def __init__(self, others: str, used: set[str]) -> None:
        # The characters that stay, the names that were given, and how often each was wanted.
        self.others, self.used = others, used
        self.wanted: Counter[str] = Counter()

    def name_for(self, name: str) -> str:
        """The name with `_` for each byte that can't stay, and a number behind it where it isn't free."""
        base = re.sub(f"[^{self.others}]", "_", name)[:MOST_NAME] or "_"
        base = "_" + base[1:] if base in (".", "..") else base
        found = base
        while found in self.used:
            self.wanted[base] += 1
            number = f"-{self.wanted[base] + 1}"
            found = base[: MOST_NAME - len(number)] + number
        self.used.add(found)
        return found


def named(nodes: list[Node]) -> dict[Node, str]:
    """A name for each entry of a directory. Those that a script can say are given first, each to the first that has it."""
    free = FreeNames("A-Za-z0-9._-", set())
    return {node: free.name_for(node.name) for node in sorted(nodes, key=lambda node: not is_sayable(node.name))}


def paths_of(root: Node, nodes: list[Node]) -> dict[Node, str]:
    """The path in the script of each of these files, which stand behind their directories."""
    paths: dict[Node, str] = {}
    for directory in (root, *nodes):
        above = "" if directory is root else paths[directory]
        paths.update({node: f"{above}/{name}" for node, name in named(list(directory.left.values())).items()})
    return {root: ROOT, **{node: paths[node] for node in nodes}}


# Files


def within_limits(root: Node, remarks: Remarks) -> list[Node]:
    """The files that a script has room for."""
    left = left_of(root)
    near = [node for node, depth in left if depth <= MOST_DEPTH]
    if len(near) < len(left):
        remarks.left_out("limits", f"{len(left) - len(near)} of {len(left)} files and directories, which are deeper than {MOST_DEPTH} components: try --below DIR")
    if len(near) > MOST_FILES:
        remarks.left_out("limits", f"{len(near) - MOST_FILES} of {len(near)} files and directories, which are more than a script has: try --below DIR")
    return near[:MOST_FILES]


def merged_names(node: Node) -> list[Node]:
    """The entries beside a file, or below a directory, for which it stands, as far as they are in its own directory."""
    siblings = node.parent.children if node.parent else []
    return [other for other in siblings if other is not node and other.kind == node.kind and not other.is_raised]


def comment_of(node: Node, path: str) -> list[str]:
    """What is to be said of a line: its path on the machine where that is another, and for how many it stands."""
    told = [f"{path} is {shown(node.path)}"] if path != node.path else []
    if node.stands_for:
        others = merged_names(node)
        names = " ".join(shown(other.name) for other in others[:MOST_NAMED]) + (" .." if len(others) > MOST_NAMED else "")
        told.append(f"{path} stands for {node.stands_for} more" + (f": {names}" if others else ""))
    return [f"# {line}" for line in told]


def file_lines(nodes: list[Node], paths: dict[Node, str]) -> list[str]:
    lines = []
    for node in nodes:
        lines += [*comment_of(node, paths[node]), f"file {paths[node]} {node.attributes.words()}"]
    return lines


# Tasks


def tasks_of(processes: list[Process], is_whole: bool) -> list[TaskOf]:
    """A task for each uid, groups and label; where all are wanted for each process. Those of uid 0 come first."""
    kinds: dict[object, list[Process]] = {}
    for process in processes:
        kind = process.pid if is_whole else (process.uid, process.credential.groups, process.label)
        kinds.setdefault(kind, []).append(process)
    tasks: list[TaskOf] = []
    free = FreeNames("A-Za-z0-9_-", {SETUP})
    for members in sorted(kinds.values(), key=lambda members: members[0].uid != 0):
        first = members[0]
        name = FreeNames("A-Za-z0-9_-", set()).name_for(first.command)
        name = free.name_for(f"{name[: MOST_NAME - 11]}-{first.pid}" if name in free.used else name)
        tasks.append(TaskOf(name, first.uid, first.credential.groups, first.label, members))
    return tasks


def task_lines(task: TaskOf) -> list[str]:
    members = [f"{process.pid} {said(process.command)}" for process in task.members]
    more = f" and {len(members) - MOST_NAMED} more" if len(members) > MOST_NAMED else ""
    lines = [f"# {task.name}: process {', '.join(members[:MOST_NAMED])}{more}"] if members else []
    head = f"task {task.name} uid {task.uid} gid {','.join(map(str, task.groups))} label {task.label}"
    return [*lines, head, *task.calls, "end"]


def setup_of(root: Node, settings: Settings, rules: dict[int, str]) -> tuple[list[str], list[str]]:
    """The calls that a task of uid 0 makes first: those about the root directory, and those about settings and rules."""
    label = root.attributes.label
    relabels = [f"setfmac {label} {ROOT}"] if differs_from_boot(label, settings.modules) else []
    changes = [f"sysctl {name}={value}" for name, value in settings.changed.items()]
    return relabels, changes + [f"ugidfw set {number} {rule}" for number, rule in rules.items()]


def with_setup(tasks: list[TaskOf], relabels: list[str], changes: list[str], label: str) -> list[TaskOf]:
    """The tasks, of which the first of uid 0 makes these calls. To relabel the root directory a process of its own is made, which may."""
    if not relabels and not changes:
        return tasks
    if relabels or not tasks or tasks[0].uid != 0:
        return [TaskOf(SETUP, 0, (0,), label, calls=[*relabels, *changes]), *tasks]
    first = tasks[0]
    return [TaskOf(first.name, 0, first.groups, first.label, first.members, [*changes, *first.calls]), *tasks[1:]]


# The script


def boot_lines(settings: Settings) -> list[str]:
    tunable = [f"tunable {TUNABLE}=1"] if settings.has_revocation else []
    return [*(f"boot {module}" for module in settings.modules), *tunable]


def script_text(head: list[str], settings: Settings, files: list[str], tasks: list[TaskOf]) -> str:
    lines = [*(f"# {line}" for line in head), *boot_lines(settings), *files]
    lines += [line for task in tasks for line in task_lines(task)]
    return "".join(f"{line}\n" for line in lines)
