"""The tree of a machine's files, and what of it can be told by one line of a script. Nothing of it is proved.

A policy looks at a file's type, uid, gid, mode and label alone. So of files of one directory that agree in all of these one is enough, and of directories
whose whole trees agree too. Where a limit forces it, a directory that agrees with the one in which it stands is left out, and its entries come up:
each answer of a look-up there stays, and only the number of a check changes.
"""
from __future__ import annotations

from dataclasses import dataclass, field
from enum import Enum

from macsim_host_files import ROOT, Attributes, Kind, is_sayable

Class = tuple[Attributes, frozenset]


class Reduction(Enum):
    """What is put together."""

    NONE = "each is there"
    ALIKE = "one of each kind in its directory"
    RAISED = "one of each kind, and directories that are like their own directory left out"


@dataclass(eq=False)
class Node:
    """A file or directory, with its path on the machine."""

    path: str
    attributes: Attributes
    parent: Node | None = None
    children: list[Node] = field(default_factory=list)
    # Whether it stays, whatever it is like.
    is_kept: bool = False
    # What is left of its children, by what they are like; and what it is like itself.
    left: dict[object, Node] = field(default_factory=dict)
    kind: object = None
    # Whether it is left out as a directory that is like its own; and how many files and directories are told by it besides itself.
    is_raised: bool = False
    stands_for: int = 0

    @property
    def name(self) -> str:
        return self.path.rpartition("/")[2]


ROOT_ATTRIBUTES = Attributes(Kind.DIRECTORY, 0, 0, 0o755, "-")


def tree_of(files: dict[str, Attributes]) -> Node:
    """The root directory with all below. The files of a directory stand behind it."""
    root = Node(ROOT, files.get(ROOT, ROOT_ATTRIBUTES))
    nodes = {ROOT: root}
    for path, attributes in files.items():
        if path != ROOT:
            parent = nodes[path.rpartition("/")[0] or ROOT]
            nodes[path] = Node(path, attributes, parent)
            parent.children.append(nodes[path])
    return root


def keep(root: Node, path: str) -> bool:
    """Has a file stay, with the directories on its way; whether it is there."""
    node: Node | None = root
    way = []
    for place in (index for index in range(1, len(path) + 1) if path[index : index + 1] in ("/", "")):
        node = next((child for child in node.children if child.path == path[:place]), None)
        if node is None:
            return False
        way.append(node)
    for node in way:
        node.is_kept = True
    return True


def all_of(node: Node) -> list[Node]:
    """A node, and all below it, each behind its directory."""
    found, waiting = [], [node]
    while waiting:
        node = waiting.pop()
        found.append(node)
        waiting += reversed(node.children)
    return found


class Reducer:
    """Reduces a tree from below. What nodes are like is a number, one for all that are alike."""

    def __init__(self, reduction: Reduction) -> None:
        self.reduction = reduction
        self.numbers: dict[object, int] = {}

    def reduce(self, root: Node) -> None:
        nodes = all_of(root)
        for node in reversed(nodes):
            node.is_raised, node.stands_for, node.left = False, 0, {}
            for child in self.raised(node):
                self.take(node, child)
            parts = frozenset(node.left)
            node.kind = self.numbers.setdefault((node.attributes, parts), len(self.numbers))
            if self.reduction is Reduction.NONE or node.is_kept:
                node.kind = node.path

    def raised(self, node: Node) -> list[Node]:
        """The children of a directory, in place of those that are like it their own; those under a name that a script takes come first."""
        found = []
        for child in node.children:
            raises = self.reduction is Reduction.RAISED and not child.is_kept and child.attributes == node.attributes
            if raises and child.attributes.kind is Kind.DIRECTORY:
                child.is_raised = True
                node.stands_for += 1 + child.stands_for
                found += child.left.values()
            else:
                found.append(child)
        return sorted(found, key=lambda child: not is_sayable(child.name))

    def take(self, node: Node, child: Node) -> None:
        """Takes what is the first of its kind, and lets the first stand for the others."""
        first = node.left.setdefault(child.kind, child)
        if first is not child:
            first.stands_for += count_of(child)


def count_of(node: Node) -> int:
    """How many files and directories are told by a node and what is left below it."""
    count, waiting = 0, [node]
    while waiting:
        node = waiting.pop()
        count += 1 + node.stands_for
        waiting += node.left.values()
    return count


def left_of(root: Node) -> list[tuple[Node, int]]:
    """What is left below the root directory, each behind its directory, with the number of components of its path."""
    found, waiting = [], [(child, 1) for child in reversed(root.left.values())]
    while waiting:
        node, depth = waiting.pop()
        found.append((node, depth))
        waiting += [(child, depth + 1) for child in reversed(node.left.values())]
    return found


def reduced(root: Node, is_whole: bool, most_files: int, most_depth: int) -> Reduction:
    """Reduces a tree as far as the limits want it, and says how."""
    reductions = [Reduction.NONE] if is_whole else [Reduction.ALIKE, Reduction.RAISED]
    for reduction in reductions:
        Reducer(reduction).reduce(root)
        left = left_of(root)
        if len(left) <= most_files and all(depth <= most_depth for _, depth in left):
            break
    return reduction


def stand_in(node: Node) -> Node:
    """What tells of a file or directory: itself, or what is left in its place."""
    way = []
    while node.parent is not None:
        way.append(node)
        node = node.parent
    for step in reversed(way):
        if not step.is_raised:
            node = node.left[step.kind]
    return node
