"""Labels as a machine shows them, by maclabel(7), and what a script can say of them. Nothing of it is proved."""
from __future__ import annotations

import re
from dataclasses import dataclass
from functools import cache

from macsim_host_remarks import Remarks
from macsim_labels import EQUAL, GRADE, HIGH, LATTICES, LOMAC, LOW, MODULES, PARTITION, VALUES, Levels
from macsim_text import Fault

MOST_GRADE, MOST_COMPARTMENT, MOST_PARTITION = 65535, 256, 2147483647
BOOT = {"mac_biba": "biba/high", "mac_mls": "mls/low", "mac_lomac": "lomac/high"}
DEFAULT = "the default counts here"


@dataclass(frozen=True)
class Shown:
    """What a script says of a label, `-` for nothing; what it can't say, and why; and the lattices of which the label says nothing."""

    label: str
    lost: tuple[str, ...]
    unsaid: tuple[str, ...]


def dominates(one: tuple[int, ...], other: tuple[int, ...]) -> bool:
    """The table of docs/MANUAL.md (Dominance)."""
    if EQUAL in (one, other) or one == HIGH or other == LOW:
        return True
    return one[0] == other[0] == GRADE and one[1] >= other[1] and set(one[2:]) >= set(other[2:])


def limit_of(value: Levels | int) -> str | None:
    """Why a script can't say a value, or None where it can."""
    if isinstance(value, int):
        return None if value <= MOST_PARTITION else f"partitions end at {MOST_PARTITION}"
    elements = [element for element in (value.effective, *(value.range or ())) if element and element[0] == GRADE]
    if any(element[1] > MOST_GRADE for element in elements):
        return f"grades end at {MOST_GRADE}"
    if any(not 1 <= number <= MOST_COMPARTMENT for element in elements for number in element[2:]):
        return f"compartments are numbered from 1 to {MOST_COMPARTMENT}"
    if value.range and value.effective and not (dominates(value.range[1], value.effective) and dominates(value.effective, value.range[0])):
        return "the element lies outside its range"
    return None


def part_of(part: str, modules: tuple[str, ...], is_process: bool) -> tuple[str | None, list[str]]:
    """What a script says of an element of a label, or None, and what it can't say."""
    name, slash, value = part.partition("/")
    if not slash or not re.fullmatch("[a-z0-9_]+", name) or not value:
        raise Fault(f"`{part}` is no element of a label")
    module = MODULES.get(name)
    if module not in modules:
        return None, [f"`{part}`: no such policy is booted here"]
    lost = []
    if module == LOMAC:
        plain, behind = plain_lomac(value)
        lost += [f"`{behind}` of `{part}`: mac_lomac has neither ranges nor auxiliary grades here"] if behind else []
        value = plain
    try:
        read = VALUES[name](value)
    except ValueError as error:
        raise Fault(error) from None
    if module in LATTICES and read.effective is None:
        raise Fault(f"`{part}` is a range alone")
    if module in LATTICES and not is_process and read.range:
        lost.append(f"the range of `{part}`")
        value, read = value[: value.index("(")], Levels(read.effective, None)
    if module == PARTITION and not is_process:
        return None, [*lost, f"`{part}`: files are in no partition"]
    limit = limit_of(read)
    return (f"{name}/{value}", lost) if limit is None else (None, [*lost, f"`{part}`: {limit}; {DEFAULT}"])


def plain_lomac(value: str) -> tuple[str, str]:
    """The element of mac_lomac, and its auxiliary grade and range, which stand in brackets behind it."""
    found = re.fullmatch(r"([^\[\]()]+)((?:\[[^\[\]()]+\]|\([^\[\]()]+-[^\[\]()]+\))*)", value)
    if found is None:
        raise Fault(f"`lomac/{value}` is no element of a label")
    return found[1], found[2]


@cache
def shown_label(text: str, modules: tuple[str, ...], is_process: bool) -> Shown:
    """What a script says of a label. It is a Fault where that is no label text."""
    kept, lost = {}, []
    for part in [] if text == "-" else text.split(","):
        name = part.partition("/")[0]
        if name in kept:
            raise Fault(f"the label has two elements of {name}")
        kept[name], more = part_of(part, modules, is_process)
        lost += more
    said = [part for part in kept.values() if part is not None]
    unsaid = [module for module in modules if module in LATTICES and module.removeprefix("mac_") not in kept]
    return Shown(",".join(said) or "-", tuple(lost), tuple(unsaid))


class LabelReader:
    """Reads the labels of one machine, and tells what it can't say of them."""

    def __init__(self, modules: list[str], remarks: Remarks) -> None:
        self.modules, self.remarks = tuple(modules), remarks
        # How many files, and how many processes, show no element of a lattice.
        self.unsaid: dict[tuple[str, str], int] = {}

    def label_of(self, text: str, is_process: bool, where: str) -> str:
        shown = shown_label(text, self.modules, is_process)
        for lost in shown.lost:
            self.remarks.left_out("labels", f"{lost} ({where})")
        for module in shown.unsaid:
            kind = (module, "processes" if is_process else "files and directories")
            self.unsaid[kind] = self.unsaid.get(kind, 0) + 1
        return shown.label

    def tell(self) -> None:
        for (module, kind), count in self.unsaid.items():
            self.remarks.beware("labels", f"{count} {kind} show no element of {module}, and {DEFAULT}; /etc/mac.conf says which are shown")


def differs_from_boot(label: str, modules: list[str]) -> bool:
    """Whether a label gives the root directory something else than it has at boot."""
    return not set(label.split(",")) <= {"-", *(BOOT[module] for module in modules if module in BOOT)}
