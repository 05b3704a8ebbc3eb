"""Label texts, and what labels are when something comes, is relabelled or lowered, by docs/MANUAL.md (LABELS, RELABELLING, POLICIES). Nothing of
it is proved.
"""
from __future__ import annotations

import re
from collections import namedtuple

from macsim_text import DIGITS, number_of

# An element is a tuple that stands in the order in which sources are listed: low, grades with their rising compartments, high, equal. So do
# the elements of mac_lomac, which have no compartments, by dominance.
LOW, HIGH, EQUAL = (0,), (2,), (3,)
GRADE = 1
Element = tuple[int, ...]
NAMED = {"low": LOW, "lo": LOW, "high": HIGH, "hi": HIGH, "equal": EQUAL, "eq": EQUAL}

# What mac_biba, mac_mls or mac_lomac has in a label. Each part may be None: of a text what it doesn't give, and the range of what is no process.
# That of mac_lomac has never a range.
Levels = namedtuple("Levels", "effective range")
# The parts of a label, by slot.
Label = dict[int, "Levels | int"]

BIBA, MLS, LOMAC, PARTITION = "mac_biba", "mac_mls", "mac_lomac", "mac_partition"
MODULES = {"biba": BIBA, "mls": MLS, "lomac": LOMAC, "partition": PARTITION}
LATTICES = {BIBA: HIGH, MLS: LOW, LOMAC: HIGH}
# Those whose labels have ranges, and those of which lines of sources are printed, in their order.
WITH_RANGES = (BIBA, MLS)
WITH_SOURCES = (BIBA, MLS, LOMAC)


def element_of(text: str) -> Element:
    if text in NAMED:
        return NAMED[text]
    if not re.fullmatch(rf"{DIGITS}(:{DIGITS}(\+{DIGITS})*)?", text):
        raise ValueError(f"`{text}` is no element")
    grade, _, compartments = text.partition(":")
    numbers = {number_of(number) for number in compartments.split("+") if number}
    return (GRADE, number_of(grade), *sorted(numbers))


def levels_of(text: str) -> Levels:
    found = re.fullmatch(r"([^()]*)(?:\(([^()-]*)-([^()-]*)\))?", text)
    if not found or text == "":
        raise ValueError(f"`{text}` is neither an element nor a range")
    effective, bottom, top = found.groups()
    return Levels(element_of(effective) if effective else None, (element_of(bottom), element_of(top)) if bottom is not None else None)


def plain_of(text: str) -> Levels:
    if text not in NAMED and not re.fullmatch(DIGITS, text):
        raise ValueError(f"`{text}` is no element of mac_lomac")
    return Levels(element_of(text), None)


def partition_of(text: str) -> int:
    if text != "none" and not re.fullmatch(DIGITS, text):
        raise ValueError(f"`{text}` is no partition")
    return 0 if text == "none" else number_of(text)


VALUES = {"biba": levels_of, "mls": levels_of, "lomac": plain_of, "partition": partition_of}


def request_of(text: str) -> dict[str, Levels | int]:
    """What a label text gives, by module: Levels or a partition. The last element of a policy counts, and replaces the earlier ones whole."""
    request = {}
    for part in [] if text == "-" else text.split(","):
        name, slash, value = part.partition("/")
        if not slash or name not in MODULES:
            raise ValueError(f"`{part}` is no element of a label")
        request[MODULES[name]] = VALUES[name](value)
    return request


# Labels, by slot


def replaced(old: Levels | int | None, asked: Levels | int) -> Levels | int | None:
    """The value with the parts that are asked in place of its own."""
    if not isinstance(asked, Levels):
        return asked or old
    old = old or Levels(None, None)
    return Levels(asked.effective or old.effective, asked.range or old.range)


def dominates(above: Element, below: Element) -> bool:
    """Whether an element dominates another, by the table of dominance."""
    if EQUAL in (above, below) or below == LOW or above == HIGH:
        return True
    if above == LOW or below == HIGH:
        return False
    return above[1] >= below[1] and set(above[2:]) >= set(below[2:])


def is_valid(levels: Levels) -> bool:
    """Whether the effective element lies in the range, where there is one."""
    if levels.range is None:
        return True
    bottom, top = levels.range
    return dominates(levels.effective, bottom) and dominates(top, levels.effective)


def element_in(label: Label, slot: int | None) -> Element | None:
    """The effective element in a slot, or None."""
    value = label.get(slot)
    return value and value.effective


def labels_kind(module: str, kind: str) -> bool:
    return module in LATTICES or (module == PARTITION and kind in ("proc", "socket"))


def boot_label(slots: dict[str, int], kind: str, request: dict[str, Levels | int]) -> Label:
    """The label of what is there at boot, where the modules have these slots."""
    label = {}
    for module, slot in slots.items():
        if module in LATTICES:
            default = Levels(LATTICES[module], (LOW, HIGH) if kind == "proc" and module in WITH_RANGES else None)
            label[slot] = replaced(default, request.get(module, Levels(None, None)))
        elif labels_kind(module, kind):
            label[slot] = request.get(module, 0)
    return label


def new_label(slots: dict[str, int], kind: str, maker: Label) -> Label:
    """The label of what a process of the label `maker` makes."""
    label = {}
    for module, slot in slots.items():
        value = maker.get(slot)
        if module in LATTICES and value is not None:
            label[slot] = value if kind == "proc" else Levels(value.effective, None)
        elif labels_kind(module, kind):
            label[slot] = value or 0
    return label


def lowered(slots: dict[str, int], label: Label, observed: Label) -> Label:
    """The label of a process after it has observed a thing of the other label: mac_lomac lowers it, where neither is `equal`."""
    slot = slots.get(LOMAC)
    own, other = label.get(slot), observed.get(slot)
    if own is None or other is None or EQUAL in (own.effective, other.effective):
        return label
    return {**label, slot: own._replace(effective=min(own.effective, other.effective))}


def relabelled(slots: dict[str, int], label: Label, request: dict[str, Levels | int]) -> Label:
    asked = {slots[module]: value for module, value in request.items() if module in slots}
    changed = {slot: replaced(label.get(slot), value) for slot, value in asked.items()}
    return {**label, **{slot: value for slot, value in changed.items() if value is not None}}


# Texts


def element_text(element: Element) -> str:
    for name in ("low", "high", "equal"):
        if element == NAMED[name]:
            return name
    compartments = "+".join(map(str, element[2:]))
    return f"{element[1]}:{compartments}" if compartments else str(element[1])


def value_text(module: str, value: Levels | int | None) -> str:
    """What a label says of a module's policy, in canonical text. A value is None where the slot is unset."""
    if module == PARTITION:
        return f"partition/{value or 'none'}"
    name = module.removeprefix("mac_")
    if value is None:
        return f"no {name} element"
    effective = element_text(value.effective) if value.effective else ""
    ends = "-".join(map(element_text, value.range)) if value.range else None
    return f"{name}/{effective}" + (f"({ends})" if ends else "")
