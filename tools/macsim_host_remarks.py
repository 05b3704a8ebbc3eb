"""What from-host and to-host tell beside what they write: what is left out, and what misleads. Nothing of it is proved."""
from __future__ import annotations

from collections import Counter
from collections.abc import Iterator
from dataclasses import dataclass
from enum import Enum

# How many remarks of one reason stand in a script.
MOST_TOLD = 200


class Sort(Enum):
    LEFT_OUT = "left out"
    BEWARE = "beware"


@dataclass(frozen=True)
class Remark:
    """A remark. Those of one reason are told together, and may be many."""

    sort: Sort
    reason: str
    text: str

    def __str__(self) -> str:
        return f"{self.sort.value}: {self.text}"


class Remarks:
    """The remarks in the order in which they were made, each once."""

    def __init__(self) -> None:
        self.made: dict[Remark, None] = {}

    def left_out(self, reason: str, text: str) -> None:
        self.made[Remark(Sort.LEFT_OUT, reason, text)] = None

    def beware(self, reason: str, text: str) -> None:
        self.made[Remark(Sort.BEWARE, reason, text)] = None

    def all(self) -> list[str]:
        return [str(remark) for remark in self.made]

    def told(self) -> Iterator[str]:
        """The first of each reason, and how many more there are."""
        count: Counter[tuple[Sort, str]] = Counter()
        for remark in self.made:
            kind = (remark.sort, remark.reason)
            count[kind] += 1
            if count[kind] <= MOST_TOLD:
                yield str(remark)
        for (sort, reason), found in count.items():
            if found > MOST_TOLD:
                yield f"{sort.value}: {found - MOST_TOLD} more about {reason}, which --report FILE has all"
