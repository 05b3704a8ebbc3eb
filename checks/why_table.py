"""Holds the table of reasons in docs/MANUAL.md (WHY) to the worked rows of why_scripts.py: each reason of these has one row, and each row a reason;
and a row names nothing to be filled in but what its form has. Prints a line for each that differs, and then the counts."""
from __future__ import annotations

import re
import sys
from pathlib import Path

from why_scripts import ROWS

ROOT = Path(__file__).resolve().parent.parent
sys.path.insert(0, str(ROOT / "tools"))

from macsim_why import PLACE, Reason, Row, table_of, told_of

# What else stands in capital letters in a cell.
ALWAYS = {"SUBJECT", "OBJECT", "POLICY"}


def reasons() -> list[Reason]:
    told = [told_of(list(enumerate(row.lines, 1)), row.name) for row in ROWS]
    return [reason for calls in told for call in calls.values() for reason in call.reasons]


def unfilled(row: Row, places: set[str]) -> set[str]:
    """What a row would leave as it stands, of the places that there are."""
    named = set(re.findall(r"\b[A-Z]+\b", f"{row.wanted} {row.remedy}"))
    return (named & places) - set(PLACE.findall(row.form)) - ALWAYS


def main() -> int:
    table, failed = table_of(ROOT / "docs" / "MANUAL.md"), 0
    places = {place for row in table for place in PLACE.findall(row.form)}
    met: set[int] = set()
    for reason in reasons():
        found = [number for number, row in enumerate(table) if row.found(reason)]
        met.update(found)
        if len(found) != 1:
            failed += 1
            print(f"docs/MANUAL.md: {len(found)} rows for `{reason.words}` by {reason.module}")
    for number, row in enumerate(table):
        faults = [] if number in met else ["no worked row has such a reason"]
        faults += [f"{place} isn't in its form" for place in sorted(unfilled(row, places))]
        failed += len(faults)
        for fault in faults:
            print(f"docs/MANUAL.md: {row.form}: {fault}")
    print(f"{len(reasons())} reasons, {len(table)} rows, {failed} failed")
    return 1 if failed or not table else 0


if __name__ == "__main__":
    raise SystemExit(main())
