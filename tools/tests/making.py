"""What the tests of the readers share: texts of one section, what a reader tells of them, and the fault of a line."""
from __future__ import annotations

import sys
import unittest
from collections.abc import Callable
from pathlib import Path

TOOLS = Path(__file__).resolve().parent.parent
sys.path.insert(0, str(TOOLS))

from macsim_host_remarks import Remarks
from macsim_host_text import HostText, host_text_of
from macsim_text import BadInput


def text_of(**sections: list[str]) -> HostText:
    """A text with these sections, each with its lines. The first line of the first section is line 2."""
    lines = [line for name, rows in sections.items() for line in (f"== {name}", *rows)]
    return host_text_of("".join(f"{line}\n" for line in [*lines, "== end"]), "made")


class ReaderTest(unittest.TestCase):
    """A test with remarks, which tells faults by their lines."""

    def setUp(self) -> None:
        self.remarks = Remarks()

    def assert_fault(self, number: int | None, fault: str, read: Callable[[], object]) -> None:
        """The reader refuses a line of that number, and tells this."""
        with self.assertRaises(BadInput) as raised:
            read()
        place = f"made line {number}: " if number else "made: "
        self.assertTrue(str(raised.exception).startswith(place), str(raised.exception))
        self.assertIn(fault, str(raised.exception))

    def assert_told(self, *remarks: str) -> None:
        """Each of these is part of a remark, and there are no other remarks."""
        told = self.remarks.all()
        for remark in remarks:
            self.assertTrue(any(remark in line for line in told), f"{remark} isn't in {told}")
        self.assertEqual(len(told), len(remarks), told)
