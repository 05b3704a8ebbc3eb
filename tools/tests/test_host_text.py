"""Sections, columns and rows."""
from making import ReaderTest, text_of

from macsim_host_remarks import MOST_TOLD, Remarks
from macsim_host_text import host_text_of, said, shown, tell_sections


class Sections(ReaderTest):
    def test_lines_have_their_numbers(self) -> None:
        text = text_of(kldstat=["one", "", "two"], mount=["three"])
        self.assertEqual([(line.number, line.text) for line in text.lines("kldstat")], [(2, "one"), (4, "two")])
        self.assertEqual([line.number for line in text.lines("mount")], [6])

    def test_a_text_that_is_cut(self) -> None:
        self.assert_fault(2, "before its line `== end`", lambda: host_text_of("== ls\n", "made"))
        self.assert_fault(2, "before its line `== end`", lambda: host_text_of("== ls\n== en", "made"))
        self.assert_fault(1, "before its line `== end`", lambda: host_text_of("", "made"))

    def test_a_section_that_is_doubled(self) -> None:
        self.assert_fault(2, "a section `ls` already", lambda: host_text_of("== ls\n== ls\n== end\n", "made"))
        self.assert_fault(3, "behind `== end`", lambda: host_text_of("== ls\n== end\nmore\n", "made"))

    def test_what_is_no_section(self) -> None:
        self.assert_fault(1, "doesn't begin with a section", lambda: host_text_of("file /a\n== end\n", "made"))

    def test_sections_that_are_unknown_or_lacking(self) -> None:
        every = {name: ["x"] for name in "uname kldstat sysctl passwd group mount ls ps".split()}
        tell_sections(text_of(**every, jails=["x"]), self.remarks)
        self.assert_told("left out: the section `jails`", "beware: the section `procstat` is lacking or empty")


class Rows(ReaderTest):
    def rows(self, *lines: str) -> list[dict[str, str]]:
        return [row for _, row in text_of(ps=list(lines)).rows("ps", ("PID", "COMMAND", "GROUPS"), "COMMAND", self.remarks)]

    def test_one_column_may_have_spaces(self) -> None:
        self.assertEqual(self.rows("PID COMMAND GROUPS", " 1 a b  c  0,5 "), [{"PID": "1", "COMMAND": "a b  c", "GROUPS": "0,5"}])

    def test_an_unknown_column_is_told(self) -> None:
        self.assertEqual(self.rows("PID NEW COMMAND", "1 x sh")[0]["COMMAND"], "sh")
        self.assert_told("left out: the column NEW of ps")

    def test_a_row_that_is_cut(self) -> None:
        self.assert_fault(3, "2 words, and the heading has 3 columns", lambda: self.rows("PID COMMAND GROUPS", "1 sh"))

    def test_headings(self) -> None:
        self.assert_fault(2, "no column COMMAND", lambda: self.rows("PID LABEL"))
        self.assert_fault(2, "a column twice", lambda: self.rows("PID PID COMMAND"))
        self.assertEqual(self.rows(), [])


class Texts(ReaderTest):
    def test_odd_bytes(self) -> None:
        self.assertEqual(shown("a b\\\xff\n"), "a\\x20b\\x5c\\xff\\x0a")
        self.assertEqual(said("a b\t"), "a b\\x09")

    def test_many_remarks_of_a_reason(self) -> None:
        remarks = Remarks()
        for number in range(MOST_TOLD + 3):
            remarks.left_out("labels", f"label {number}")
        remarks.beware("labels", "one")
        remarks.beware("labels", "one")
        told = list(remarks.told())
        self.assertEqual(len(told), MOST_TOLD + 2)
        self.assertEqual(told[-1], "left out: 3 more about labels, which --report FILE has all")
        self.assertEqual(len(remarks.all()), MOST_TOLD + 4)
