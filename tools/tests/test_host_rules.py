"""Rules of ugidfw, both ways."""
from making import ReaderTest, text_of

from macsim_host_names import Names
from macsim_host_rules import Unsayable, rule_there, rules_of

NAMES = Names({"root": 0, "bob": 1001}, {"staff": 20, "operator": 5})


class FromMachine(ReaderTest):
    def read(self, *rules: str, count: int | None = None) -> dict[int, str]:
        lines = [f"{len(rules) + 1} slots, {len(rules) if count is None else count} rules", *rules]
        return rules_of(text_of(ugidfw=lines), NAMES, self.remarks)

    def one(self, rule: str) -> str | None:
        return self.read(f"0 {rule}").get(0)

    def test_names_are_ids(self) -> None:
        self.assertEqual(self.one("subject uid bob object gid staff ! type d mode rs"), "subject uid 1001 object gid 20 ! type d mode rs")
        self.assertEqual(self.one("subject uid 0:999 gid 5:5 object suid mode n"), "subject uid 0:999 gid 5 object suid mode n")

    def test_not_turns_each_test(self) -> None:
        self.assertEqual(self.one("subject not uid root gid operator object not ! type d mode rsx"), "subject ! uid 0 ! gid 5 object type d mode rsx")
        self.assertEqual(self.one("subject not object mode n"), "subject object mode n")

    def test_jails_and_ranges_that_are_turned_round(self) -> None:
        self.assertEqual(self.one("subject ! jailid 3 uid 5 object mode n"), "subject uid 5 object mode n")
        self.assertIsNone(self.one("subject jailid 3 object mode n"))
        self.assertIsNone(self.one("subject uid 9:5 object mode n"))
        self.assertEqual(self.one("subject ! uid 9:5 object mode n"), "subject object mode n")
        self.assert_told("`0 subject jailid 3 object mode n`", "`0 subject uid 9:5 object mode n`")

    def test_what_a_script_has_not(self) -> None:
        self.assertEqual(self.read("0 subject object filesys /exports mode n", "3 subject uid carol object mode n", "250 subject object mode n"), {})
        self.assertEqual(len(self.remarks.all()), 6)
        self.assertIn("left out: rule 3: no line of names has the uid `carol`", self.remarks.all()[2])

    def test_lines_that_are_cut_or_doubled(self) -> None:
        whole = "1 subject uid root object type d mode rsx"
        for length in (len("1 subject uid"), len("1 subject uid root object"), len(whole) - 4):
            self.assert_fault(3, "", lambda: self.read(whole[:length]))
        self.assert_fault(4, "an earlier line has rule 1", lambda: self.read(whole, whole))
        self.assert_fault(4, "the last of 2 rules, and the first line says 3", lambda: self.read(whole, whole.replace("1", "2", 1), count=3))
        self.assert_fault(4, "one more than the 1 rules", lambda: self.read(whole, whole.replace("1", "2", 1), count=1))
        self.assert_fault(2, "`N slots, N rules`, is lacking", lambda: rules_of(text_of(ugidfw=[whole]), NAMES, self.remarks))

    def test_words_that_are_unknown(self) -> None:
        self.assert_fault(3, "`tty` is no test", lambda: self.one("subject tty 3 object mode n"))
        self.assert_fault(3, "`q` stands where the letters", lambda: self.one("subject object mode q"))
        self.assert_fault(3, "a test twice", lambda: self.one("subject uid 1 uid 2 object mode n"))
        self.assert_fault(3, "types of files", lambda: self.one("subject object type dz mode n"))

    def test_no_rules(self) -> None:
        self.assertEqual(rules_of(text_of(ugidfw=[]), NAMES, self.remarks), {})


class ToMachine(ReaderTest):
    def test_not_before_one_test(self) -> None:
        self.assertEqual(rule_there("subject not uid 0 object not ! type r mode rw".split()), "subject ! uid 0 object type r mode rw")
        self.assertEqual(rule_there("subject ! uid 0 ! gid 5:9 object mode n".split()), "subject ! uid 0 ! gid 5:9 object mode n")

    def test_not_before_others(self) -> None:
        for rule in ("subject not uid 0 gid 5 object mode n", "subject object not mode n"):
            with self.assertRaises(Unsayable):
                rule_there(rule.split())
