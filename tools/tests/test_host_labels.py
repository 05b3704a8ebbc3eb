"""Labels as a machine shows them."""
from making import ReaderTest

from macsim_host_labels import LabelReader, dominates
from macsim_labels import element_of
from macsim_text import Fault

ALL = ["mac_biba", "mac_mls", "mac_lomac", "mac_partition"]


class Labels(ReaderTest):
    def file(self, text: str, modules: list[str] = ALL) -> str:
        return LabelReader(modules, self.remarks).label_of(text, False, "/a")

    def process(self, text: str, modules: list[str] = ALL) -> str:
        return LabelReader(modules, self.remarks).label_of(text, True, "process 1")

    def test_what_a_script_has_too(self) -> None:
        for text in ("biba/10:2+3+6,mls/low,lomac/equal", "biba/high", "-"):
            self.assertEqual(self.file(text), text)
        for text in ("biba/10:2+3+6(5:2+3-20:2+3+4+5+6),partition/7", "mls/equal(equal-equal)", "partition/none"):
            self.assertEqual(self.process(text), text)
        self.assert_told()

    def test_what_a_script_has_not(self) -> None:
        self.assertEqual(self.file("biba/10(5-20),sebsd/x_t,partition/2"), "biba/10")
        self.assert_told("the range of `biba/10(5-20)` (/a)", "`sebsd/x_t`: no such policy is booted here", "files are in no partition")

    def test_a_policy_that_is_not_booted(self) -> None:
        self.assertEqual(self.file("biba/10,mls/5", ["mac_mls"]), "mls/5")
        self.assert_told("`biba/10`: no such policy is booted here (/a)")

    def test_lomac(self) -> None:
        self.assertEqual(self.process("lomac/10[2](low-high)"), "lomac/10")
        self.assert_told("`[2](low-high)` of `lomac/10[2](low-high)`")

    def test_limits(self) -> None:
        self.assertEqual(self.file("biba/5:0,mls/70000"), "-")
        self.assertEqual(self.process("biba/9(10-20),partition/2147483648"), "-")
        self.assert_told("numbered from 1 to 256", "grades end at 65535", "outside its range", "partitions end at")

    def test_what_is_no_label(self) -> None:
        for text in ("biba", "biba/", "biba/x", "biba/5:", "Biba/5", "biba/5,,mls/5", "biba/(1-5)", "biba/5,biba/6", "lomac/5:2", "lomac/5[2", "biba/5(1-"):
            with self.assertRaises(Fault, msg=text):
                self.process(text)

    def test_elements_that_are_not_shown(self) -> None:
        labels = LabelReader(["mac_biba", "mac_mls"], self.remarks)
        for text in ("-", "biba/5", "biba/5,mls/5"):
            labels.label_of(text, False, "/a")
        labels.tell()
        self.assert_told("1 files and directories show no element of mac_biba", "2 files and directories show no element of mac_mls")

    def test_dominance(self) -> None:
        rows = [("high", "low", True), ("low", "5", False), ("5:1+2", "5:1", True), ("9:1", "5:2", False), ("equal", "high", True), ("5", "5", True)]
        for one, other, wanted in rows:
            self.assertEqual(dominates(element_of(one), element_of(other)), wanted, (one, other))
