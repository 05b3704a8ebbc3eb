"""The lines of ls."""
from making import ReaderTest, text_of

from macsim_host_files import Attributes, Kind, files_of, mode_of, path_of
from macsim_host_labels import LabelReader
from macsim_text import Fault

ROOT = "drwxr-xr-x  20 0  0  biba/high  512 Dec  1 07:00 /"
FILE = "-rw-r--r--  1 1001  20  biba/10  1077 Nov 12  2025 /a"


class Files(ReaderTest):
    def read(self, *lines: str, below: list[str] = []) -> dict[str, Attributes]:
        return files_of(text_of(ls=list(lines)), LabelReader(["mac_biba"], self.remarks), below, self.remarks)

    def path(self, name: str) -> str:
        return list(self.read(ROOT, FILE.replace("/a", name)))[1]

    def test_attributes(self) -> None:
        found = self.read(ROOT, FILE)
        self.assertEqual(found["/a"], Attributes(Kind.REGULAR, 1001, 20, 0o644, "biba/10"))
        self.assertEqual(found["/"].kind, Kind.DIRECTORY)

    def test_modes(self) -> None:
        for bits, mode in (("rwsr-sr-t", 0o7755), ("rwSr-Sr-T", 0o7644), ("---------", 0)):
            self.assertEqual(mode_of(bits), mode)

    def test_names_with_spaces_and_odd_bytes(self) -> None:
        self.assertEqual(self.path("/about us.html "), "/about us.html ")
        self.assertEqual(self.path("/ a"), "/ a")
        self.assertEqual(self.path(r"/\303\244\134\012\"".replace('"', "042")), '/\xc3\xa4\\\n"')
        self.assertEqual(self.path("/\xe4\x85"), "/\xe4\x85")
        self.assertRaises(Fault, path_of, r"/a\b")
        self.assertRaises(Fault, path_of, r"/a\40")
        self.assertRaises(Fault, path_of, r"/a\400")
        self.assertRaises(Fault, path_of, "/a//b")
        self.assertRaises(Fault, path_of, "/a/../b")

    def test_lines_that_are_cut(self) -> None:
        for length in range(1, len(FILE) - 1):
            self.assert_fault(3, "", lambda: self.read(ROOT, FILE[:length]))

    def test_another_locale(self) -> None:
        self.assert_fault(3, "`12` stands where a month of LC_ALL=C is wanted", lambda: self.read(ROOT, FILE.replace("Nov 12", "12 Nov")))
        self.assert_fault(3, "`Okt` stands where a month", lambda: self.read(ROOT, FILE.replace("Nov", "Okt")))
        self.assert_fault(3, "`2025-11-12` stands where a month", lambda: self.read(ROOT, FILE.replace("Nov 12  2025", "2025-11-12 07:00")))

    def test_other_options(self) -> None:
        self.assert_fault(3, "`ann` stands where a uid", lambda: self.read(ROOT, FILE.replace("1001", "ann")))
        self.assert_fault(3, "`1077` stands where a label", lambda: self.read(ROOT, FILE.replace("biba/10  ", "")))
        self.assert_fault(3, "`a` stands where a path", lambda: self.read(ROOT, FILE.replace("/a", "a")))
        self.assert_fault(3, "`total` stands where", lambda: self.read(ROOT, "total 8"))

    def test_lines_that_are_doubled(self) -> None:
        self.assertEqual(len(self.read(ROOT, FILE, ROOT, FILE.replace("1077", "12"))), 2)
        self.assert_fault(4, "says something else of /a", lambda: self.read(ROOT, FILE, FILE.replace("biba/10", "biba/9")))

    def test_directories_without_a_line(self) -> None:
        self.assert_fault(3, "its directory /d has no line", lambda: self.read(ROOT, FILE.replace("/a", "/d/a")))
        link = "lrwxr-xr-x  1 0  0  biba/high  9 Dec  1 07:00 /d"
        self.assert_fault(4, "its directory /d is no directory", lambda: self.read(ROOT, link, FILE.replace("/a", "/d/a")))

    def test_what_no_script_has(self) -> None:
        device = "crw-rw-rw-  1 0  0  biba/equal  0x1a Dec  1 07:00 /null"
        more = FILE.replace("--  1", "--+ 2").replace("/a", "/b")
        self.assertEqual(list(self.read(ROOT.replace("0  0", "0  5"), device, more, "lrwxr-xr-x  1 0  0  -  9 Dec  1 07:00 /l -> a")), ["/", "/b"])
        self.assert_told("devices: 1", "links: 1", "1 files and directories have ACLs", "1 files have several names", "the owner of /, uid 0 gid 5")

    def test_below(self) -> None:
        lines = [ROOT, *(ROOT.replace(" /", f" {path}") for path in ("/d", "/d/e", "/de")), FILE.replace("/a", "/d/e/f")]
        self.assertEqual(list(self.read(*lines, below=["/d/e"])), ["/", "/d", "/d/e", "/d/e/f"])
        self.assert_fault(None, "no line of ls has /x", lambda: self.read(*lines, below=["/x"]))
