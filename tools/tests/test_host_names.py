"""passwd and group."""
from making import ReaderTest, text_of

from macsim_host_names import Names, names_of


class NamesOf(ReaderTest):
    def read(self, passwd: list[str], group: list[str]) -> Names:
        return names_of(text_of(passwd=passwd, group=group), self.remarks)

    def test_names_and_memberships(self) -> None:
        found = self.read(["root:*:0:0:Charlie &:/root:/bin/csh", "toor:*:0:0", "ann:*:1001:1001"], ["wheel:*:0:root,ann", "staff:*:20:ann"])
        self.assertEqual((found.users["ann"], found.groups["staff"]), (1001, 20))
        self.assertEqual((found.groups_of(1001), found.users_of(0)), ([0, 20], {"root", "toor"}))

    def test_lines_that_are_cut_or_doubled(self) -> None:
        self.assert_fault(2, "NAME:*:UID:GID", lambda: self.read(["root:*:0"], []))
        self.assert_fault(2, "`x` stands where a uid is wanted", lambda: self.read(["root:*:x:0"], []))
        self.assert_fault(3, "`root` has another id", lambda: self.read(["root:*:0:0", "root:*:1:0"], []))
        self.assert_fault(3, "`5000000000` stands where a gid is wanted", lambda: self.read([], ["big:*:5000000000:"]))
        self.assertEqual(self.read(["root:*:0:0", "root:*:0:0"], []).users, {"root": 0})

    def test_lines_of_nis(self) -> None:
        self.read(["+:*::"], ["+:*::"])
        self.assert_told("a line of NIS")
