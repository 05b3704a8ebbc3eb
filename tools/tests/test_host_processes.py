"""ps and procstat."""
from making import ReaderTest, text_of

from macsim_host_labels import LabelReader
from macsim_host_names import Names
from macsim_host_processes import Process, processes_of

PS = " PID PPID JID LABEL                COMMAND"
PROCSTAT = "  PID COMM              EUID  RUID SVUID  EGID  RGID SVGID UMASK FLAGS GROUPS         "
SH = "  910  801   0 biba/10(low-10)      sh"
IDS = "  910 sh                1001  1001  1001  1001  1001  1001   022     C 1001,2000       "
NAMES = Names({"ann": 1001}, {"staff": 20}, {"ann": [20, 1001]})


class Processes(ReaderTest):
    def read(self, ps: list[str], procstat: list[str]) -> list[Process]:
        return processes_of(text_of(ps=ps, procstat=procstat), NAMES, LabelReader(["mac_biba"], self.remarks), self.remarks)

    def one(self, row: str, ids: str = IDS) -> list[Process]:
        return self.read([PS, row], [PROCSTAT, ids])

    def test_ids_and_label(self) -> None:
        (found,) = self.one(SH)
        self.assertEqual((found.pid, found.command, found.label), (910, "sh", "biba/10(low-10)"))
        self.assertEqual((found.uid, found.credential.groups), (1001, (1001, 2000)))

    def test_names_with_spaces_and_odd_bytes(self) -> None:
        (found,) = self.one(SH.replace("sh", "my sh: a\xe4"), IDS.replace("sh  ", "my sh"))
        self.assertEqual((found.command, found.uid), ("my sh: a\xe4", 1001))

    def test_the_effective_group_is_the_first(self) -> None:
        self.assertEqual(self.one(SH, IDS.replace("1001,2000", "2000,3000"))[0].credential.groups, (1001, 2000, 3000))
        self.assertEqual(self.one(SH, IDS.replace("1001,2000", "-        "))[0].credential.groups, (1001,))

    def test_kernel_and_jails(self) -> None:
        rows = ["    0    0   0 -  kernel", "    4    0   0 -  crypto", "    7    1   3 biba/low(low-low)  httpd", "    1    0   0 biba/high(low-high)  init"]
        self.assertEqual([found.pid for found in self.read([PS, *rows], [PROCSTAT, IDS.replace("910", "  1")])], [1])
        self.assert_told("processes of the kernel: 2", "processes in jails: 1")

    def test_uids_that_differ(self) -> None:
        (found,) = self.one(SH, IDS.replace("1001  1001  1001  1001", "   0  1001     0  1001"))
        self.assertEqual(found.uid, 0)
        self.assert_told("process 910 sh: its effective, real and saved uid are 0, 1001, 0")

    def test_many_groups(self) -> None:
        (found,) = self.one(SH, IDS.replace("1001,2000", ",".join(map(str, range(1001, 1019)))))
        self.assertEqual(len(found.credential.groups), 16)
        self.assert_told("its groups 1017,1018, behind the 16")

    def test_without_procstat(self) -> None:
        heading, row = "PID PPID JID UID RUID SVUID GID LABEL COMMAND", "611 610 0 1001 1001 1001 5 biba/10(low-10) vi"
        (found,) = self.read([heading, row], [])
        self.assertEqual(found.credential.groups, (5, 20, 1001))
        self.assert_told("the groups of 1 processes are those of group(5)")

    def test_a_process_without_ids(self) -> None:
        self.assertEqual(self.one(SH.replace("910", "911")), [])
        self.assert_told("process 911 sh: no line says its ids")

    def test_columns_that_are_lacking_or_unknown(self) -> None:
        (found,) = self.read(["PID NEW COMMAND", "910 x sh"], [PROCSTAT, IDS])
        self.assertEqual(found.label, "-")
        self.assert_told("column NEW of ps", "no column JID", "no column LABEL", "no column PPID")
        self.assert_fault(4, "procstat has no column EGID", lambda: self.read([], ["PID COMM EUID RUID SVUID GROUPS", "1 sh 0 0 0 0"]))

    def test_lines_that_are_cut_or_doubled(self) -> None:
        self.assert_fault(3, "words, and the heading has 5 columns", lambda: self.one(SH[:20]))
        self.assert_fault(3, "`x10` stands where a pid", lambda: self.one(SH.replace("910", "x10")))
        self.assert_fault(3, "is no element", lambda: self.one(SH.replace("biba/10(low-10)", "biba/1x(low-10)")))
        self.assert_fault(4, "an earlier line of ps has process 910", lambda: self.read([PS, SH, SH], [PROCSTAT, IDS]))
        self.assert_fault(7, "an earlier line of procstat has process 910", lambda: self.read([PS, SH], [PROCSTAT, IDS, IDS]))
        self.assert_fault(6, "words, and the heading has 11 columns", lambda: self.one(SH, IDS[:40]))
        self.assert_fault(6, "`x` stands where a group", lambda: self.one(SH, IDS.replace("1001,2000", "1001,x")))
