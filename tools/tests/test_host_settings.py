"""kldstat, sysctl and mount."""
from making import ReaderTest, text_of

from macsim_host_settings import Settings, settings_of, tell_mounts

HEADING = "Id Refs Address                Size Name"
KERNEL = " 1   21 0xffffffff80200000  2448f20 kernel"


def module(name: str) -> str:
    return f" 2    1 0xffffffff82649000     8d90 {name}.ko"


class Modules(ReaderTest):
    def read(self, kldstat: list[str], sysctl: list[str] = [], mount: list[str] = []) -> Settings:
        return settings_of(text_of(kldstat=[HEADING, KERNEL, *kldstat], sysctl=sysctl, mount=mount), self.remarks)

    def test_the_order_of_kldstat(self) -> None:
        self.assertEqual(self.read([module("mac_partition"), module("if_em"), module("mac_biba")]).modules, ["mac_partition", "mac_biba"])
        self.assert_told()

    def test_modules_in_the_kernel_come_first(self) -> None:
        found = self.read([module("mac_biba")], ["security.mac.seeotheruids.enabled: 1", "security.mac.partition.enabled: 1"])
        self.assertEqual(found.modules, ["mac_partition", "mac_seeotheruids", "mac_biba"])
        self.assert_told("mac_partition, mac_seeotheruids are in the kernel")

    def test_modules_that_are_unknown_or_off(self) -> None:
        self.assertEqual(self.read([module("mac_ntpd"), module("mac_biba")], ["security.mac.biba.enabled: 0"]).modules, [])
        self.assert_told("mac_ntpd is loaded", "security.mac.biba.enabled=0 switches it off")

    def test_lines_of_kldstat_that_are_cut_or_doubled(self) -> None:
        self.assert_fault(4, "it ends where Name is wanted", lambda: self.read([" 2    1 0xffffffff82649000     8d90"]))
        self.assert_fault(4, "`ffffffff82649000` stands where Address is wanted", lambda: self.read([" 2    1 ffffffff82649000 8d90 mac_biba.ko"]))
        self.assert_fault(5, "loaded by an earlier line", lambda: self.read([module("mac_biba")] * 2))

    def test_revocation(self) -> None:
        self.assertTrue(self.read([module("mac_biba")], ["security.mac.biba.revocation_enabled: 1"]).has_revocation)
        self.assertFalse(self.read([], ["security.mac.biba.label_size: 108", "security.mac.biba.revocation_enabled: 0"]).has_revocation)
        self.read([module("mac_mls")])
        self.assert_told("mac_mls has revocation always here")


class SettingsOf(ReaderTest):
    def read(self, *sysctl: str) -> dict[str, str]:
        return settings_of(text_of(kldstat=[module("mac_portacl")], sysctl=["net.inet.ip.portrange.reservedhigh: 0", *sysctl]), self.remarks).changed

    def test_what_differs(self) -> None:
        rules = "security.mac.portacl.rules: uid:80:tcp:80,gid:53:udp:53"
        found = self.read(rules, "security.mac.portacl.port_high: 1023", "security.mac.portacl.suser_exempt: 0", "security.mac.biba_x: 1")
        self.assertEqual(found, {"security.mac.portacl.suser_exempt": "0", "security.mac.portacl.rules": "uid:80:tcp:80,gid:53:udp:53"})
        self.assert_told()

    def test_no_text_of_rules(self) -> None:
        self.assertEqual(self.read("security.mac.portacl.rules: ", "security.mac.portacl.enabled: 1"), {})

    def test_what_a_script_takes_not(self) -> None:
        self.assertEqual(self.read("security.mac.portacl.rules: uid:www:tcp:80", "security.mac.portacl.new: 3", "kern.securelevel: 2"), {})
        self.assert_told("portacl.rules=uid:www:tcp:80", "security.mac.portacl.new=3: macsim has no such setting", "kern.securelevel=2")

    def test_lines_that_are_cut_or_doubled(self) -> None:
        self.assert_fault(5, "`NAME: VALUE` is wanted", lambda: self.read("security.mac.por"))
        again = ("security.mac.portacl.port_high: 1", "security.mac.portacl.port_high: 2")
        self.assert_fault(6, "another value by an earlier line", lambda: self.read(*again))


class Mounts(ReaderTest):
    def test_those_with_files(self) -> None:
        mounts = ["/dev/ada0p2 on / (ufs, local)", "/dev/ada1p1 on /my disk (ufs, local, multilabel, noexec)", "devfs on /dev (devfs)"]
        found = settings_of(text_of(kldstat=[module("mac_biba")], mount=mounts), self.remarks)
        tell_mounts(found, ["/my disk/a", "/dev/null"], self.remarks)
        self.assert_told("/my disk is noexec", "/ isn't multilabel")

    def test_a_line_that_is_cut(self) -> None:
        self.assert_fault(4, "`DEVICE on DIRECTORY (FLAGS)`", lambda: settings_of(text_of(kldstat=[KERNEL], mount=["/dev/ada0p2 on / (ufs"]), self.remarks))
