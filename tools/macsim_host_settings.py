"""Modules and settings of a machine, by kldstat(8), sysctl(8) and mount(8). Nothing of it is proved."""
from __future__ import annotations

import re
from dataclasses import dataclass, field

from macsim_host_remarks import Remarks
from macsim_host_text import Column, HostText, Line, columns_of
from macsim_labels import LATTICES, LOMAC, MLS
from macsim_text import TUNABLE, WORDS, Fault

MODULES = tuple(WORDS["MODULE"].split("|"))
KLDSTAT = [Column("Id", r"\d+"), Column("Refs", r"\d+"), Column("Address", "0x[0-9a-f]+"), Column("Size", "[0-9a-f]+"), Column("Name", ".+")]
BSDEXTENDED, SEEOTHERUIDS, PORTACL = "mac_bsdextended", "mac_seeotheruids", "mac_portacl"
SWITCH, NUMBER = "[01]", r"\d{1,10}"
PORT_RULE = r"[ug]id:\d{1,10}:(?:tcp|udp):\d{1,5}"


@dataclass(frozen=True)
class Setting:
    """A setting that a script can give: its module, what it is when the module is loaded, and the values that it takes."""

    module: str
    loaded: str
    form: str


# The table of settings in docs/MANUAL.md, without the tunable.
SETTINGS = {
    "security.mac.bsdextended.firstmatch_enabled": Setting(BSDEXTENDED, "1", SWITCH),
    "security.mac.seeotheruids.primarygroup_enabled": Setting(SEEOTHERUIDS, "0", SWITCH),
    "security.mac.seeotheruids.specificgid_enabled": Setting(SEEOTHERUIDS, "0", SWITCH),
    "security.mac.seeotheruids.specificgid": Setting(SEEOTHERUIDS, "0", NUMBER),
    "security.mac.seeotheruids.suser_privileged": Setting(SEEOTHERUIDS, "1", SWITCH),
    "security.mac.portacl.port_high": Setting(PORTACL, "1023", NUMBER),
    "security.mac.portacl.suser_exempt": Setting(PORTACL, "1", SWITCH),
    "security.mac.portacl.autoport_exempt": Setting(PORTACL, "1", SWITCH),
    "security.mac.portacl.rules": Setting(PORTACL, "", f"(?:{PORT_RULE}(?:,{PORT_RULE}){{0,63}})?"),
}
# What says nothing of an answer, or is told by another remark.
SILENT = "enabled label_size max_compartments revocation_enabled logging rule_slots rule_count rule_version rules destroyed_not_inited".split()
# What makes exceptions, where it isn't this.
EXCEPTIONS = {"ptys_equal": "0", "trust_all_interfaces": "0", "trusted_interfaces": "", "interfaces_equal": None}
RESERVED = "net.inet.ip.portrange.reservedhigh"
# File systems that keep no labels of an administrator's.
WITHOUT_FILES = ("devfs", "procfs", "fdescfs", "linprocfs", "linsysfs")


@dataclass(frozen=True)
class Mount:
    """A file system: where it stands, and its flags."""

    path: str
    flags: tuple[str, ...]


@dataclass
class Settings:
    """What a machine's kernel has, before its rules, files and processes."""

    modules: list[str] = field(default_factory=list)
    has_revocation: bool = False
    changed: dict[str, str] = field(default_factory=dict)
    mounts: list[Mount] = field(default_factory=list)

    def lattices(self) -> list[str]:
        return [module for module in self.modules if module in LATTICES]


def short(module: str) -> str:
    return module.removeprefix("mac_")


# Lines


def read_kldstat(line: Line, loaded: list[str]) -> None:
    if line.text.split() == [column.name for column in KLDSTAT]:
        return
    name = columns_of(line.text, KLDSTAT)["Name"].split(" ")[0].removesuffix(".ko")
    if name in loaded:
        raise Fault(f"{name} is loaded by an earlier line")
    loaded.append(name)


def read_sysctl(line: Line, values: dict[str, str]) -> None:
    found = re.fullmatch(r"([A-Za-z0-9_.%-]+): ?(.*)", line.text)
    if found is None:
        raise Fault("a line `NAME: VALUE` is wanted")
    if values.setdefault(found[1], found[2].rstrip(" ")) != found[2].rstrip(" "):
        raise Fault(f"{found[1]} has another value by an earlier line")


def read_mount(line: Line, mounts: list[Mount]) -> None:
    found = re.fullmatch(r"(.+) on (/.*) \(([^()]+)\)", line.text)
    if found is None:
        raise Fault("a line `DEVICE on DIRECTORY (FLAGS)` is wanted")
    mounts.append(Mount(found[2], tuple(flag.strip() for flag in found[3].split(","))))


# The whole


def modules_of(loaded: list[str], values: dict[str, str], remarks: Remarks) -> list[str]:
    """The modules in the order in which they came. One that has settings, and no line of kldstat, is in the kernel, and came first."""
    inside = [module for module in MODULES if module not in loaded and any(name.startswith(f"security.mac.{short(module)}.") for name in values)]
    if len(inside) > 1:
        remarks.beware("modules", f"{', '.join(inside)} are in the kernel: in which order they came isn't known, so a denial by two may name the other")
    for name in loaded:
        if name.startswith("mac_") and name not in MODULES:
            remarks.left_out("modules", f"{name} is loaded, and macsim has no such module")
    modules = []
    for module in [*inside, *(name for name in loaded if name in MODULES)]:
        if values.get(f"security.mac.{short(module)}.enabled", "1") == "0":
            remarks.left_out("modules", f"{module} is loaded, and security.mac.{short(module)}.enabled=0 switches it off")
        else:
            modules.append(module)
    return modules


def changed_settings(modules: list[str], values: dict[str, str], remarks: Remarks) -> dict[str, str]:
    """The settings that differ from those with which a module is loaded. Those that a script can't give are told."""
    changed = {}
    for name, setting in SETTINGS.items():
        value = values.get(name, setting.loaded)
        if setting.module not in modules or value == setting.loaded:
            continue
        if re.fullmatch(setting.form, value):
            changed[name] = value
        else:
            remarks.left_out("settings", f"{name}={value}: a script takes no such value, and each answer that it counts for may be wrong")
    return changed


def tell_others(modules: list[str], values: dict[str, str], remarks: Remarks) -> None:
    """Tells the settings of the modules that macsim hasn't."""
    for name, value in values.items():
        found = re.fullmatch(r"security\.mac\.(\w+)\.(.+)", name)
        if found is None or f"mac_{found[1]}" not in modules or name in SETTINGS or found[2] in SILENT:
            continue
        if EXCEPTIONS.get(found[2], value) != value or found[2] not in EXCEPTIONS:
            remarks.left_out("settings", f"{name}={value}: macsim has no such setting")


def tell_what_misleads(modules: list[str], values: dict[str, str], remarks: Remarks) -> None:
    for module in (MLS, LOMAC):
        if module in modules and values.get(f"security.mac.{short(module)}.revocation_enabled", "0") == "0":
            remarks.beware("settings", f"{module} has revocation always here, and not on the machine: a denied fread or fwrite is allowed there")
    reserved = values.get(RESERVED)
    if PORTACL in modules and reserved != "0":
        kept = f"the kernel keeps the ports up to {RESERVED}={reserved} for root" if reserved else f"{RESERVED} isn't known"
        remarks.beware("settings", f"{kept}: a `bind` that is `ok` here may be refused there")
    if values.get("security.bsd.see_other_uids") == "0":
        remarks.beware("settings", "security.bsd.see_other_uids=0 hides other users' processes on the machine, whatever is said here")
    level = values.get("kern.securelevel", "-1")
    if level.isascii() and level.isdigit() and level != "0":
        remarks.beware("settings", f"kern.securelevel={level} refuses more on the machine than is said here")


def settings_of(text: HostText, remarks: Remarks) -> Settings:
    loaded: list[str] = []
    values: dict[str, str] = {}
    settings = Settings()
    text.each("kldstat", lambda line: read_kldstat(line, loaded))
    text.each("sysctl", lambda line: read_sysctl(line, values))
    text.each("mount", lambda line: read_mount(line, settings.mounts))
    settings.modules = modules_of(loaded, values, remarks)
    settings.has_revocation = "mac_biba" in settings.modules and values.get(TUNABLE) == "1"
    settings.changed = changed_settings(settings.modules, values, remarks)
    tell_others(settings.modules, values, remarks)
    tell_what_misleads(settings.modules, values, remarks)
    return settings


def tell_mounts(settings: Settings, paths: list[str], remarks: Remarks) -> None:
    """Tells what misleads about the file systems on which some of the files are."""
    places = {mount.path: mount for mount in settings.mounts if mount.flags[0] not in WITHOUT_FILES}
    used = {place for path in paths if (place := place_of(path, places)) is not None}
    for place in sorted(used):
        flags = places[place].flags
        if settings.lattices() and "multilabel" not in flags:
            remarks.beware("mounts", f"{place} isn't multilabel: all files there have one label, and setfmac is refused")
        for flag in {"read-only", "noexec"} & set(flags):
            remarks.beware("mounts", f"{place} is {flag}, which macsim doesn't know")


def place_of(path: str, places: dict[str, Mount]) -> str | None:
    """The file system on which a path is."""
    while path and path not in places:
        path = path.rpartition("/")[0]
    return path or ("/" if "/" in places else None)
