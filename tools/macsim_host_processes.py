"""Processes of a machine, by ps(1) and `procstat -as`. Nothing of it is proved."""
from __future__ import annotations

from collections import Counter
from dataclasses import dataclass

from macsim_host_labels import LabelReader
from macsim_host_names import Names
from macsim_host_remarks import Remarks
from macsim_host_text import HostText, number_in, said, with_number
from macsim_text import Fault

PS = tuple("PID PPID JID UID RUID SVUID GID LABEL COMMAND".split())
PROCSTAT = tuple("PID COMM EUID RUID SVUID EGID RGID SVGID UMASK FLAGS GROUPS".split())
MOST_GROUPS = 16


@dataclass(frozen=True)
class Credential:
    """The effective, real and saved uid of a process, and its groups, of which the first is the effective one."""

    uids: tuple[int, int, int]
    groups: tuple[int, ...]


@dataclass(frozen=True)
class Process:
    """A process outside of jails that isn't the kernel's."""

    pid: int
    command: str
    credential: Credential
    label: str

    @property
    def uid(self) -> int:
        return self.credential.uids[0]


# procstat


def groups_in(word: str) -> list[int]:
    return [] if word == "-" else [number_in(group, "a group") for group in word.split(",")]


def credential_of(row: dict[str, str]) -> Credential:
    uids = tuple(number_in(row[name], f"the {name}") for name in ("EUID", "RUID", "SVUID"))
    first = number_in(row["EGID"], "the EGID")
    groups = groups_in(row["GROUPS"])
    return Credential(uids, tuple(groups if groups[:1] == [first] else [first, *groups]))


def require(row: dict[str, str], names: tuple[str, ...], section: str) -> None:
    for name in names:
        if name not in row:
            raise Fault(f"{section} has no column {name}")


def credentials_of(text: HostText, remarks: Remarks) -> dict[int, Credential]:
    """The credential of each process of procstat, by pid."""
    found: dict[int, Credential] = {}

    def read(row: dict[str, str]) -> None:
        require(row, ("PID", "EUID", "RUID", "SVUID", "EGID", "GROUPS"), "procstat")
        pid = number_in(row["PID"], "a pid")
        if pid in found:
            raise Fault(f"an earlier line of procstat has process {pid}")
        found[pid] = credential_of(row)

    for line, row in text.rows("procstat", PROCSTAT, "COMM", remarks):
        with_number(text.name, line, lambda: read(row))
    return found


# ps


class ProcessesReader:
    """Reads the rows of ps one after another."""

    def __init__(self, credentials: dict[int, Credential], names: Names, labels: LabelReader, remarks: Remarks) -> None:
        self.credentials, self.names, self.labels, self.remarks = credentials, names, labels, remarks
        self.found: list[Process] = []
        self.pids: set[int] = set()
        # How many processes are no task, by the reason; and those with groups of group(5).
        self.counts: Counter[str] = Counter()

    def read(self, row: dict[str, str]) -> None:
        require(row, ("PID", "COMMAND"), "ps")
        pid = number_in(row["PID"], "a pid")
        if pid in self.pids:
            raise Fault(f"an earlier line of ps has process {pid}")
        self.pids.add(pid)
        why = self.why_left_out(pid, row)
        if why is not None:
            self.counts[why] += 1
            return
        where = f"process {pid} {said(row['COMMAND'])}"
        label = self.labels.label_of(row["LABEL"], True, where) if "LABEL" in row else "-"
        credential = self.credential_of(pid, row)
        if credential is None:
            self.remarks.left_out("processes", f"{where}: no line says its ids")
        else:
            self.keep(Process(pid, row["COMMAND"], credential, label), where)

    def why_left_out(self, pid: int, row: dict[str, str]) -> str | None:
        parent = number_in(row["PPID"], "a pid") if "PPID" in row else None
        if pid == 0 or (parent == 0 and pid != 1):
            return "processes of the kernel"
        is_jailed = "JID" in row and number_in(row["JID"], "the number of a jail") != 0
        return "processes in jails" if is_jailed else None

    def credential_of(self, pid: int, row: dict[str, str]) -> Credential | None:
        """By procstat. Where it has no line of any process, by the columns of ps, and by group(5)."""
        if self.credentials or not {"UID", "RUID", "SVUID", "GID"} <= row.keys():
            return self.credentials.get(pid)
        uids = tuple(number_in(row[name], f"the {name}") for name in ("UID", "RUID", "SVUID"))
        gid = number_in(row["GID"], "the GID")
        self.counts["guessed"] += 1
        return Credential(uids, (gid, *(group for group in self.names.groups_of(uids[1]) if group != gid)))

    def keep(self, process: Process, where: str) -> None:
        uids, groups = process.credential.uids, process.credential.groups
        if len(set(uids)) > 1:
            told = ", ".join(map(str, uids))
            self.remarks.beware("ids", f"{where}: its effective, real and saved uid are {told}; here it has the effective one for all three")
        if len(groups) > MOST_GROUPS:
            lost = ",".join(map(str, groups[MOST_GROUPS:]))
            self.remarks.left_out("groups", f"{where}: its groups {lost}, behind the {MOST_GROUPS} that a task has")
            process = Process(process.pid, process.command, Credential(uids, groups[:MOST_GROUPS]), process.label)
        self.found.append(process)

    def tell(self) -> None:
        guessed = self.counts.pop("guessed", 0)
        for what, count in self.counts.items():
            self.remarks.left_out("processes", f"{what}: {count}")
        if guessed:
            self.remarks.beware("groups", f"the groups of {guessed} processes are those of group(5), and not those that they have, as procstat would tell")


def processes_of(text: HostText, names: Names, labels: LabelReader, remarks: Remarks) -> list[Process]:
    reader = ProcessesReader(credentials_of(text, remarks), names, labels, remarks)
    lacking: set[str] = set()
    for line, row in text.rows("ps", PS, "COMMAND", remarks):
        lacking = {"PPID", "JID", "LABEL"} - row.keys()
        with_number(text.name, line, lambda: reader.read(row))
    for name in sorted(lacking):
        remarks.beware("columns", f"ps has no column {name}: what it would say isn't known")
    reader.tell()
    return reader.found
