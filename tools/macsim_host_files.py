"""Files and directories of a machine, by the lines of `ls -ldnZB`. Nothing of it is proved."""
from __future__ import annotations

import re
from collections import Counter
from dataclasses import dataclass
from enum import Enum

from macsim_host_labels import LabelReader
from macsim_host_remarks import Remarks
from macsim_host_text import Column, HostText, Line, columns_of, number_in, said
from macsim_text import BadInput, Fault

MONTHS = "Jan|Feb|Mar|Apr|May|Jun|Jul|Aug|Sep|Oct|Nov|Dec"
LS = [
    Column("a type with mode bits", r"[-dlbcpsw][-r][-w][-xsS][-r][-w][-xsS][-r][-w][-xtT]\+?"),
    Column("the number of links", r"\d{1,10}"),
    Column("a uid, as of `ls -n`,", r"\d{1,10}"),
    Column("a gid, as of `ls -n`,", r"\d{1,10}"),
    Column("a label, as of `ls -Z`,", r"-|[a-z0-9_]+/[^ ]+"),
    Column("a size", r"\d+, *\d+|0x[0-9a-f]+|\d+"),
    Column("a month of LC_ALL=C", MONTHS),
    Column("a day", r"\d{1,2}"),
    Column("a time or a year", r"\d\d:\d\d|\d{4}"),
    Column("a path from `/`", r"/.*"),
]
BITS, LINKS, UID, GID, LABEL, PATH = (LS[place].name for place in (0, 1, 2, 3, 4, -1))
OTHERS = {"l": "links", "b": "devices", "c": "devices", "p": "fifos", "s": "sockets", "w": "whiteouts"}
ROOT = "/"
MOST_NAME = 32


class Kind(Enum):
    REGULAR = "reg"
    DIRECTORY = "dir"


@dataclass(frozen=True)
class Attributes:
    """All of a file or directory that a policy or a mode bit looks at."""

    kind: Kind
    uid: int
    gid: int
    mode: int
    label: str

    def words(self) -> str:
        return f"{self.kind.value} uid {self.uid} gid {self.gid} mode {self.mode:o} label {self.label}"


def mode_of(bits: str) -> int:
    """The mode of nine letters, as `rwxr-sr-t`."""
    mode = sum(1 << (8 - place) for place, letter in enumerate(bits) if letter in "rwxst")
    special = {2: ("sS", 0o4000), 5: ("sS", 0o2000), 8: ("tT", 0o1000)}
    return mode + sum(bit for place, (letters, bit) in special.items() if bits[place] in letters)


def path_of(text: str) -> str:
    """The path that `ls -B` prints, which has `\\` and three octal digits for each byte that isn't a printing one."""
    if re.search(r"\\(?![0-3][0-7]{2})", text):
        raise Fault("a `\\` of the path has no three octal digits behind it, as of `ls -B`")
    path = re.sub(r"\\([0-3][0-7]{2})", lambda digits: chr(int(digits[1], 8)), text)
    components = path.split("/")[1:]
    if path != ROOT and any(component in ("", ".", "..") for component in components):
        raise Fault("an empty component, `.` or `..` stands in the path")
    return path


class FilesReader:
    """Reads the lines of ls one after another."""

    def __init__(self, labels: LabelReader, remarks: Remarks) -> None:
        self.labels, self.remarks = labels, remarks
        self.found: dict[str, Attributes] = {}
        # What the line of each path said, and its number.
        self.facts: dict[str, tuple[str, int, int, str]] = {}
        self.numbers: dict[str, int] = {}
        # What no script has, by path; and how many files have what misleads.
        self.others: dict[str, str] = {}
        self.counts: Counter[str] = Counter()

    def read(self, line: Line) -> None:
        told = columns_of(line.text, LS)
        path, kind = path_of(told[PATH]), told[BITS][0]
        uid, gid, links = number_in(told[UID], "a uid"), number_in(told[GID], "a gid"), number_in(told[LINKS], "the number of links")
        facts = (told[BITS], uid, gid, told[LABEL])
        if path in self.facts:
            if self.facts[path] != facts:
                raise Fault(f"an earlier line says something else of {said(path)}")
            return
        self.facts[path], self.numbers[path] = facts, line.number
        if kind in OTHERS:
            self.others[path] = OTHERS[kind]
            return
        label = self.labels.label_of(told[LABEL], False, said(path))
        self.found[path] = Attributes(Kind.DIRECTORY if kind == "d" else Kind.REGULAR, uid, gid, mode_of(told[BITS][1:10]), label)
        self.counts["acl"] += told[BITS].endswith("+")
        self.counts["links"] += kind == "-" and links > 1

    def judge_directories(self, name: str) -> None:
        """Each file stands in a directory that has a line."""
        for path, number in self.numbers.items():
            directory = path.rpartition("/")[0] or ROOT
            found = self.found.get(directory)
            if path != ROOT and (found is None or found.kind is not Kind.DIRECTORY):
                what = "is no directory" if directory in self.facts else "has no line"
                raise BadInput(name, number, f"its directory {said(directory)} {what}")

    def tell(self) -> None:
        for what, count in Counter(self.others.values()).items():
            self.remarks.left_out("files", f"{what}: {count}")
        if self.counts["acl"]:
            self.remarks.beware("files", f"{self.counts['acl']} files and directories have ACLs, which macsim doesn't know")
        if self.counts["links"]:
            hard = f"{self.counts['links']} files have several names, of which each is a file by itself here: a relabel of one leaves the others"
            self.remarks.beware("files", hard)
        root = self.found.get(ROOT)
        if root and (root.uid, root.gid) != (0, 0):
            self.remarks.left_out("files", f"the owner of /, uid {root.uid} gid {root.gid}: here it has uid 0 and gid 0")


def is_sayable(name: str) -> bool:
    """Whether a script takes a name as it is."""
    return re.fullmatch(rf"(?!\.{{1,2}}$)[A-Za-z0-9._-]{{1,{MOST_NAME}}}", name) is not None


def is_below(path: str, directories: list[str]) -> bool:
    """Whether a path is one of these, below one, or on the way to one."""
    return any(path == one or path.startswith(f"{one.rstrip('/')}/") or one.startswith(f"{path.rstrip('/')}/") for one in directories)


def files_of(text: HostText, labels: LabelReader, below: list[str], remarks: Remarks) -> dict[str, Attributes]:
    """The files and directories by path, those of a directory behind it. Where there are some, the root directory is among them."""
    reader = FilesReader(labels, remarks)
    text.each("ls", reader.read)
    reader.judge_directories(text.name)
    for directory in below:
        if directory not in reader.found:
            raise BadInput(text.name, None, f"no line of ls has {said(directory)}")
    reader.tell()
    found = {path: attributes for path, attributes in reader.found.items() if not below or is_below(path, below)}
    return dict(sorted(found.items(), key=lambda file: file[0].split("/") if file[0] != ROOT else []))
