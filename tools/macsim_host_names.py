"""The names of users and groups of a machine, by passwd(5) and group(5). Nothing of it is proved."""
from __future__ import annotations

from dataclasses import dataclass, field

from macsim_host_remarks import Remarks
from macsim_host_text import HostText, Line, number_in
from macsim_text import Fault


@dataclass
class Names:
    """The id of each name, and the groups of which group(5) makes a user a member."""

    users: dict[str, int] = field(default_factory=dict)
    groups: dict[str, int] = field(default_factory=dict)
    memberships: dict[str, list[int]] = field(default_factory=dict)

    def groups_of(self, uid: int) -> list[int]:
        users = [user for user, own in self.users.items() if own == uid]
        return list(dict.fromkeys(gid for user in users for gid in self.memberships.get(user, [])))

    def users_of(self, uid: int) -> set[str]:
        return {user for user, own in self.users.items() if own == uid}


def names_of(text: HostText, remarks: Remarks) -> Names:
    names = Names()
    text.each("passwd", lambda line: read_user(line, names, remarks))
    text.each("group", lambda line: read_group(line, names, remarks))
    return names


def fields_of(line: Line, form: str) -> list[str]:
    fields = line.text.split(":")
    if len(fields) < 4 or not fields[0]:
        raise Fault(f"a line {form} is wanted")
    return fields


def is_of_nis(line: Line, remarks: Remarks) -> bool:
    """Whether a line stands for those of another machine."""
    if line.text.startswith(("+", "-")):
        remarks.left_out("names", "a line of NIS in passwd or group: the names that it stands for aren't known")
    return line.text.startswith(("+", "-"))


def keep(ids: dict[str, int], name: str, number: int) -> None:
    """Keeps the id of a name. The first line of a name counts, as getpwnam(3) takes it; another id for it is a fault."""
    if ids.setdefault(name, number) != number:
        raise Fault(f"`{name}` has another id by an earlier line")


def read_user(line: Line, names: Names, remarks: Remarks) -> None:
    if not is_of_nis(line, remarks):
        user, _, uid, gid = fields_of(line, "NAME:*:UID:GID")[:4]
        number_in(gid, "a gid")
        keep(names.users, user, number_in(uid, "a uid"))


def read_group(line: Line, names: Names, remarks: Remarks) -> None:
    if is_of_nis(line, remarks):
        return
    group, _, gid, members = fields_of(line, "NAME:*:GID:MEMBERS")[:4]
    number = number_in(gid, "a gid")
    keep(names.groups, group, number)
    for member in filter(None, members.split(",")):
        names.memberships.setdefault(member, []).append(number)
