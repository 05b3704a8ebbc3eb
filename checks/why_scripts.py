"""Worked rows of `why`: scripts with a denial by each test, a lowering, a rule that gives, and what is told of them, by hand; and the script
whose text is the longest."""
from __future__ import annotations

from scripts import SYSCTL, script_of

FILE = "reg uid 0 gid 0 mode 644 label"


class Row:
    """A worked row: a script of one task, and the lines that `why all` tells of it."""

    def __init__(self, name: str, script: str, lines: str) -> None:
        self.name, self.script = name, script
        self.lines = [line.strip() for line in lines.strip().split("\n")]


# Four modules that deny one signal, and the error that is told first.
FOUR = Row(
    "four deny one signal",
    script_of(
        ["boot mac_biba", "boot mac_mls", "boot mac_partition", "boot mac_seeotheruids"],
        ("u uid 1002 gid 1002 label biba/5,mls/low,partition/4", []),
        ("t uid 1001 gid 1001 label biba/high,mls/5,partition/3", ["see t", "signal u"]),
    ),
    """
    denied t 2 1 proc_signal proc:t proc:u
    why t 2 mac_mls also EACCES modify subject 5 object low
    why t 2 mac_biba decides ESRCH observe subject high object 5
    why t 2 mac_seeotheruids also ESRCH user subject 1001 object 1002
    why t 2 mac_partition also ESRCH partition subject 3 object 4
    """,
)
# What is read has to be no lower by mac_biba, and no higher by mac_mls; what is written the other way round.
UP_AND_DOWN = Row(
    "up and down",
    script_of(
        ["boot mac_biba", "boot mac_mls", f"file /up {FILE} biba/9,mls/9", f"file /down {FILE} biba/3,mls/3"],
        ("t uid 0 gid 0 label biba/5,mls/5:2", ["read /up", "read /down", "write /up x", "write /down x"]),
    ),
    """
    denied t 1 2 vnode_open_read proc:t vnode:/up
    why t 1 mac_mls decides EACCES observe subject 5:2 object 9
    denied t 2 2 vnode_open_read proc:t vnode:/down
    why t 2 mac_biba decides EACCES observe subject 5 object 3
    denied t 3 2 vnode_open_write proc:t vnode:/up
    why t 3 mac_mls decides EACCES modify subject 5:2 object 9
    why t 3 mac_biba also EACCES modify subject 5 object 9
    denied t 4 2 vnode_open_write proc:t vnode:/down
    why t 4 mac_mls decides EACCES modify subject 5:2 object 3
    """,
)
SOCKETS = Row(
    "sockets of two levels",
    script_of(
        ["boot mac_biba"],
        (
            "t uid 0 gid 0 label biba/5",
            ["socket d", "setpmac biba/9", "socket s", "send s d x", "seesock d", "recv d"],
        ),
    ),
    """
    denied t 4 2 socket_deliver socket:s socket:d
    why t 4 mac_biba decides EACCES level subject 9 object 5
    denied t 5 1 socket_visible proc:t socket:d
    why t 5 mac_biba decides ENOENT observe subject 9 object 5
    denied t 6 1 socket_receive proc:t socket:d
    why t 6 mac_biba decides EACCES observe subject 9 object 5
    """,
)
OWN = Row(
    "a process relabels itself",
    script_of(
        ["boot mac_biba", "boot mac_mls"],
        (
            "t uid 0 gid 0 label biba/5,mls/7(5-9)",
            ["setpmac biba/5(6-9)", "setpmac biba/(6-9)", "setpmac mls/7(5-12)", "setpmac mls/12", "setpmac mls/eq"]
            + ["setpmac mls/7:3"],
        ),
    ),
    """
    denied t 1 1 cred_relabel proc:t -
    why t 1 mac_biba decides EINVAL fit element 5 asked 6-9
    denied t 2 1 cred_relabel proc:t -
    why t 2 mac_biba decides EINVAL fit element 5 asked 6-9
    denied t 3 1 cred_relabel proc:t -
    why t 3 mac_mls decides EPERM range asked 5-12 own 5-9
    denied t 4 1 cred_relabel proc:t -
    why t 4 mac_mls decides EPERM element asked 12 own 5-9
    denied t 5 1 cred_relabel proc:t -
    why t 5 mac_mls decides EPERM equal subject 7 own 5-9
    denied t 6 1 cred_relabel proc:t -
    why t 6 mac_mls decides EPERM element asked 7:3 own 5-9
    """,
)
ADMINISTRATOR = Row(
    "an administrator relabels",
    script_of(
        ["boot mac_biba", f"file /a {FILE} biba/20", f"file /b {FILE} biba/30"],
        (
            "admin uid 0 gid 0 label biba/20(10-20)",
            ["setfmac biba/5(7-9) /a", "setfmac biba/25 /a", "setfmac biba/15 /b", "setfmac biba/15 /a", "setfmac biba/equal /a"]
            + ["kldload mac_priority"],
        ),
    ),
    """
    denied admin 1 2 vnode_relabel proc:admin vnode:/a
    why admin 1 mac_biba decides EINVAL plain asked 7-9
    denied admin 2 2 vnode_relabel proc:admin vnode:/a
    why admin 2 mac_biba decides EPERM element asked 25 own 10-20
    denied admin 3 2 vnode_relabel proc:admin vnode:/b
    why admin 3 mac_biba decides EPERM present object 30 own 10-20
    denied admin 5 2 vnode_relabel proc:admin vnode:/a
    why admin 5 mac_biba decides EPERM equal subject 20 own 10-20
    denied admin 6 2 kld_load proc:admin -
    why admin 6 mac_biba decides EPERM privileged subject 20 own 10-20
    """,
)
# mac_lomac lowers at the look-up and at the read, also where the call is denied later, or refused.
LOWERED = Row(
    "those who are lowered",
    script_of(
        [
            "boot mac_lomac",
            "file /pub dir uid 0 gid 0 mode 755 label lomac/5",
            f"file /pub/f {FILE} lomac/9",
            f"file /g {FILE} lomac/3",
        ],
        (
            "t uid 0 gid 0 label lomac/9",
            ["fork c", "@c exec /pub/none", "write /pub/f x", "read /g", "setpmac lomac/5", "setfmac lomac/3 /pub/f"]
            + ["setpmac lomac/equal", "debug t.c", "@c debug t"],
        ),
    ),
    """
    lowered t 2 2 proc:t.c 9 5 vnode:/pub
    lowered t 3 2 proc:t 9 5 vnode:/pub
    denied t 3 3 vnode_open_write proc:t vnode:/pub/f
    why t 3 mac_lomac decides EACCES modify subject 5 object 9
    lowered t 4 2 proc:t 5 3 vnode:/g
    denied t 5 1 cred_relabel proc:t -
    why t 5 mac_lomac decides EPERM dominate subject 3 asked 5
    denied t 6 3 vnode_relabel proc:t vnode:/pub/f
    why t 6 mac_lomac decides EPERM dominate subject 3 object 9
    denied t 7 1 cred_relabel proc:t -
    why t 7 mac_lomac decides EPERM equal subject 3
    denied t 8 1 proc_debug proc:t proc:t.c
    why t 8 mac_lomac decides EACCES modify subject 3 object 5
    lowered t 9 1 proc:t.c 5 3 proc:t
    """,
)
PARTITIONS = Row(
    "joining a partition",
    script_of(
        ["boot mac_partition", "boot mac_biba"],
        ("t uid 1001 gid 1001 label partition/3", ["setpmac partition/7", "priv SCHED_RTPRIO", "kldunload mac_partition"]),
    ),
    """
    denied t 1 1 cred_relabel proc:t -
    why t 1 mac_partition decides EPERM join asked 7 uid 1001
    denied t 2 1 priv proc:t -
    why t 2 - decides EPERM privilege SCHED_RTPRIO uid 1001
    denied t 3 1 priv proc:t -
    why t 3 - decides EPERM privilege KLD_UNLOAD uid 1001
    """,
)
# The first rule that matches decides; with first match off each that matches and lacks a letter.
RULES = Row(
    "rules about files",
    script_of(
        ["boot mac_bsdextended", f"file /a {FILE} -"],
        (
            "t uid 0 gid 0 label -",
            ["ugidfw set 4 subject uid 0 object type r mode rs", "ugidfw set 7 subject object type r mode x"]
            + ["write /a x", "read /a", "exec /a", f"{SYSCTL}.bsdextended.firstmatch_enabled=0", "write /a x", "read /a"],
        ),
    ),
    """
    denied t 3 2 vnode_open_write proc:t vnode:/a
    why t 3 mac_bsdextended decides EACCES rule 4 wants w gives rs
    let t 4 2 mac_bsdextended rule 4 wants r gives rs
    let t 4 3 mac_bsdextended rule 4 wants n gives rs
    denied t 5 2 vnode_exec proc:t vnode:/a
    why t 5 mac_bsdextended decides EACCES rule 4 wants rx gives rs
    denied t 7 2 vnode_open_write proc:t vnode:/a
    why t 7 mac_bsdextended decides EACCES rule 4 wants w gives rs
    also t 7 mac_bsdextended rule 7 wants w gives x
    denied t 8 2 vnode_open_read proc:t vnode:/a
    why t 8 mac_bsdextended decides EACCES rule 7 wants r gives x
    """,
)
PORTS = Row(
    "rules about ports",
    script_of(
        ["boot mac_portacl"],
        (
            "www uid 0 gid 80 label -",
            ["socket s", f"{SYSCTL}.portacl.suser_exempt=0", "bind s tcp 80"]
            + [f"{SYSCTL}.portacl.rules=uid:0:udp:80,gid:80:tcp:80,uid:0:tcp:80"]
            + ["bind s tcp 80", "bind s udp 80", "bind s tcp 8080", "bind s tcp 0", "bind s udp 81"],
        ),
    ),
    """
    denied www 3 1 socket_bind proc:www socket:s
    why www 3 mac_portacl decides EPERM port tcp 80 uid 0
    let www 5 1 mac_portacl place 2 gid 80 tcp 80
    let www 6 1 mac_portacl place 1 uid 0 udp 80
    denied www 9 1 socket_bind proc:www socket:s
    why www 9 mac_portacl decides EPERM port udp 81 uid 0
    """,
)
ROWS = [FOUR, UP_AND_DOWN, SOCKETS, OWN, ADMINISTRATOR, LOWERED, PARTITIONS, RULES, PORTS]


# The longest text

TASKS, LINES, RULES_AT_MOST = 16, 4096, 250
ALL = "+".join(map(str, range(1, 257)))


def longest() -> str:
    """A script whose 65,285 reads are denied each by 250 rules, and by two policies whose elements have all compartments, where the last task
    goes first, as it does where no thread can be made."""
    label = f"biba/65535:{ALL},mls/65534:{ALL}"
    setting = ["ugidfw add subject object mode aswx"] * RULES_AT_MOST + [f"{SYSCTL}.bsdextended.firstmatch_enabled=0"]
    front = ["boot mac_biba", "boot mac_mls", "boot mac_bsdextended", f"file /a {FILE} biba/65534:{ALL},mls/65535:{ALL}"]
    calls = lambda task: ((setting if task == TASKS - 1 else []) + ["exec /a"] * LINES)[:LINES]
    tasks = [(f"{f't{task}':x<32} uid 0 gid 0 label {label}", calls(task)) for task in range(TASKS)]
    return script_of(front, *tasks)
