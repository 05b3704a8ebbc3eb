"""Scripts that several checks run: worked ones, by name, and loads of tasks that change the list of
policies or a setting, that mac_lomac lowers, or that have files open."""


def script_of(front, *tasks):
    """A script of these lines and tasks, each of them with what it is and its lines."""
    lines = [*front]
    for task, calls in tasks:
        lines += [f"task {task}", *calls, "end"]
    return "".join(f"{line}\n" for line in lines)


MODULES = [
    f"mac_{name}"
    for name in "biba mls lomac partition bsdextended priority seeotheruids portacl".split()
]
ADD = "ugidfw add subject uid 5 object mode n"
REMOVE = "ugidfw remove 0"
SYSCTL = "sysctl security.mac"
PORT_RULES = ",".join(f"uid:{uid}:tcp:80,gid:{uid}:udp:{uid}" for uid in range(32))
TUNABLE = "tunable security.mac.biba.revocation_enabled=1"
WORKED = {
    "a late partition": script_of(
        ["boot mac_biba"],
        (
            "t uid 0 gid 0 label biba/equal",
            ["kldload mac_partition", "see b", "setpmac partition/7", "see b", "fork c"]
            + ["see t.c", "@c setpmac partition/8", "see t.c", "setpmac partition/none"]
            + ["getpmac"],
        ),
        ("b uid 0 gid 0 label biba/equal", []),
    ),
    "a full rule list": script_of(
        ["boot mac_bsdextended"],
        ("t uid 0 gid 0 label -", [*[ADD] * 251, REMOVE, REMOVE, ADD]),
    ),
    "open files": script_of(
        [
            "boot mac_biba",
            "boot mac_lomac",
            TUNABLE,
            "file /d dir uid 0 gid 0 mode 755 label biba/5,lomac/5",
            "file /d/notes reg uid 0 gid 0 mode 644 label biba/5,lomac/5 text old",
        ],
        (
            "t uid 0 gid 0 label biba/5(low-high),lomac/high",
            ["open /d/notes rw", "fwrite 0 new", "fread 0", "setfmac biba/low /d/notes"]
            + ["fread 0", "fork c", "@c fread 0", *["open /d/notes w"] * 16, "close 3"]
            + ["open /d/notes w", "setfmac biba/5 /d/notes", "fread 0", "@c setpmac biba/5"]
            + ["@c open /d/notes r", "unlink /d/notes", "fread 0", "@c close 0", "exit"],
        ),
    ),
    "settings": script_of(
        [*(f"boot {module}" for module in MODULES)],
        (
            "t uid 0 gid 5 label -",
            ["socket s", "fork c", "@c bind s tcp 80", f"{SYSCTL}.portacl.suser_exempt=0"]
            + ["bind s tcp 80", f"{SYSCTL}.portacl.rules={PORT_RULES}", "bind s tcp 80"]
            + ["bind s udp 0", f"{SYSCTL}.portacl.autoport_exempt=0", "bind s udp 0"]
            + [f"{SYSCTL}.portacl.port_high=79", "bind s udp 80", f"{SYSCTL}.portacl.rules=x"]
            + [f"{SYSCTL}.seeotheruids.suser_privileged=0", "see u", "signal t.c"]
            + [f"{SYSCTL}.seeotheruids.specificgid=5"]
            + [f"{SYSCTL}.seeotheruids.specificgid_enabled=1", "debug u", "sched u"]
            + ["kldunload mac_seeotheruids", "kldunload mac_portacl", "kldload mac_portacl"]
            + ["bind s tcp 80", f"{SYSCTL}.seeotheruids.specificgid=5", "kldstat"],
        ),
        ("u uid 1001 gid 1001 label -", []),
    ),
    "an ordinary machine": script_of(
        [
            "boot mac_biba",
            "boot mac_mls",
            "boot mac_bsdextended",
            "file /home dir uid 0 gid 0 mode 755 label -",
            "file /home/alice dir uid 1001 gid 1001 mode 700 label biba/10,mls/5",
            "file /home/alice/n reg uid 1001 gid 1001 mode 600 label biba/10,mls/5 text note",
            "file /tmp dir uid 0 gid 0 mode 1777 label biba/equal,mls/equal",
        ],
        (
            "alice uid 1001 gid 1001 label biba/10(low-10),mls/5(low-5)",
            ["readdir /home/alice", "read /home/alice/n", "write /home/alice/n !"]
            + ["read /home/alice/n", "create /tmp/a", "create /home/x"]
            + ["setpmac biba/high", "see www"],
        ),
        (
            "www uid 80 gid 80 label biba/low(low-low),mls/low(low-low)",
            ["read /home/alice/n", "create /tmp/w", "write /tmp/w x", "read /tmp/w"]
            + ["unlink /tmp/w", "kldload mac_partition"],
        ),
    ),
}
# How many tasks a script may have.
TASKS = 16
EQUAL = "uid 0 gid 0 label biba/equal"


def loaders():
    """Sixteen tasks that load and unload a module."""
    calls = ["kldload mac_partition", "kldunload mac_partition"] * 4
    return script_of(["boot mac_biba"], *((f"t{number} {EQUAL}", calls) for number in range(TASKS)))


def changers(changes):
    """Sixteen tasks of so many changes each."""
    first_match = f"{SYSCTL}.bsdextended.firstmatch_enabled=0"
    kinds = [ADD, first_match, "kldload mac_portacl", REMOVE]
    kinds += [f"{SYSCTL}.portacl.rules={PORT_RULES}", "kldunload mac_portacl"]
    calls = lambda task: [kinds[(task + place) % len(kinds)] for place in range(changes)]
    tasks = [(f"t{task} {EQUAL}", calls(task)) for task in range(TASKS)]
    return script_of(["boot mac_biba", "boot mac_bsdextended"], *tasks)


def mixed(lines):
    """Eight tasks of changes, and eight whose entries let these wait."""
    changes = ["kldload mac_partition", "kldunload mac_partition", ADD, REMOVE]
    entries = ["read /f", "stat /f", "write /f x", "getpmac"]
    calls = lambda task: ((changes if task % 2 else entries) * lines)[:lines]
    file = "file /f reg uid 0 gid 0 mode 644 label biba/equal text hi"
    tasks = [(f"t{task} {EQUAL}", calls(task)) for task in range(TASKS)]
    return script_of(["boot mac_biba", "boot mac_bsdextended", file], *tasks)


def sinking(lines):
    """Sixteen tasks that mac_lomac lowers, by what they read, and by whom they debug."""
    kinds = ["debug t{other}", "read /f{grade}", "write /f{grade} x", "getpmac"]
    call = lambda task, place: kinds[(task + place) % len(kinds)].format(
        other=(task + place + 1) % TASKS, grade=(3 * task + 5 * place) % TASKS
    )
    files = [
        f"file /f{grade} reg uid 0 gid 0 mode 644 label lomac/{grade + 20 - grade % 5} text hi"
        for grade in range(TASKS)
    ]
    tasks = [
        (f"t{task} uid 0 gid 0 label lomac/{40 - task}", [call(task, place) for place in range(lines)])
        for task in range(TASKS)
    ]
    return script_of(["boot mac_lomac", *files], *tasks)


def openers(lines):
    """Sixteen tasks that have the same files open, relabel them, and remove them from each other."""
    kinds = ["open /d/f{file} rw", "fread {number}", "fwrite {number} x"]
    kinds += ["setfmac biba/{grade} /d/f{file}", "open /d/f{file} r", "close {number}"]
    kinds += ["unlink /d/f{file}", "create /d/f{file}"]
    call = lambda task, place: kinds[(3 * task + place) % len(kinds)].format(
        file=(task + place // len(kinds)) % 4, number=place % 3, grade=10 + task % 3
    )
    files = ["file /d dir uid 0 gid 0 mode 755 label biba/equal"]
    files += [f"file /d/f{n} reg uid 0 gid 0 mode 644 label biba/10 text hi" for n in range(4)]
    own = lambda task: f"t{task} uid 0 gid 0 label biba/{10 + task % 3}"
    tasks = [(own(task), [call(task, place) for place in range(lines)]) for task in range(TASKS)]
    return script_of(["boot mac_biba", "boot mac_lomac", *files], *tasks)
