"""Scripts of random calls, always the same ones, in which much is allowed: few elements, wide ranges, and
names that are used over and over. Under one, two or three of mac_biba, mac_mls and mac_lomac, with the
other modules beside them, with revocation and without."""
import random

from scripts import MODULES, SYSCTL, TUNABLE, script_of

SEED = 53
LATTICES = ("mac_biba", "mac_mls", "mac_lomac")
ELEMENTS = ["low", "1", "2", "2:1", "2:1+2", "3:2", "high"]
PLAIN = ["low", "1", "2", "3", "high"]
PATHS = ["/", "/d", "/d/a", "/d/b", "/e", "/e/c", "/f", "/g", "/d/n", "/n"]
USERS = ["uid 0 gid 0", "uid 1001 gid 20,1001", "uid 1002 gid 1002,47"]
CHANNELS = ["p", "q"]
CHILDREN = ["c", "d"]
LETTERS = ["arswx", "rsx", "rw", "x", "s", "n"]
SIDES = ["", "uid 1001", "! uid 0", "gid 20", "not uid 0 gid 0", "uid 0:1001"]
FILES = [*SIDES, "type d", "type r", "suid", "! sgid", "uid_of_subject", "not gid_of_subject"]
SETTINGS = [
    *(f"{SYSCTL}.bsdextended.firstmatch_enabled={value}" for value in "01"),
    *(f"{SYSCTL}.seeotheruids.primarygroup_enabled={value}" for value in "01"),
    *(f"{SYSCTL}.seeotheruids.specificgid_enabled={value}" for value in "01"),
    *(f"{SYSCTL}.seeotheruids.specificgid={value}" for value in ("20", "0")),
    *(f"{SYSCTL}.seeotheruids.suser_privileged={value}" for value in "01"),
]
# Kinds of calls, with how often each comes.
KINDS = {
    **dict.fromkeys(("files", "reads", "writes"), 6),
    **dict.fromkeys(("processes", "pipes", "sockets", "descriptors"), 5),
    **{"relabels": 4, "makes": 4, "comes": 3, "goes": 1, "changes": 2},
}


class Maker:
    """Makes one script."""

    def __init__(self, chance):
        self.chance = chance
        self.lattices = chance.sample(LATTICES, chance.choice((1, 1, 2, 3)))
        others = [module for module in MODULES if module not in LATTICES]
        self.boots = self.lattices + chance.sample(others, chance.choice((0, 0, 1, 2, 4)))
        chance.shuffle(self.boots)
        exempt = ["equal"] * (chance.random() < 0.3)
        self.palette = chance.sample(ELEMENTS, chance.choice((1, 2, 2, 3))) + exempt
        self.plain = chance.sample(PLAIN, chance.choice((1, 2, 2, 3))) + exempt
        self.tasks = ["t", "u", "v"][: chance.choice((1, 1, 2, 3))]
        self.has_changes = chance.random() < 0.5

    def part(self, module):
        name = module.removeprefix("mac_")
        if module == "mac_partition":
            return f"{name}/{self.chance.choice(['none', '3', '7'])}"
        element = self.chance.choice(self.plain if module == "mac_lomac" else self.palette)
        return f"{name}/{element}"

    def label(self, modules=None):
        """A label text about some of the policies of elements, or of these."""
        modules = modules or self.chance.sample(self.lattices, self.chance.randint(1, len(self.lattices)))
        return ",".join(map(self.part, modules))

    def boot_label(self):
        return self.chance.choice(["-", self.label(), *[self.label(self.lattices)] * 3])

    def process_label(self):
        label = self.boot_label()
        labels_partition = "mac_partition" in self.boots and label != "-" and self.chance.random() < 0.5
        return f"{label},{self.part('mac_partition')}" if labels_partition else label

    def front(self):
        """The lines before the tasks."""
        lines = [f"boot {module}" for module in self.boots]
        if "mac_biba" in self.boots and self.chance.random() < 0.4:
            lines.append(TUNABLE)
        for path in ("/d", "/d/a", "/d/b", "/e", "/e/c", "/f", "/g"):
            kind = "dir" if path in ("/d", "/e") else "reg"
            mode = self.chance.choice(("644", "755", "4755", "2755"))
            ids = self.chance.choice(("uid 0 gid 0", "uid 1001 gid 20", "uid 1002 gid 1002"))
            lines.append(f"file {path} {kind} {ids} mode {mode} label {self.boot_label()}")
        return lines

    def process(self):
        task = self.chance.choice(self.tasks)
        return self.chance.choice([task, task, *(f"{task}.{child}" for child in CHILDREN)])

    def rule(self):
        subject, file = self.chance.choice(SIDES), self.chance.choice(FILES)
        return " ".join(f"subject {subject} object {file} mode {self.chance.choice(LETTERS)}".split())

    def change(self):
        late = self.chance.choice([module for module in MODULES if module not in LATTICES])
        numbers = range(3)
        return self.chance.choice(
            [f"kldload {late}", f"kldunload {late}", f"ugidfw add {self.rule()}", self.chance.choice(SETTINGS)]
            + [f"ugidfw set {self.chance.choice(numbers)} {self.rule()}"]
            + [f"ugidfw remove {self.chance.choice(numbers)}"]
        )

    def relabel(self):
        label = self.chance.choice([self.label(), self.label(), self.part("mac_partition"), "biba/(low-high)"])
        channel = self.chance.choice(CHANNELS)
        return self.chance.choice(
            [f"setpmac {label}", f"setfmac {label} {self.chance.choice(PATHS)}"]
            + [f"setpipemac {label} {channel}", f"setsockmac {label} {channel}"]
        )

    def call(self):
        path, channel, other = self.chance.choice(PATHS), self.chance.choice(CHANNELS), self.chance.choice(CHANNELS)
        number, mode = self.chance.choice((0, 0, 0, 1, 2)), self.chance.choice(("r", "w", "rw"))
        kinds = {
            "files": [f"stat {path}", f"readdir {path}", f"exec {path}", f"chmod {path} 755", f"getfmac {path}"],
            "reads": [f"read {path}"],
            "writes": [f"write {path} x"],
            "processes": [f"{name} {self.process()}" for name in ("see", "signal", "debug", "debug", "sched")],
            "pipes": [f"pread {channel}", f"pwrite {channel} x", f"pstat {channel}"],
            "sockets": [f"send {channel} {other} x", f"recv {channel}", f"seesock {channel}", f"bind {channel} tcp 80"],
            "descriptors": [f"open {path} {mode}", f"fread {number}", f"fwrite {number} x", f"close {number}"],
            "relabels": [self.relabel()],
            "makes": [f"create {path}", f"mkdir {path}", f"unlink {path}"],
            "comes": [f"fork {self.chance.choice(CHILDREN)}", f"pipe {channel}", f"socket {channel}"],
            "goes": ["exit"],
            "changes": [self.change() if self.has_changes else "getpmac"],
        }
        return self.chance.choice(kinds[self.chance.choices([*KINDS], KINDS.values())[0]])

    def line(self):
        call = self.call()
        is_childs = self.chance.random() < 0.4 or call == "exit"
        return f"@{self.chance.choice(CHILDREN)} {call}" if is_childs else call

    def script(self):
        lines = lambda: [self.line() for _ in range(self.chance.choice((8, 20, 60)))]
        begin = [*(f"fork {child}" for child in CHILDREN), *(f"{kind} {name}" for kind in ("pipe", "socket") for name in CHANNELS)]
        tasks = [(f"{name} {self.user(name)} label {self.process_label()}", begin + lines()) for name in self.tasks]
        return script_of(self.front(), *tasks)

    def user(self, name):
        return USERS[0] if name == "t" else self.chance.choice(USERS)


def random_scripts(count):
    """So many scripts, with their names."""
    chance = random.Random(SEED)
    for number in range(1, count + 1):
        yield f"script {number}", Maker(chance).script()
