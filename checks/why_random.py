"""Scripts of random calls in which much is denied, always the same ones: narrow ranges, relabels with and without them, many rules about files
with first match on and off, rules about ports, and privileges."""
from __future__ import annotations

import random
from collections.abc import Iterator

from random_scripts import ELEMENTS, Maker
from scripts import SYSCTL, script_of

SEED = 65
RANGED = ("mac_biba", "mac_mls")
SETTING = ("mac_bsdextended", "mac_portacl", "mac_seeotheruids")
PRIVILEGES = ("KLD_LOAD", "MAC_PARTITION", "SCHED_RTPRIO", "SCHED_IDPRIO")
PORT_RULES = ["uid:1001:tcp:80", "gid:20:tcp:80", "gid:1002:udp:53", "uid:0:udp:80", "uid:0:tcp:443", ""]


class Denied(Maker):
    """Makes one script."""

    def __init__(self, chance: random.Random) -> None:
        super().__init__(chance)
        self.boots = [*dict.fromkeys([*self.boots, *chance.sample(SETTING, chance.choice((0, 1, 3)))])]
        self.has_changes = True

    def own_part(self, module: str) -> str:
        """What a process has of a policy: a range holds its element."""
        part = self.part(module)
        element = part.partition("/")[2]
        ranges = ["", f"({element}-{element})", f"(low-{element})", f"({element}-high)"]
        return part + (self.chance.choice(ranges) if module in RANGED else "")

    def process_label(self) -> str:
        modules = [*self.lattices, *(["mac_partition"] if "mac_partition" in self.boots else [])]
        return ",".join(map(self.own_part, modules))

    def relabel(self) -> str:
        first, last = self.chance.sample(ELEMENTS, 2)
        name = self.chance.choice(("biba", "mls"))
        asked = self.chance.choice([f"{name}/({first}-{last})", f"{name}/{first}({first}-{last})", f"{name}/eq", f"{name}/{last}"])
        return super().relabel() if self.chance.random() < 0.5 else self.chance.choice([f"setpmac {asked}", f"setfmac {asked} /f"])

    def change(self) -> str:
        rules = ",".join(filter(None, self.chance.sample(PORT_RULES, 3)))
        ports = [f"rules={rules}", "port_high=79", "port_high=1023", "suser_exempt=0", "autoport_exempt=0"]
        others = [f"ugidfw add {self.rule()}", f"{SYSCTL}.bsdextended.firstmatch_enabled=0", f"{SYSCTL}.portacl.{self.chance.choice(ports)}"]
        return super().change() if self.chance.random() < 0.4 else self.chance.choice(others)

    def call(self) -> str:
        port = f"bind p {self.chance.choice(('tcp', 'udp'))} {self.chance.choice((0, 53, 80, 443, 1024))}"
        others = [port, f"priv {self.chance.choice(PRIVILEGES)}", self.change(), self.relabel(), "send p q x"]
        return super().call() if self.chance.random() < 0.6 else self.chance.choice(others)

    def script(self) -> str:
        begin = [self.change() for _ in range(self.chance.choice((0, 4, 8)))]
        begin += ["socket p", "fork c", "fork d", "pipe p"]
        lines = lambda: [self.line() for _ in range(self.chance.choice((8, 20, 60)))]
        tasks = [(f"{name} {self.user(name)} label {self.process_label()}", begin + lines()) for name in self.tasks]
        return script_of(self.front(), *tasks)


def denied_scripts(count: int) -> Iterator[tuple[str, str]]:
    """So many scripts, with their names."""
    chance = random.Random(SEED)
    for number in range(1, count + 1):
        yield f"denied {number}", Denied(chance).script()
