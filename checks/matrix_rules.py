"""The matrix of a history, by rules of their own: what each process may do to everything that is there
at the end, as docs/MANUAL.md (MATRIX, POLICIES, RULES) says it. Stands on the tools, which follow a
history through its script, and on nothing that the program prints of the matrix.
"""
from chain_rules import Followed
from policy_rules import HIDDEN, MODIFIED, OBSERVED, RULES, USERS, WANTED, Listed
from macsim_labels import BIBA, LOMAC, MLS, PARTITION, dominates, element_in

LETTERS = {
    "file": [("r", "vnode_open_read"), ("w", "vnode_open_write"), ("x", "vnode_exec"), ("s", "vnode_stat")],
    "dir": [("r", "vnode_readdir"), ("w", "vnode_create"), ("x", "vnode_lookup"), ("s", "vnode_stat")],
    "pipe": [("r", "pipe_read"), ("w", "pipe_write"), ("s", "pipe_stat")],
    "socket": [("r", "socket_receive"), ("w", "socket_send"), ("v", "socket_visible")],
    "proc": [("v", "proc_visible"), ("g", "proc_signal"), ("d", "proc_debug"), ("c", "proc_sched")],
}


class Matrix:
    """The rows at the end of a history."""

    def __init__(self, followed):
        self.things, self.slots = list(followed.replay.things), followed.replay.slots
        self.listed = Listed(followed.replay.script)
        for words, reply in followed.changes:
            self.listed.change(words, reply)

    def element_allows(self, module, operation, subject, other):
        own, its = (element_in(thing.label, self.slots[module]) for thing in (subject, other))
        if module == MLS:
            own, its = its, own
        may_observe = module == LOMAC or operation not in OBSERVED or dominates(its, own)
        return may_observe and (operation not in MODIFIED or dominates(own, its))

    def partition_allows(self, operation, subject, other):
        if operation not in HIDDEN:
            return True
        slot = self.slots[PARTITION]
        own, its = (thing.label.get(slot) or 0 for thing in (subject, other))
        return own in (0, its)

    def module_allows(self, module, operation, subject, other):
        if module in (BIBA, MLS, LOMAC):
            return self.element_allows(module, operation, subject, other)
        if module == PARTITION:
            return self.partition_allows(operation, subject, other)
        if module == RULES and operation in WANTED:
            return not self.listed.settings[RULES].denying(subject.facts, other.facts, WANTED[operation])
        if module == USERS and other.kind == "proc":
            return self.listed.settings[USERS].allow(subject.facts, other.facts)
        return True

    def letters(self, subject, other):
        kind = other.kind if other.kind != "vnode" else "dir" if other.facts.is_directory else "file"
        passes = lambda operation: all(self.module_allows(module, operation, subject, other) for module in self.listed.modules())
        return "".join(sign if passes(operation) else "-" for sign, operation in LETTERS[kind])

    def lines(self):
        for subject in self.things:
            for other in self.things if subject.kind == "proc" else []:
                yield f"matrix {subject.title} {other.title} {self.letters(subject, other)}"
