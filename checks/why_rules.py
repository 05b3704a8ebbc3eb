"""Why each check of a history is denied, and by whom; where mac_lomac lowers; and which rule gives the letters of a check, or a port: by
rules of their own, as docs/MANUAL.md (WHY, POLICIES, RELABELLING) says it. Stands on the tools, which follow a history through its
script, and on nothing that the program prints of it.
"""
from __future__ import annotations

from collections.abc import Iterator
from typing import NamedTuple

from policy_rules import HIDDEN, MODIFIED, OBSERVED, PORTS, RULES, TRANSFERS, USERS, WANTED, Listed, Ports, Rule
from macsim_checks import RELABELS
from macsim_labels import BIBA, EQUAL, HIGH, LOMAC, LOW, MLS, PARTITION, Element, Levels, dominates, element_in, element_text, request_of
from macsim_replay import Check, Happening, Replay
from macsim_text import events_of, number_of, script_of
from macsim_things import Thing

# The order in which errors are told.
PRECEDENCE = ("EDEADLK", "EINVAL", "ESRCH", "ENOENT", "EACCES", "EPERM")
NOBODY = "-"


class Reason(NamedTuple):
    """Why a policy denies a check: the error, and the words of the test with what it compares."""

    errno: str
    words: str


# Texts


def range_text(ends: tuple[Element, Element] | None) -> str:
    return "-" if ends is None else "-".join(map(element_text, ends))


def maybe_text(element: Element | None) -> str:
    return "-" if element is None else element_text(element)


def letters_text(letters: str) -> str:
    return "".join(letter for letter in "arswx" if letter in letters) or "n"


# Policies of elements


def lies_outside(element: Element | None, ends: tuple[Element, Element] | None) -> bool:
    """Whether an element that is there lies outside a range. All lie outside where there is none."""
    return element is not None and (ends is None or not (dominates(element, ends[0]) and dominates(ends[1], element)))


def reaches_out(inner: tuple[Element, Element] | None, ends: tuple[Element, Element] | None) -> bool:
    return inner is not None and (ends is None or not (dominates(inner[0], ends[0]) and dominates(ends[1], inner[1])))


def has_equal(levels: Levels) -> bool:
    return EQUAL in (levels.effective, *(levels.range or ()))


def is_privileged(levels: Levels) -> bool:
    return has_equal(levels) or not reaches_out((LOW, HIGH), levels.range)


def own_text(levels: Levels) -> str:
    return f"subject {maybe_text(levels.effective)} own {range_text(levels.range)}"


def reason_of_new(own: Levels, asked: Element | None, names_equal: bool) -> Reason | None:
    """Of a new element, by mac_biba and mac_mls."""
    if lies_outside(asked, own.range):
        return Reason("EPERM", f"element asked {maybe_text(asked)} own {range_text(own.range)}")
    return Reason("EPERM", f"equal {own_text(own)}") if names_equal and not is_privileged(own) else None


def reason_of_own(own: Levels, asked: Levels) -> Reason | None:
    """Of a process that relabels itself, by mac_biba and mac_mls."""
    element = asked.effective or own.effective
    if asked.range is not None and lies_outside(element, asked.range):
        return Reason("EINVAL", f"fit element {maybe_text(element)} asked {range_text(asked.range)}")
    if reaches_out(asked.range, own.range):
        return Reason("EPERM", f"range asked {range_text(asked.range)} own {range_text(own.range)}")
    return reason_of_new(own, asked.effective, has_equal(asked))


def reason_of_object(own: Levels, old: Element, asked: Levels) -> Reason | None:
    """Of what is relabelled and is no process, by mac_biba and mac_mls."""
    if asked.range is not None:
        return Reason("EINVAL", f"plain asked {range_text(asked.range)}")
    if lies_outside(old, own.range):
        return Reason("EPERM", f"present object {element_text(old)} own {range_text(own.range)}")
    return reason_of_new(own, asked.effective, asked.effective == EQUAL)


def reason_of_plain(own: Element, old: Element | None, asked: Element | None) -> Reason | None:
    """Of a relabel by mac_lomac. There is no old element of a process that relabels itself."""
    if old is not None and not dominates(own, old):
        return Reason("EPERM", f"dominate subject {element_text(own)} object {element_text(old)}")
    if asked is not None and not dominates(own, asked):
        return Reason("EPERM", f"dominate subject {element_text(own)} asked {element_text(asked)}")
    return Reason("EPERM", f"equal subject {element_text(own)}") if asked == EQUAL != own else None


def reason_of_test(module: str, operation: str, own: Element, its: Element) -> Reason | None:
    """Of the tests observe, modify and same level."""
    compared = f"subject {element_text(own)} object {element_text(its)}"
    above, below = (own, its) if module == MLS else (its, own)
    if operation in OBSERVED and module != LOMAC and not dominates(above, below):
        return Reason(OBSERVED[operation], f"observe {compared}")
    if operation in MODIFIED and not dominates(below, above):
        return Reason("EACCES", f"modify {compared}")
    is_other_level = operation == "socket_deliver" and EQUAL not in (own, its) and own != its
    return Reason("EACCES", f"level {compared}") if is_other_level else None


class Asking:
    """The checks of a call, as each listed policy is asked about them. `revocation` is that of mac_biba."""

    def __init__(self, listed: Listed, happening: Happening, revocation: bool) -> None:
        self.listed, self.happening, self.revocation = listed, happening, revocation
        self.words = happening.call.words
        self.user = happening.caller and happening.caller.facts

    def asked(self, module: str) -> Levels | int | None:
        """What a relabel asks for by a policy."""
        return request_of(self.words[RELABELS[self.words[0]]]).get(module) if self.words[0] in RELABELS else None

    def reason_of_elements(self, module: str, check: Check) -> Reason | None:
        slot = self.happening.slots[module]
        own, its = check.subject_label.get(slot), check.object and check.object_label.get(slot)
        asked = self.asked(module) or Levels(None, None)
        if own is None or (check.object is not None and its is None):
            return None
        if check.operation.endswith("_relabel") and module == LOMAC:
            return reason_of_plain(own.effective, its and its.effective, asked.effective)
        if check.operation == "cred_relabel":
            return reason_of_own(own, asked)
        if check.operation.endswith("_relabel"):
            return reason_of_object(own, its.effective, asked)
        if check.operation in ("kld_load", "kld_unload"):
            is_guarded = module == BIBA and not is_privileged(own)
            return Reason("EPERM", f"privileged {own_text(own)}") if is_guarded else None
        is_untested = check.object is None or (module == BIBA and check.operation in TRANSFERS and not self.revocation)
        return None if is_untested else reason_of_test(module, check.operation, own.effective, its.effective)

    def reason_of_partition(self, check: Check) -> Reason | None:
        slot, asked = self.happening.slots[PARTITION], self.asked(PARTITION) or 0
        if check.operation == "cred_relabel":
            return Reason("EPERM", f"join asked {asked} uid {self.user.uid}") if asked != 0 != self.user.uid else None
        if check.operation not in HIDDEN:
            return None
        own, its = (label.get(slot) or 0 for label in (check.subject_label, check.object_label))
        return Reason(HIDDEN[check.operation], f"partition subject {own} object {its}") if own not in (0, its) else None

    def reason_of_rules(self, check: Check) -> Reason | None:
        return next((Reason("EACCES", words) for words in self.denying_rules(check)), None)

    def denying_rules(self, check: Check) -> list[str]:
        """The words of each rule that denies a check by itself."""
        wanted = WANTED.get(check.operation)
        if wanted is None:
            return []
        return [rule_text(rule, wanted) for rule in self.listed.settings[RULES].denying(self.user, check.file, wanted)]

    def reason_of_users(self, check: Check) -> Reason | None:
        if not check.operation.startswith("proc_") or self.listed.settings[USERS].allow(self.user, check.object.facts):
            return None
        return Reason("ESRCH", f"user subject {self.user.uid} object {check.object.facts.uid}")

    def reason_of_port(self, check: Check) -> Reason | None:
        if check.operation != "socket_bind":
            return None
        ports, protocol, port = self.listed.settings[PORTS], self.words[2], number_of(self.words[3])
        if ports.are_needless(self.user, port) or ports.place(self.user, protocol, port) is not None:
            return None
        return Reason("EPERM", f"port {protocol} {port} uid {self.user.uid}")

    def reason(self, module: str, check: Check) -> Reason | None:
        """Why a listed policy denies a check, or None where it allows it."""
        asked = {
            **dict.fromkeys((BIBA, MLS, LOMAC), lambda of: self.reason_of_elements(module, of)),
            **{PARTITION: self.reason_of_partition, RULES: self.reason_of_rules},
            **{USERS: self.reason_of_users, PORTS: self.reason_of_port},
        }
        return asked[module](check) if module in asked else None

    def deniers(self, check: Check) -> list[tuple[str, Reason]]:
        """Each listed policy that denies a check, in walk order."""
        found = [(module, self.reason(module, check)) for module in self.listed.modules()]
        return [(module, reason) for module, reason in found if reason is not None]

    def privilege(self) -> str:
        return self.words[1] if self.words[0] == "priv" else self.words[0].upper().replace("KLD", "KLD_")


# Lines


def rule_text(rule: Rule, wanted: str) -> str:
    return f"rule {rule.number} wants {letters_text(wanted)} gives {letters_text(rule.letters)}"


def title_of(thing: Thing | None) -> str:
    return thing.title if thing is not None else "-"


def decider_of(deniers: list[tuple[str, Reason]]) -> int:
    """The place of the one that decides."""
    return min(range(len(deniers)), key=lambda place: (PRECEDENCE.index(deniers[place][1].errno), place))


class Fault(Exception):
    """What the replies say of a check, and these rules don't."""


class Why:
    """What is told of a history: its lines, as `why` and as `why all` prints them. That the replies are those of these rules is tried."""

    def __init__(self, script: str, text: str, name: str) -> None:
        self.replay = Replay(script_of(script, name))
        self.listed = Listed(self.replay.script)
        self.lines: list[str] = []
        self.all_lines: list[str] = []
        # How many checks there were, and how often the policies denied one.
        self.checks = self.reasons = 0
        for happening in self.replay.follow(events_of(text, name), name):
            if happening.call is not None:
                self.follow_call(happening)

    def follow_call(self, happening: Happening) -> None:
        asking = Asking(self.listed, happening, bool(self.replay.script.revocation))
        reply = happening.event.reply
        lowered, let, denied = [*self.lowered(happening)], [*self.let(asking)], self.denied(asking)
        self.lines += [*lowered, *denied]
        self.all_lines += [*lowered, *let, *denied]
        if reply.startswith("ok modules "):
            self.try_modules(reply)
        if happening.event.kind == "changed" and reply.startswith("ok"):
            self.listed.change(happening.call.words, reply)

    def try_modules(self, reply: str) -> None:
        told = [part.partition(":")[0] for part in reply.split()[2].split(",") if part != "-"]
        if told != self.listed.modules():
            raise Fault(f"another walk order than {reply}")

    def passed(self, happening: Happening) -> list[tuple[int, Check]]:
        """The checks that passed, with their numbers."""
        checks = happening.checks if happening.denial is None else happening.checks[:-1]
        return list(enumerate(checks, 1))

    def lowered(self, happening: Happening) -> Iterator[str]:
        place, slot = place_of(happening), happening.slots.get(LOMAC)
        for number, check in self.passed(happening):
            old, new = (element_in(label, slot) for label in (check.subject_label, check.behind))
            if check.subject is happening.caller and old != new:
                yield f"lowered {place} {number} {check.subject.title} {element_text(old)} {element_text(new)} {title_of(check.object)}"

    def let(self, asking: Asking) -> Iterator[str]:
        """The rules that gave what a call that is done wanted."""
        if not asking.happening.event.reply.startswith("ok"):
            return
        place, settings = place_of(asking.happening), self.listed.settings
        for number, check in self.passed(asking.happening):
            wanted = WANTED.get(check.operation)
            if RULES in settings and wanted is not None and settings[RULES].first_match:
                matching = settings[RULES].matching(asking.user, check.file)
                yield from (f"let {place} {number} {RULES} {rule_text(rule, wanted)}" for rule in matching[:1])
            if PORTS in settings and check.operation == "socket_bind":
                yield from (f"let {place} {number} {PORTS} {words}" for words in port_words(settings[PORTS], asking))

    def denied(self, asking: Asking) -> list[str]:
        """The lines of a denial, which are none where the call wasn't denied."""
        happening = asking.happening
        for _, check in self.passed(happening):
            self.checks += 1
            if asking.deniers(check):
                raise Fault(f"{happening.event.text}: {asking.deniers(check)} at {check.operation}, which passed")
        if happening.denial is None:
            return []
        check, place, denial = happening.checks[-1], place_of(happening), happening.denial
        self.checks += 1
        deniers = asking.deniers(check)
        if check.operation == "priv":
            deniers = [(NOBODY, Reason("EPERM", f"privilege {asking.privilege()} uid {asking.user.uid}"))]
        self.reasons += len(deniers)
        decides = decider_of(deniers) if deniers else None
        told = decides is not None and (deniers[decides][0], deniers[decides][1].errno)
        if told != (denial.module, denial.errno):
            raise Fault(f"{happening.event.text}: {told} decides")
        lines = [f"denied {place} {denial.check} {check.operation} {title_of(check.subject)} {title_of(check.object)}"]
        for number, (module, reason) in enumerate(deniers):
            mark = "decides" if number == decides else "also"
            lines.append(f"why {place} {module} {mark} {reason.errno} {reason.words}")
            others = asking.denying_rules(check)[1:] if module == RULES else []
            lines += [f"also {place} {module} {words}" for words in others]
        return lines


def place_of(happening: Happening) -> str:
    return f"{happening.event.task} {happening.event.line}"


def port_words(ports: Ports, asking: Asking) -> list[str]:
    """The words of the rule by which a process binds a port, where it needs one."""
    protocol, port = asking.words[2], number_of(asking.words[3])
    if ports.are_needless(asking.user, port):
        return []
    place = ports.place(asking.user, protocol, port)
    rule = ports.rules[place]
    return [f"place {place + 1} {rule.kind} {rule.id} {rule.protocol} {rule.port}"]
