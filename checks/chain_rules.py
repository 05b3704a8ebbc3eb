"""What happened to the parties of a policy in a history, the chains that are kept of it, and whether a
chain is one, by rules of their own: docs/MANUAL.md (CHAINS) says them in words. A party is a process,
file, directory, pipe or socket. Stands on the tools, which follow a history through its script and have
the table of movements, and on nothing that the program prints of chains.
"""
import sys
from collections import namedtuple
from pathlib import Path

ROOT = Path(__file__).resolve().parent.parent
sys.path.insert(0, str(ROOT / "tools"))

from macsim_checks import BOTH_WAYS, TO_OBJECT, TO_SUBJECT
from macsim_labels import BIBA, EQUAL, WITH_SOURCES, element_in, element_text
from macsim_replay import Replay
from macsim_text import events_of, script_of

# So many additions to the sets, and so many steps of all chains together, there may be.
CHAIN_LIMIT = 1_048_576
EVENTS = ("enter", "done", "leave", "changed")
GOING = ("exit", "unlink")
# The place of what comes behind all checks of its event. As an item it is told as 0.
BEHIND = 1_000

# What happened, at a moment: the number of its event and a place in it. `own` is an element, or None where it is equal.
Comes = namedtuple("Comes", "moment party own maker")
Relabelled = namedtuple("Relabelled", "moment party own")
Goes = namedtuple("Goes", "moment party")
# One check: pairs of who gives and who receives, all at once.
Moves = namedtuple("Moves", "moment pairs")

# A chain as it is printed: the party and the event of its origin; of each step the receiver, the event and the item.
Chain = namedtuple("Chain", "origin event steps")
# A kept chain, from its end: the link before, or None; the party that has it; the event; the item, or None at the origin.
Link = namedtuple("Link", "before party event item length")


def own_element(label, slot):
    element = element_in(label, slot)
    return None if element == EQUAL else element


def pairs_of(check):
    """Who gives to whom at a check."""
    to_subject, to_object = (check.object, check.subject), (check.subject, check.object)
    if check.operation in TO_SUBJECT:
        return [to_subject]
    if check.operation in TO_OBJECT:
        return [to_object]
    return [to_subject, to_object] if check.operation in BOTH_WAYS else []


class Followed:
    """A history, as it goes through its script: what happened, by policy, and who there is."""

    def __init__(self, script, text, name):
        self.replay = Replay(script_of(script, name))
        self.modules = [module for module in WITH_SOURCES if module in self.replay.slots]
        self.ids, self.parties = {}, []
        self.happened = {module: [] for module in self.modules}
        # The listed modules, and the changes that were done, in their order: what the matrix goes by besides labels.
        self.changes = []
        for thing in self.replay.things:
            self.add_comer(thing, None, 0)
        self.number = 0
        self.present = list(self.replay.things)
        for happening in self.replay.follow(events_of(text, name), name):
            self.number += happening.event.kind in EVENTS
            if happening.call is not None:
                self.follow_call(happening)

    def add(self, what):
        for module in self.modules:
            made = what(module, self.replay.slots[module])
            if made is not None:
                self.happened[module].append(made)

    def add_comer(self, thing, maker, event):
        self.ids[thing] = len(self.parties)
        self.parties.append(thing)
        party, source = self.ids[thing], None if maker is None else self.ids[maker]
        self.add(lambda _, slot: Comes((event, BEHIND), party, own_element(thing.label, slot), source))

    def add_check(self, place, check):
        pairs = [(self.ids[giver], self.ids[taker]) for giver, taker in pairs_of(check)]
        counts = lambda module: pairs and not (module == BIBA and check.is_uncounted)
        self.add(lambda module, _: Moves((self.number, place), pairs) if counts(module) else None)

    def add_relabel(self, thing, asked):
        def made(module, slot):
            is_own = module in asked and asked[module].effective is not None
            own = own_element(thing.label, slot)
            return Relabelled((self.number, BEHIND), self.ids[thing], own) if is_own else None

        self.add(made)

    def follow_call(self, happening):
        passed = happening.checks if happening.denial is None else happening.checks[:-1]
        for place, check in enumerate(passed, 1):
            self.add_check(place, check)
        if happening.made is not None:
            self.present.append(happening.made)
            self.add_comer(happening.made, happening.caller, self.number)
        if happening.relabelled is not None:
            self.add_relabel(*happening.relabelled)
        if happening.event.kind == "changed" and happening.event.reply.startswith("ok"):
            self.changes.append((happening.call.words, happening.event.reply))
        if happening.call.words[0] in GOING:
            self.follow_going()

    def follow_going(self):
        now = set(self.replay.things)
        for thing in self.present:
            if thing not in now:
                self.add(lambda _, __: Goes((self.number, BEHIND), self.ids[thing]))
        self.present = list(self.replay.things)


# Kept chains


class Kept:
    """The chains that are kept of what happened under one policy: for each party by element."""

    def __init__(self, happened):
        self.sets, self.is_exempt, self.additions = {}, {}, 0
        for what in happened:
            {Comes: self.comes, Relabelled: self.relabelled, Moves: self.moves, Goes: self.goes}[type(what)](what)

    def begin(self, what):
        """The party's own element, with the chain of this origin alone."""
        self.is_exempt[what.party] = what.own is None
        self.sets[what.party] = {}
        if what.own is not None:
            self.sets[what.party][what.own] = Link(None, what.party, what.moment[0], None, 0)
            self.additions += 1

    def receive(self, party, given, event, item):
        """What is given and the party lacks, with the giver's chains and this step."""
        if self.is_exempt[party]:
            return
        own = self.sets[party]
        for element, link in given:
            if element not in own:
                own[element] = Link(link, party, event, item, link.length + 1)
                self.additions += 1

    def comes(self, what):
        given = [] if what.maker is None else list(self.sets[what.maker].items())
        self.begin(what)
        self.receive(what.party, given, what.moment[0], 0)

    def relabelled(self, what):
        self.begin(what)

    def moves(self, what):
        given = [list(self.sets[giver].items()) for giver, _ in what.pairs]
        for (_, party), elements in zip(what.pairs, given):
            self.receive(party, elements, *what.moment)

    def goes(self, what):
        del self.sets[what.party]


def chain_of(link):
    steps = []
    while link.before is not None:
        steps.append((link.party, link.event, link.item))
        link = link.before
    return Chain(link.party, link.event, steps[::-1])


# Whether a chain is one


class Judge:
    """Judges chains by what happened under one policy."""

    def __init__(self, happened):
        # Which parties gave to which at a moment; by party when its own element was set and what it was, and when it went.
        self.given, self.settings, self.end = set(), {}, {}
        for what in happened:
            if isinstance(what, Moves):
                self.given |= {(what.moment, giver, party) for giver, party in what.pairs}
            elif isinstance(what, Goes):
                self.end[what.party] = what.moment
            else:
                self.settings.setdefault(what.party, []).append((what.moment, what.own))
            if isinstance(what, Comes) and what.maker is not None:
                self.given.add((what.moment, what.maker, what.party))

    def holds(self, party, since, until):
        """Whether the party isn't equal between these moments, nor relabelled, nor goes."""
        settings = [(moment, own) for moment, own in self.settings.get(party, []) if moment < until]
        is_there = bool(settings) and settings[-1][0] <= since and self.end.get(party, until) >= until
        return is_there and settings[-1][1] is not None

    def accepts(self, party, element, chain):
        """Whether the chain leads to the party with the element, at the end of the history."""
        moments = [(chain.event, BEHIND)] + [(event, item or BEHIND) for _, event, item in chain.steps]
        parties = [chain.origin] + [receiver for receiver, _, _ in chain.steps]
        if parties[-1] != party or (moments[0], element) not in self.settings.get(chain.origin, []):
            return False
        hands_on = zip(moments[1:], parties, parties[1:])
        if any(before >= after for before, after in zip(moments, moments[1:])):
            return False
        if any(step not in self.given for step in hands_on):
            return False
        until = moments[1:] + [(float("inf"), 0)]
        return all(map(self.holds, parties, moments, until))


# What is printed


def chain_text(chain):
    steps = [f"{party}@{event}.{item}" for party, event, item in chain.steps]
    return " ".join([f"{chain.origin}@{chain.event}", *steps])


class Chains:
    """The rows of chains of a history."""

    def __init__(self, followed):
        self.followed = followed
        self.kept = {module: Kept(followed.happened[module]) for module in followed.modules}
        self.additions = sum(kept.additions for kept in self.kept.values())
        self.steps = sum(link.length for _, _, _, link in self.links())

    def links(self):
        """For each policy, party and element the kept chain, in the order of the sources."""
        for module in self.followed.modules:
            for thing in self.followed.replay.things:
                sets = self.kept[module].sets[self.followed.ids[thing]]
                for element in sorted(sets):
                    yield module, thing, element, sets[element]

    def are_too_many(self):
        return max(self.additions, self.steps) > CHAIN_LIMIT

    def lines(self):
        for module, thing, element, link in self.links():
            name = module.removeprefix("mac_")
            yield f"chain {name} {thing.title} {element_text(element)} {chain_text(chain_of(link))}"
