"""Follows a history of macsim through its script: which process made each call, its checks with their objects and labels, and what became of
things. Nothing of it is proved. A history that doesn't fit the script is BadInput.
"""
from collections import namedtuple

from macsim_checks import BOTH_WAYS, CREATING, RELABELS, THROUGH, TO_SUBJECT, checks_of, is_change, is_reply_to
from macsim_kernel import Kernel
from macsim_labels import BIBA, LATTICES, PARTITION, WITH_SOURCES, boot_label, element_in, lowered, new_label, relabelled, request_of
from macsim_text import BadInput, denial_of, number_of
from macsim_things import Credential, Descriptor, FileFacts, Thing, Things

MOST_DESCRIPTORS = 16
MODES = {"create": 0o644, "mkdir": 0o755}
LABELLING = (*LATTICES, PARTITION)
# The step of a line whose first word is another.
STEPS = {"stale": "done", "changed": "change", "waits": "change"}

# A check with its subject and object, and with their labels and attributes as they were then. The object may be None. It is uncounted
# where it isn't one of mac_biba's movements: made through a descriptor, without revocation, while the process or the file has another element of
# mac_biba than at the opening. `behind` is the label of the process that calls where the check passes.
Check = namedtuple("Check", "operation subject object subject_label object_label file is_uncounted behind")
# What a line of a history tells: its event; the number of the line of the script that it is about, or None; the call, or None; the process
# that made the call, or None; its checks, up to the one that was denied; the denial, or None; the label slots, by module, as they were
# then; what the call made; and what it relabelled, with what was asked.
Happening = namedtuple("Happening", "event line call caller checks denial slots made relabelled")


class Mismatch(Exception):
    """What the history says can't be so by the script."""


def is_line_of(call, event):
    """Whether the line of a reply is of the kind that such a call has."""
    return (event.kind == "changed") == is_change(call.words) and is_reply_to(call.words, event.reply)


class Replay:
    """The things of a script as its history goes on."""

    def __init__(self, script):
        self.script = script
        self.made_calls = dict.fromkeys(script.tasks, 0)
        self.kernel = Kernel()
        self.slots, self.given = {}, 0
        self.boots = [f"boot {boot.module} {self.register(boot.module)}" for boot in script.boots]
        root_label = boot_label(self.slots, "vnode", {})
        self.things = Things(Thing("vnode", "", root_label, 0, None, FileFacts(0, 0, 0o755, True)))
        for file in script.files.values():
            self.open_file(file)
        for task in script.tasks.values():
            self.open("proc", task, task.name, None, Credential(task.uid, task.groups))
        # The lines of sources that are to come, the next one last. None before the first.
        self.sources = None
        # The label of each thing at the opening, before anything relabels it.
        self.opening = {thing: thing.label for thing in self.things}

    # The opening

    def register(self, module):
        """Registers a module, and returns its label slot as it is printed."""
        if module not in LABELLING:
            return "-"
        self.slots = {**self.slots, module: self.given}
        self.given += 1
        return str(self.slots[module])

    def open_file(self, file):
        directory, _, name = file.path.rpartition("/")
        facts = FileFacts(file.uid, file.gid, file.mode, file.is_directory)
        self.open("vnode", file, name, self.things.walk(directory or "/").found, facts)

    def open(self, kind, line, name, holder, facts):
        try:
            label = boot_label(self.slots, kind, request_of(line.label))
        except ValueError as error:
            raise BadInput(self.script.name, line.number, error) from None
        self.things.add(Thing(kind, name, label, line.number, holder, facts))

    # Calls

    def next_call(self, task):
        """The next call of a task, or None where it has made all."""
        if task not in self.made_calls:
            raise Mismatch(f"the script has no task {task}")
        calls = self.script.tasks[task].calls
        return calls[self.made_calls[task]] if self.made_calls[task] < len(calls) else None

    def last_call(self, task):
        made = self.made_calls.get(task, 0)
        if made == 0:
            raise Mismatch(f"task {task} made no call")
        return self.script.tasks[task].calls[made - 1]

    def after_check(self, label, operation, found):
        """The label of the process that calls, after a check that passed."""
        observes = operation in TO_SUBJECT or operation in BOTH_WAYS
        return lowered(self.slots, label, found.label) if observes else label

    def is_uncounted(self, call, caller):
        """Whether the transfer of a call isn't counted for mac_biba."""
        if call.words[0] not in THROUGH or self.script.revocation:
            return False
        opened, slot = caller.descriptors[number_of(call.words[1])], self.slots.get(BIBA)
        return (element_in(caller.label, slot), element_in(opened.file.label, slot)) != (opened.subject, opened.object)

    def checks_in_turn(self, call, caller, reply):
        """The checks of a call, each with the process that calls as those before it lower it. What they are about is as it was."""
        checks, label = [], caller and caller.label
        for operation, subject, found in checks_of(self.things, caller, call.words, reply):
            file = found.facts if found is not None and found.kind == "vnode" else None
            own = label if subject is caller else subject.label
            label = self.after_check(label, operation, found)
            checks.append(Check(operation, subject, found, own, found and found.label, file, self.is_uncounted(call, caller), label))
        return checks

    def asked_checks(self, call, caller, reply):
        checks = self.checks_in_turn(call, caller, reply)
        denial = denial_of(reply)
        if denial is None:
            return checks, None
        number = denial.check
        if not 0 < number <= len(checks) or checks[number - 1].operation != denial.operation:
            raise Mismatch(f"check {number} of line {call.number} `{call.text}` isn't {denial.operation}")
        return checks[:number], denial

    def follow_call(self, event):
        call = self.next_call(event.task)
        if call is None or event.line != self.made_calls[event.task] + 1:
            raise Mismatch(f"the next call of task {event.task} is not that of line {event.line} of it")
        if not is_line_of(call, event):
            raise Mismatch(f"line {call.number} `{call.text}` has no such line")
        self.made_calls[event.task] += 1
        caller = self.things.named("proc", event.task if call.child is None else f"{event.task}.{call.child}")
        checks, denial = self.asked_checks(call, caller, event.reply)
        slots = self.slots
        for check in checks if denial is None else checks[:-1]:
            caller.label = check.behind
        made, changed = self.do(event, call, caller) if event.reply.startswith("ok") else (None, None)
        return Happening(event, call.number, call, caller, checks, denial, slots, made, changed)

    # What a call changes where it is done. What it makes and what it relabels is returned

    def do(self, event, call, caller):
        name = call.words[0]
        if caller is None:
            raise Mismatch(f"line {call.number} `{call.text}`: the process that calls isn't there")
        if name in RELABELS:
            return None, self.relabel(call, caller)
        if name in CREATING or name in ("fork", "pipe", "socket"):
            return self.make(event, call, caller), None
        if name in ("exit", "unlink"):
            self.remove(call, caller)
        if name == "open":
            self.open_descriptor(event, call, caller)
        if name == "close":
            self.close_descriptor(call, caller)
        if name == "chmod":
            file = self.found(call, self.things.walk(call.words[1]).found)
            file.facts = file.facts._replace(mode=int(call.words[2], 8))
        if name == "kldload" and self.register(call.words[1]) != event.reply.removeprefix("ok slot "):
            raise Mismatch(f"line {call.number} `{call.text}` gets another label slot")
        if name == "kldunload":
            self.slots = {module: slot for module, slot in self.slots.items() if module != call.words[1]}
        return None, None

    def found(self, call, thing):
        if thing is None:
            raise Mismatch(f"line {call.number} `{call.text}` is about what isn't there")
        return thing

    def target(self, call, caller):
        """What a call relabels."""
        kinds = {"setpipemac": "pipe", "setsockmac": "socket"}
        if call.words[0] == "setpmac":
            return caller
        if call.words[0] == "setfmac":
            return self.things.walk(call.words[2]).found
        return self.things.named(kinds[call.words[0]], call.words[2])

    def relabel(self, call, caller):
        """The thing that is relabelled, and what is asked, by module."""
        try:
            request = request_of(call.words[RELABELS[call.words[0]]])
        except ValueError as error:
            raise Mismatch(f"line {call.number} `{call.text}`: {error}") from None
        thing = self.found(call, self.target(call, caller))
        thing.label = relabelled(self.slots, thing.label, request)
        return thing, request

    def make(self, event, call, caller):
        name = call.words[1]
        if call.words[0] in CREATING:
            walk = self.things.walk(name)
            holder, kind, name = self.found(call, walk.directory), "vnode", name.rpartition("/")[2]
            facts = FileFacts(caller.facts.uid, holder.facts.gid, MODES[call.words[0]], call.words[0] == "mkdir")
        elif call.words[0] == "fork":
            holder, kind, name, facts = None, "proc", f"{event.task}.{name}", caller.facts
        else:
            holder, kind, facts = caller, call.words[0], None
        thing = Thing(kind, name, new_label(self.slots, kind, caller.label), call.number, holder, facts)
        if thing.key() in self.things.by_key:
            raise Mismatch(f"line {call.number} `{call.text}`: {thing.title} is there already")
        self.things.add(thing)
        return thing

    def open_descriptor(self, event, call, caller):
        file, slot = self.found(call, self.things.walk(call.words[1]).found), self.slots.get(BIBA)
        number = next((number for number in range(MOST_DESCRIPTORS) if number not in caller.descriptors), None)
        if number is None or event.reply != f"ok fd {number}":
            raise Mismatch(f"line {call.number} `{call.text}` gets another descriptor")
        caller.descriptors[number] = Descriptor(file, call.words[2], element_in(caller.label, slot), element_in(file.label, slot))

    def close_descriptor(self, call, caller):
        if caller.descriptors.pop(number_of(call.words[1]), None) is None:
            raise Mismatch(f"line {call.number} `{call.text}` is about what isn't open")

    def remove(self, call, caller):
        if call.words[0] == "exit":
            gone = self.things.with_process(caller)
        else:
            gone = [self.found(call, self.things.walk(call.words[1]).found)]
        for thing in gone:
            self.things.remove(thing)

    # Histories

    def source_lines(self):
        """The beginning of each line of sources, and the thing that it is about."""
        lattices = [module.removeprefix("mac_") for module in WITH_SOURCES if module in self.slots]
        return [(f"source {name} {thing.title} ", thing) for name in lattices for thing in self.things]

    def line_of_source(self, event):
        """The number of the line of the script that made a thing. The root directory has none."""
        if self.sources is None:
            self.sources = self.source_lines()[::-1]
        beginning, thing = self.sources.pop() if self.sources else ("", None)
        if thing is None or not event.text.startswith(beginning):
            raise Mismatch(f"the line of sources that comes here is {beginning or 'none'}")
        return thing.number or None

    def line_of(self, event):
        """The number of the line of the script that another event is about, or None."""
        if event.kind == "boot":
            return next(boot.number for boot in self.script.boots if boot.module == event.text.split(" ")[1])
        if event.kind == "source":
            return self.line_of_source(event)
        call = self.last_call(event.task) if event.kind == "leave" else self.next_call(event.task)
        if call is None:
            raise Mismatch(f"task {event.task} made all its calls")
        if event.kind in ("enter", "waits") and is_change(call.words) != (event.kind == "waits"):
            raise Mismatch(f"line {call.number} `{call.text}` has no such line")
        return call.number

    def follow_event(self, event):
        if not self.kernel.may_come(event):
            raise Mismatch(f"`{event.text}` may not come here")
        self.kernel.follow(event)
        if event.kind in ("done", "changed"):
            return self.follow_call(event)
        return Happening(event, self.line_of(event), None, None, [], None, self.slots, None, None)

    def has_all_calls(self, events):
        """Whether all steps were taken, or else, as by `run`, all calls made."""
        steps = [(step.kind, step.task) for step in self.script.steps or [] if step.kind != "plan"]
        taken = [(STEPS.get(event.kind, event.kind), event.task) for event in events if event.task is not None]
        if self.script.steps is not None and taken == steps:
            return True
        is_of_run = not any(event.kind in ("stale", "waits") for event in events)
        made = all(self.made_calls[task.name] == len(task.calls) for task in self.script.tasks.values())
        return is_of_run and made and not self.kernel.is_done

    def judge_end(self, events, name):
        """The history has to be a whole one."""
        if not self.has_all_calls(events):
            raise BadInput(name, len(events) + 1, "it ends before the calls of the script do")
        if self.sources if self.sources is not None else self.source_lines():
            raise BadInput(name, len(events) + 1, "it ends before its sources do")

    def follow(self, events, name):
        """What each line of the history tells, one after another."""
        boots = [event.text for event in events if event.kind == "boot"]
        if boots != self.boots:
            raise BadInput(name, 1, "it doesn't begin with the boot lines of this script")
        for event in events:
            try:
                yield self.follow_event(event)
            except Mismatch as fault:
                raise BadInput(name, event.number, f"it doesn't belong to this script: {fault}") from None
        self.judge_end(events, name)
