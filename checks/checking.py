"""Texts of runs, and texts in which something is changed, as `macsim check` judges them. Where a
changed text isn't that of a run is found by the program's steps, which use the modules and the kernel
and nothing of the auditor: the lines of a history hold as far as the steps that they tell print them
again. A line for each that is judged otherwise.

    checks/check-run.sh
"""
import random
import sys
from collections import Counter

import scripts
from judging import ROOT, steps_of, verdict_on
from running import Program

sys.path.insert(0, str(ROOT / "tools"))

from macsim_command import with_steps
from macsim_text import BadInput, events_of, script_of

SEED = 41
CHANGED = 300
LINES = 24
# A part of a line that is exchanged for another of its kind.
WORDS = [("ok", "no EACCES - -"), ("EACCES", "EPERM"), ("mac_biba", "mac_mls"), ("high", "low")]
WORDS += [("1", "2"), ("enter", "leave"), ("done", "changed"), ("EPERM", "ESRCH"), ("t", "u")]


def texts(program):
    """The scripts that are run, with their names and what is printed of them."""
    given = [(path.stem, path.read_text()) for path in sorted(ROOT.glob("examples/*.macsim"))]
    given += [("changing", scripts.changers(LINES)), ("mixed", scripts.mixed(LINES))]
    given += [("sinking", scripts.sinking(LINES)), ("opening", scripts.openers(LINES))]
    for name, text in given:
        ended = program.run(["run"], text.encode("latin-1"))
        if ended.status == 0:
            yield name, text, ended.printed.decode("latin-1")


def changed(chance, text):
    """The text with a line changed, left out, doubled, or exchanged with the next."""
    lines = text.splitlines(keepends=True)
    place = chance.randrange(len(lines))
    kind = chance.randrange(4)
    if kind == 0:
        before, behind = chance.choice(WORDS)
        lines[place] = lines[place].replace(before, behind, 1)
    elif kind == 1:
        del lines[place]
    elif kind == 2:
        lines.insert(place, lines[place])
    else:
        lines[place : place + 2] = reversed(lines[place : place + 2])
    return "".join(lines)


class Text:
    """A text, as the steps of a script take it."""

    def __init__(self, program, script, text):
        self.program, self.script = program, script
        self.lines = text.splitlines(keepends=True)
        sources = [n for n, line in enumerate(self.lines) if line.startswith("source ")]
        self.history = self.lines[: sources[0]] if sources else self.lines

    def again(self, count):
        """What the steps of so many lines print, or None where they aren't lines or not in turn."""
        try:
            events = events_of("".join(self.history[:count]) + "source biba vnode:/ high\n", "text")
        except BadInput:
            return None
        steps = [step for event in events for step in steps_of(event)]
        given = with_steps(self.own_lines(), steps).encode("latin-1")
        ended = self.program.run(["step"], given)
        return ended.printed.decode("latin-1").splitlines(keepends=True) if ended.status == 0 else None

    def own_lines(self):
        """The lines of the script before its steps, which a run leaves aside."""
        lines = self.script.lines
        places = [n for n, line in enumerate(lines) if line.split() == ["steps"]]
        return lines[: places[0]] if places else lines

    def holds(self, count):
        printed = self.again(count)
        return printed is not None and printed[:count] == self.history[:count]

    def fails_at(self):
        """The first line with which the text isn't that of a run, or None."""
        below, above = 0, len(self.history) + 1
        while above - below > 1:
            middle = (below + above) // 2
            below, above = (middle, above) if self.holds(middle) else (below, middle)
        if below < len(self.history):
            return below + 1
        printed = self.again(below)
        boots = sum(line.startswith("boot ") for line in printed)
        if len(printed) > below and boots > below or self.is_unended():
            return below + 1
        for place in range(max(len(printed), len(self.lines))):
            if printed[place : place + 1] != self.lines[place : place + 1]:
                return place + 1
        return None

    def is_unended(self):
        """Whether some task has lines left."""
        done = Counter(line.split()[1] for line in self.history if line.startswith(("leave", "changed")))
        return any(len(task.calls) != done[name] for name, task in self.script.tasks.items())


def leaves_undone(text):
    """Whether a task leaves its entry before its call is done: steps don't do that."""
    inside = {}
    for line in text.splitlines():
        words = line.split()
        if words[0] == "leave" and inside.get(words[1]) == "enter":
            return True
        if words[0] in ("enter", "done", "leave"):
            inside[words[1]] = words[0]
    return False


def main():
    program = Program(ROOT / "crates/macsim/out/macsim")
    runs = list(texts(program))
    failed, told = 0, Counter()
    for name, script, text in runs:
        if verdict_on(program, script, text) != "yes":
            failed += 1
            print(f"checking: {name}: its own text: {verdict_on(program, script, text)}")
    chance = random.Random(SEED)
    while sum(told.values()) < CHANGED:
        name, script, text = chance.choice(runs)
        other = changed(chance, text)
        if leaves_undone(other) or not other:
            continue
        line = Text(program, script_of(script, name), other).fails_at()
        wanted = "yes" if line is None else f"no {line}"
        told[wanted.split()[0]] += 1
        judged = verdict_on(program, script, other)
        if judged != wanted:
            failed += 1
            print(f"checking: {name}: {judged} in place of {wanted}:\n{other}")
    print(f"{len(runs)} texts of runs, {told['no']} changed ones that fail, {told['yes']} that don't")
    return 1 if failed else 0


if __name__ == "__main__":
    raise SystemExit(main())
