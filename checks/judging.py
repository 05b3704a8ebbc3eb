"""Judges what the program printed of a script: by the program's auditor, by the tools, which
follow a history through its script, and by the program's own steps, which make the history again.
Is no part of the product."""
import sys
from pathlib import Path

ROOT = Path(__file__).resolve().parent.parent
sys.path.insert(0, str(ROOT / "tools"))

from further_lines import FURTHER, fault_of_lines, parted
from macsim_command import lines_before_steps, with_steps, word_for
from macsim_replay import Replay
from macsim_text import BadInput, events_of, script_of


# The allocations in which `main` begins; its words come behind them.
BEGINNING = 15


class Work:
    """A script or a load, as the program is asked for it: its words, its input, and what it prints
    where nothing is refused."""

    def __init__(self, name, program, given, words=None):
        self.name, self.program, self.given = name, program, given
        is_script = words is None or words[0] not in ("check", "gen")
        self.script = script_of(given.decode("latin-1"), name) if is_script else None
        self.words = words or [word_for(self.script)]
        # Whether the same is printed each time.
        self.is_settled = self.script is None or self.words[0] == "step" or self.has_one_caller()
        self.usual = program.run(self.words, given)

    def has_one_caller(self):
        return sum(bool(task.calls) for task in self.script.tasks.values()) < 2

    def is_right(self, printed):
        """Whether what a run that ended with 0 printed is right for the script."""
        if self.is_settled:
            return printed == self.usual.printed
        return fault_of(self, printed.decode("latin-1")) is None


def lacks_memory(work, number, ended):
    """Whether a run that ended with 9, where the allocation of that number was refused, says so.
    Where its words weren't there yet it prints nothing."""
    return ended.printed == b"macsim: no memory\n" or (
        not ended.printed and number <= BEGINNING + len(work.words)
    )


def verdict_on(program, script, text):
    """What the program's auditor says of a text of the script."""
    given = f"script {len(script)}\n{script}{text}".encode("latin-1")
    return program.run(["check"], given).printed.decode("latin-1").strip()


def steps_of(event):
    """The steps that make an event again."""
    kinds = {"enter": "enter", "done": "plan done", "leave": "leave", "changed": "change"}
    return [f"{kind} {event.task}" for kind in kinds.get(event.kind, "").split()]


def fault_of(work, printed):
    """What is wrong with the history of a run, or with what stands behind it, or None."""
    text, further = printed, [word for word in work.words if word in FURTHER]
    for word in further:
        text, lines = parted(printed, word)
        fault = fault_of_lines(word, work.given.decode("latin-1"), text, lines, work.name)
        if fault is not None:
            return fault
    try:
        events = events_of(text, work.name)
        for _ in Replay(work.script).follow(events, work.name):
            pass
    except BadInput as fault:
        return str(fault)
    verdict = verdict_on(work.program, work.given.decode("latin-1"), text)
    if verdict != "yes":
        return f"the auditor says {verdict}"
    steps = [step for event in events for step in steps_of(event)]
    stepped = with_steps(lines_before_steps(work.script), steps)
    again = work.program.run(["step", *further], stepped.encode("latin-1"))
    is_same = again.status == 0 and again.printed.decode("latin-1") == printed
    return None if is_same else "its steps make another history"


def told_of(statuses):
    """How often runs ended with each status, behind a colon."""
    rows = sorted(statuses.items(), key=str)
    told = ", ".join(f"{count} ended with {status}" for status, count in rows)
    return f": {told}" if told else ""
