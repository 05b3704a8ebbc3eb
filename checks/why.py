"""The lines that `why` and `why all` write behind the text of a run or of steps, over worked rows, the examples, worked scripts and
scripts of random calls: they are those that why_rules.py comes to from the text before them alone. A line for each failure, and then what
was compared.

    checks/why.sh [--scripts N] [--all]

With --all the longest text is measured besides, where no thread can be made: so the tasks go one after another, and the rules come first.
"""
from __future__ import annotations

import argparse
import time
from collections import Counter

import scripts
import why_scripts
from further_lines import difference, parted
from judging import ROOT, steps_of, verdict_on
from random_scripts import random_scripts
from running import ALL, Program
from why_random import denied_scripts
from why_rules import Fault, Why
from macsim_command import lines_before_steps, with_steps
from macsim_text import Script, events_of, script_of

SCRIPTS, ALL_SCRIPTS = 100, 2_000
EXTENTS = ([], ["all"])


def has_one_caller(script: Script) -> bool:
    return sum(bool(task.calls) for task in script.tasks.values()) < 2


class Judged:
    """What was compared, and how much of it."""

    def __init__(self, program: Program) -> None:
        self.program, self.told = program, Counter()
        self.passed = self.failed = 0

    def count(self, name: str, fault: str | None) -> None:
        self.passed, self.failed = self.passed + (fault is None), self.failed + (fault is not None)
        if fault is not None:
            print(f"why: {name}: {fault}")

    def printed(self, words: list[str], text: str) -> str:
        ended = self.program.run(words, text.encode("latin-1"))
        if ended.status != 0 or ended.told:
            raise Fault(f"status {ended.status}: {(ended.printed + ended.told)[-200:]!r}")
        return ended.printed.decode("latin-1")

    def fault_of_front(self, order: str, text: str, front: str, script: Script) -> str | None:
        """What is wrong with the text before the lines."""
        if order == "step" or has_one_caller(script):
            is_same = self.printed([order], text) == front
            return None if is_same else f"the text before the lines isn't that of {order}"
        verdict = verdict_on(self.program, text, front)
        return None if verdict == "yes" else f"the auditor says {verdict} of the text before the lines"

    def fault_of(self, name: str, text: str, order: str, extent: list[str]) -> str | None:
        """What is wrong with what is printed of a script in an order, or None."""
        try:
            front, lines = parted(self.printed([order, "why", *extent], text), "why")
            why = Why(text, front, name)
            fault = self.fault_of_front(order, text, front, script_of(text, name))
        except Fault as told:
            return str(told)
        self.told["checks"] += why.checks
        self.told["lines"] += len(lines)
        return fault or difference(lines, why.all_lines if extent else why.lines)

    def stepped(self, name: str, text: str) -> str:
        """The script by its own steps, or by those of a run of it."""
        script = script_of(text, name)
        if script.steps is not None:
            return text
        events = events_of(self.printed(["run"], text), name)
        return with_steps(lines_before_steps(script), [step for event in events for step in steps_of(event)])

    def judge(self, name: str, text: str) -> None:
        self.told["scripts"] += 1
        for extent in EXTENTS:
            self.count(f"{name}: run {' '.join(['why', *extent])}", self.fault_of(name, text, "run", extent))
            self.count(f"{name}: step {' '.join(['why', *extent])}", self.fault_of(name, self.stepped(name, text), "step", extent))

    def judge_row(self, row: why_scripts.Row) -> None:
        """A worked row: its lines were written by hand."""
        try:
            _, lines = parted(self.printed(["run", "why", "all"], row.script), "why")
        except Fault as told:
            self.count(row.name, str(told))
            return
        self.count(row.name, difference(lines, row.lines))
        self.judge(row.name, row.script)

    def measure_longest(self, refusing: str) -> None:
        began, program = time.monotonic(), Program(self.program.path, refusing)
        ended = program.run(["run", "why", "all"], why_scripts.longest().encode(), threads=ALL)
        self.count("the longest text", None if ended.status == 0 else f"status {ended.status}")
        print(f"the longest text: {len(ended.printed)} bytes, {time.monotonic() - began:.1f} s")


def main() -> int:
    parser = argparse.ArgumentParser()
    parser.add_argument("--refusing", required=True)
    parser.add_argument("--scripts", type=int, default=SCRIPTS)
    parser.add_argument("--all", action="store_true")
    given = parser.parse_args()
    judged = Judged(Program(ROOT / "crates/macsim/out/macsim"))
    for row in why_scripts.ROWS:
        judged.judge_row(row)
    for path in sorted(ROOT.glob("examples/*.macsim")):
        judged.judge(path.stem, path.read_text())
    for name, text in [*scripts.WORKED.items(), ("sinking", scripts.sinking(24)), ("opening", scripts.openers(24))]:
        judged.judge(name, text)
    count = ALL_SCRIPTS if given.all else given.scripts
    for name, text in [*random_scripts(count), *denied_scripts(count)]:
        judged.judge(name, text)
    if given.all:
        judged.measure_longest(given.refusing)
    print(", ".join(f"{count} {what}" for what, count in judged.told.items()))
    print(f"{judged.passed} passed, {judged.failed} failed")
    return 1 if judged.failed or not judged.passed else 0


if __name__ == "__main__":
    raise SystemExit(main())
