"""Runs scripts of sixteen tasks that load, unload and change, that mac_lomac lowers, or that have
files open, on one, two and four processors, where some or all threads can't be made, and where
memory is refused. Each history is judged by the auditor, followed by the tools and made again by its steps, and no
label slot is given twice; what `matrix`, `chains` and `why` write behind one is judged by rules of its own. A line for each kind of run, then a count.

    checks/threads.sh [--every N] [--from K] [--all]
"""
import argparse
import re
import time
from collections import Counter

import scripts
from further_lines import FURTHER
from judging import BEGINNING, ROOT, Work, fault_of, lacks_memory, told_of
from running import ALL, ALL_PROCESSORS, NOTHING, Program, Refused, on_processors, one

# How often each script is run on each number of processors.
RUNS = 3
CHANGES = 200
MIXED_LINES = 40
SINKING_LINES = 12
OPENING_LINES = 16
# The module that comes late finds these slots: mac_biba has 0.
LATE_SLOTS = ["1", "2", "3"]


def words():
    parser = argparse.ArgumentParser()
    parser.add_argument("--refusing", required=True)
    parser.add_argument("--every", type=int, default=32)
    parser.add_argument("--from", type=int, dest="start", default=None)
    parser.add_argument("--all", action="store_true")
    given = parser.parse_args()
    every = 1 if given.all else given.every
    start = time.localtime().tm_yday if given.start is None else given.start
    return given.refusing, every, start % every + 1


class Runs:
    """Runs of the scripts, with what came of them."""

    def __init__(self, program):
        self.program = program
        sinking = scripts.sinking(SINKING_LINES).encode()
        self.works = [
            Work("loading", program, scripts.loaders().encode()),
            Work("changing", program, scripts.changers(CHANGES).encode()),
            Work("waiting", program, scripts.mixed(MIXED_LINES).encode()),
            Work("sinking", program, sinking),
            Work("opening", program, scripts.openers(OPENING_LINES).encode()),
            *(Work(f"{word} of sinking", program, sinking, words=["run", word]) for word in FURTHER),
        ]
        self.passed = self.failed = 0

    def fault_of(self, work, ended, refused):
        """What is wrong with a run, or None. It may lack memory where an allocation was refused."""
        if ended.told:
            return repr(ended.told[:200])
        if refused is not None and ended.status == 9 and lacks_memory(work, refused, ended):
            return None
        if ended.status != 0:
            return f"status {ended.status}: {ended.printed[-200:]!r}"
        printed = ended.printed.decode("latin-1")
        slots = re.findall(r"^changed \S+ \d+ ok slot (\d)$", printed, re.M)
        return f"slots {slots}" if slots != LATE_SLOTS[: len(slots)] else fault_of(work, printed)

    def try_run(self, name, work, refused=None, threads=NOTHING):
        allocations = NOTHING if refused is None else one(refused)
        ended = self.program.run(work.words, work.given, allocations=allocations, threads=threads)
        fault = self.fault_of(work, ended, refused)
        if fault is None:
            self.passed += 1
        else:
            self.failed += 1
            print(f"threads: {name}, {work.name}: {fault}")
        return ended

    def on_processors(self):
        for wanted in (1, 2, 4):
            count = on_processors(wanted)
            name = f"{count} processors"
            works = self.works * RUNS
            asked = {self.try_run(name, work).threads for work in works}
            print(f"{name}: {len(works)} runs, each with {min(asked)} to {max(asked)} threads")
        on_processors(len(ALL_PROCESSORS))

    def without_threads(self):
        some = [ALL, Refused(2, ALL.last), Refused(9, ALL.last)]
        refusals = [*some, *map(one, range(1, scripts.TASKS + 1))]
        for refused in refusals:
            name = f"threads from {refused.first} on and before {refused.last} refused"
            for work in self.works:
                self.try_run(name, work, threads=refused)
        runs = len(refusals) * len(self.works)
        print(f"threads refused: all, all but 1, all but 8, each one: {runs} runs")

    def without_memory(self, every, start):
        for work in self.works:
            most, statuses = work.usual.allocations, Counter()
            first = range(1, BEGINNING + len(work.words) + 1)
            for number in sorted({*first, *range(start, most + 1, every)}):
                name = f"allocation {number} refused"
                ended = self.try_run(name, work, refused=number)
                statuses[ended.status] += 1
            refused = f"{sum(statuses.values())} of {most} allocations refused"
            print(f"{work.name}: {refused}{told_of(statuses)}")


def main():
    refusing, every, start = words()
    print(f"threads --every {every} --from {start - 1}")
    runs = Runs(Program(ROOT / "crates/macsim/out/macsim", refusing))
    runs.on_processors()
    runs.without_threads()
    runs.without_memory(every, start)
    print(f"{runs.passed} passed, {runs.failed} failed")
    return 1 if runs.failed or not runs.passed else 0


if __name__ == "__main__":
    raise SystemExit(main())
