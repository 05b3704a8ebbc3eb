"""Refuses the program one allocation after another, in a run of its own each: over five worked
scripts, also with `matrix`, `chains` and `why`, their texts, which it checks, a load and the examples. A run that is refused an allocation
ends with 0 and what is right for its script, or with 9 and no part of a history; the first fifteen,
in which `main` makes the words and the modules, end with 9. The tests of refused growths are run so
too, with each refused: they hold, or say that memory ran out. A line for each script, with how many
allocations it asks for and how many were refused, then a count. Of each script every 16th is
refused, by the day of the year from another one on.

    checks/memory.sh [--every N] [--from K] [--all]
"""
import argparse
import re
import time
from collections import Counter

from further_lines import FURTHER
from judging import BEGINNING, ROOT, Work, lacks_memory, told_of
from running import NOTHING, Program, one
from scripts import WORKED

# What the names of the tests of refused growths have.
OF_GROWTHS = "after_refused"


def words():
    parser = argparse.ArgumentParser()
    parser.add_argument("--refusing", required=True, help="the library that refuses")
    parser.add_argument("--tested", nargs="*", default=[], help="crates with tests of growths")
    parser.add_argument("--every", type=int, default=16)
    parser.add_argument("--from", type=int, dest="start", default=None)
    parser.add_argument("--all", action="store_true")
    given = parser.parse_args()
    every = 1 if given.all else given.every
    start = time.localtime().tm_yday if given.start is None else given.start
    return given, every, start % every + 1


def works(program):
    for name, text in WORKED.items():
        yield Work(name, program, text.encode())
        for word in FURTHER:
            yield Work(f"{word} of {name}", program, text.encode(), words=["run", word])
    yield Work("gen 64 4", program, b"", words=["gen", "64", "4"])
    for name, text in WORKED.items():
        printed = program.run(["run"], text.encode()).printed
        given = f"script {len(text)}\n".encode() + text.encode() + printed
        yield Work(f"check of {name}", program, given, words=["check"])
    for path in sorted(ROOT.glob("examples/*.macsim")):
        yield Work(path.stem, program, path.read_bytes())
    stepped = ROOT / "examples/60-where-the-steps-end.macsim"
    for word in FURTHER:
        yield Work(f"step {word} of {stepped.stem}", program, stepped.read_bytes(), words=["step", word])


def is_as_wanted(work, number, ended):
    if ended.told or ended.status not in (0, 9):
        return False
    if ended.status == 9:
        return lacks_memory(work, number, ended)
    return number > BEGINNING and work.is_right(ended.printed)


def is_held(ended):
    """Whether a test holds, or says that memory ran out."""
    lacks = re.search(rb"[Ee]rror: (Alloc(Error|Failed)|Memory)\b", ended.printed + ended.told)
    return ended.status == 0 or ended.status == 101 and lacks is not None


class Count:
    """What was tried, and how it ended."""

    def __init__(self, every, start):
        self.every, self.start = every, start
        self.passed = self.failed = 0

    def judge(self, name, number, is_right, ended):
        if is_right:
            self.passed += 1
        else:
            self.failed += 1
            said = (ended.printed + ended.told)[-300:]
            print(f"memory: {name}: allocation {number} refused: status {ended.status}, {said!r}")

    def numbers_to(self, most):
        """The numbers of the allocations that are refused, of so many."""
        return range(self.start, most + 1, self.every)

    def refuse_each(self, name, most, numbers, run, judge):
        """Refuses these allocations of a run in turn, and says how the runs ended."""
        statuses = Counter()
        for number in numbers:
            ended = run(one(number))
            statuses[ended.status] += 1
            self.judge(name, number, judge(number, ended), ended)
        print(f"{name}: {len(numbers)} of {most} allocations refused{told_of(statuses)}")


def refuse_work(count, program, work, numbers):
    count.judge(work.name, 0, work.usual.status == 0 and not work.usual.told, work.usual)
    run = lambda refused: program.run(work.words, work.given, allocations=refused)
    judge = lambda number, ended: is_as_wanted(work, number, ended)
    count.refuse_each(work.name, work.usual.allocations, numbers, run, judge)


def refuse_tests(count, crate, refusing):
    tests = Program(ROOT / f"crates/{crate}/out/{crate}_tests", refusing)
    listed = tests.run(["--list"], b"").printed.decode().split("\n")
    for name in (name.removesuffix(": test") for name in listed if OF_GROWTHS in name):
        run = lambda refused: tests.run([name], b"", allocations=refused)
        usual = run(NOTHING)
        count.judge(name, 0, usual.status == 0, usual)
        most = usual.allocations
        judge = lambda _, ended: is_held(ended)
        count.refuse_each(f"{crate} {name}", most, range(1, most + 1), run, judge)


def main():
    given, every, start = words()
    count = Count(every, start)
    print(f"memory --every {every} --from {start - 1}")
    program = Program(ROOT / "crates/macsim/out/macsim", given.refusing)
    for place, work in enumerate(works(program)):
        if place == 0:
            refuse_work(count, program, work, range(1, BEGINNING + 1))
        refuse_work(count, program, work, count.numbers_to(work.usual.allocations))
    for crate in given.tested:
        refuse_tests(count, crate, given.refusing)
    print(f"{count.passed} passed, {count.failed} failed")
    return 1 if count.failed or not count.passed else 0


if __name__ == "__main__":
    raise SystemExit(main())
