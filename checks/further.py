"""The lines that `matrix`, `chains` and `why` write behind the text of a run, over the examples, worked scripts and
scripts of random calls: they are those that matrix_rules.py, chain_rules.py and why_rules.py come to from the text of
the run alone, and behind the text of the steps that make its history again they are the same. Each chain that is printed is one, and each element of each line of sources has its chain,
in their order. Then the rows of the documents, the greatest matrix, and scripts at the limits of chains
and one past each. A line for each failure, and then what was compared.

    checks/further.sh [--scripts N] [--all]
"""
import argparse
import time
from collections import Counter

import limit_scripts
import scripts
from chain_rules import CHAIN_LIMIT, Chains, Followed
from further_lines import FURTHER, difference, parted
from judging import ROOT, Work, fault_of
from random_scripts import random_scripts
from running import Program

SCRIPTS, ALL_SCRIPTS = 100, 2_000
TOO_MANY = "macsim: too many chains\n"


class Judged:
    """What was compared, and how much of it."""

    def __init__(self, program):
        self.program, self.told = program, Counter()
        self.passed = self.failed = 0

    def count(self, name, fault):
        self.passed, self.failed = self.passed + (fault is None), self.failed + (fault is not None)
        if fault is not None:
            print(f"further: {name}: {fault}")

    def fault_of(self, name, text, word):
        """What is wrong with what a word prints of a script, or None."""
        work = Work(name, self.program, text.encode("latin-1"), words=["run", word])
        ended = work.usual
        if ended.status != 0 or ended.told:
            return f"status {ended.status}: {(ended.printed + ended.told)[-200:]!r}"
        printed, lines = parted(ended.printed.decode("latin-1"), word)
        run = self.program.run(["run"], work.given).printed.decode("latin-1")
        if work.is_settled and printed != run:
            return "the text before these lines isn't that of a run"
        self.told[f"lines of {word}"] += len(lines)
        self.told["steps"] += sum(len(line.split()) - 5 for line in lines if word == "chains")
        return fault_of(work, ended.printed.decode("latin-1"))

    def judge(self, name, text):
        self.told["scripts"] += 1
        for word in FURTHER:
            self.count(f"{name}: {word}", self.fault_of(name, text, word))

    def judge_row(self, name, text, word, wanted):
        """The further lines of a worked row."""
        printed = self.program.run([word], text.encode()).printed.decode("latin-1")
        self.count(name, difference(parted(printed, word)[1], wanted))

    # Limits

    def judge_limit(self, name, text, kind, wanted):
        """A script with so many additions or steps."""
        printed = self.program.run(["run"], text.encode()).printed
        chains = Chains(Followed(text, printed.decode("latin-1"), name))
        if getattr(chains, kind) != wanted:
            self.count(name, f"{getattr(chains, kind)} {kind} in place of {wanted}")
            return
        ended = self.program.run(["chains"], text.encode())
        is_past = chains.are_too_many()
        lines = "".join(f"{line}\n" for line in chains.lines()) if not is_past else TOO_MANY
        right = (11 if is_past else 0, printed + lines.encode("latin-1"))
        self.count(name, None if (ended.status, ended.printed) == right and not ended.told else f"status {ended.status}")
        print(f"{name}: {chains.additions} additions, {chains.steps} steps, status {ended.status}, {ended.seconds:.1f} s")

    def judge_greatest_matrix(self):
        text, wanted = limit_scripts.greatest_matrix()
        began = time.monotonic()
        ended = self.program.run(["matrix"], text.encode())
        taken = time.monotonic() - began
        _, lines = parted(ended.printed.decode("latin-1"), "matrix")
        self.count("the greatest matrix", difference(lines, wanted) if ended.status == 0 else f"status {ended.status}")
        print(f"the greatest matrix: {len(lines)} lines, {len(ended.printed)} bytes, {taken:.1f} s")


def main():
    parser = argparse.ArgumentParser()
    parser.add_argument("--scripts", type=int, default=SCRIPTS)
    parser.add_argument("--all", action="store_true")
    given = parser.parse_args()
    judged = Judged(Program(ROOT / "crates/macsim/out/macsim"))
    for path in sorted(ROOT.glob("examples/*.macsim")):
        judged.judge(path.stem, path.read_text())
    for name, text in [*scripts.WORKED.items(), ("sinking", scripts.sinking(24)), ("opening", scripts.openers(24))]:
        judged.judge(name, text)
    for name, text in random_scripts(ALL_SCRIPTS if given.all else given.scripts):
        judged.judge(name, text)
    for row in limit_scripts.ROWS:
        judged.judge_row(*row)
    for name, text, kind, wanted in limit_scripts.chain_limits(CHAIN_LIMIT):
        judged.judge_limit(name, text, kind, wanted)
    judged.judge_greatest_matrix()
    print(", ".join(f"{count} {what}" for what, count in judged.told.items()))
    print(f"{judged.passed} passed, {judged.failed} failed")
    return 1 if judged.failed or not judged.passed else 0


if __name__ == "__main__":
    raise SystemExit(main())
