"""Runs the program over scripts of mutated bytes, always the same ones, and over scripts at each
limit and one past it. Each run ends with 0 or 3 and tells nothing on the standard error, within a
second. The line that a fault names is the first that is wrong, by the program itself: the lines
before it are a script, with `end` where a task or the steps are open, and no script begins with
these and it. A line for each failure, with the smallest script that still fails, then the counts.

    checks/mutations.sh [--scripts N] [--all]
"""
import argparse
import random
import re
from collections import Counter

from judging import ROOT, told_of, verdict_on
from limits import limits
from running import Program
from scripts import TUNABLE, WORKED
from smallest import smallest

SEED = 37
ALL_SCRIPTS = 20_000
MOST_SECONDS = 1
FAULT = re.compile(rb"macsim: script line (\d+) fault (\d+) ([A-Za-z]+)(?: (E[A-Z]+))?\n")
END = b"end\n"
# What is put in or in the place of something: bytes that may not stand in a script, those that part
# and begin words, and words at their limits.
BYTES = [
    *(b"\r", b"\0", b"\x7f", b"\x80", b"\xc3\xa9", b"\xff", b"\x0b", b" ", b"\t", b"\n"),
    *(b"#", b"@", b"\\", b"/", b",", b":", b"=", b".", b"0", b"9"),
]
WORDS = [
    *(b"end", b"steps", b"boot", b"file", b"task", b"ugidfw list", b"@c", b"-", b"!", b"not"),
    *(b"mode", b"\\0", b"\\00", b"\\zz", b"=", b"x=", b"0" * 40, b"4294967295", b"4294967296"),
    *(b"-1", b"7777", b"10000", b"8", b"249", b"250", b"1,2", b"1,,2", b","),
    *(b"0,0" * 8, b"0" + b",0" * 15, b"0" + b",0" * 16, b"n" * 32, b"n" * 33, b"t.c", b"t.c.c"),
    *(b"/", b"//", b"/.", b"/..", b"c/"),
    *(b"/" + b"c" * 32, b"/" + b"c" * 33, b"/c" * 8, b"/c" * 9, b"other/x", b"biba/low,", b"mls/"),
    *(b"biba/65535", b"biba/65536", b"biba/5:256", b"biba/5:257", b"biba/5:0", b"biba/(1-2"),
    *(b"partition/2147483647", b"partition/2147483648"),
    *(b"open /notes rw", b"fread 0", b"fwrite 0 x", b"close 0", b"r", b"rw", b"wr", b"15", b"16"),
    *(b"tunable", TUNABLE.encode(), b"security.mac.biba.revocation_enabled=2"),
    *(b"bind s tcp 80", b"bind s udp 65536", b"bind s ip 80", b"tcp", b"udp", b"65535", b"65536"),
    *(b"mac_portacl", b"mac_seeotheruids", b"security.mac.portacl.rules=uid:80:tcp:80"),
    *(b"mac_lomac", b"lomac/5", b"lomac/5:1", b"lomac/(1-2)", b"lomac/"),
]


def mutated(chance, text):
    """The text with one thing changed."""
    place = chance.randrange(len(text) + 1)
    end = min(len(text), place + chance.choice((0, 1, 1, 2, 5, 40)))
    kind = chance.randrange(8)
    if kind == 0:
        return text[:place] + text[end:]
    if kind == 1:
        return text[:place] + chance.choice(BYTES) + text[place:]
    if kind == 2:
        return text[:place] + bytes([chance.randrange(256)]) + text[end:]
    if kind == 3:
        return text[:place]
    return with_line(chance, text) if kind < 6 else with_word(chance, text)


def with_word(chance, text):
    """The text with another word in the place of one."""
    words = re.split(rb"([ \n]+)", text)
    words[chance.randrange(0, len(words), 2)] = chance.choice(WORDS)
    return b"".join(words)


def with_line(chance, text):
    """The text with a line of it left out, doubled, or put elsewhere."""
    lines = text.splitlines(keepends=True) or [b"\n"]
    line = lines[chance.randrange(len(lines))]
    if chance.randrange(2):
        lines.remove(line)
    lines.insert(chance.randrange(len(lines) + 1), line if chance.randrange(3) else b"")
    return b"".join(lines)


def mutations(count):
    """So many scripts of mutated bytes with their names, always the same."""
    chance = random.Random(SEED)
    texts = [text.encode() for text in WORKED.values() if len(text) < 4096]
    texts += [path.read_bytes() for path in sorted(ROOT.glob("examples/*.macsim"))]
    for number in range(1, count + 1):
        text = chance.choice(texts)
        for _ in range(chance.choice((1, 1, 1, 2, 4))):
            text = mutated(chance, text)
        yield f"script {number}", text, None


def end_told(ended):
    """The status of a run, and the line and the fault that it names; other ends have no status."""
    fault = FAULT.fullmatch(ended.printed) if ended.status == 3 else None
    if ended.told or ended.seconds > MOST_SECONDS or ended.status != 0 and fault is None:
        said = (ended.printed + ended.told)[-200:]
        return None, 0, f"status {ended.status} after {ended.seconds:.2f} s: {said!r}".encode()
    return (3, int(fault[1]), fault[0]) if fault else (0, 0, b"")


class Judge:
    """The program, with what its runs said."""

    def __init__(self, program):
        self.program = program
        self.ends = {}
        self.runs = self.longest = 0
        self.statuses = Counter()

    def end_of(self, text):
        """How a run over this text ends; each text is run once."""
        if text not in self.ends:
            self.runs += 1
            ended = self.program.run(["run"], text)
            self.longest = max(self.longest, ended.seconds)
            self.ends[text] = end_told(ended)
            if ended.status == 0:
                self.audit(text, ended.printed)
        return self.ends[text]

    def audit(self, text, printed):
        """The program's auditor takes what was printed for a text of a run."""
        verdict = verdict_on(self.program, text.decode("latin-1"), printed.decode("latin-1"))
        if verdict != "yes":
            self.ends[text] = (None, 0, f"the auditor says {verdict}".encode())

    def fault_in(self, text):
        """What is wrong with the answer to the text, or None."""
        status, line, fault = self.end_of(text)
        self.statuses[status] += 1
        if status is None:
            return fault.decode()
        return self.fault_of_line(text, line, fault) if status == 3 else None

    def smallest_of(self, text):
        """The fewest lines of a failing text that fail too."""
        other = Judge(self.program)
        return smallest(text, lambda shorter: other.fault_in(shorter) is not None)

    def fault_of_line(self, text, line, fault):
        lines = text.split(b"\n")
        before = b"".join(part + b"\n" for part in lines[: line - 1])
        if 0 not in (self.end_of(before)[0], self.end_of(before + END)[0]):
            return f"{fault!r}: the lines before it are no script"
        if b" NoEnd" in fault:
            count = len(lines) - (lines[-1] == b"")
            return None if line == count + 1 else f"{fault!r}: there are {count} lines"
        through = before + lines[line - 1]
        for longer in (through, through + b"\n" + END, through + b"\n" + END + END):
            if self.end_of(longer)[1:] != (line, fault):
                return f"{fault!r}: where the lines end with it: {self.end_of(longer)}"
        return None


def main():
    parser = argparse.ArgumentParser()
    parser.add_argument("--scripts", type=int, default=ALL_SCRIPTS // 8)
    parser.add_argument("--all", action="store_true")
    given = parser.parse_args()
    judge = Judge(Program(ROOT / "crates/macsim/out/macsim"))
    passed = failed = 0
    count = ALL_SCRIPTS if given.all else given.scripts
    for name, text, wanted in [*limits(), *mutations(count)]:
        fault, shown = judge.fault_in(text), text[:400]
        if fault is not None:
            shown = judge.smallest_of(text)
        elif wanted not in (None, judge.end_of(text)[2]):
            fault = f"{judge.end_of(text)} in place of {wanted!r}"
        passed, failed = passed + (fault is None), failed + (fault is not None)
        if fault is not None:
            print(f"mutations: {name}: {fault}: {shown!r}")
    print(f"{passed + failed} scripts{told_of(judge.statuses)}")
    print(f"{judge.runs} runs, of which the longest took {judge.longest:.2f} s")
    print(f"{passed} passed, {failed} failed")
    return 1 if failed or not passed else 0


if __name__ == "__main__":
    raise SystemExit(main())
