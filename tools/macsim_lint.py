"""Finds each fault of a script, by docs/MANUAL.md (THE SCRIPT), limits, labels and rules among it. Nothing of it is proved.

The first one is the program's. What a faulty line seems to say counts for the lines behind it as far as that can be told: a task whose name is
bad is a task still, and a label of a module whose `boot` line is faulty is none of the faults. So what follows from a fault isn't told again.
"""
from __future__ import annotations

import re
from collections import Counter
from copy import deepcopy
from typing import Iterator, NamedTuple

from macsim_slips import NAME_SAID, Slip, Word, at, fits, has_form, modules_of, slips_of, slips_of_call, slips_of_label, words_of
from macsim_text import CALLS, STEPS, SWITCH, TUNABLE, TUNED, WORDS

# The faults by their numbers, from 1, as docs/ERRORS.md has them.
FAULTS = (
    "NotText UnknownWord Missing Extra BadNumber BadLabel BadRule BadPath Duplicate NoEnd TooMany BootRefused BadText".split()
)
# The first words of the lines outside tasks and steps, in the order of their parts, and the part behind the `end` of the steps.
FRONT = ("boot", "tunable", "file", "task", "steps")
END = len(FRONT)
MODULES = WORDS["MODULE"].split("|")
FILE_FORM = "PATH KIND uid N gid N mode OCTAL label L".split()
CONTENT_FORM = ["text", "TEXT"]
TASK_FORM = "NAME uid N gid GROUPS label L".split()
LIMITS = {
    "file": (256, "no more than 256 files"),
    "task": (16, "no more than 16 tasks"),
    "line": (4096, "no more than 4,096 lines of a task"),
    "step": (65536, "no more than 65,536 steps"),
    "list": (64, "no more than 64 lines `ugidfw list` of a script"),
}
CONTENT_LIMIT = 65536


class Found(NamedTuple):
    """A fault with the number of its line, from 1."""

    number: int
    slip: Slip

    def title(self) -> str:
        """The line and the fault, as the program tells them."""
        name = self.slip.fault.partition(" ")[0]
        return f"line {self.number} fault {FAULTS.index(name) + 1} {self.slip.fault}"


class Block(NamedTuple):
    """A task or the steps, between their first line and `end`. It is `lost` where its first line was none, and may be over where its last line
    is one unknown word, as `End`. A task that was begun among the steps stands in these."""

    kind: str
    said: str
    is_lost: bool
    may_be_over: bool = False
    around: Block | None = None

    def wants_end(self) -> bool:
        """Whether it is a fault of its own that no `end` comes."""
        return not (self.is_lost or self.may_be_over)


class File(NamedTuple):
    number: int
    is_directory: bool


def is_like_call(word: str) -> bool:
    return word in CALLS or word == "ugidfw" or word.startswith("@")


def likeness(words: list[Word]) -> str | None:
    """The kind of line outside tasks and steps that a line is like by the words behind its first."""
    texts = [word.text for word in words]
    if texts[2:3] == ["uid"] and texts[4:5] == ["gid"]:
        return "task"
    if texts[3:4] == ["uid"] and (texts[1].startswith("/") or fits(texts[2], "KIND")):
        return "file"
    return "boot" if len(texts) == 2 and texts[1] in MODULES and not is_like_call(texts[0]) else None


class Linter:
    """Reads the lines of a script one after another."""

    def __init__(self) -> None:
        self.part, self.block = 0, None
        # What came, with the number of the line: modules, the tunable, files by path, tasks by name.
        self.boots: dict[str, int] = {}
        self.tunable: int | None = None
        self.files: dict[str, File] = {}
        self.tasks: dict[str, int] = {}
        # What is there as far as can be told: modules that a line may have been about, and directories that were found to be lacking.
        self.assumed: set[str] = set()
        self.lacking: set[str] = set()
        # Whether some line of a file has no path that can be read, and whether some line that ends with a carriage return was told.
        self.has_lost_directory = self.has_returns = False
        self.counts, self.told = Counter(), set()

    def slips_in(self, number: int, line: str) -> list[Slip]:
        """The faults of the next line, in the order in which the program looks for them."""
        bad = re.search(r"[^\t -~]", line)
        if bad and bad.end() == len(line) and bad[0] == "\r":
            return self.slips_before_return(number, line[:-1])
        words = words_of(line)
        slips = self.read(number, words) if words and not words[0].text.startswith("#") else []
        return [Slip("NotText", *bad.span(), "printing bytes of ASCII and tabs alone, in comments too")] if bad else slips

    def slips_before_return(self, number: int, line: str) -> list[Slip]:
        """The faults of a line that ends with a carriage return. That is told once."""
        slips = self.slips_in(number, line)
        if self.has_returns:
            return slips
        self.has_returns = True
        return [Slip("NotText", len(line), len(line) + 1, "a newline alone; further lines that end so aren't told"), *slips]

    def slips_at_end(self, count: int) -> Iterator[Found]:
        """What is wrong where a script ends behind so many lines."""
        if self.block is not None and self.block.wants_end():
            yield Found(count + 1, Slip("NoEnd", 0, 1, f"`end`, for {self.block.said}"))

    def counted(self, what: str, word: Word) -> list[Slip]:
        """One more of what is limited. What is past its limit is told once."""
        self.counts[what] += 1
        most, said = LIMITS[what]
        if self.counts[what] <= most or what in self.told:
            return []
        self.told.add(what)
        return [at(word, "TooMany", said)]

    # Lines by where they stand

    def read(self, number: int, words: list[Word]) -> list[Slip]:
        if self.block is None:
            return self.read_front(number, words)
        if words[0].text == "end":
            return self.read_end(words)
        if words[0].text in FRONT:
            return self.read_front_in_block(number, words)
        if self.block.around is not None and words[0].text in STEPS:
            self.block = self.block.around
        slips = self.read_call(words) if self.block.kind == "task" else self.read_step(words)
        is_unknown = len(words) == 1 and any(slip.fault == "UnknownWord" for slip in slips)
        self.block = self.block._replace(may_be_over=is_unknown)
        return slips

    def read_end(self, words: list[Word]) -> list[Slip]:
        """The end of the block. Behind a task that stands among the steps these may go on."""
        self.part = END if self.block.kind == "steps" else self.part
        around = self.block.around
        self.block = around and around._replace(is_lost=True)
        return slips_of(words, 1, [])

    def read_front(self, number: int, words: list[Word]) -> list[Slip]:
        """A line outside tasks and steps."""
        first, like = words[0].text, likeness(words)
        is_right = first in FRONT and self.part <= FRONT.index(first)
        slips = [] if is_right else [at(words[0], "UnknownWord", self.front_wanted(first))]
        if first in FRONT and like not in (None, first):
            slips += deepcopy(self).read_kind(first, number, words)
            self.read_kind(like, number, words)
        elif first in FRONT or like is not None:
            slips += self.read_kind(like or first, number, words)
        else:
            self.open_lost(words)
        return slips

    def read_front_in_block(self, number: int, words: list[Word]) -> list[Slip]:
        """A line that stands outside of tasks and steps, in one of them, which it ends where that may have been meant."""
        block, first = self.block, words[0].text
        if not block.wants_end():
            self.block = None
            return self.read_front(number, words)
        wanted = f"{'a call' if block.kind == 'task' else 'a step'} or `end`, for {block.said}"
        slips = [at(words[0], "UnknownWord", wanted), *self.read_kind(first, number, words)]
        if first == "task":
            self.block = self.block._replace(around=block if block.kind == "steps" else block.around)
        return slips

    def front_wanted(self, first: str) -> str:
        left = [f"`{word}`" for word in FRONT[self.part :]]
        if not left:
            return "nothing behind the `end` of the steps"
        said = f"{', '.join(left[:-1])} or {left[-1]}" if len(left) > 1 else left[0]
        why = " (a call stands in a task, and none is open)" if is_like_call(first) else ""
        return f"{said}{why}"

    def open_lost(self, words: list[Word]) -> None:
        """Goes on as in a task, or as in the steps, whose first line isn't there. Before the files it may have been a `boot` line."""
        first = words[0].text
        if self.part == 0:
            self.assumed.update(MODULES)
        if first in STEPS and len(words) == 2:
            self.block = Block("steps", "the steps", True)
        elif is_like_call(first):
            self.block = Block("task", "a task", True)

    def read_kind(self, kind: str, number: int, words: list[Word]) -> list[Slip]:
        self.part = max(self.part, FRONT.index(kind))
        readers = {"boot": self.read_boot, "tunable": self.read_tunable, "file": self.read_file, "task": self.read_task, "steps": self.read_steps}
        return readers[kind](number, words)

    # Lines outside tasks and steps

    def booted(self) -> set[str]:
        return self.assumed | set(self.boots)

    def read_boot(self, number: int, words: list[Word]) -> list[Slip]:
        slips = slips_of(words, 1, ["WORD"])
        slips += self.judge_boot(words[1]) if not slips else []
        name = words[1].text if len(words) > 1 else ""
        if name in MODULES:
            self.boots.setdefault(name, number)
        else:
            self.assumed.update(MODULES)
        return slips

    def judge_boot(self, word: Word) -> list[Slip]:
        if len(self.boots) == len(MODULES):
            return [at(word, "TooMany", f"no more than {len(MODULES)} `boot` lines")]
        if word.text not in MODULES:
            return [at(word, "BootRefused ENOENT", f"a module: {', '.join(MODULES)}")]
        if word.text in self.boots:
            return [at(word, "BootRefused EEXIST", f"another module: line {self.boots[word.text]} boots it")]
        return []

    def read_tunable(self, number: int, words: list[Word]) -> list[Slip]:
        slips = slips_of(words, 1, ["NAME=VALUE"])
        slips += self.judge_tunable(words[1]) if not slips else []
        self.tunable = self.tunable or number
        return slips

    def judge_tunable(self, word: Word) -> list[Slip]:
        name, _, value = word.text.partition("=")
        end = word.start + max(1, len(name))
        if name != TUNABLE:
            return [Slip("BootRefused ENOENT", word.start, end, f"`{TUNABLE}`, the only tunable")]
        if TUNED not in self.booted():
            self.assumed.add(TUNED)
            return [Slip("BootRefused ENOENT", word.start, end, f"the tunable of a module that is booted: there is no line `boot {TUNED}` before")]
        if value not in SWITCH:
            return [Slip("BootRefused EINVAL", end + 1, max(word.end, end + 2), "`0` or `1`")]
        return [at(word, "Duplicate", f"no second `tunable` line: line {self.tunable} is one")] if self.tunable else []

    def read_file(self, number: int, words: list[Word]) -> list[Slip]:
        texts = [word.text for word in words]
        is_directory, content = texts[2:3] == ["dir"], texts[1 + len(FILE_FORM) :]
        form = FILE_FORM + (CONTENT_FORM if content and not is_directory else [])
        slips = slips_of(words, 1, form)
        if is_directory and content[:1] == ["text"] and slips[-1].fault == "Extra":
            slips[-1] = slips[-1]._replace(fault="UnknownWord", wanted="the end of the line: a directory holds no text")
        if has_form(words, 1, form):
            slips += self.judge_file(words)
        if len(words) > 1 and fits(texts[1], "PATH"):
            self.files.setdefault(texts[1], File(number, texts[2:3] != ["reg"]))
        else:
            self.has_lost_directory = True
        return slips

    def judge_file(self, words: list[Word]) -> list[Slip]:
        slips = self.counted("file", words[0])
        if len(words) > 1 + len(FILE_FORM) and len(re.sub(r"\\[0-9A-Fa-f]{2}", ".", words[-1].text)) > CONTENT_LIMIT:
            slips.append(at(words[-1], "TooMany", f"a text of no more than {CONTENT_LIMIT:,} bytes"))
        if fits(words[1].text, "PATH"):
            slips += self.judge_path(words[1])
        return slips + self.judge_label(words[len(FILE_FORM)], "vnode")

    def judge_path(self, word: Word) -> list[Slip]:
        path, slips = word.text, []
        if path == "/":
            return [at(word, "Duplicate", "another path: `/` is there without a line")]
        if path in self.files:
            slips.append(at(word, "Duplicate", f"another path: line {self.files[path].number} has it"))
        directory = path.rpartition("/")[0]
        holder = self.files.get(directory)
        is_there = not directory or directory in self.lacking or (holder.is_directory if holder else self.has_lost_directory)
        if not is_there:
            self.lacking.add(directory)
            why = f"line {holder.number} makes {directory} a regular file" if holder else f"there is no `dir` line for {directory} before"
            slips.append(at(word, "BadPath", f"a directory that is there: {why}"))
        return slips

    def judge_label(self, word: Word, kind: str) -> list[Slip]:
        slips = slips_of_label(word, kind, self.booted())
        self.assumed |= modules_of(word.text)
        return slips

    def read_task(self, number: int, words: list[Word]) -> list[Slip]:
        slips = slips_of(words, 1, TASK_FORM)
        name = words[1].text if len(words) > 1 and fits(words[1].text, "NAME") else None
        if has_form(words, 1, TASK_FORM):
            slips += self.counted("task", words[0])
            if name in self.tasks:
                slips.append(at(words[1], "Duplicate", f"another name: line {self.tasks[name]} has it"))
            slips += self.judge_label(words[len(TASK_FORM)], "proc")
        if name is not None:
            self.tasks.setdefault(name, number)
        self.block = Block("task", f"the task of line {number}", False)
        self.counts["line"] = 0
        self.told.discard("line")
        return slips

    def read_steps(self, number: int, words: list[Word]) -> list[Slip]:
        self.block = Block("steps", f"the steps of line {number}", False)
        return slips_of(words, 1, [])

    # Lines of tasks and of the steps

    def read_call(self, words: list[Word]) -> list[Slip]:
        has_child = words[0].text.startswith("@")
        is_named = not has_child or fits(words[0].text[1:], "NAME")
        slips = [] if is_named else [at(words[0], "BadPath", f"`@` and the name of a child in one word: {NAME_SAID}")]
        if is_named or len(words) > 1:
            slips += slips_of_call(words, int(has_child))
        if slips:
            return slips
        call = [word.text for word in words[int(has_child) :]]
        return self.counted("line", words[0]) + (self.counted("list", words[0]) if call == ["ugidfw", "list"] else [])

    def read_step(self, words: list[Word]) -> list[Slip]:
        if words[0].text not in STEPS:
            said = ", ".join(f"`{step}`" for step in STEPS)
            return [at(words[0], "UnknownWord", f"{said} or `end`")]
        return slips_of(words, 1, ["NAME"]) or self.counted("step", words[0])


def faults_of(text: str) -> Iterator[Found]:
    """Each fault of a script, by lines and in each in the order in which the program looks for them."""
    lines = text.removesuffix("\n").split("\n") if text else []
    linter = Linter()
    for number, line in enumerate(lines, 1):
        for slip in linter.slips_in(number, line):
            yield Found(number, slip)
    yield from linter.slips_at_end(len(lines))
