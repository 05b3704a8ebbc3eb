"""What the tools beside this file have in common as commands: their words, what they read, the program that they run, and the answer. Nothing of
it is proved.
"""
from __future__ import annotations

import argparse
import functools
import signal
import subprocess
import sys
from collections.abc import Callable
from pathlib import Path

from macsim_checks import is_change
from macsim_text import BadInput, Event, Script, events_of, script_of

ROOT = Path(__file__).resolve().parent.parent
# Who stops a tool ends it without a word.
signal.signal(signal.SIGINT, signal.SIG_DFL)

# Words


def positive_number(text: str) -> int:
    number = int(text)
    if number < 1:
        raise ValueError
    return number


def add_program(parser: argparse.ArgumentParser) -> None:
    parser.add_argument("--program", metavar="PROGRAM", help="another program than that of ./macsim --path")


def words_with_history(parser: argparse.ArgumentParser, history: str | None) -> argparse.Namespace:
    """The words of a tool that takes a script and a history of it, which is `history` where none is given."""
    parser.add_argument("script", metavar="SCRIPT")
    parser.add_argument("history", metavar="HISTORY", nargs="?", default=history)
    given = parser.parse_args()
    if given.script == given.history == "-":
        parser.error("the standard input is either the script or the history")
    return given


# What is read


def text_of(path: str | Path) -> str:
    """The text of a file, or of the standard input for `-`. Every byte is a character of its own."""
    if path == "-" and sys.stdin is None:
        raise BadInput(name_of(path), None, "it is closed")
    try:
        bytes_read = sys.stdin.buffer.read() if path == "-" else Path(path).read_bytes()
    except OSError as error:
        raise BadInput(name_of(path), None, error.strerror) from None
    return bytes_read.decode("latin-1")


def name_of(path: str | Path) -> str:
    return "the standard input" if path == "-" else str(path)


def read_script(path: str | Path) -> Script:
    return script_of(text_of(path), name_of(path))


def read_history(path: str | Path) -> list[Event]:
    return events_of(text_of(path), name_of(path))


# The program


@functools.cache
def program_at_hand() -> str:
    """The proved program, where it is built, and else the unproved one: ./macsim says which, and builds no proof for this."""
    ran = subprocess.run([ROOT / "macsim", "--path"], stdin=subprocess.DEVNULL, stdout=subprocess.PIPE, check=False)
    if ran.returncode != 0:
        raise BadInput("./macsim", None, "there is no program")
    return ran.stdout.decode().rstrip("\n")


def ended(program: str | Path | None, words: str, given: str) -> tuple[int, str]:
    """How a program ended with these words over this text, and what it printed; without a program that at hand is run."""
    program = program or program_at_hand()
    try:
        ran = subprocess.run([program, *words.split()], input=given.encode("latin-1"), stdout=subprocess.PIPE, check=False)
    except OSError as error:
        raise BadInput(program, None, error.strerror) from None
    return ran.returncode, ran.stdout.decode("latin-1")


def run_program(program: str | Path | None, word: str, text: str) -> str:
    """What `macsim run` or `macsim step` prints of a script, where it ends with 0."""
    status, printed = ended(program, word, text)
    if status != 0:
        raise BadInput(f"{name_of_program(program)} {word}", None, f"status {status}: {printed.strip() or 'nothing was printed'}")
    return printed


def name_of_program(program: str | Path | None) -> str | Path:
    return program or "macsim"


def word_for(script: Script) -> str:
    return "run" if script.steps is None else "step"


def calls_in(printed: str, name: str) -> list[Event]:
    """The lines of the calls in what was printed."""
    return [event for event in events_of(printed, name) if event.kind in ("done", "changed")]


def replies_in(printed: str, name: str) -> dict[tuple[str, int], str]:
    """The reply to each call that was made, by its task's name and its number in the task."""
    return {(event.task, event.line): event.reply for event in calls_in(printed, name)}


def lines_before_steps(script: Script) -> list[str]:
    return script.lines[: next((place for place, line in enumerate(script.lines) if line.split() == ["steps"]), len(script.lines))]


def steps_of(task: str, words: list[str]) -> list[str]:
    """The steps that make a call, alone in the kernel: its reply depends on the calls before it, and not on who is in the kernel."""
    kinds = ["change"] if is_change(words) else ["enter", "plan", "done", "leave"]
    return [f"{kind} {task}" for kind in kinds]


def with_steps(lines: list[str], steps: list[str]) -> str:
    """The text of a script of these lines and steps."""
    return "".join(f"{line}\n" for line in [*lines, "steps", *steps, "end"])


# The answer


def print_text(tool: str, text: str) -> None:
    """Prints the whole text, or says why it can't be. Who reads no further than some lines ends it without a word."""
    signal.signal(signal.SIGPIPE, signal.SIG_DFL)
    if sys.stdout is None:
        sys.exit(f"{tool}: the standard output is closed")
    try:
        sys.stdout.write(text)
        sys.stdout.close()
    except OSError as error:
        sys.exit(f"{tool}: the standard output: {error.strerror}")


def print_answer(tool: str, answer: Callable[[], str]) -> None:
    """Prints the whole answer, or says on the standard error why there is none."""
    try:
        text = answer()
    except BadInput as fault:
        sys.exit(f"{tool}: {fault}")
    print_text(tool, text)
