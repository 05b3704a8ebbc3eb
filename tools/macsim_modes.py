"""What the mode bits of FreeBSD would refuse of what a matrix allows, and to what a process has no way. Nothing of it is proved.

So vaccess(9) goes: by the bits of the owner where the process has the uid of the file, else by those of the group where it is a member of the
file's, else by those of others. uid 0 reads and writes everything, looks up in every directory, and runs what somebody may run. A letter is
one check: for `w` of a directory its bit `w` is asked alone, and for `s` none. ACLs, flags and jails aren't asked.
"""
from __future__ import annotations

from macsim_matrix import CUT_OFF, Matrix, kind_of
from macsim_replay import Replay
from macsim_text import BadInput
from macsim_things import Credential, FileFacts, Thing

BITS = {"r": 0o4, "w": 0o2, "x": 0o1}
OWNER, GROUP, OTHERS = 6, 3, 0
ANY_RUNS = 0o111
ROOT = 0
NOTE = (
    "R, W, X: allowed by the policies, refused by FreeBSD's mode bits at the end of the run (owner, else group, else others; uid 0 runs what has some x,"
    " and may do all else); /: a directory on the way is denied, by either"
)


def allow(process: Credential, file: FileFacts, letter: str) -> bool:
    """Whether the mode bits allow a process what a letter says."""
    if letter not in BITS:
        return True
    if process.uid == ROOT:
        return letter != "x" or file.is_directory or bool(file.mode & ANY_RUNS)
    of_whom = OWNER if process.uid == file.uid else GROUP if file.gid in process.groups else OTHERS
    return bool(file.mode >> of_whom & BITS[letter])


def way_to(thing: Thing) -> list[Thing]:
    """The directories in which the names of a path are looked up."""
    return [] if thing.holder is None else [*way_to(thing.holder), thing.holder]


def marked(matrix: Matrix, things: dict[str, Thing], subject: str, title: str) -> str:
    """The letters of a pair: in upper case what the mode bits refuse, and with a mark behind them where the way is denied. What nobody allows has none."""
    letters, process = matrix.letters[subject, title], things[subject].facts
    if kind_of(title) != "vnode" or set(letters) == {"-"}:
        return letters
    file = things[title]
    bits = "".join(letter if allow(process, file.facts, letter) else letter.upper() for letter in letters)
    is_let = (matrix.letters[subject, place.title][2] == "x" and allow(process, place.facts, "x") for place in way_to(file))
    return bits if all(is_let) else bits + CUT_OFF


def with_modes(matrix: Matrix, replay: Replay, name: str) -> Matrix:
    """A matrix with marks, by the modes at the end of the history that was followed."""
    things = {thing.title: thing for thing in replay.things}
    if matrix.objects != list(things) or not things.keys() >= set(matrix.subjects):
        raise BadInput(name, None, "its matrix is of other things than its history")
    letters = {pair: marked(matrix, things, *pair) for pair in matrix.letters}
    return matrix._replace(letters=letters, note=NOTE)
