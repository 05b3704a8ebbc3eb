"""Tries the laws of movements over columns of their own in the place of the last one of the table of operations, in a copy of mf_moves.

With the table's column the two laws about what calls change and show are proved; and they are proved where the operations by which nothing
here is shown or changed move nothing. Where any other moves nothing, those laws have to be refused, by their names, that need its movement,
and no other. A line for each column, then a count. The libraries below are those that `rt ci` or `rt check` built.

    checks/movements.sh
"""
import re
import shutil
import subprocess
import sys
import tempfile
from pathlib import Path

ROOT = Path(__file__).resolve().parent.parent
CRATE = "mf_moves"
OPERATIONS = (ROOT / "crates/mf_policy/specs/Operations.antt").read_text()
NAMES = (ROOT / "crates/mf_item/specs/Operation.antt").read_text()

CHANGES, SHOWS = "changes_are_covered", "shows_are_covered"
# The operations that move something, by the laws that need them to.
NEEDED_BY = {
    (SHOWS,): ["vnode_lookup", "vnode_read", "vnode_stat", "vnode_readdir", "pipe_stat"],
    (CHANGES, SHOWS): ["pipe_read", "socket_receive"],
    (CHANGES,): [
        *("vnode_create", "vnode_write", "vnode_unlink_dir", "vnode_unlink", "vnode_setmode"),
        *("pipe_write", "socket_send", "socket_deliver"),
    ],
    # Nothing is shown or changed here by any of these: that they move something is believed.
    (): ["vnode_open_read", "vnode_open_write", "vnode_exec", "proc_signal", "proc_debug", "proc_sched"],
}
COLUMN = "movement_of op = (row_of op).movement\n"
IMPORT = "use Rattle.mf_policy.specs.Operations.{row_of}\n"
IMPORTS = """use Rattle.mf_item.specs.declared.operation.CheckOp.TheVariants as op
use Rattle.mf_policy.specs.declared.operations.Movement.TheVariants.{Still, ToSubject, ToObject, BothWays}
"""


class Fault(Exception):
    """What keeps the laws from being tried."""


# The table


def movements():
    """How each operation moves information, by its name in a history."""
    names = dict(re.findall(r'(?m)^operation_text op\.(\w+) = codes "(\w+)"$', NAMES))
    rows = re.findall(r"(?m)^row_of op\.(\w+) = .*\b(Still|ToSubject|ToObject|BothWays)\)?$", OPERATIONS)
    if sorted(names) != sorted(name for name, _ in rows):
        raise Fault("the table of operations has another form than is known here")
    return {names[name]: (name, movement) for name, movement in rows}


def column(table, still):
    rows = [f"movement_of op.{name} = {'Still' if text in still else movement}\n" for text, (name, movement) in table.items()]
    return "".join(rows)


# The laws


def command(room):
    """Checks the two laws in the copy, and what their proofs rest on."""
    kit = Path(subprocess.run(["rt", "doc"], capture_output=True, text=True, check=True).stdout.strip()).parent
    uses = dict(line.split(":") for line in (ROOT / "crates.txt").read_text().splitlines() if line.strip())
    uses = {head.split()[0]: below.split() for head, below in uses.items()}
    built = {name: ROOT / f"crates/{name}/out/rlib/{name}.rlib" for name in uses}
    words = [kit / "bin/rattle", "check", "--crate-name", CRATE, "src/lib.rt", "--jobs", "1", "--links", f"{CRATE}=", "--incremental", room / "kept"]
    words += ["--antt-project", kit / "rattle/logic/antt-project.json", "--logic-built", kit / "logic_built"]
    words += ["--extern", f"std={kit}/rlibs/std.rlib", "-L", f"dependency={kit}/rlibs"]
    for name in uses[CRATE]:
        words += ["--extern", f"{name}={built[name]}"]
    for name in below(uses, CRATE):
        words += ["-L", f"dependency={built[name].parent}"]
    for law in (CHANGES, SHOWS):
        words += ["--only", f"{CRATE}::laws::{law}"]
    return words


def below(uses, crate):
    """The repository's libraries below a crate."""
    found = [name for name in uses[crate] if name in uses]
    return dict.fromkeys(found + [name for used in found for name in below(uses, used)])


def refused(words, copy):
    """The laws that are refused in the copy, and what the checker says."""
    said = subprocess.run(words, cwd=copy, stdout=subprocess.PIPE, stderr=subprocess.STDOUT, text=True, errors="replace").stdout
    verdicts = dict(re.findall(rf"(?m)^fn {CRATE}::laws::(\w+): (.*)$", said))
    laws = tuple(law for law in (CHANGES, SHOWS) if verdicts.get(law) == "not proved")
    proved = [law for law in (CHANGES, SHOWS) if verdicts.get(law) == "proved"]
    is_whole = len(laws) + len(proved) == 2 and re.search(rf"(?m)^only=2 proved={len(proved)}$", said)
    return laws if is_whole else None, said


def told(still, laws, said):
    """The line of a column, with the lemmas that are refused first."""
    name = ", ".join(still) + " still" if still else "as in the table"
    if not laws:
        return f"{name}: {'no verdict' if laws is None else 'proved'}"
    lemmas = dict.fromkeys(re.findall(r"(?m)^\./proofs/\S+: error: `(\w+)`", said))
    return f"{name}: refused at {', '.join(laws)} ({', '.join(lemmas)})"


# The runs


def runs(table):
    """Which operations move nothing, and which laws are refused then."""
    yield [], ()
    yield NEEDED_BY[()], ()
    for laws, names in NEEDED_BY.items():
        yield from ([[name], laws] for name in names if laws)


def build():
    """Builds the libraries below as far as they have changed, and proves the laws as they stand."""
    ran = subprocess.run(["rt", "check"], cwd=ROOT / "crates" / CRATE, capture_output=True, text=True, errors="replace")
    if ran.returncode != 0:
        raise Fault(f"{ran.stdout[-2000:]}\nthe laws as they stand are not proved")


def main():
    table = movements()
    moving = sorted(name for name, (_, movement) in table.items() if movement != "Still")
    if moving != sorted(name for names in NEEDED_BY.values() for name in names):
        raise Fault("the operations that move something are not those that are known here")
    build()
    passed = failed = 0
    with tempfile.TemporaryDirectory() as folder:
        room = Path(folder)
        copy = room / CRATE
        shutil.copytree(ROOT / "crates" / CRATE, copy, ignore=shutil.ignore_patterns("out"))
        words, spec = command(room), copy / "specs/Moves.antt"
        text = spec.read_text()
        if text.count(COLUMN) != 1 or text.count(IMPORT) != 1:
            raise Fault("mf_moves specs/Moves has another form than is known here")
        for still, wanted in runs(table):
            spec.write_text(text.replace(IMPORT, IMPORTS).replace(COLUMN, column(table, still)))
            laws, said = refused(words, copy)
            print(told(still, laws, said), flush=True)
            passed, failed = passed + (laws == wanted), failed + (laws != wanted)
            if laws != wanted:
                print(f"{said[-3000:]}\nwanted: {'refused at ' + ', '.join(wanted) if wanted else 'proved'}")
    print(f"{passed} passed, {failed} failed")
    return 1 if failed else 0


if __name__ == "__main__":
    try:
        sys.exit(main())
    except Fault as fault:
        sys.exit(f"movements: {fault}")
