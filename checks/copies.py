"""Finds what stands in both implementations: in the crates of the auditor and in those that it may not use (independent.py). Four equal lines, one
behind the other, are a copy. Left out before are blank lines, comments, imports, clauses and all that is ghost, attributes, declarations of types,
and lines of brackets or of one name alone; a signature that is laid out on several lines is one. mf_verdict isn't compared with the crates whose reader
and whose fold it takes. A line for each copy, then a count. It plants a copy in crates of its own, too, and wants it to be found.

    checks/copies.sh
"""
import re
import shutil
import tempfile
from pathlib import Path

from independent import CRATES, VALUES, VERDICT

# So many equal lines are a copy.
RUN = 4
LEFT_OUT = re.compile(r"//|#!?\[|[^\w\"']*$|\w+,$|\| [\w:]+(?: \{ \.\. \}|\([^()]*\))?$")
PUBLIC = r"(?:pub(?:\([^)]*\))? )?"
# What a line begins, and how its last line ends; a signature is kept.
IMPORT = re.compile(rf"{PUBLIC}use |ghost "), ";"
CLAUSE = re.compile(r"(?:requires|ensures)\b"), "}"
TYPE = re.compile(rf"{PUBLIC}(?:struct|enum) "), ("}", ";")
SIGNATURE = re.compile(rf"{PUBLIC}(?:const )?fn "), ""
# What is planted: the end of this file, at the end of that one.
PLANTED, HOST = "crates/mf_core/src/booting.rt", "crates/mf_audit/src/player.rt"


def is_open(part, start):
    """Whether there are brackets that the part opens and doesn't close; of a signature the body isn't looked at."""
    opened, closed = ("(", ")") if start is SIGNATURE else ("([{", ")]}")
    return sum(part.count(mark) for mark in opened) > sum(part.count(mark) for mark in closed)


def code_lines(text):
    """The lines of a source that count, each with the number at which it begins."""
    kept, part, start, first = [], "", None, 0
    for number, line in enumerate(map(str.strip, text.split("\n")), 1):
        if start is None:
            if LEFT_OUT.match(line):
                continue
            start = next((kind for kind in (IMPORT, CLAUSE, TYPE, SIGNATURE) if kind[0].match(line)), None)
            first = number
        part = f"{part} {line}".strip()
        if start is None or not is_open(part, start) and part.endswith(start[1]):
            if start in (None, SIGNATURE):
                kept.append((first, part))
            part, start = "", None
    return kept


def sources_of(root, crates):
    """The lines that count of each source of these crates, but for tests."""
    for crate in crates:
        for path in sorted(Path(root, "crates", crate, "src").rglob("*.rt")):
            if "tests" not in (path.stem, path.parent.name):
                yield path.relative_to(root), code_lines(path.read_text())


def runs_of(lines):
    """Each run of so many lines, with the number of its first."""
    for place in range(len(lines) - RUN + 1):
        run = lines[place : place + RUN]
        yield run[0][0], tuple(text for _, text in run)


def judged_crates(root, user):
    """The crates that this one of the auditor may not use, or of which it may use some names alone."""
    used = {*CRATES, *VALUES, *(VERDICT if user == "mf_verdict" else ())}
    return sorted(path.name for path in Path(root, "crates").iterdir() if path.name not in used)


def copies_in(root):
    """A line for each copy: where it begins in the auditor's crates, and in the others."""
    return [line for user in CRATES for line in copies_of(root, user)]


def copies_of(root, user):
    """The same of one crate of the auditor."""
    stands = {}
    for path, lines in sources_of(root, judged_crates(root, user)):
        for number, run in runs_of(lines):
            stands.setdefault(run, f"{path}:{number}")
    for path, lines in sources_of(root, [user]):
        goes_on = False
        for number, run in runs_of(lines):
            if run in stands and not goes_on:
                yield f"{path}:{number} goes on as {stands[run]}"
            goes_on = run in stands


def planted_text(source):
    """The last lines that count of a source, with another margin and with what is left out between them."""
    between = "// planted\n\nensures planted { is\n    planted }\nuse planted::{\n    planted,\n};\n)\n"
    return between.join(f"            {text}\n" for _, text in code_lines(source)[-RUN:])


def finds_planted():
    """Whether one copy more is found where one is planted, and it alone."""
    with tempfile.TemporaryDirectory() as root:
        for path in Path("crates").glob("*/src"):
            shutil.copytree(path, Path(root, path))
        before = set(copies_in(root))
        with Path(root, HOST).open("a") as host:
            host.write(planted_text(Path(PLANTED).read_text()))
        found = set(copies_in(root)) - before
        return len(found) == 1 and found.pop().startswith(f"{HOST}:")


def main():
    found = copies_in(".")
    for line in found:
        print(f"copies: {line}")
    planted = finds_planted()
    if not planted:
        print(f"copies: the end of {PLANTED} isn't found where it is planted in {HOST}")
    good = [not found, planted]
    print(f"{good.count(True)} passed, {len(found) + good[1:].count(False)} failed")
    return 0 if all(good) else 1


if __name__ == "__main__":
    raise SystemExit(main())
