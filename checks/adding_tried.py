"""Adds a ninth module and a forty-fourth call to a copy of the repository, by the `src` columns of "Where to add" alone: a file that stands there
gets a row beside each row of a module, or of a call, that is there already. See checks/adding-tried.sh."""
import re
import sys
from pathlib import Path

from adding import section_of, table_of

# Whose rows are copied, and what is added in their place. The names of the two calls are of one length, by which the rows of mf_script stand.
MODULE, NEW_MODULE = "Priority", "Ninth"
CALL, NEW_CALL = "Seesock", "Glimpse"


class Adding:
    """A copy of the repository, in which what has the old name is added once more under the new one."""

    def __init__(self, root, old, new):
        self.crates, self.old, self.new = root / "crates", old, new
        self.path = rf"(?:\w+::)?\b{old}\b(?:\([^()]*\))?"

    def renamed(self, text):
        return re.sub(rf"\b{self.old}\b", self.new, re.sub(rf"(?<![a-z]){self.old.lower()}(?![a-z])", self.new.lower(), text))

    def add_rows(self, file):
        """Adds to the file the row of the new name beside each of the old one."""
        lines, added = file.read_text().split("\n"), []
        place = 0
        while place < len(lines):
            row = self.row_at(lines, place)
            added += self.with_copy(row)
            place += len(row)
        file.write_text("\n".join(added))

    def row_at(self, lines, place):
        """The lines of the row that begins here: up to the end of its block, where it opens one."""
        line = lines[place]
        if not (re.search(self.path, line) and line.endswith("{") and "=>" in line):
            return [line]
        margin = line[: len(line) - len(line.lstrip())]
        end = next(at for at in range(place, len(lines)) if lines[at] in (f"{margin}}}", f"{margin}}},"))
        return lines[place : end + 1]

    def with_copy(self, row):
        """The row, and behind it that of the new name; where it stands among others before one arm, both names stand there."""
        code = row[0].split("//")[0]
        if not re.search(rf"\b{self.old}\b|\b{self.old.lower()}\b", code):
            return row
        if "|" in code:
            return [re.sub(self.path, lambda found: f"{found[0]} | {self.renamed(found[0])}", row[0], count=1), *row[1:]]
        return [*row, *map(self.renamed, row)]


def add(root, title, old, new):
    """Adds the new name to each file that stands in the `src` column of the table."""
    adding = Adding(root, old, new)
    for (crate, folder), names in table_of(section_of(title)).items():
        files = [root / "crates" / crate / folder / f"{name}.rt" for name in names if folder == "src"]
        for file in files:
            if file.is_file() and re.search(rf"\b{old}\b", file.read_text()):
                adding.add_rows(file)


def add_crate(root):
    """The crate of the new policy is that of the old one under another name, and `main` gets its line."""
    old, new = f"mf_{MODULE.lower()}", f"mf_{NEW_MODULE.lower()}"
    adding = Adding(root, MODULE, NEW_MODULE)
    for file in sorted((root / "crates" / old / "src").iterdir()):
        made = root / "crates" / new / "src" / file.name.replace(MODULE.lower(), NEW_MODULE.lower())
        made.parent.mkdir(parents=True, exist_ok=True)
        made.write_text(adding.renamed(file.read_text()))
    lines = (root / "crates.txt").read_text().splitlines()
    lines = [f"{line} {new}" if line.startswith("macsim ") else line for line in lines]
    lines += [line.replace(old, new) for line in lines if line.startswith(f"{old}:")]
    (root / "crates.txt").write_text("".join(f"{line}\n" for line in lines))


def count_modules(root):
    """One more module is in the list of all."""
    file = root / "crates/mf_errno/src/module.rt"
    file.write_text(re.sub(r"\[Module; (\d+)\]", lambda found: f"[Module; {int(found[1]) + 1}]", file.read_text()))


if __name__ == "__main__":
    top = Path(sys.argv[1])
    add_crate(top)
    add(top, "A module and its policy", MODULE, NEW_MODULE)
    count_modules(top)
    add(top, "A call", CALL, NEW_CALL)
