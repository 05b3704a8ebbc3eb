"""Reads the lines that `macsim matrix` writes, and shows one matrix, or how one differs from another: as a table of letters, as a page and as a
picture. Nothing of it is proved.
"""
import re
from collections import namedtuple
from html import escape
from textwrap import wrap

from macsim_text import BadInput

# The letters of each subject and object, by the two titles; both in the order of the lines. What its letters say besides is told below them.
Matrix = namedtuple("Matrix", "subjects objects letters note", defaults=("",))
# What a subject may do to an object in two matrices. One of them may be None, where the pair is in one matrix alone.
Cell = namedtuple("Cell", "before now")

LINE = re.compile(r"matrix (proc:\S+) ((?:vnode|proc|pipe|socket):\S+) ([a-z-]{3,4})")
KINDS = {
    "vnode": "files and directories: r read or list, w write or create in, x run or look up in, s stat",
    "pipe": "pipes: r read, w write, s stat",
    "socket": "sockets: r receive, w send, v see",
    "proc": "processes: v see, g signal, d debug, c schedule",
}
# Behind the letters of what a process has no way to. Letters in upper case count as refused.
CUT_OFF = "/"
LETTERS = {"vnode": "rwxs", "pipe": "rws", "socket": "rwv", "proc": "vgdc"}
GAP = "  "


def matrix_of(text, name):
    """The matrix behind the text of a run. Its lines are for each process by all objects, always in one order."""
    lines, rows = text.split("\n"), []
    for number, line in enumerate(lines[:-1], 1):
        if line.startswith("macsim: "):
            raise BadInput(name, number, f"macsim printed no matrix, but an error: {line}")
        if rows or line.startswith("matrix "):
            rows.append(row_of(line, number, name))
    if lines[-1]:
        raise BadInput(name, len(lines), "it ends before its matrix does, which `macsim matrix` writes")
    if not rows:
        raise BadInput(name, len(lines), "it has no matrix: no process lives at its end, or `macsim matrix` didn't write it")
    subjects = list(dict.fromkeys(subject for subject, _, _ in rows))
    objects = [thing for subject, thing, _ in rows if subject == subjects[0]]
    if [row[:2] for row in rows] != [(subject, thing) for subject in subjects for thing in objects]:
        raise BadInput(name, len(lines) - 1, "its matrix lacks a line, or has one too many")
    return Matrix(subjects, objects, {(subject, thing): letters for subject, thing, letters in rows})


def history_of(text):
    """The text of the run, in front of its matrix."""
    return re.split(r"^matrix ", text, maxsplit=1, flags=re.MULTILINE)[0]


def row_of(line, number, name):
    found = LINE.fullmatch(line)
    if found is None or not is_of_kind(found[3], LETTERS[found[2].partition(":")[0]]):
        raise BadInput(name, number, f"no line of a matrix: {line}")
    return found.groups()


def is_of_kind(letters, all_letters):
    return len(letters) == len(all_letters) and all(letter in ("-", own) for letter, own in zip(letters, all_letters))


def kind_of(title):
    return title.partition(":")[0]


def without(matrix, subject):
    """The matrix without a process."""
    letters = {pair: cell for pair, cell in matrix.letters.items() if subject not in pair}
    others = lambda titles: [title for title in titles if title != subject]
    return Matrix(others(matrix.subjects), others(matrix.objects), letters)


# Two matrices


def joined(before, now):
    """The titles of both, in an order that keeps that of each as far as it can."""
    return [*now, *(title for title in before if title not in now)]


def compared(before, now):
    """What each pair may do in both: a Matrix whose letters are Cells."""
    subjects, objects = joined(before.subjects, now.subjects), joined(before.objects, now.objects)
    cells = {}
    for subject in subjects:
        for thing in objects:
            pair = (subject, thing)
            cells[pair] = Cell(before.letters.get(pair), now.letters.get(pair))
    return Matrix(subjects, objects, cells)


def changes_of(cell):
    """The letters that a pair gained and lost."""
    before, now = (set((letters or "").replace("-", "")) for letters in cell)
    order = cell.now or cell.before or ""
    told = dict.fromkeys([*order, *(cell.before or "")])
    return [f"+{letter}" for letter in told if letter in now - before] + [f"-{letter}" for letter in told if letter in before - now]


def differences(matrix):
    """A line for each pair that differs, and how many there are."""
    lines = []
    for (subject, thing), cell in matrix.letters.items():
        if cell.before != cell.now:
            told = [subject, thing, cell.before or "none", cell.now or "none", *changes_of(cell)]
            lines.append(" ".join(told))
    lines.append(f"{len(lines)} of {len(matrix.letters)} pairs differ")
    return "".join(f"{line}\n" for line in lines)


# The table


def grouped(matrix):
    """The objects by kind, in the order of KINDS."""
    return [(kind, found) for kind in KINDS if (found := [title for title in matrix.objects if kind_of(title) == kind])]


def name_of_process(title):
    return title.removeprefix("proc:")


def blocks(subjects, room, least):
    """The processes in rows that have room for their names, one at least in each. No column is narrower than the least."""
    found, left = [[]], room
    for subject in subjects:
        wanted = max(len(name_of_process(subject)), least) + len(GAP)
        if wanted > left and found[-1]:
            found.append([])
            left = room
        found[-1].append(subject)
        left -= wanted
    return found


def table(matrix, width):
    """The letters of a matrix: a column for each process, a row for each object, by kinds."""
    first, least = max(map(len, matrix.objects)), max(map(len, matrix.letters.values()))
    text = []
    for subjects in blocks(matrix.subjects, width - first, least):
        names = [name_of_process(subject).ljust(least) for subject in subjects]
        for kind, objects in grouped(matrix):
            text.append(KINDS[kind])
            text.append(GAP.join(["".ljust(first), *names]))
            for thing in objects:
                cells = [matrix.letters[subject, thing].ljust(len(name)) for subject, name in zip(subjects, names)]
                text.append(GAP.join([thing.ljust(first), *cells]))
            text.append("")
    return "".join(f"{line.rstrip()}\n" for line in [*text[:-1], *(["", matrix.note] if matrix.note else [])])


# The page and the picture. In both a cell is of one of these classes, by what may be done, or by what differs


def class_of(cell):
    if isinstance(cell, Cell):
        told = changes_of(cell)
        signs = {change[0] for change in told}
        return {frozenset("+"): "more", frozenset("-"): "less", frozenset("+-"): "other"}.get(frozenset(signs), "same")
    usable = 0 if cell.endswith(CUT_OFF) else sum(map(str.islower, cell))
    return "all" if usable == len(cell) else "some" if usable else "none"


# The colours of each class: the ground and the letters.
COLOURS = {
    **{"all": ("#d5ecd4", "#1d4d1f"), "some": ("#fdf1c7", "#5c4600"), "none": ("#eeeeee", "#8a8a8a")},
    **{"more": ("#d5ecd4", "#1d4d1f"), "less": ("#f8d7d3", "#7a1710"), "other": ("#fdf1c7", "#5c4600"), "same": ("#f6f6f6", "#8a8a8a")},
}
OF_ONE = {"all": "all of it", "some": "some of it", "none": "nothing"}
OF_TWO = {"more": "more than before", "less": "less than before", "other": "more and less", "same": "as before"}


def letters_of(cell):
    """What stands in a cell: the letters, and of two matrices those before and those now where they differ."""
    if not isinstance(cell, Cell):
        return cell
    before, now = (letters or "none" for letters in cell)
    return now if before == now else f"{before} > {now}"


def legend_of(matrix):
    is_of_two = any(isinstance(cell, Cell) for cell in matrix.letters.values())
    return OF_TWO if is_of_two else OF_ONE


def page(matrix, title):
    """The matrix as a page of HTML."""
    colours = "".join(f".{name}{{background:{ground};color:{ink}}}" for name, (ground, ink) in COLOURS.items())
    style = (
        "body{font:14px sans-serif}table{border-collapse:separate;border-spacing:2px}td{font:13px monospace;text-align:center;padding:3px 6px}"
        "th{font-weight:normal;text-align:left;padding:3px 6px;background:#fff}thead th{position:sticky;top:0}tbody th{position:sticky;left:0}"
    )
    parts = [f'<!DOCTYPE html>\n<html lang="en"><meta charset="utf-8"><title>{escape(title)}</title><style>{style}{colours}</style>\n<h1>{escape(title)}</h1>\n']
    marks = "".join(f'<td class="{name}">{said}</td>' for name, said in legend_of(matrix).items())
    parts.append(f"<table><tr>{marks}</tr></table>\n" + (f"<p>{escape(matrix.note)}</p>\n" if matrix.note else ""))
    parts += [html_table(matrix, kind, objects) for kind, objects in grouped(matrix)]
    return "".join([*parts, "</html>\n"])


def html_table(matrix, kind, objects, heading="h2"):
    """The objects of a kind, below what their letters mean."""
    heads = "".join(f"<th>{escape(name_of_process(subject))}</th>" for subject in matrix.subjects)
    rows = []
    for thing in objects:
        cells = "".join(html_cell(subject, thing, matrix.letters[subject, thing]) for subject in matrix.subjects)
        rows.append(f"<tr><th>{escape(thing)}</th>{cells}</tr>\n")
    return f"<{heading}>{escape(KINDS[kind])}</{heading}>\n<table><thead><tr><th></th>{heads}</tr></thead><tbody>\n{''.join(rows)}</tbody></table>\n"


def html_cell(subject, thing, cell):
    return f'<td class="{class_of(cell)}" title="{escape(subject)} {escape(thing)}">{escape(letters_of(cell))}</td>'


# The picture: places in pixels, with letters of 12 that are at most 7.5 wide.
LETTER, ROW, EDGE = 7.5, 22, 12
# A line of a note has so many letters at least.
NOTE_LETTERS = 60


class Picture:
    """An SVG that is drawn from above."""

    def __init__(self):
        self.parts, self.height, self.width = [], EDGE, 0

    def text(self, left, said, ink="#222222", anchor="start", is_bold=False):
        weight = ' font-weight="bold"' if is_bold else ""
        place = f'x="{left:g}" y="{self.height + 15:g}" fill="{ink}" text-anchor="{anchor}"{weight}'
        self.parts.append(f'<text {place} xml:space="preserve">{escape(said)}</text>\n')
        self.width = max(self.width, left + (len(said) * LETTER if anchor == "start" else 0))

    def cell(self, left, width, name, said):
        ground, ink = COLOURS[name]
        self.parts.append(f'<rect x="{left:g}" y="{self.height:g}" width="{width - 3:g}" height="{ROW - 3}" fill="{ground}"/>\n')
        self.text(left + (width - 3) / 2, said, ink, "middle")
        self.width = max(self.width, left + width)

    def down(self, rows=1):
        self.height += rows * ROW

    def whole(self, title):
        width, height = self.width + EDGE, self.height + EDGE
        head = f'<svg xmlns="http://www.w3.org/2000/svg" width="{width:g}" height="{height:g}" font-family="monospace" font-size="12">\n'
        ground = f'<title>{escape(title)}</title>\n<rect width="{width:g}" height="{height:g}" fill="#ffffff"/>\n'
        return "".join([head, ground, *self.parts, "</svg>\n"])


def picture(matrix, title):
    """The matrix as a picture."""
    drawn = Picture()
    first = EDGE + (max(map(len, matrix.objects)) + 2) * LETTER
    most = max(len(letters_of(cell)) for cell in matrix.letters.values())
    widths = [(max(len(name_of_process(subject)), most) + 2) * LETTER for subject in matrix.subjects]
    drawn.text(EDGE, title, is_bold=True)
    drawn.down(1.3)
    left = EDGE
    for name, said in legend_of(matrix).items():
        drawn.cell(left, (len(said) + 2) * LETTER, name, said)
        left += (len(said) + 2) * LETTER
    drawn.down(1.5)
    for kind, objects in grouped(matrix):
        drawn.text(EDGE, KINDS[kind], "#555555")
        drawn.down()
        draw_row(drawn, first, widths, "", [("", name_of_process(subject)) for subject in matrix.subjects])
        for thing in objects:
            cells = [matrix.letters[subject, thing] for subject in matrix.subjects]
            draw_row(drawn, first, widths, thing, [(class_of(cell), letters_of(cell)) for cell in cells])
        drawn.down(0.5)
    for line in wrap(matrix.note, max(NOTE_LETTERS, int(drawn.width / LETTER))):
        drawn.text(EDGE, line, "#555555")
        drawn.down()
    return drawn.whole(title)


def draw_row(drawn, first, widths, name, cells):
    drawn.text(EDGE, name)
    left = first
    for width, (kind, said) in zip(widths, cells):
        if kind:
            drawn.cell(left, width, kind, said)
        else:
            drawn.text(left + (width - 3) / 2, said, anchor="middle")
        left += width
    drawn.down()
