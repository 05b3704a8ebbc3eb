"""The page of a report: its sections, put into tools/page/report.html with the style and the script that stand beside it. Nothing of it is proved."""
from __future__ import annotations

from collections.abc import Iterable
from html import escape
from pathlib import Path
from string import Template
from typing import NamedTuple

from macsim_report_rows import Facets, Followed, Reason, Row
from macsim_text import Script

PAGE = Path(__file__).resolve().parent / "page"
# So many rows are laid out together, when they are scrolled to.
ROWS_TOGETHER = 200


class Section(NamedTuple):
    """A part of the page: the word by which it is found, its heading, and what stands in it."""

    word: str
    heading: str
    html: str


def note(said: str) -> str:
    return f'<p class="note">{escape(said)}</p>\n'


def together(rows: list[str], name: str, head: str) -> str:
    """A table of rows, in pieces."""
    pieces = []
    for start in range(0, len(rows), ROWS_TOGETHER):
        piece = rows[start : start + ROWS_TOGETHER]
        shown = head if start == 0 else ""
        opened = f'<div class="piece" style="--rows:{len(piece)}"><table class="{name}" aria-label="{name} from {start + 1}">'
        pieces.append(f"{opened}{shown}<tbody>{''.join(piece)}</tbody></table></div>\n")
    return "".join(pieces)


def attribute(name: str, value: str) -> str:
    return f' {name}="{escape(value)}"' if value else ""


def row_html(marks: str, cells: str) -> str:
    """A row in a line of its own, which ends inside the tag: between rows it would be one more text of the page."""
    return f"<tr{marks}\n>{cells}</tr>"


def headed(*names: str) -> str:
    return f"<thead><tr>{''.join(f'<th scope=col>{escape(name)}</th>' for name in names)}</tr></thead>"


# The script and its history


def mark_of(row: Row) -> str:
    """The class of a row: of a denial, of a refusal by the framework, of another line."""
    return "no" if row.is_denied else "refused" if row.is_refused() else ""


def answered(script: Script, rows: list[Row]) -> dict[int, tuple[int, Row]]:
    """The reply to each line of the script that has one, with the number of its line in the history."""
    return {row.line: (number, row) for number, row in enumerate(rows, 1) if row.is_reply() and row.line is not None}


def script_section(script: Script, rows: list[Row]) -> Section:
    replies, lines = answered(script, rows), []
    for number, line in enumerate(script.lines, 1):
        reply = mark = ""
        if number in replies:
            event, row = replies[number]
            said = " ".join((row.event.reply or "").split(" ")[: 2 if mark_of(row) else 1])
            reply, mark = f'<a href="#e{event}">{escape(said)}</a>', mark_of(row)
        text = f'<i>{escape(line)}</i>' if line.lstrip().startswith("#") else escape(line)
        marks = attribute("id", f"s{number}" if reply else "") + attribute("class", mark)
        lines.append(row_html(marks, f'<td>{number}</td><td>{text}</td><td>{reply}</td>'))
    return Section("script", f"The script, {len(script.lines)} lines", together(lines, "script", headed("Line", "Text", "Reply")))


def summary_of(reasons: list[Reason]) -> str:
    deniers = sum(reason.words[0] == "why" for reason in reasons)
    if deniers:
        return "why" if deniers == 1 else f"why: {deniers} modules deny it"
    return "what let it" if any(reason.words[0] == "let" for reason in reasons) else "what it lowered"


def reasons_html(number: int, reasons: list[Reason]) -> str:
    """The reasons behind a click: without a script of the browser, where the link has led to the row. (An element of its own for each costs too much.)"""
    if not reasons:
        return ""
    lines = "\n".join(f"<b>{escape(reason.text)}</b>" if "decides" in reason.words[4:5] else escape(reason.text) for reason in reasons)
    return f'<a class="more" href="#e{number}">{summary_of(reasons)}</a><pre>{lines}</pre>'


def history_row(number: int, row: Row, script: Script) -> str:
    """A row of the table, with the call where the line is a reply."""
    call = ""
    if row.is_reply() and row.line is not None:
        call = f'<td><a href="#s{row.line}">{row.line}</a> {escape(script.lines[row.line - 1].strip())}</td>'
    marks = attribute("id", f"e{number}" if call else "") + attribute("class", mark_of(row)) + attribute("data-k", row.keys)
    return row_html(marks, f'<td>{number}</td><td>{escape(row.event.text)}{reasons_html(number, row.reasons)}</td>{call}')


WHY_NOTE = (
    "Behind why: denied TASK LINE CHECK OPERATION SUBJECT OBJECT, and below it a line for each module that denied that check: whether it decides, its errno,"
    " the test that should have held, and what it compared."
)


def history_section(script: Script, followed: Followed) -> Section:
    rows = [history_row(number, row, script) for number, row in enumerate(followed.rows, 1)]
    has_why = any(row.reasons for row in followed.rows)
    table = together(rows, "history", headed("", "Line", "Call of the script"))
    denied = sum(row.is_denied for row in followed.rows)
    return Section("history", f"The history, {len(rows)} lines, {denied} denied", (note(WHY_NOTE) if has_why else "") + table)


def sources_section(lines: Iterable[str], facets: Facets) -> Section | None:
    rows = []
    for line in lines:
        _, policy, title, elements = line.split(" ")
        keys = facets.of_titles([title], [f"mac_{policy}"])
        rows.append(row_html(attribute("data-k", keys), f'<td>{policy}</td><td>{escape(title)}</td><td>{escape(elements)}</td>'))
    if not rows:
        return None
    said = note("Of which elements the information is that may be in each thing at the end, by policy.")
    return Section("sources", "Sources", said + together(rows, "sources", headed("Policy", "Thing", "Elements")))


# The whole


def options_of(facets: Facets) -> dict[str, str]:
    """The choices of each filter."""
    return {
        kind: "".join(f'<option value="{key}">{escape(name)}</option>' for name, key in keys.items()) for kind, keys in facets.keys.items()
    }


def page_of(title: str, said: list[str], sections: list[Section], facets: Facets) -> str:
    """The page, which needs nothing else."""
    links = "".join(f'<a href="#{section.word}">{section.word}</a>' for section in sections)
    parts = [
        f'<section id="{section.word}" aria-labelledby="h-{section.word}"><h2 id="h-{section.word}">{escape(section.heading)}</h2>\n{section.html}</section>\n'
        for section in sections
    ]
    options = options_of(facets)
    return Template((PAGE / "report.html").read_text()).substitute(
        title=escape(title),
        style=(PAGE / "report.css").read_text(),
        script=(PAGE / "report.js").read_text(),
        said="".join(f"<p>{escape(line)}</p>\n" for line in said),
        links=links,
        tasks=options["task"],
        things=options["thing"],
        modules=options["module"],
        sections="".join(parts),
    )
