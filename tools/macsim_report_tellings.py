"""The sections of a report for what is told behind a history: the matrix, chains, and what may come to whom. Nothing of it is proved.

Each is a row of TELLINGS. Where the program doesn't know its word it isn't there, and where it can't be had the section says why.
"""
from __future__ import annotations

from collections.abc import Callable
from html import escape
from itertools import accumulate
from typing import NamedTuple

from macsim_matrix import OF_ONE, grouped, html_table, matrix_of
from macsim_modes import with_modes
from macsim_report_graph import Graph, picture
from macsim_report_page import Section, attribute, headed, note, row_html, together
from macsim_report_rows import Facets, Followed
from macsim_report_run import Told
from macsim_report_ways import Way, Ways, counted, ways_of_chains, ways_of_reach

# What the page has no room for. Its other tools tell all of it.
MOST_CELLS, MOST_STEPS = 60000, 20000


class Shown(NamedTuple):
    """What the sections are made of."""

    told: Told
    followed: Followed
    facets: Facets
    has_modes: bool


# The matrix


def matrix_html(shown: Shown, lines: list[str]) -> str:
    if not lines:
        return note("No process lives at the end.")
    if len(lines) > MOST_CELLS:
        return note(f"{len(lines)} pairs are too many for this page: tools/matrix --html makes a page of them.")
    matrix = matrix_of("".join(f"{line}\n" for line in lines), shown.told.name)
    if shown.has_modes:
        matrix = with_modes(matrix, shown.followed.replay, shown.told.name)
    marks = "".join(f'<td class="{name}">{said}</td>' for name, said in OF_ONE.items())
    legend = f'<table class="legend"><tr>{marks}</tr></table>\n' + (note(matrix.note) if matrix.note else "")
    tables = [f'<div class="wide">{html_table(matrix, kind, objects, "h3")}</div>\n' for kind, objects in grouped(matrix)]
    return f'<div class="matrix">{legend}{"".join(tables)}</div>\n'


# Ways


def way_html(number: int, way: Way, graph: Graph, modules: list[str], facets: Facets) -> str:
    """A pair, and behind a click its words."""
    keys = facets.of_titles([name.partition("#")[0] for name in way.things if not is_made(name)], modules)
    marks = attribute("data-k", keys) + attribute("data-way", " ".join(map(str, graph.numbers_of(way.hops)))) + attribute("data-of", way.things[-1])
    words = "\n".join([way.line, *way.below])
    name = f"{way.picture}-{number}"
    return f'<div class="way" id="{name}"{marks}><a class="more" href="#{name}">{escape(way.said)}</a><pre>{escape(words)}</pre></div>\n'


def is_made(name: str) -> bool:
    """Whether it stands for all that a process may make."""
    return name.partition(":")[0].endswith("-of")


def picture_html(ways: list[Way], said: str, modules: list[str], facets: Facets) -> str:
    """A picture, and below it its pairs."""
    graph = Graph(hop for way in ways for hop in way.hops)
    pairs = "".join(way_html(number, way, graph, modules, facets) for number, way in enumerate(ways, 1))
    drawn = picture(graph, said)
    return f'<div class="picture"><div class="drawn" tabindex="0">{drawn}</div><div class="pairs">{pairs}</div></div>\n'


def with_room(ways: list[Way]) -> list[Way]:
    """The ways that the page has room for, the first ones."""
    sums = accumulate(len(way.hops) + 1 for way in ways)
    return [way for way, count in zip(ways, sums) if count <= MOST_STEPS]


def ways_html(ways: Ways, facets: Facets, one: str) -> str:
    shown = with_room(ways.ways)
    parts = [note("Each pair tells its way in words, and lights it in the picture.")] if shown else []
    if len(shown) < len(ways.ways):
        parts.append(note(f"The first {len(shown)} of {len(ways.ways)} are here."))
    for name in dict.fromkeys(way.picture for way in shown):
        of_name = [way for way in shown if way.picture == name]
        modules = [f"mac_{name}"] if one == "chain" else []
        said = f"mac_{name}: {counted(len(of_name), one)}" if modules else counted(len(of_name), one)
        parts.append(f"<h3>{escape(said)}</h3>\n{picture_html(of_name, said, modules, facets)}")
    return "".join(parts) or note("There are none.")


def chains_html(shown: Shown, lines: list[str]) -> str:
    return ways_html(ways_of_chains(shown.followed.history, lines, first_line(shown), shown.told.name), shown.facets, "chain")


def reach_html(shown: Shown, lines: list[str]) -> str:
    ways = ways_of_reach(lines, first_line(shown), shown.told.name)
    rows = []
    for _, thing, processes in ways.relabels:
        keys = shown.facets.of_titles([thing, *processes], [])
        rows.append(row_html(attribute("data-k", keys), f'<td>{escape(thing)}</td><td>{escape(" ".join(processes))}</td>'))
    relabels = together(rows, "relabels", headed("Thing", "Who may relabel it"))
    return ways_html(ways, shown.facets, "way") + relabels


def first_line(shown: Shown) -> int:
    """The number of the first line behind the history."""
    return shown.told.history.count("\n") + 1


# The heading of each telling, and what it shows of its lines.
TELLINGS: dict[str, tuple[str, Callable[[Shown, list[str]], str]]] = {
    "matrix": ("The matrix: what each process may do at the end", matrix_html),
    "chains": ("Chains: by whom each source came", chains_html),
    "reach": ("Reach: what may come to whom, whatever the tasks do", reach_html),
}


def sections_of(shown: Shown) -> list[Section]:
    sections = []
    for telling, (heading, html) in TELLINGS.items():
        if telling in shown.told.lacking:
            sections.append(Section(telling, heading, note(shown.told.lacking[telling])))
        elif telling in shown.told.behind:
            sections.append(Section(telling, heading, html(shown, shown.told.behind[telling])))
    return sections
