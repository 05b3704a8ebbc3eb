"""The picture of ways from thing to thing, as SVG. Its colours are those of the page's style. Nothing of it is proved."""
from __future__ import annotations

from collections.abc import Iterable
from html import escape
from typing import NamedTuple

from macsim_report_layout import Edge, columns_of
from macsim_report_ways import Hop, counted

# Places in pixels, with letters of 12 that are at most 7.3 wide.
LETTER, HEIGHT, EDGE = 7.3, 24, 16
# Above all things there is room for the edges of those that give to themselves.
TOP = 30
# The room between columns and from row to row, with words at each edge and without; so many edges have words beside them, and others when they are lit alone.
WIDE, NARROW, MOST_WORDED = (210, 44), (130, 32), 14
MOST_LETTERS, MOST_WORDS = 34, 26
# What is told of an edge when the mouse is on it.
MOST_TOLD = 10
# Pictures with more edges tell nothing.
MOST_EDGES = 3000


class Box(NamedTuple):
    left: float
    top: float
    width: float

    def right(self) -> float:
        return self.left + self.width

    def middle(self) -> float:
        return self.top + HEIGHT / 2

    def centre(self) -> float:
        return self.left + self.width / 2


class Graph:
    """The edges of a picture, each with its number and with what brings something along it, in the order in which they come."""

    def __init__(self, hops: Iterable[Hop]) -> None:
        edges: dict[Edge, dict[str, None]] = {}
        for hop in hops:
            edges.setdefault((hop.giver, hop.receiver), {})[hop.by] = None
        self.edges = {edge: list(by) for edge, by in edges.items()}
        self.numbers = {edge: number for number, edge in enumerate(self.edges)}

    def numbers_of(self, hops: list[Hop]) -> list[int]:
        """The edges that a way goes along."""
        return [self.numbers[hop.giver, hop.receiver] for hop in hops]


def cut(said: str, most: int) -> str:
    return said if len(said) <= most else f"{said[: most // 2]}..{said[-(most - most // 2 - 2):]}"


def boxes_of(columns: list[list[str]], gap: float, row: float) -> dict[str, Box]:
    """Where each thing stands: the columns side by side, each spread over the height."""
    boxes, left, most = {}, float(EDGE), max(map(len, columns))
    for column in columns:
        width = max(len(cut(node, MOST_LETTERS)) for node in column) * LETTER + 16
        apart = most / len(column)
        for place, node in enumerate(column):
            boxes[node] = Box(left, TOP + (place * apart + (apart - 1) / 2) * row, width)
        left += width + gap
    return boxes


def curve(giver: Box, receiver: Box, is_back: bool) -> tuple[float, ...]:
    """The four points of an edge: from right to left, below the things where it leads back, and above one that gives to itself."""
    if giver == receiver:
        return (giver.centre() - 12, giver.top, giver.centre() - 30, giver.top - 34, giver.centre() + 30, giver.top - 34, giver.centre() + 12, giver.top)
    if not is_back:
        bend = max(40.0, (receiver.left - giver.right()) / 2)
        return (giver.right(), giver.middle(), giver.right() + bend, giver.middle(), receiver.left - bend, receiver.middle(), receiver.left, receiver.middle())
    if giver.left == receiver.left:
        return (giver.left, giver.middle(), giver.left - 60, giver.middle(), giver.left - 60, receiver.middle(), giver.left, receiver.middle())
    bottoms = giver.top + HEIGHT, receiver.top + HEIGHT
    low = max(bottoms) + 42
    return (giver.centre(), bottoms[0], giver.centre(), low, receiver.centre(), low, receiver.centre(), bottoms[1])


def drawn_edge(number: int, edge: Edge, by: list[str], points: tuple[float, ...]) -> str:
    places = [f"{point:.0f}" for point in points]
    along = f"M{places[0]},{places[1]} C{places[2]},{places[3]} {places[4]},{places[5]} {places[6]},{places[7]}"
    whole = "\n".join([f"{edge[0]} to {edge[1]}", *by[:MOST_TOLD], *(["and more"] if len(by) > MOST_TOLD else [])])
    ends = f'data-e="{number}" data-from="{escape(edge[0])}" data-to="{escape(edge[1])}"'
    return f'<g class="edge" {ends}><title>{escape(whole)}</title><path d="{along}"/></g>\n'


def words_at(number: int, by: list[str], points: tuple[float, ...]) -> str:
    """The first that brings something along an edge, in its middle."""
    left, top = ((points[at] + 3 * points[at + 2] + 3 * points[at + 4] + points[at + 6]) / 8 for at in (0, 1))
    more = f" and {len(by) - 1} more" if len(by) > 1 else ""
    return f'<text class="by" data-e="{number}" x="{left:.0f}" y="{top - 5:.0f}">{escape(cut(by[0], MOST_WORDS) + more)}</text>\n'


def drawn_thing(node: str, box: Box) -> str:
    kind = node.partition(":")[0]
    place = f'x="{box.left:.0f}" y="{box.top:.0f}" width="{box.width:.0f}" height="{HEIGHT}" rx="{12 if kind == "proc" else 3}"'
    said = f'<text x="{box.centre():.0f}" y="{box.middle() + 4:.0f}">{escape(cut(node, MOST_LETTERS))}</text>'
    return f'<g class="thing {escape(kind)}" data-n="{escape(node)}"><title>{escape(node)}</title><rect {place}/>{said}</g>\n'


def picture(graph: Graph, said: str) -> str:
    """The picture, or why there is none."""
    if not graph.edges:
        return '<p class="note">Nothing was handed on, so there is nothing to draw.</p>\n'
    if len(graph.edges) > MOST_EDGES:
        return f'<p class="note">{len(graph.edges)} edges are too many for a picture.</p>\n'
    columns, back = columns_of(list(graph.edges))
    is_worded = len(graph.edges) <= MOST_WORDED
    boxes = boxes_of(columns, *(WIDE if is_worded else NARROW))
    width = max(box.right() for box in boxes.values()) + EDGE
    height = max(box.top for box in boxes.values()) + HEIGHT + EDGE + (40 if back else 0)
    curves = {edge: curve(boxes[edge[0]], boxes[edge[1]], edge in back) for edge in graph.edges}
    edges = [drawn_edge(graph.numbers[edge], edge, by, curves[edge]) for edge, by in graph.edges.items()]
    words = [words_at(graph.numbers[edge], by, curves[edge]) for edge, by in graph.edges.items()]
    things = [drawn_thing(node, box) for node, box in boxes.items()]
    label = f"{said}: {counted(len(boxes), 'thing')}, {counted(len(edges), 'edge')}"
    size = f'viewBox="0 0 {width:.0f} {height:.0f}" style="--width:{width:.0f}px"'
    head = f'<svg class="ways{"" if is_worded else " many"}" role="img" aria-label="{escape(label)}" {size}>\n'
    return "".join([head, *edges, *things, *words, "</svg>\n"])
