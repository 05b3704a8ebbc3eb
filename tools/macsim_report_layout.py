"""Places for the things of a picture: in layers, so that what is handed on goes to the right where it can. Nothing of it is proved."""
from __future__ import annotations

from collections import defaultdict, deque

Edge = tuple[str, str]
# How often the things of each layer are ordered by their neighbours.
SWEEPS = 4


def closing(nodes: list[str], edges: list[Edge]) -> set[Edge]:
    """Edges without which there is no way in a circle: those that lead back in a walk from the first things on."""
    targets = defaultdict(list)
    for giver, receiver in edges:
        targets[giver].append(receiver)
    found, state = set(), dict.fromkeys(nodes, "new")
    for start in nodes:
        walk = [(start, iter(targets[start]))] if state[start] == "new" else []
        state[start] = "open" if walk else state[start]
        while walk:
            node, left = walk[-1]
            follower = next(left, None)
            if follower is None:
                state[node] = "done"
                walk.pop()
            elif state[follower] == "new":
                state[follower] = "open"
                walk.append((follower, iter(targets[follower])))
            elif state[follower] == "open":
                found.add((node, follower))
    return found


def layers_of(nodes: list[str], forward: list[Edge]) -> dict[str, int]:
    """A layer for each thing: right of all that it gets something from, and no further left of whom it hands that on than it has to be."""
    targets, wanted = defaultdict(list), dict.fromkeys(nodes, 0)
    for giver, receiver in forward:
        targets[giver].append(receiver)
        wanted[receiver] += 1
    layer = dict.fromkeys(nodes, 0)
    begins = [node for node in nodes if wanted[node] == 0]
    ready = deque(begins)
    while ready:
        node = ready.popleft()
        for follower in targets[node]:
            layer[follower] = max(layer[follower], layer[node] + 1)
            wanted[follower] -= 1
            if wanted[follower] == 0:
                ready.append(follower)
    for node in begins:
        layer[node] = min((layer[follower] - 1 for follower in targets[node]), default=0)
    return layer


def ordered(columns: list[list[str]], edges: list[Edge]) -> list[list[str]]:
    """The things of each layer, each near those that it is tied to."""
    tied = defaultdict(list)
    for giver, receiver in edges:
        tied[giver].append(receiver)
        tied[receiver].append(giver)
    place = {node: index / max(1, len(column) - 1) for column in columns for index, node in enumerate(column)}
    for sweep in range(SWEEPS):
        for column in columns if sweep % 2 == 0 else columns[::-1]:
            middle = {node: sum(place[other] for other in tied[node]) / len(tied[node]) for node in column}
            column.sort(key=lambda node: middle[node])
            place.update({node: index / max(1, len(column) - 1) if len(column) > 1 else 0.5 for index, node in enumerate(column)})
    return columns


def columns_of(edges: list[Edge]) -> tuple[list[list[str]], set[Edge]]:
    """The things of these edges in columns from left to right, and the edges that lead back."""
    nodes = list(dict.fromkeys(node for edge in edges for node in edge))
    back = closing(nodes, edges)
    layer = layers_of(nodes, [edge for edge in edges if edge not in back])
    columns: list[list[str]] = [[] for _ in range(max(layer.values(), default=-1) + 1)]
    for node in nodes:
        columns[layer[node]].append(node)
    return ordered(columns, edges), back
