"""Prints the picture of the crates by layer, made out of crates.txt; `make picture` puts it into docs/crates.svg. Run from the repository's
root. The same list gives the same picture.

A crate stands one level above the highest that it uses. A line goes up from a crate to each that uses it; what a crate uses through another
one has no line of its own, and the kit's libraries are left out. A line that passes levels has a *spot* in each of them, which all lines from
the same crate share.
"""

from __future__ import annotations

import pathlib
from typing import Callable, Dict, Iterator, List, Set, Tuple

#: A crate in its own level, or a spot of its line in a level above.
Node = Tuple[str, int]
Order = List[List[Node]]

BOX, HEIGHT, GAP, SPOT, LEVEL, LEFT, TOP = 92, 30, 22, 14, 62, 78, 22
FILLS = {"code and proofs": "#cfe8f3", "theorems alone": "#fbe0b5", "a program over all of it": "#c9e7cf"}


def listed() -> Dict[str, List[str]]:
    """Each crate with those of the repository that it uses. Behind its name a line may say what it is built as."""
    lines = [line.split("#")[0] for line in pathlib.Path("crates.txt").read_text(encoding="utf-8").splitlines()]
    named = {line.split()[0].rstrip(":"): line.partition(":")[2].split() for line in lines if line.strip()}
    return {name: [one for one in uses if one in named] for name, uses in named.items()}


def levels(uses: Dict[str, List[str]]) -> Dict[str, int]:
    found: Dict[str, int] = {}

    def level(name: str) -> int:
        if name not in found:
            found[name] = max((level(one) + 1 for one in uses[name]), default=0)
        return found[name]

    return {name: level(name) for name in uses}


def direct(uses: Dict[str, List[str]]) -> Dict[str, List[str]]:
    """Of what each crate uses, what it does not reach through another one."""

    def reached(name: str) -> Set[str]:
        return {further for one in uses[name] for further in {one} | reached(one)}

    return {name: [one for one in used if not any(one in reached(other) for other in used)] for name, used in uses.items()}


def joined(uses: Dict[str, List[str]], level: Dict[str, int]) -> List[Tuple[Node, Node]]:
    """The lines from level to level, from below."""
    lines = {}
    for name, used in uses.items():
        for one in used:
            path = [(one, at) for at in range(level[one], level[name])] + [(name, level[name])]
            lines.update(dict.fromkeys(zip(path, path[1:])))
    return list(lines)


def crossings(order: Order, lines: List[Tuple[Node, Node]]) -> int:
    place = {node: index for row in order for index, node in enumerate(row)}
    ends = [(low[1], place[low], place[high]) for low, high in lines]
    return sum(a[0] == b[0] and (a[1] - b[1]) * (a[2] - b[2]) < 0 for i, a in enumerate(ends) for b in ends[:i])


def swept(order: Order, lines: List[Tuple[Node, Node]]) -> Order:
    """Each level in the order of what its nodes are joined with in the level before it."""
    place = {node: float(index) for row in order for index, node in enumerate(row)}

    def middle(node: Node) -> float:
        near = [place[one] for line in lines if node in line for one in line if one in before]
        return sum(near) / len(near) if near else place[node]

    before: List[Node] = []
    result = []
    for row in order:
        result.append(sorted(row, key=middle))
        before = result[-1]
        place.update((node, float(index)) for index, node in enumerate(before))
    return result


def moved(row: List[Node]) -> Iterator[List[Node]]:
    """The same nodes with one of them elsewhere."""
    for index, node in enumerate(row):
        rest = row[:index] + row[index + 1:]
        for to in range(len(row)):
            if to != index:
                yield rest[:to] + [node] + rest[to:]


def ordered(order: Order, lines: List[Tuple[Node, Node]]) -> Order:
    """The levels swept up, down and up again, then changed as long as a change of one node leaves fewer lines that cross."""
    order = swept(swept(swept(order, lines)[::-1], lines)[::-1], lines)
    best = crossings(order, lines)
    while True:
        before = best
        for at in range(len(order)):
            for row in list(moved(order[at])):
                trial = order[:at] + [row] + order[at + 1:]
                count = crossings(trial, lines)
                if count < best:
                    order, best = trial, count
        if best == before:
            return order


def apart(row: List[Node], wanted: List[float], width: Callable[[Node], float]) -> List[float]:
    """Where the nodes stand: as near as can be to where each is wanted, in this order and with gaps between them."""
    offsets = [0.0]
    for left, right in zip(row, row[1:]):
        offsets.append(offsets[-1] + (width(left) + width(right)) / 2 + GAP)
    runs: List[List[float]] = []
    for want, offset in zip(wanted, offsets):
        runs.append([want - offset])
        while len(runs) > 1 and sum(runs[-2]) / len(runs[-2]) > sum(runs[-1]) / len(runs[-1]):
            last = runs.pop()
            runs[-1] += last
    middles = [sum(run) / len(run) for run in runs for _ in run]
    return [middle + offset for middle, offset in zip(middles, offsets)]


def placed(order: Order, lines: List[Tuple[Node, Node]], width: Callable[[Node], float]) -> Dict[Node, float]:
    """The middle of each node, drawn to the middle of those that it is joined with."""
    x = {node: float(index * (BOX + GAP)) for row in order for index, node in enumerate(row)}
    near: Dict[Node, List[Node]] = {node: [] for node in x}
    for low, high in lines:
        near[low].append(high)
        near[high].append(low)
    for _ in range(200):
        for row in order:
            wanted = [sum(x[other] for other in near[node] or [node]) / max(len(near[node]), 1) for node in row]
            x.update(zip(row, apart(row, wanted, width)))
    left = min(x[node] - width(node) / 2 for node in x)
    return {node: round(at - left + LEFT) for node, at in x.items()}


def kind(name: str) -> str:
    sources = list(pathlib.Path("crates", name, "src").glob("*.rt"))
    if any(source.name == "main.rt" for source in sources):
        return "a program over all of it"
    code = any("fn " in line for source in sources for line in source.read_text(encoding="utf-8").splitlines() if not line.startswith("//"))
    return "code and proofs" if code else "theorems alone"


def drawn() -> str:
    uses = listed()
    level = levels(uses)
    lines = joined(direct(uses), level)
    nodes = dict.fromkeys([*level.items(), *(node for line in lines for node in line)])
    top = max(level.values())
    order = ordered([[node for node in nodes if node[1] == at] for at in range(top + 1)], lines)

    def width(node: Node) -> float:
        return BOX if level[node[0]] == node[1] else SPOT

    x = placed(order, lines, width)
    y = {node: TOP + (top - node[1]) * LEVEL for node in nodes}
    right = max(x[node] + width(node) / 2 for node in nodes) + 24
    bottom = TOP + top * LEVEL + HEIGHT + 18
    parts = [f'<text x="24" y="{TOP + (top - at) * LEVEL + 20}" class="level">level {at}</text>' for at in range(top + 1)]
    for low, high in lines:
        start, end = y[low], y[high] + HEIGHT
        bend = (start - end) // 2
        parts.append(f'<path d="M{x[low]} {start} C{x[low]} {start - bend} {x[high]} {end + bend} {x[high]} {end}"/>')
    for name, at in level.items():
        node = name, at
        parts.append(f'<rect x="{x[node] - BOX // 2}" y="{y[node]}" width="{BOX}" height="{HEIGHT}" rx="4" fill="{FILLS[kind(name)]}"/>')
        parts.append(f'<text x="{x[node]}" y="{y[node] + 20}" class="name">{name}</text>')
    for node in nodes:
        if level[node[0]] != node[1]:
            parts.append(f'<path d="M{x[node]} {y[node]} V{y[node] + HEIGHT}"/>')
    return framed(parts, int(right), bottom)


def framed(parts: List[str], right: int, bottom: int) -> str:
    for index, (words, fill) in enumerate(FILLS.items()):
        at = LEFT + index * 150
        parts.append(f'<rect x="{at}" y="{bottom}" width="14" height="14" rx="2" fill="{fill}"/>')
        parts.append(f'<text x="{at + 20}" y="{bottom + 12}" class="level">{words}</text>')
    height = bottom + 32
    head = f'<svg xmlns="http://www.w3.org/2000/svg" viewBox="0 0 {right} {height}" width="{right}" height="{height}" role="img"'
    style = """<style>
text { font: 13px sans-serif; fill: #1c1e21; }
.name { text-anchor: middle; }
.level { font-size: 12px; fill: #444a52; }
rect { stroke: #8a8f98; }
path { stroke: #8a8f98; fill: none; }
</style>"""
    ground = f'<rect width="{right}" height="{height}" fill="#ffffff" style="stroke: none"/>'
    return "\n".join([f'{head} aria-label="The crates by layer">', style, ground, *parts, "</svg>"])


if __name__ == "__main__":
    print(drawn())
