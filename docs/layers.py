#!/usr/bin/env python3
"""Draws the crates of the program by layer, and writes the table of what goes along each arrow.

    docs/layers.py           writes docs/layers.svg, and the table between its marks in docs/MAP.md
    docs/layers.py --check   writes nothing: the status is 1 where one of them isn't what it would write

A crate stands in the lowest layer above all crates that it uses, by crates.txt. Of its uses those are arrows that don't
follow from others. What goes along each says a line of docs/layers.txt: where an arrow has no line there, or a line no
arrow, the status is 1, too. It needs Python 3 alone."""
import re
import sys
from pathlib import Path
from typing import Dict, List, Tuple

ROOT = Path(__file__).resolve().parent.parent
PICTURE, PAGE, LABELS = (ROOT / 'docs' / name for name in ('layers.svg', 'MAP.md', 'layers.txt'))
MARK, END = '<!-- layers -->\n', '<!-- end -->\n'
# The program's own crate, at the top.
TOP = 'omega'
# In pixels: the picture's width, what a box and a bend of an arrow take, the height of a box, and from layer to layer.
WIDTH, BOX, BEND, HEIGHT, STEP = 1120, 132, 26, 28, 96

Uses = Dict[str, List[str]]
# What stands in a layer: a crate, or an arrow that goes by, as its two crates and the layer.
Item = Tuple[str, ...]


def read_uses(text: str) -> Uses:
    """Of each crate that the program is made of those of them that its line in crates.txt names."""
    lines = [line.split('#')[0].split(':') for line in text.splitlines() if ':' in line.split('#')[0]]
    named = {head.split()[0]: rest.split() for head, rest in lines}
    uses = {crate: [used for used in below if used in named] for crate, below in named.items()}
    ours = {TOP} | below_of(uses, TOP)
    return {crate: uses[crate] for crate in uses if crate in ours}


def below_of(uses: Uses, crate: str) -> set:
    """All crates that a crate stands on, directly or not."""
    return set(uses[crate]).union(*(below_of(uses, used) for used in uses[crate]))


def reduced(uses: Uses) -> List[Tuple[str, str]]:
    """The uses that don't follow from others, in order."""
    def follows(crate: str, used: str) -> bool:
        return any(used in below_of(uses, other) for other in uses[crate] if other != used)
    return sorted((crate, used) for crate in uses for used in uses[crate] if not follows(crate, used))


def layers_of(uses: Uses) -> Dict[str, int]:
    def layer(crate: str) -> int:
        return max((layer(used) + 1 for used in uses[crate]), default=0)
    return {crate: layer(crate) for crate in uses}


def items_of(arrow: Tuple[str, str], layer: Dict[str, int]) -> List[Item]:
    """Through what an arrow goes, from above: its upper crate, a bend in each layer between, its lower crate."""
    upper, lower = arrow
    bends = [(upper, lower, str(at)) for at in range(layer[upper] - 1, layer[lower], -1)]
    return [(upper,), *bends, (lower,)]


def level_of(item: Item, layer: Dict[str, int]) -> int:
    return layer[item[0]] if len(item) == 1 else int(item[2])


def filled(uses: Uses, ways: List[List[Item]], layer: Dict[str, int]) -> List[List[Item]]:
    """The layers from below, with all that stands in each, by name."""
    items = {(crate,) for crate in uses}.union(*ways)
    return [sorted(item for item in items if level_of(item, layer) == at) for at in range(max(layer.values()) + 1)]


def spread(line: List[Item], wanted: Dict[Item, float]) -> Dict[Item, float]:
    """Where the items of a layer stand: in this order, each as near to where it is wanted as those beside it let it."""
    gaps = [(BOX if len(item) == 1 else BEND) / 2 + 5 for item in line]
    edges = [sum(gaps[:at]) + sum(gaps[1:at + 1]) for at in range(len(line))]
    free = [wanted[item] - edge for item, edge in zip(line, edges)]
    most = WIDTH - edges[-1] - gaps[-1]
    return {item: min(max(nearest(free, at), gaps[0]), most) + edges[at] for at, item in enumerate(line)}


def nearest(free: List[float], at: int) -> float:
    """The value at a place of the nearest list to this one that never falls."""
    return max(min(sum(free[first:last + 1]) / (last + 1 - first) for last in range(at, len(free)))
               for first in range(at + 1))


def pulled(lines: List[List[Item]], ways: List[List[Item]], places: Dict[Item, float], orders: bool) -> None:
    """Moves each layer once: each item to the mean of those that it has arrows to and from, in their order or its own."""
    beside: Dict[Item, List[Item]] = {item: [] for line in lines for item in line}
    for one, other in (pair for way in ways for pair in zip(way, way[1:])):
        beside[one].append(other)
        beside[other].append(one)
    for line in lines:
        wanted = {item: sum(places[other] for other in beside[item]) / max(1, len(beside[item])) for item in line}
        if orders:
            line.sort(key=lambda item: (wanted[item], item))
        places.update(spread(line, wanted))


def placed(uses: Uses, ways: List[List[Item]], layer: Dict[str, int]) -> Dict[Item, Tuple[float, float]]:
    """The middle of each crate and bend. The same lines of crates.txt give the same places."""
    lines = filled(uses, ways, layer)
    places = {item: WIDTH * (at + 1) / (len(line) + 1) for line in lines for at, item in enumerate(line)}
    for turn in range(60):
        pulled(lines if turn % 2 else lines[::-1], ways, places, turn < 40)
    top = max(layer.values())
    return {item: (places[item], HEIGHT + STEP * (top - at)) for at, line in enumerate(lines) for item in line}


def drawn_way(way: List[Item], places: Dict[Item, Tuple[float, float]]) -> str:
    """An arrow from the lower edge of its upper crate through its bends to the upper edge of its lower crate."""
    points = [places[item] for item in way]
    points[0] = (points[0][0], points[0][1] + HEIGHT / 2)
    points[-1] = (points[-1][0], points[-1][1] - HEIGHT / 2 - 3)
    curves = ['C %.0f %.0f %.0f %.0f %.0f %.0f' % (x, y + STEP * 0.4, u, v - STEP * 0.4, u, v)
              for (x, y), (u, v) in zip(points, points[1:])]
    return '<path d="M %.0f %.0f %s"><title>%s</title></path>' % (
        *points[0], ' '.join(curves), '%s uses %s' % (way[0][0], way[-1][0]))


def drawn_box(crate: str, place: Tuple[float, float]) -> str:
    x, y = place
    return '<rect x="%.0f" y="%.0f" width="%d" height="%d" rx="4"/><text x="%.0f" y="%.0f">%s</text>' % (
        x - BOX / 2, y - HEIGHT / 2, BOX, HEIGHT, x, y + 4, crate)


def picture(uses: Uses) -> str:
    layer = layers_of(uses)
    ways = [items_of(arrow, layer) for arrow in reduced(uses)]
    places = placed(uses, ways, layer)
    height = STEP * max(layer.values()) + 2 * HEIGHT
    return '\n'.join([
        '<svg xmlns="http://www.w3.org/2000/svg" viewBox="0 0 %d %d" font-family="sans-serif" font-size="13">' % (WIDTH, height),
        '<title>The crates of the program by layer. An arrow leads from a crate to one that it uses.</title>',
        '<defs><marker id="tip" viewBox="0 0 6 6" refX="4" refY="3" markerWidth="7" markerHeight="7" orient="auto">'
        '<path d="M 0 0 L 6 3 L 0 6 z" fill="#667"/></marker></defs>',
        '<rect width="%d" height="%d" fill="#fff"/>' % (WIDTH, height),
        '<g fill="none" stroke="#889" marker-end="url(#tip)">', *(drawn_way(way, places) for way in ways), '</g>',
        '<g fill="#eef3f8" stroke="#456" text-anchor="middle">', '<style>text { fill: #123; stroke: none }</style>',
        *(drawn_box(crate, places[(crate,)]) for crate in sorted(uses)), '</g>', '</svg>', ''])


def read_labels(text: str) -> Dict[Tuple[str, str], str]:
    """What goes along each arrow."""
    rows = re.findall(r'^(\w+) (\w+): (.+)$', text, re.MULTILINE)
    return {(upper, lower): said for upper, lower, said in rows}


def wrong_labels(arrows: List[Tuple[str, str]], labels: Dict[Tuple[str, str], str]) -> List[str]:
    missing = ['the arrow from %s to %s has no line in docs/layers.txt' % arrow for arrow in arrows if arrow not in labels]
    return missing + ['docs/layers.txt has a line from %s to %s, where no arrow is' % pair
                      for pair in sorted(set(labels) - set(arrows))]


def with_table(page: str, labels: Dict[Tuple[str, str], str]) -> str:
    """The page with the table between its marks, in the order of the labels."""
    before, mark, rest = page.partition(MARK)
    rows = ''.join('| `%s` | `%s` | %s |\n' % (*pair, said) for pair, said in labels.items())
    return before + mark + '\n| From | To | What goes along |\n|---|---|---|\n' + rows + '\n' + END + rest.partition(END)[2]


def main(words: List[str]) -> int:
    if words not in ([], ['--check']):
        asked = words in (['--help'], ['-h'])
        print(__doc__, file=sys.stdout if asked else sys.stderr)
        return 0 if asked else 2
    uses, labels = read_uses((ROOT / 'crates.txt').read_text()), read_labels(LABELS.read_text())
    found = wrong_labels(reduced(uses), labels)
    wanted = {PICTURE: picture(uses), PAGE: with_table(PAGE.read_text(), labels)}
    old = [path for path, text in wanted.items() if not path.exists() or path.read_text() != text]
    for path in [] if words else old:
        path.write_text(wanted[path])
    found += ['docs/%s is old: docs/layers.py writes it' % path.name for path in old if words]
    for line in found:
        print('layers.py: ' + line, file=sys.stderr)
    return 1 if found else 0


if __name__ == '__main__':
    sys.exit(main(sys.argv[1:]))
