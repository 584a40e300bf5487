"""Draws the tree of an index as a picture (SVG)."""

from html import escape
from typing import Dict, Iterable, Iterator, List, Optional, Tuple

from gist._entries import AnyBox, Box3
from gist._tree import Page, pages_of

# So many entries are drawn at most; of a larger index the pages alone are.
MOST_ENTRIES = 5_000
# The picture's longer edge, its margin, and the legend's height. The shorter
# edge has at least a quarter of the longer one.
_EDGE, _MARGIN, _LEGEND = 960, 20, 30
# Colours by level, from the leaves on up.
_COLOURS = ("#1f77b4", "#d62728", "#2ca02c", "#9467bd", "#ff7f0e", "#8c564b")

# How dark the lowest and the highest box of space are, from 0 to 1.
_LOW, _HIGH = 0.1, 0.9

# The pages of a level, each with the bound that its parent has for it.
_Level = List[Tuple[Page, AnyBox]]


class _Frame:
    """Where boxes lie in the picture; y goes upwards. Those of space are seen
    from above."""

    def __init__(self, boxes: List[AnyBox]) -> None:
        self._left = min(box.x1 for box in boxes)
        self._top = max(box.y2 for box in boxes)
        #: The least and the greatest height; none in the plane.
        self.heights: Optional[Tuple[int, int]] = None
        spaces = [box for box in boxes if isinstance(box, Box3)]
        if spaces:
            self.heights = (min(box.z1 for box in spaces),
                            max(box.z2 for box in spaces))
        width = max(max(box.x2 for box in boxes) - self._left, 1)
        height = max(self._top - min(box.y1 for box in boxes), 1)
        longer = max(width, height)
        self.width = _EDGE * max(width / longer, 0.25)
        self.height = _EDGE * max(height / longer, 0.25)
        self._across, self._up = self.width / width, self.height / height

    def shade(self, box: AnyBox) -> float:
        """How dark a box of space is, by how high it reaches."""
        assert self.heights and isinstance(box, Box3)
        lowest, highest = self.heights
        return _LOW + (_HIGH - _LOW) * (box.z2 - lowest) / max(
            highest - lowest, 1)

    def rectangle(self, box: AnyBox, more: str = "") -> str:
        """The tag of a box's rectangle but for its end."""
        return (f'<rect x="{(box.x1 - self._left) * self._across:.1f}" '
                f'y="{(self._top - box.y2) * self._up:.1f}" '
                f'width="{(box.x2 - box.x1) * self._across + 0.5:.1f}" '
                f'height="{(box.y2 - box.y1) * self._up + 0.5:.1f}"{more}')


def draw(lines: Iterable[str], fanout: int, title: str) -> Iterator[str]:
    """The lines of a picture of a dump's tree, of fanout entries a page.

    Pages are drawn by their bounds, a colour a level; the fuller a page, the
    darker it is. Entries are grey, and dashed those that aren't live.

    Boxes of space are seen from above: the higher an entry reaches the darker
    it is, and it lies over those that are lower. Pages are outlines then, but
    if no entries are drawn leaves have the shades.
    """
    levels = _levels(pages_of(lines))
    frame = _Frame([bound for level in levels.values() for _, bound in level])
    yield from _head(frame, title)
    entries = _entries(levels[0], frame)
    if frame.heights:
        yield from entries
    for level in sorted(levels, reverse=True):
        yield from _pages(levels[level], level, fanout, frame)
    if not frame.heights:
        yield from entries
    yield from _legend(levels, fanout, frame)
    yield "</g></svg>"


def _levels(pages: Iterable[Page]) -> Dict[int, _Level]:
    """The pages but the root, which has no bound, by level."""
    bounds: Dict[int, AnyBox] = {}
    found: Dict[int, Page] = {}
    count = 0
    for page in pages:
        bounds.update(page.children)
        found[page.number] = page
        count += len(page.entries)
        if count > MOST_ENTRIES:
            # (they aren't drawn, and would take memory)
            page.entries.clear()
    levels: Dict[int, _Level] = {}
    for number, bound in bounds.items():
        page = found[number]
        levels.setdefault(page.level, []).append((page, bound))
    return levels


def _head(frame: _Frame, title: str) -> Iterator[str]:
    width = frame.width + 2 * _MARGIN
    height = frame.height + 2 * _MARGIN + _LEGEND
    yield ('<svg xmlns="http://www.w3.org/2000/svg" '
           f'width="{width:.0f}" height="{height:.0f}" '
           f'viewBox="0 0 {width:.0f} {height:.0f}">')
    yield f"<title>{escape(title)}</title>"
    yield '<rect width="100%" height="100%" fill="white"/>'
    yield f'<g transform="translate({_MARGIN} {_MARGIN})">'


def _pages(pages: _Level, level: int, fanout: int,
           frame: _Frame) -> Iterator[str]:
    colour = _COLOURS[level % len(_COLOURS)]
    # (what is below a page shows through it)
    darkest = 0.5 if level == 0 else 0.15
    is_shaded = level == 0 and not _has_few(pages)
    yield f'<g stroke="{colour}" stroke-width="{level + 1}" fill="{colour}">'
    for page, bound in pages:
        dark = darkest * page.count / fanout
        if frame.heights:
            dark = frame.shade(bound) if is_shaded else 0
        yield (frame.rectangle(bound, f' fill-opacity="{dark:.2f}">') +
               f"<title>page {page.number}, level {level}: "
               f"{page.count} of {fanout}</title></rect>")
    yield "</g>"


def _has_few(leaves: _Level) -> bool:
    """Whether the entries of these leaves are drawn."""
    return sum(page.count for page, _ in leaves) <= MOST_ENTRIES


def _entries(leaves: _Level, frame: _Frame) -> Iterator[str]:
    if not _has_few(leaves):
        return
    entries = [(box, is_live) for page, _ in leaves
               for _, box, is_live in page.entries]
    yield '<g stroke="#555555" stroke-width="0.7" fill="#999999" ' \
          'fill-opacity="0.4" pointer-events="none">'
    if frame.heights:
        entries.sort(key=lambda entry: frame.shade(entry[0]))
    for box, is_live in entries:
        more = "" if is_live else ' stroke-dasharray="3 2"'
        if frame.heights:
            light = round(255 * (1 - frame.shade(box)))
            more += f' fill="#{3 * f"{light:02x}"}" fill-opacity="1"'
        yield frame.rectangle(box, f"{more}/>")
    yield "</g>"


def _legend(levels: Dict[int, _Level], fanout: int,
            frame: _Frame) -> Iterator[str]:
    """A line below the picture: how many pages each level has, how full; and
    of boxes of space what the shades mean."""
    yield (f'<text y="{frame.height + _MARGIN + 15:.0f}" '
           'font-family="sans-serif" font-size="14">')
    for level, pages in sorted(levels.items()):
        name = f"level {level}" if level else "leaves"
        full = sum(page.count for page, _ in pages) / len(pages) / fanout
        yield (f'<tspan fill="{_COLOURS[level % len(_COLOURS)]}" dx="12">'
               f"{name}: {len(pages):,}, {full:.0%} full</tspan>")
    if frame.heights:
        lowest, highest = frame.heights
        yield (f'<tspan fill="#555555" dx="12">heights: {lowest:,} light, '
               f"{highest:,} dark</tspan>")
    yield "</text>"
