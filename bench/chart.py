#!/usr/bin/env python3
"""Draws the table of peers.sh, which it finds in a page on standard input, as an SVG of bars on a log scale.

    bench/chart.py < docs/SPEED.md > docs/ratios.svg

A bar that goes to the right says that gist does more a second than the other, or takes fewer bytes; one to the left that it does less, or
takes more.
"""
import math
import re
import sys

COLOURS = ["#1f77b4", "#d62728", "#2ca02c", "#9467bd", "#8c564b"]
WIDTH, LEFT, RIGHT, TOP = 860, 190, 40, 62
BAR, BETWEEN = 9, 10


def read(text):
    """The names of the other indexes, and of each row its name and their ratios, none if a cell has no number."""
    run = re.search(r"^\|Work\|gist, (?:in process, )?a second\|.*\n(?:\|.*\n?)+", text, re.M)
    if not run:
        sys.exit("there is no table of peers.sh")
    head, _, *rows = [line.strip("|").split("|") for line in run[0].splitlines()]
    found = []
    for name, _, *cells in rows:
        ratios = [float(cell) if re.fullmatch(r"[\d.]+", cell) else None for cell in cells]
        found.append((name, [1 / it if it and name.startswith("bytes") else it for it in ratios]))
    return head[2:], found


def ticks(least, most):
    """The numbers 1, 2 and 5 times powers of ten, from one that isn't above the least to one that isn't below the most."""
    every = [digit * 10.0**power for power in range(-4, 5) for digit in (1, 2, 5)]
    return [it for it in every if it >= max(t for t in every if t <= least) and it <= min(t for t in every if t >= most)]


def draw(peers, rows):
    lines = ticks(min(it for _, ratios in rows for it in ratios if it), max(it for _, ratios in rows for it in ratios if it))
    height = TOP + sum(len(ratios) * BAR + BETWEEN for _, ratios in rows) + 30

    def at(ratio):
        share = (math.log(ratio) - math.log(lines[0])) / (math.log(lines[-1]) - math.log(lines[0]))
        return LEFT + share * (WIDTH - LEFT - RIGHT)

    yield f'<svg xmlns="http://www.w3.org/2000/svg" width="{WIDTH}" height="{height}" viewBox="0 0 {WIDTH} {height}" font-family="sans-serif" font-size="12">'
    yield "<title>gist beside other indexes</title>"
    yield '<rect width="100%" height="100%" fill="white"/>'
    yield f'<text x="{LEFT}" y="18">to the right of 1 gist does more a second, or takes fewer bytes</text>'
    for place, (peer, colour) in enumerate(zip(peers, COLOURS)):
        yield f'<rect x="{LEFT + 130 * place}" y="28" width="10" height="10" fill="{colour}"/><text x="{LEFT + 130 * place + 15}" y="37">{peer}</text>'
    for it in lines:
        width = 2 if it == 1 else 0.5
        yield f'<line x1="{at(it):.1f}" x2="{at(it):.1f}" y1="{TOP - 12}" y2="{height - 22}" stroke="#888" stroke-width="{width}"/>'
        yield f'<text x="{at(it):.1f}" y="{height - 8}" text-anchor="middle">{it:g}</text>'
    y = TOP
    for name, ratios in rows:
        yield f'<text x="{LEFT - 10}" y="{y + len(ratios) * BAR / 2 + 4:.1f}" text-anchor="end">{name}</text>'
        for peer, ratio, colour in zip(peers, ratios, COLOURS):
            if ratio:
                left, right = sorted((at(1), at(ratio)))
                bar = f'<rect x="{left:.1f}" y="{y}" width="{right - left:.1f}" height="{BAR - 1}" fill="{colour}">'
                yield f"{bar}<title>{peer}: {ratio:.2g}</title></rect>"
            y += BAR
        y += BETWEEN
    yield "</svg>"


print("\n".join(draw(*read(sys.stdin.read()))))
