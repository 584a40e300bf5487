#!/bin/sh
# Draws the tree of a dump as a picture (SVG): bench/picture.sh DUMP > PICTURE.svg. DUMP is what `gist dump FILE` printed, or -
# for standard input.
# Each leaf is outlined, and the pages above it; entries are rectangles. Boxes of space are seen from above: the higher one
# reaches, the darker it is. A page counts as full with as many entries as the fullest has.
set -eu
[ $# -eq 1 ] || { echo "usage: bench/picture.sh DUMP > PICTURE.svg" >&2; exit 2; }
top=$(cd "$(dirname "$0")/.." && pwd)
PYTHONPATH=$top/python exec python3 -c '
import pathlib
import sys

from gist._draw import draw
from gist._tree import pages_of

name = sys.argv[1]
text = sys.stdin.read() if name == "-" else pathlib.Path(name).read_text()
lines = text.splitlines()
fullest = max((page.count for page in pages_of(lines)), default=0)
if not fullest:
    sys.exit(f"picture.sh: {name} is no dump")
for line in draw(lines, fullest, pathlib.Path(name).name):
    print(line)
' "$1"
