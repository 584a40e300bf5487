#!/usr/bin/env python3
"""Prints random boxes, gathered in towns: row,x1,y1,x2,y2 on each line.

    python3 boxes.py 100000 > boxes.csv
"""

import random
import sys

SIDE = 1_000_000


def main() -> None:
    count = int(sys.argv[1]) if len(sys.argv) > 1 else 100_000
    random.seed(1)
    towns = [(random.randrange(SIDE), random.randrange(SIDE),
              random.randrange(4_000, 40_000)) for _ in range(60)]
    print("row,x1,y1,x2,y2")
    for row in range(count):
        x, y, spread = random.choice(towns)
        if row % 4 == 0:
            left, low = random.randrange(SIDE), random.randrange(SIDE)
        else:
            left = int(random.gauss(x, spread))
            low = int(random.gauss(y, spread))
        print(row, left, low, left + random.randrange(20, 900),
              low + random.randrange(20, 900), sep=",")


if __name__ == "__main__":
    main()
