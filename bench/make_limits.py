#!/usr/bin/env python3
"""make_limits.py LIMIT > FILE

Writes an IGES file just past one limit of solidd, of entities that aren't read. The limits:

  entities  100,001 entities
  text      entities whose parameter lines are 500,001 in all, most of them named several times
  lines     100,000 entities whose records take 400,000 lines where they are written

Two entries may name the same parameter lines, so that the file stays short.
"""
import argparse
import sys

from make_mixed import card

# The entities, the parameter lines that each of them names, and the parameter lines of the file.
LIMITS = {"entities": (100_001, [1], 1), "text": (6, [100_000] * 5 + [1], 100_000), "lines": (100_000, [4], 4)}


def main():
    parser = argparse.ArgumentParser(
        usage=argparse.SUPPRESS, description=__doc__, formatter_class=argparse.RawDescriptionHelpFormatter
    )
    parser.add_argument("limit", choices=list(LIMITS))
    entities, counts, lines = LIMITS[parser.parse_args().limit]
    out = sys.stdout
    out.write(card("Past a limit.", "S", 1) + card(",,;", "G", 1))
    for i in range(entities):
        count = counts[i % len(counts)]
        first = "%8d%8d%32s%8d%8s%8s" % (314, 1, "", 0, "", "00000000")
        out.write(card(first, "D", 2 * i + 1) + card("%8d%16s%8d%8d" % (314, "", count, 0), "D", 2 * i + 2))
    for i in range(lines):
        out.write(card("%-64s %7d" % ("x" * 64, 1), "P", i + 1))
    out.write(card("S%7dG%7dD%7dP%7d" % (1, 1, 2 * entities, lines), "T", 1))


if __name__ == "__main__":
    main()
