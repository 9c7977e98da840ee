#!/usr/bin/env python3
"""make_questions.py [--operands N] [--questions WHAT] [--lines L] [--seed S] > FILE

Writes an IGES file of one Boolean tree of N primitives of all kinds near the origin, and after it
questions about the tree:

  section   one section of 256 by 256 cells through the middle (the default)
  sections  32 sections of 45 by 45 cells, one above the other
  volume    a volume of depth 5
  bounds    extents of depth 5
  lines     L points on the first primitive, of about 30 bytes a line, from eight sessions in turn

The same seed gives the same bytes.
"""
import argparse
import random
import sys

from make_mixed import TYPES, primitive, spell
from make_solids import Model, boolean_tree


def make_model(rng, count):
    """A tree of so many primitives of all kinds, and its number."""
    model = Model()
    operands = []
    for i in range(count):
        name = list(TYPES)[i % 7]
        values, _, _ = primitive(rng, name, 9)
        record = "%d,%s;" % (TYPES[name], ",".join(spell(v, 9) for v in values))
        operands.append(model.add(TYPES[name], 0, record))
    return model, model.add(180, 0, boolean_tree(rng, operands, 9))


def section(rng, tree, lines):
    yield "@1 section %d 0.5 -12.8 -12.8 0.1 256 256" % tree


def sections(rng, tree, lines):
    for i in range(32):
        yield "@1 section %d %s -11.25 -11.25 0.5 45 45" % (tree, spell(i * 0.7 - 11, 1))


def volume(rng, tree, lines):
    yield "@1 volume %d -12.8 -12.8 -12.8 12.8 12.8 12.8 5" % tree


def bounds(rng, tree, lines):
    yield "@1 bounds %d -12.8 -12.8 -12.8 12.8 12.8 12.8 5" % tree


def points(rng, tree, lines):
    for i in range(lines):
        at = " ".join("%.4f" % rng.uniform(-9, 9) for _ in range(3))
        yield "@%d point 1 %s" % (i % 8 + 1, at)


QUESTIONS = {"section": section, "sections": sections, "volume": volume, "bounds": bounds, "lines": points}


def main():
    parser = argparse.ArgumentParser(
        usage=argparse.SUPPRESS, description=__doc__, formatter_class=argparse.RawDescriptionHelpFormatter
    )
    parser.add_argument("--operands", type=int, default=50)
    parser.add_argument("--questions", choices=list(QUESTIONS), default="section")
    parser.add_argument("--lines", type=int, default=300_000)
    parser.add_argument("--seed", type=int, default=1)
    options = parser.parse_args()
    rng = random.Random(options.seed)
    model, tree = make_model(rng, options.operands)
    model.write(sys.stdout)
    for line in QUESTIONS[options.questions](rng, tree, options.lines):
        sys.stdout.write(line + "\n")


if __name__ == "__main__":
    main()
