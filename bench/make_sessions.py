#!/usr/bin/env python3
"""make_sessions.py [--operands N] [--sessions K] [--lines L] [--keys new|held] [--kinds NAMES] [--seed S] > FILE

Writes an IGES file of one Boolean tree of N moved primitives, and after it K sessions of L lines each, one
line of each in turn: two points on the tree, and then a line of an edit, which in turn replaces a sphere that
stands by itself and commits. So a third of the lines are edits, and no commit changes the tree. With `new`
keys each point is a place of its own; with `held` keys all points are one place. The same seed gives the same
bytes.
"""
import argparse
import random
import sys

from make_mixed import TYPES, primitive, spell
from make_solids import Model, boolean_tree, rotation


def make_model(rng, operands, kinds, sessions):
    """A tree of moved primitives, and a sphere for each session. Answers their numbers."""
    model = Model()
    moved = []
    for i in range(operands):
        rows = rotation(rng)
        shift = [rng.uniform(-3, 3) for _ in range(3)]
        entries = [v for j in range(3) for v in (*rows[j], shift[j])]
        matrix = model.add(124, 0, "124,%s;" % ",".join(spell(v, 9) for v in entries))
        name = kinds[i % len(kinds)]
        values, _, _ = primitive(rng, name, 9)
        record = "%d,%s;" % (TYPES[name], ",".join(spell(v, 9) for v in values))
        moved.append(model.add(TYPES[name], matrix, record))
    tree = model.add(180, 0, boolean_tree(rng, moved, 9))
    spheres = [model.add(158, 0, "158,1.;") for _ in range(sessions)]
    return model, tree, spheres


def line_of(rng, tree, sphere, place, keys):
    """The line at a place of a session, counted from 0."""
    if place % 6 == 2:
        return "replace %d 158 0 0 158,%s;" % (sphere, spell(rng.uniform(1, 2), 6))
    if place % 6 == 5:
        return "commit"
    at = [rng.uniform(-9, 9) for _ in range(3)] if keys == "new" else [1, 2, 3]
    return "point %d %s" % (tree, " ".join("%.4f" % v for v in at))


def main():
    parser = argparse.ArgumentParser(
        usage=argparse.SUPPRESS, description=__doc__, formatter_class=argparse.RawDescriptionHelpFormatter
    )
    parser.add_argument("--operands", type=int, default=1_000)
    parser.add_argument("--sessions", type=int, default=8)
    parser.add_argument("--lines", type=int, default=300)
    parser.add_argument("--keys", choices=["new", "held"], default="new")
    parser.add_argument("--kinds", default="cone,torus,ellipsoid")
    parser.add_argument("--seed", type=int, default=1)
    options = parser.parse_args()
    rng = random.Random(options.seed)
    model, tree, spheres = make_model(rng, options.operands, options.kinds.split(","), options.sessions)
    model.write(sys.stdout)
    for place in range(options.lines):
        for session in range(options.sessions):
            line = line_of(rng, tree, spheres[session], place, options.keys)
            sys.stdout.write("@%d %s\n" % (session + 1, line))


if __name__ == "__main__":
    main()
