#!/usr/bin/env python3
"""make_mixed.py [--entities N] [--points M] [--kinds K,K,..] [--seed S] > FILE

Writes an IGES file of N entities and after it M point questions, one a line: `@1 point E X Y Z`. The
entities are primitives of the kinds that are named (block, wedge, cylinder, cone, sphere, torus,
ellipsoid; all seven where none is), with axes that aren't along the coordinates. The same seed gives the
same bytes.
"""
import argparse
import math
import random
import sys

TYPES = {"block": 150, "wedge": 152, "cylinder": 154, "cone": 156, "sphere": 158, "torus": 160, "ellipsoid": 168}


def spell(value, places):
    text = "%.*f" % (places, value)
    return text.rstrip("0") if not text.rstrip("0").endswith(".") else text.rstrip("0") + "0"


def lengths(rng, count):
    return [rng.randint(1, 9999) / 1000 for _ in range(count)]


def point(rng, most=999):
    return [rng.randint(-most * 1000, most * 1000) / 1000 for _ in range(3)]


def unit(v):
    size = math.sqrt(sum(c * c for c in v))
    return [c / size for c in v]


def axes(rng):
    """Two directions of unit length at a right angle, with nine decimals."""
    w = unit([rng.uniform(-1, 1) for _ in range(3)])
    a = [rng.uniform(-1, 1) for _ in range(3)]
    along = sum(p * q for p, q in zip(a, w))
    u = unit([p - along * q for p, q in zip(a, w)])
    return u, w


def primitive(rng, kind, most=999):
    """The parameters of a primitive and a place near it, within so many units along each axis."""
    u, w = axes(rng)
    at = point(rng, most)
    sizes = sorted(lengths(rng, 3), reverse=True)
    if kind == "block":
        return sizes + at + u + w, at, sizes[0]
    if kind == "wedge":
        return sizes + [sizes[0] * rng.random()] + at + u + w, at, sizes[0]
    if kind == "cylinder":
        return sizes[:2] + at + w, at, sizes[0]
    if kind == "cone":
        return [sizes[2], sizes[0], sizes[0] * rng.random() * 0.9] + at + w, at, sizes[0]
    if kind == "sphere":
        return sizes[:1] + at, at, sizes[0]
    if kind == "torus":
        return [sizes[0], sizes[0] * (0.1 + 0.8 * rng.random())] + at + w, at, sizes[0]
    return sizes + at + u + w, at, sizes[0]


def card(text, section, sequence):
    return "%-72s%s%7d\n" % (text, section, sequence)


def main():
    parser = argparse.ArgumentParser(
        usage=argparse.SUPPRESS, description=__doc__, formatter_class=argparse.RawDescriptionHelpFormatter
    )
    parser.add_argument("--entities", type=int, default=10_000)
    parser.add_argument("--points", type=int, default=0)
    parser.add_argument("--kinds", default="")
    parser.add_argument("--seed", type=int, default=1)
    options = parser.parse_args()
    rng = random.Random(options.seed)
    kinds = options.kinds.split(",") if options.kinds else list(TYPES)
    directory, params, places = [], [], []
    for place in range(options.entities):
        number = 2 * place + 1
        name = kinds[place % len(kinds)]
        values, at, size = primitive(rng, name)
        kind = TYPES[name]
        record = "%d,%s;" % (kind, ",".join(spell(v, 9) for v in values))
        places.append((at, size))
        lines = [record[i : i + 64] for i in range(0, len(record), 64)]
        first = len(params) + 1
        for text in lines:
            params.append("%-64s %7d" % (text, number))
        directory.append("%8d%8d%32s%8d%8s%8s" % (kind, first, "", 0, "", "00000000"))
        directory.append("%8d%16s%8d%8d" % (kind, "", len(lines), 0))
    out = sys.stdout
    out.write(card("Mixed entities.", "S", 1))
    out.write(card(",,;", "G", 1))
    for sequence, text in enumerate(directory, 1):
        out.write(card(text, "D", sequence))
    for sequence, text in enumerate(params, 1):
        out.write(card(text, "P", sequence))
    out.write(card("S%7dG%7dD%7dP%7d" % (1, 1, len(directory), len(params)), "T", 1))
    for _ in range(options.points):
        i = rng.randrange(len(places))
        at, size = places[i]
        where = [c + rng.uniform(-1.2, 1.2) * size for c in at]
        out.write("@1 point %d %s\n" % (2 * i + 1, " ".join(spell(c, 6) for c in where)))


if __name__ == "__main__":
    main()
