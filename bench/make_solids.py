#!/usr/bin/env python3
"""make_solids.py [--shape SHAPE] [--entities N] [--points M] [--repeat K] [--seed S] > FILE

Writes an IGES file of N entities that name each other, all by the rules of solidd, and after it M point
questions, each K times, one a line: `@1 point E X Y Z`. The shapes:

  mixed   primitives, matrices, Boolean trees, assemblies, instances and entities that aren't read, with
          points on all solids (the default)
  tree    one Boolean tree of N primitives of all kinds, each moved by a matrix, with points on the tree
  chain   instances of which each names the one after it, too deep for solidd from 65 on
  star    one assembly of N spheres
  dense   Boolean trees over the same spheres, ten operands each
  heavy   Boolean trees of which each names the one before twice, too heavy for solidd from 22 on
  turned  a unit sphere that a chain of N - 1 matrices moves, whose entries are thirds and two thirds;
          examples/turned.igs is its file of 61 entities

The same seed gives the same bytes.
"""
import argparse
import random
import sys

from make_mixed import TYPES, card, point, primitive, spell, axes, unit


class Model:
    """Entities in the order of their numbers: type, number of the matrix, record."""

    def __init__(self):
        self.entities = []

    def add(self, kind, matrix, record):
        self.entities.append((kind, matrix, record))
        return 2 * len(self.entities) - 1

    def write(self, out):
        directory, params = [], []
        for place, (kind, matrix, record) in enumerate(self.entities):
            number = 2 * place + 1
            first = len(params) + 1
            for i in range(0, len(record), 64):
                params.append("%-64s %7d" % (record[i : i + 64], number))
            count = len(params) + 1 - first
            directory.append("%8d%8d%32s%8d%8s%8s" % (kind, first, "", matrix, "", "00000000"))
            directory.append("%8d%16s%8d%8d" % (kind, "", count, 0))
        out.write(card("Solids.", "S", 1))
        out.write(card(",,;", "G", 1))
        for section, lines in (("D", directory), ("P", params)):
            for sequence, text in enumerate(lines, 1):
                out.write(card(text, section, sequence))
        out.write(card("S%7dG%7dD%7dP%7d" % (1, 1, len(directory), len(params)), "T", 1))


def rotation(rng):
    """The three rows of a rotation, with nine decimals."""
    u, w = axes(rng)
    v = [w[1] * u[2] - w[2] * u[1], w[2] * u[0] - w[0] * u[2], w[0] * u[1] - w[1] * u[0]]
    v = unit(v)
    return [[u[i], v[i], w[i]] for i in range(3)]


def matrix(rng, most):
    """The record of a rotation with a shift, and the map of points that it is."""
    rows, shifts = rotation(rng), point(rng, most)
    numbers = []
    for row, shift in zip(rows, shifts):
        numbers += [spell(c, 9) for c in row] + [spell(shift, 3)]

    def move(at):
        return [sum(r * c for r, c in zip(row, at)) + shift for row, shift in zip(rows, shifts)]

    return "124,%s;" % ",".join(numbers), move


def solid(rng, name):
    values, at, size = primitive(rng, name)
    return TYPES[name], "%d,%s;" % (TYPES[name], ",".join(spell(v, 9) for v in values)), at, size


def boolean_tree(rng, operands, unions):
    """A tree in post-order over these operands, with so many unions in ten operations."""
    items = [-operands[0]]
    for operand in operands[1:]:
        items += [-operand, 1 if rng.randrange(10) < unions else rng.choice([2, 3])]
    return "180,%d,%s;" % (len(items), ",".join(str(i) for i in items))


def mixed(rng, model, entities):
    """Adds entities of all types. Answers the solids, each with a place near one of its primitives."""
    kinds = list(TYPES)
    matrices, primitives, trees, places = [], [], [], {}
    while len(model.entities) < entities:
        draw = rng.randrange(20)
        moved = rng.choice(matrices) if matrices and draw % 3 == 0 else 0
        if draw < 12 or not trees and draw > 14:
            kind, record, at, size = solid(rng, kinds[len(model.entities) % 7])
            primitives.append(model.add(kind, moved, record))
            places[primitives[-1]] = at, size
        elif draw < 14:
            matrices.append(model.add(124, moved, matrix(rng, 9)[0]))
        elif draw == 14 and primitives:
            operands = [rng.choice(primitives) for _ in range(rng.randint(2, 12))]
            trees.append(model.add(180, moved, boolean_tree(rng, operands, 8)))
            places[trees[-1]] = places[operands[0]]
        elif draw == 15 and trees:
            items = [rng.choice(primitives + trees) for _ in range(rng.randint(2, 6))]
            where = [rng.choice([0] + matrices) if matrices else 0 for _ in items]
            number = model.add(184, moved, "184,%d,%s;" % (len(items), ",".join(str(i) for i in items + where)))
            places[number] = places[items[0]]
        elif draw < 18 and trees:
            child = rng.choice(trees + primitives)
            number = model.add(430, moved, "430,%d;" % child)
            places[number] = places[child]
        else:
            model.add(314, 0, "314,50.0,60.0,70.0,30H%s;" % ("x" * 30))
        if len(matrices) > 40:
            matrices = matrices[-20:]
    return places


def tree(rng, model, entities):
    matrices, moves = [], []
    for _ in range(50):
        record, move = matrix(rng, 9)
        matrices.append(model.add(124, 0, record))
        moves.append(move)
    operands, where = [], []
    for i in range(entities):
        kind, record, at, size = solid(rng, list(TYPES)[i % 7])
        operands.append(model.add(kind, matrices[i % 50], record))
        where.append((moves[i % 50](at), size))
    number = model.add(180, 0, boolean_tree(rng, operands, 9))
    return {number: where}


def chain(rng, model, entities):
    for i in range(entities - 1):
        model.add(430, 0, "430,%d;" % (2 * i + 3))
    model.add(158, 0, "158,1.0;")
    return {}


def star(rng, model, entities):
    spheres = [model.add(158, 0, "158,1.0,%d.0;" % i) for i in range(1, 100)]
    items = [rng.choice(spheres) for _ in range(entities)]
    model.add(184, 0, "184,%d,%s;" % (entities, ",".join(str(i) for i in items + [0] * entities)))
    return {}


def dense(rng, model, entities):
    spheres = [model.add(158, 0, "158,1.0,%d.0;" % i) for i in range(1, 100)]
    while len(model.entities) < entities:
        model.add(180, 0, boolean_tree(rng, [rng.choice(spheres) for _ in range(10)], 8))
    return {}


def heavy(rng, model, entities):
    last = model.add(158, 0, "158,1.0;")
    while len(model.entities) < entities:
        last = model.add(180, 0, "180,3,-%d,-%d,1;" % (last, last))
    return {}


def turned(rng, model, entities):
    one, two = "0.333333333333", "0.666666666667"
    record = "124,-%s,%s,%s,0.0,%s,-%s,%s,0.0,%s,%s,-%s,0.0;" % (one, two, two, two, one, two, two, two, one)
    for i in range(entities - 1):
        model.add(124, 2 * i - 1 if i else 0, record)
    model.add(158, 2 * entities - 3 if entities > 1 else 0, "158,1.0;")
    return {}


SHAPES = {"mixed": mixed, "tree": tree, "chain": chain, "star": star, "dense": dense, "heavy": heavy, "turned": turned}


def main():
    parser = argparse.ArgumentParser(
        usage=argparse.SUPPRESS, description=__doc__, formatter_class=argparse.RawDescriptionHelpFormatter
    )
    parser.add_argument("--shape", choices=list(SHAPES), default="mixed")
    parser.add_argument("--entities", type=int, default=10_000)
    parser.add_argument("--points", type=int, default=0)
    parser.add_argument("--repeat", type=int, default=1)
    parser.add_argument("--seed", type=int, default=1)
    options = parser.parse_args()
    rng = random.Random(options.seed)
    model = Model()
    places = SHAPES[options.shape](rng, model, options.entities)
    model.write(sys.stdout)
    solids = list(places)
    for _ in range(options.points if solids else 0):
        number = rng.choice(solids)
        near = places[number]
        at, size = rng.choice(near) if isinstance(near, list) else near
        where = [c + rng.uniform(-1.2, 1.2) * size for c in at]
        line = "@1 point %d %s\n" % (number, " ".join(spell(c, 6) for c in where))
        sys.stdout.write(line * options.repeat)


if __name__ == "__main__":
    main()
