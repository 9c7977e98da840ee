#!/usr/bin/env python3
"""make_spheres.py [--spheres N] [--points M] [--seed S] > FILE

Writes an IGES file of N spheres (IGES 5.3, type 158) and after it M point questions, one a line:
`@1 point E X Y Z`. About half of the points lie inside their sphere and half outside it; a few touch
its surface, and a few ask for a number that no sphere has. The same seed gives the same bytes.
"""
import argparse
import random
import sys

UNIT = 10**12  # steps
PLACES = (1,) * 8 + (2,) * 6 + (3,) * 4 + (6, 12)  # how many digits may stand after the point


def spell(steps):
    """A whole number of steps as a plain decimal: at least one digit on either side of the point."""
    whole, part = divmod(abs(steps), UNIT)
    digits = ("%012d" % part).rstrip("0") or "0"
    return "%s%d.%s" % ("-" if steps < 0 else "", whole, digits)


def number(rng, least, most):
    """A random number of steps from `least` to `most` units, with few places mostly."""
    grain = UNIT // 10 ** rng.choice(PLACES)
    return rng.randint(least * UNIT // grain, most * UNIT // grain) * grain


def make_sphere(rng):
    """Radius and centre whose record fits into the 64 columns of one parameter line."""
    while True:
        radius = number(rng, 0, 9)
        centre = [number(rng, -999, 999) for _ in range(3)]
        record = "158,%s;" % ",".join(spell(v) for v in [radius] + centre)
        if radius > 0 and len(record) <= 64:
            return radius, centre, record


def card(text, section, sequence):
    return "%-72s%s%7d\n" % (text, section, sequence)


def write_file(out, spheres):
    out.write(card("%d spheres." % len(spheres), "S", 1))
    out.write(card(",,;", "G", 1))
    for i in range(len(spheres)):
        first = "     158%8d%32s%8d%8s00000000" % (i + 1, "", 0, "")
        second = "     158%16s%8d%8d%32s" % ("", 1, 0, "")
        out.write(card(first, "D", 2 * i + 1) + card(second, "D", 2 * i + 2))
    for i, (_, _, record) in enumerate(spheres):
        out.write(card("%-64s %7d" % (record, 2 * i + 1), "P", i + 1))
    counts = "S%7dG%7dD%7dP%7d" % (1, 1, 2 * len(spheres), len(spheres))
    out.write(card(counts, "T", 1))


def make_place(rng, radius, centre):
    """A place near the sphere: mostly inside or outside by chance, now and then on its surface."""
    place = list(centre)
    axis = rng.randrange(3)
    if rng.random() < 0.04:
        place[axis] += rng.choice((-radius, radius))
        return place
    grain = UNIT // 10 ** rng.choice(PLACES)
    for i in range(3):
        reach = radius * 102 // 100 // grain  # a cube with twice the volume of the sphere
        place[i] += rng.randint(-reach, reach) * grain
    return place


def write_points(out, rng, spheres, count):
    for _ in range(count):
        i = rng.randrange(len(spheres))
        radius, centre, _ = spheres[i]
        number_asked = 2 * i + 1
        if rng.random() < 0.02:
            number_asked = 2 * rng.randrange(1, 2 * len(spheres) + 1)
        place = make_place(rng, radius, centre)
        out.write("@1 point %d %s\n" % (number_asked, " ".join(spell(v) for v in place)))


def main():
    parser = argparse.ArgumentParser(
        usage=argparse.SUPPRESS,
        description=__doc__,
        formatter_class=argparse.RawDescriptionHelpFormatter,
    )
    parser.add_argument("--spheres", type=int, default=90_000, help="1 to 100,000")
    parser.add_argument("--points", type=int, default=250_000)
    parser.add_argument("--seed", type=int, default=1)
    args = parser.parse_args()
    if not 1 <= args.spheres <= 100_000:
        parser.error("1 to 100,000 spheres")
    rng = random.Random(args.seed)
    spheres = [make_sphere(rng) for _ in range(args.spheres)]
    write_file(sys.stdout, spheres)
    write_points(sys.stdout, rng, spheres, args.points)


if __name__ == "__main__":
    main()
