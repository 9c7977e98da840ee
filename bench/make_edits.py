#!/usr/bin/env python3
"""make_edits.py [--spheres N] [--commits C] [--points Q] [--export] [--seed S] > FILE

Writes an IGES file of N spheres, and after it C commits of two sessions in turn, each of which replaces
one sphere. After each commit Q points near random spheres are asked, and at the end an export where it
is wished for. The same seed gives the same bytes.
"""
import argparse
import random
import sys

from make_spheres import make_place, make_sphere, spell, write_file


def write_commits(out, rng, spheres, commits, points):
    for commit in range(commits):
        session, i = commit % 2 + 1, rng.randrange(len(spheres))
        spheres[i] = make_sphere(rng)
        out.write("@%d replace %d 158 0 0 %s\n@%d commit\n" % (session, 2 * i + 1, spheres[i][2], session))
        for _ in range(points):
            j = rng.randrange(len(spheres))
            place = make_place(rng, *spheres[j][:2])
            out.write("@3 point %d %s\n" % (2 * j + 1, " ".join(spell(v) for v in place)))


def main():
    parser = argparse.ArgumentParser(
        usage=argparse.SUPPRESS, description=__doc__, formatter_class=argparse.RawDescriptionHelpFormatter
    )
    parser.add_argument("--spheres", type=int, default=10_000)
    parser.add_argument("--commits", type=int, default=1_000)
    parser.add_argument("--points", type=int, default=0)
    parser.add_argument("--export", action="store_true")
    parser.add_argument("--seed", type=int, default=1)
    options = parser.parse_args()
    rng = random.Random(options.seed)
    spheres = [make_sphere(rng) for _ in range(options.spheres)]
    write_file(sys.stdout, spheres)
    write_commits(sys.stdout, rng, spheres, options.commits, options.points)
    if options.export:
        sys.stdout.write("@1 export\n")


if __name__ == "__main__":
    main()
