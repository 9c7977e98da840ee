#!/usr/bin/env python3
"""real_points.py [PROGRAM] [--folder PATH]

Asks PROGRAM for points on solids of files by a real CAD kernel, and compares the answers with those of an
independent classifier. For each file NAME.E.truth, with lines `X Y Z IN` or `X Y Z OUT`, the points are
asked on entity E of NAME.igs. Fails where an answer isn't INSIDE for IN and OUTSIDE for OUT. Skips where
the folder isn't there. Its path comes from --folder, else from SOLIDD_REAL_FILES.
"""
import os
import subprocess
import sys

from real_files import arguments, found

WANTED = {"IN": "0 INSIDE", "OUT": "0 OUTSIDE"}


def answers(program, path, entity, points):
    """The replies to these points, one a line."""
    with open(path, "rb") as source:
        model = source.read()
    lines = "".join("@1 point %s %s\n" % (entity, " ".join(point)) for point in points)
    done = subprocess.run([program, "replay"], input=model + lines.encode(), stdout=subprocess.PIPE)
    return done.stdout.decode().splitlines()[2:-1]


def main():
    args = arguments(__doc__)
    wrong = 0
    for truth in found(args.folder, "*.truth"):
        name, entity, _ = os.path.basename(truth).split(".")
        with open(truth) as source:
            lines = [line.split() for line in source]
        path = os.path.join(args.folder, name + ".igs")
        got = answers(os.path.abspath(args.program), path, entity, [line[:3] for line in lines])
        wanted = [WANTED[line[3]] for line in lines]
        good = sum(a == b for a, b in zip(wanted, got)) if len(got) == len(wanted) else 0
        wrong += len(wanted) - good
        print("%s, entity %s: %d of %d points" % (name, entity, good, len(wanted)))
    if wrong:
        sys.exit("%d points answered otherwise" % wrong)


if __name__ == "__main__":
    main()
