#!/usr/bin/env python3
"""graph_times.py [PROGRAM] [--runs K]

Times `PROGRAM check` on shapes of references that are hard for a search, at three sizes each, and prints
the best processor time in seconds. The times grow in proportion to the sizes, or something is wrong.
"""
import argparse
import os
import tempfile

from run import ROOT, Timing, make_data

SIZES = [25_000, 50_000, 100_000]


def best(folder, program, runs, shape, size):
    data, output = os.path.join(folder, "input"), os.path.join(folder, "output")
    make_data(data, "make_solids.py", ["--shape", shape, "--entities", str(size)])
    timing = Timing(shape, [os.path.abspath(program), "check"])
    for _ in range(runs):
        timing.run(data, output)
    return timing.seconds


def main():
    parser = argparse.ArgumentParser(
        usage=argparse.SUPPRESS, description=__doc__, formatter_class=argparse.RawDescriptionHelpFormatter
    )
    parser.add_argument("program", nargs="?", default=os.path.join(ROOT, "crates/solidd/out/solidd"))
    parser.add_argument("--runs", type=int, default=5)
    args = parser.parse_args()
    print("%-8s" % "shape" + "".join("%10d" % size for size in SIZES))
    with tempfile.TemporaryDirectory() as folder:
        for shape in ("chain", "star", "dense", "mixed"):
            times = [best(folder, args.program, args.runs, shape, size) for size in SIZES]
            print("%-8s" % shape + "".join("%10.3f" % seconds for seconds in times))


if __name__ == "__main__":
    main()
