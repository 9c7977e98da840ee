#!/usr/bin/env python3
"""serve_times.py [PROGRAM] [--runs K]

Times `serve` beside `replay` of the same program on eight sessions of 300 lines each, a third of them edits:
with new keys, each a moved cone, torus or ellipsoid, and with held keys. Prints processor time and wall time of
both, their ratios, and the peak memory. Take figures on an idle machine with four cores.
"""
import argparse
import os
import subprocess
import sys
import tempfile
import time

HERE = os.path.dirname(os.path.abspath(__file__))
ROOT = os.path.dirname(HERE)

# The name of an input, and the maker's options.
INPUTS = [
    ("new keys, a tree of 1,000", ["--keys", "new"]),
    ("held keys, a tree of 1,000", ["--keys", "held"]),
    ("new keys, a tree of 50", ["--keys", "new", "--operands", "50"]),
]


def run(program, command, data):
    """(wall seconds, processor seconds, megabytes) of one run."""
    start = time.monotonic()
    with open(data, "rb") as source:
        process = subprocess.Popen([program, command], stdin=source, stdout=subprocess.DEVNULL)
        _, status, usage = os.wait4(process.pid, 0)
        process.returncode = os.waitstatus_to_exitcode(status)
    wall = time.monotonic() - start
    if process.returncode != 0:
        sys.exit("%s ended with status %d" % (command, process.returncode))
    return wall, usage.ru_utime + usage.ru_stime, usage.ru_maxrss * 1024 / 1e6


def best(program, command, data, runs):
    """The least wall and processor time of some runs, and the greatest memory."""
    found = [run(program, command, data) for _ in range(runs)]
    return min(f[0] for f in found), min(f[1] for f in found), max(f[2] for f in found)


def main():
    parser = argparse.ArgumentParser(
        usage=argparse.SUPPRESS, description=__doc__, formatter_class=argparse.RawDescriptionHelpFormatter
    )
    parser.add_argument("program", nargs="?", default=os.path.join(ROOT, "crates/solidd/out/solidd"))
    parser.add_argument("--runs", type=int, default=5)
    args = parser.parse_args()
    program = os.path.abspath(args.program)
    with tempfile.TemporaryDirectory() as folder:
        data = os.path.join(folder, "input")
        for name, options in INPUTS:
            with open(data, "wb") as sink:
                maker = [sys.executable, os.path.join(HERE, "make_sessions.py")]
                subprocess.run(maker + options, stdout=sink, check=True)
            replay = best(program, "replay", data, args.runs)
            serve = best(program, "serve", data, args.runs)
            print("eight sessions of 300 lines, %s, best of %d" % (name, args.runs))
            for command, figures in (("replay", replay), ("serve", serve)):
                print("  %-8s wall %7.3f s, processor %7.3f s, %7.1f MB" % (command, *figures))
            print("  ratio    wall %7.2f, processor %7.2f" % (serve[0] / replay[0], serve[1] / replay[1]))


if __name__ == "__main__":
    main()
