#!/usr/bin/env python3
"""run.py [PROGRAM] [--yardstick PATH] [--engine ENGINE] [--runs K] [--only NAME]

Times PROGRAM on generated inputs, turn by turn with another program that gives the same answers, the
yardstick. Prints for each input both programs' best processor time (user and system), their peak memory
and the ratios. Fails where an output or a status differs. With no yardstick there, times PROGRAM alone.
The path of the yardstick comes from --yardstick, else from SOLIDD_YARDSTICK. It is run as
`yardstick --stage 9 --engine ENGINE COMMAND`, with the engine `plain`, which evaluates each
question anew and skips no operand, where --engine names no other.
"""
import argparse
import filecmp
import os
import subprocess
import sys
import tempfile

HERE = os.path.dirname(os.path.abspath(__file__))
ROOT = os.path.dirname(HERE)
KINDS = ["block", "wedge", "cylinder", "cone", "sphere", "torus", "ellipsoid"]

# The name of an input, the command, the maker and its options.
INPUTS = [
    ("check of 100,000 solids, matrices and others", "check", "make_solids.py", ["--entities", "100000"]),
    ("a tree of 1,000 moved primitives, 10,000 points", "replay", "make_solids.py", ["--shape", "tree", "--entities", "1000", "--points", "10000"]),
    ("one point 10,000 times on a tree of 1,000", "replay", "make_solids.py", ["--shape", "tree", "--entities", "1000", "--points", "1", "--repeat", "10000"]),
    ("10,000 solids, matrices and others, 50,000 points", "replay", "make_solids.py", ["--entities", "10000", "--points", "50000"]),
    ("90,000 spheres, 250,000 points", "replay", "make_spheres.py", ["--spheres", "90000", "--points", "250000"]),
    ("10,000 mixed primitives, 200,000 points", "replay", "make_mixed.py", ["--points", "200000"]),
    ("a section of 65,536 cells, a tree of 50", "replay", "make_questions.py", []),
    ("32 sections, a tree of 50", "replay", "make_questions.py", ["--questions", "sections"]),
    ("a volume of depth 5, a tree of 50", "replay", "make_questions.py", ["--questions", "volume"]),
    ("extents of depth 5, a tree of 50", "replay", "make_questions.py", ["--questions", "bounds"]),
    ("300,000 script lines", "replay", "make_questions.py", ["--questions", "lines"]),
    ("1,000 commits over 10,000 spheres", "replay", "make_edits.py", []),
    ("1,000 commits over 100,000 spheres, 10 points after each", "replay", "make_edits.py", ["--spheres", "100000", "--points", "10"]),
    ("an export of 100,000 spheres", "replay", "make_edits.py", ["--spheres", "100000", "--commits", "0", "--export"]),
    ("load 1000", "load 1000", None, []),
] + [
    ("10,000 of %s, 200,000 points" % kind, "replay", "make_mixed.py", ["--points", "200000", "--kinds", kind])
    for kind in KINDS
]


class Timing:
    """The least processor time of some runs, and their greatest peak memory."""

    def __init__(self, name, command):
        self.name = name
        self.command = command
        self.seconds = float("inf")
        self.megabytes = 0.0

    def run(self, data, output):
        """One run on the file `data`, with its output in the file `output`. Answers its status."""
        with open(data, "rb") as source, open(output, "wb") as sink:
            process = subprocess.Popen(self.command, stdin=source, stdout=sink)
            _, wait_status, usage = os.wait4(process.pid, 0)
            process.returncode = os.waitstatus_to_exitcode(wait_status)
        self.seconds = min(self.seconds, usage.ru_utime + usage.ru_stime)
        # Linux counts in KiB, and no less than this script's own size, some 15 MB.
        self.megabytes = max(self.megabytes, usage.ru_maxrss * 1024 / 1e6)
        return process.returncode

    def line(self):
        return "  %-10s %8.3f s %8.1f MB" % (self.name, self.seconds, self.megabytes)


def make_data(path, maker, options):
    """The output of a maker, or nothing where there is none."""
    with open(path, "wb") as sink:
        if maker is None:
            return
        subprocess.run([sys.executable, os.path.join(HERE, maker)] + options, stdout=sink, check=True)


def compare(folder, program, yardstick, runs):
    """Runs both in turn. Answers a message where they differ, else None."""
    data = os.path.join(folder, "input")
    outputs = [os.path.join(folder, "output"), os.path.join(folder, "yardstick_output")]
    for _ in range(runs):
        status = program.run(data, outputs[0])
        if status != 0:
            return "%s ended with status %d" % (program.name, status)
        if yardstick is None:
            continue
        status = yardstick.run(data, outputs[1])
        if status != 0:
            return "%s ended with status %d" % (yardstick.name, status)
        if not filecmp.cmp(*outputs, shallow=False):
            return "the outputs differ"
    return None


def time_input(folder, args, name, command, maker, options):
    """Times both programs on one input. Answers a message where they differ, else None."""
    data = os.path.join(folder, "input")
    make_data(data, maker, options)
    program = Timing("solidd", [os.path.abspath(args.program)] + command.split())
    yardstick = None
    if os.access(args.yardstick, os.X_OK):
        yardstick = Timing("yardstick", [os.path.abspath(args.yardstick), "--stage", "9", "--engine", args.engine] + command.split())
    problem = compare(folder, program, yardstick, args.runs)
    print("%s, %.1f MB, best of %d" % (name, os.path.getsize(data) / 1e6, args.runs))
    if problem is not None:
        return problem
    print(program.line())
    if yardstick is not None:
        print(yardstick.line())
        print("  %-10s %8.2f   %8.2f" % ("ratio", program.seconds / yardstick.seconds, program.megabytes / yardstick.megabytes))
    return None


def main():
    parser = argparse.ArgumentParser(
        usage=argparse.SUPPRESS, description=__doc__, formatter_class=argparse.RawDescriptionHelpFormatter
    )
    parser.add_argument("program", nargs="?", default=os.path.join(ROOT, "crates/solidd/out/solidd"))
    parser.add_argument(
        "--yardstick",
        default=os.environ.get("SOLIDD_YARDSTICK", os.path.join(ROOT, "../shared/tools/yardstick")),
    )
    parser.add_argument("--engine", default="plain")
    parser.add_argument("--runs", type=int, default=5)
    parser.add_argument("--only", default="")
    args = parser.parse_args()
    if args.runs < 1:
        parser.error("at least one run")
    if not os.access(args.program, os.X_OK):
        parser.error("there is no program %s: ./solidd builds it" % args.program)
    if not os.access(args.yardstick, os.X_OK):
        print("no yardstick at %s" % args.yardstick)
    with tempfile.TemporaryDirectory() as folder:
        for name, command, maker, options in INPUTS:
            if args.only in name:
                problem = time_input(folder, args, name, command, maker, options)
                if problem is not None:
                    sys.exit(problem)


if __name__ == "__main__":
    main()
