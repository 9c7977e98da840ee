#!/usr/bin/env python3
"""session_ends.py [PROGRAM] [--operands N] [--points P]

Runs `serve` on eight sessions over one tree of N primitives: one asks for a volume of depth 5, and the seven
others for P points each. Prints when each thread last used the processor, counted from the start, and how much
of it it used in all; and how long the seven sessions take without the volume. The sessions of points end long
before the volume does, so they don't wait for it. The volume's thread is the one that used the most. Each thread
is looked at every two milliseconds.
"""
import argparse
import os
import random
import subprocess
import sys
import tempfile
import time

from make_questions import make_model
from serve_times import ROOT

INTERVAL = 0.002


class Thread:
    """When a thread last used the processor, in seconds from the start, and how much of it in all."""

    def __init__(self):
        self.last = 0.0
        self.used = 0.0

    def saw(self, now, used):
        if used > self.used:
            self.last = now
            self.used = used


def write_input(path, operands, points, volume):
    """The file with the tree, and the lines of the sessions: session 8 asks for a volume, or isn't there."""
    rng = random.Random(1)
    model, tree = make_model(rng, operands)
    with open(path, "w") as sink:
        model.write(sink)
        if volume:
            sink.write("@8 volume %d -12.8 -12.8 -12.8 12.8 12.8 12.8 5\n" % tree)
        for _ in range(points):
            for session in range(1, 8):
                at = " ".join("%.4f" % rng.uniform(-9, 9) for _ in range(3))
                sink.write("@%d point %d %s\n" % (session, tree, at))


def processor_seconds(path):
    """The processor time of a thread, or None where it has just ended."""
    try:
        with open(path) as stat:
            return int(stat.read().split()[0]) / 1e9
    except (OSError, IndexError):
        return None


def look(process, now, threads):
    """Takes down what each thread of the program has used by now."""
    folder = "/proc/%d/task" % process.pid
    for thread in os.listdir(folder):
        used = processor_seconds("%s/%s/schedstat" % (folder, thread))
        if used is not None:
            threads.setdefault(thread, Thread()).saw(now, used)


def watch(program, data, output):
    """Runs `serve`. Answers its threads, and how many seconds passed."""
    threads = {}
    with open(data, "rb") as source, open(output, "wb") as sink:
        start = time.monotonic()
        process = subprocess.Popen([program, "serve"], stdin=source, stdout=sink)
        while process.poll() is None:
            look(process, time.monotonic() - start, threads)
            time.sleep(INTERVAL)
    if process.returncode != 0:
        sys.exit("serve ended with status %d" % process.returncode)
    if not threads:
        sys.exit("this system doesn't tell the processor time of threads")
    return list(threads.values()), time.monotonic() - start


def report(threads, seconds):
    threads.sort(key=lambda thread: thread.last)
    volume = max(threads, key=lambda thread: thread.used)
    print("thread of   last used the processor   processor time")
    for thread in threads:
        name = "the volume" if thread is volume else "points"
        print("%-10s %19.3f s %19.3f s" % (name, thread.last, thread.used))
    print("all took %.3f s" % seconds)


def main():
    parser = argparse.ArgumentParser(
        usage=argparse.SUPPRESS, description=__doc__, formatter_class=argparse.RawDescriptionHelpFormatter
    )
    parser.add_argument("program", nargs="?", default=os.path.join(ROOT, "crates/solidd/out/solidd"))
    parser.add_argument("--operands", type=int, default=128)
    parser.add_argument("--points", type=int, default=2_000)
    args = parser.parse_args()
    program = os.path.abspath(args.program)
    with tempfile.TemporaryDirectory() as folder:
        data, output = os.path.join(folder, "input"), os.path.join(folder, "output")
        write_input(data, args.operands, args.points, volume=True)
        threads, seconds = watch(program, data, output)
        with open(output) as text:
            if not any(" VOLUME " in line for line in text):
                sys.exit("the volume wasn't answered: more than 128 primitives are too many for it")
        write_input(data, args.operands, args.points, volume=False)
        _, without = watch(program, data, output)
    print("a volume of depth 5 and seven sessions of %d points, on a tree of %d" % (args.points, args.operands))
    report(threads, seconds)
    print("without the volume all took %.3f s" % without)


if __name__ == "__main__":
    main()
