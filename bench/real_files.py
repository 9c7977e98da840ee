#!/usr/bin/env python3
"""real_files.py [PROGRAM] [--folder PATH]

Runs `PROGRAM check` on files by real CAD systems (*.igs, *.iges) and fails where one of them is refused.
Skips where the folder isn't there. Its path comes from --folder, else from SOLIDD_REAL_FILES.
"""
import argparse
import glob
import os
import subprocess
import sys

ROOT = os.path.dirname(os.path.dirname(os.path.abspath(__file__)))


def arguments(description):
    """The program, and the folder with the files."""
    parser = argparse.ArgumentParser(
        usage=argparse.SUPPRESS, description=description, formatter_class=argparse.RawDescriptionHelpFormatter
    )
    parser.add_argument("program", nargs="?", default=os.path.join(ROOT, "crates/solidd/out/solidd"))
    parser.add_argument(
        "--folder", default=os.environ.get("SOLIDD_REAL_FILES", os.path.join(ROOT, "../shared/real"))
    )
    return parser.parse_args()


def found(folder, pattern):
    """The files of a folder whose names fit the pattern, in order; says so where there are none."""
    files = sorted(glob.glob(os.path.join(folder, pattern)))
    if not files:
        print("no %s at %s: skipped" % (pattern, folder))
    return files


def main():
    args = arguments(__doc__)
    refused = 0
    for path in found(args.folder, "*.ig*s"):
        with open(path, "rb") as source:
            done = subprocess.run([os.path.abspath(args.program), "check"], stdin=source, stdout=subprocess.PIPE)
        refused += done.returncode != 0
        print("%s: %s" % (os.path.basename(path), done.stdout.decode().splitlines()[0]))
    if refused:
        sys.exit("%d refused" % refused)


if __name__ == "__main__":
    main()
