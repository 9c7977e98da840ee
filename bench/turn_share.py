#!/usr/bin/env python3
"""turn_share.py [PROGRAM] [--lines L] [--only TEXT]

Counts, under valgrind's callgrind, which share of the instructions of `serve` is run while a session holds the
turn, on the inputs of serve_times.py: eight sessions, with new keys and with held ones. What is counted are the
calls that sessions make of the book between the take of the turn and its give, and these two, each with all
that it calls. No load of the machine changes the counts. Needs valgrind, and takes about a minute.
"""
import argparse
import os
import re
import subprocess
import sys
import tempfile

from serve_times import HERE, INPUTS, ROOT

# A part of what is done under the turn, and the names that the function may have which does it all. A compiler
# may have put the first one into its caller.
PARTS = [
    ("take the turn", ["turn_book::turn::Turn::take", "turn_book::raw_turn::RawTurn::take"]),
    ("begin a question", ["ask_core::books::Book::begin", "ask_core::books::Book::run"]),
    ("look for keys", ["ask_core::books::Book::look"]),
    ("fill the memo", ["ask_core::books::Book::fill"]),
    ("commit", ["ask_core::books::Book::commit"]),
    ("give the turn", ["turn_book::turn::Turn::give", "turn_book::raw_turn::RawTurn::give"]),
]

# A line of callgrind_annotate: a count, its share, the function after its file, and the object file.
LINE = re.compile(r"\s*([\d,]+) \(\s*[\d.]+%\)\s+\S+?:(\S.*?)(?: \[.*\])?$")
TOTAL = re.compile(r"\s*([\d,]+) .*PROGRAM TOTALS")


def number(digits):
    return int(digits.replace(",", ""))


def annotated(profile):
    """The instructions of the program, and those of each function with all that it calls."""
    command = ["callgrind_annotate", "--inclusive=yes", "--threshold=100", profile]
    lines = subprocess.run(command, capture_output=True, text=True, check=True).stdout.split("\n")
    total = next(number(found.group(1)) for found in map(TOTAL.match, lines) if found)
    functions = {}
    for found in map(LINE.match, lines):
        if found:
            name = found.group(2).split("::<#")[0]
            functions[name] = functions.get(name, 0) + number(found.group(1))
    return total, functions


def profile_of(program, data, profile):
    """Runs `serve` on the file `data` under callgrind."""
    command = ["valgrind", "--tool=callgrind", "--callgrind-out-file=" + profile, program, "serve"]
    with open(data, "rb") as source:
        run = subprocess.run(command, stdin=source, stdout=subprocess.DEVNULL, stderr=subprocess.PIPE, text=True)
    if run.returncode != 0:
        sys.exit("serve ended with status %d\n%s" % (run.returncode, run.stderr))


def report(name, total, functions):
    print("%s: %.1f million instructions" % (name, total / 1e6))
    whole = 0
    for part, names in PARTS:
        found = [functions[one] for one in names if one in functions]
        count = found[0] if found else 0
        whole += count
        # A call that was put into its caller can't be told from it.
        print("  %-18s%s" % (part, "%6.2f %%" % (100 * count / total) if found else "     -"))
    print("  %-18s%6.2f %%" % ("all under the turn", 100 * whole / total))


def main():
    parser = argparse.ArgumentParser(
        usage=argparse.SUPPRESS, description=__doc__, formatter_class=argparse.RawDescriptionHelpFormatter
    )
    parser.add_argument("program", nargs="?", default=os.path.join(ROOT, "crates/solidd/out/solidd"))
    parser.add_argument("--lines", type=int, default=300)
    parser.add_argument("--only", default="")
    args = parser.parse_args()
    program = os.path.abspath(args.program)
    with tempfile.TemporaryDirectory() as folder:
        data, profile = os.path.join(folder, "input"), os.path.join(folder, "profile")
        for name, options in INPUTS:
            if args.only not in name:
                continue
            with open(data, "wb") as sink:
                maker = [sys.executable, os.path.join(HERE, "make_sessions.py"), "--lines", str(args.lines)]
                subprocess.run(maker + options, stdout=sink, check=True)
            profile_of(program, data, profile)
            report("eight sessions of %d lines, %s" % (args.lines, name), *annotated(profile))


if __name__ == "__main__":
    main()
