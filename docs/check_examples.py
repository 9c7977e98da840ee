#!/usr/bin/env python3
"""check_examples.py [PROGRAM] [--write]

Runs each command that README.md, docs/ERRORS.md and examples/README.md show, and compares what it prints with
what stands there. A command is an indented line that begins with `$ `; the indented lines after it, up to the
next command or the end of the block, are its standard output. Prints what differs, and fails where anything
does. --write puts the output in its place instead.

The commands run in a folder of their own with the launcher, examples/ and bench/, where PROGRAM is the built
program (crates/solidd/out/solidd where none is named).
"""
import argparse
import os
import shutil
import subprocess
import sys
import tempfile

ROOT = os.path.dirname(os.path.dirname(os.path.abspath(__file__)))
PAGES = ["README.md", "docs/ERRORS.md", "examples/README.md"]
INDENT = "    "


def folder_with(program, folder):
    """A folder in which the launcher finds PROGRAM built, and nothing that is newer."""
    os.makedirs(os.path.join(folder, "crates/solidd/out"))
    os.symlink(os.path.abspath(program), os.path.join(folder, "crates/solidd/out/solidd"))
    shutil.copy(os.path.join(ROOT, "solidd"), folder)
    for name in ("examples", "bench"):
        os.symlink(os.path.join(ROOT, name), os.path.join(folder, name))


def output_of(command, folder):
    """What a command prints on standard output, line by line."""
    done = subprocess.run(["bash", "-c", command], cwd=folder, stdout=subprocess.PIPE, stderr=subprocess.DEVNULL)
    return done.stdout.decode("utf-8", "replace").splitlines()


def with_outputs(lines, folder):
    """The lines of a page, with the output of each command in its place; and how many commands there are."""
    out, count, place = [], 0, 0
    while place < len(lines):
        line = lines[place]
        out.append(line)
        place += 1
        if not line.startswith(INDENT + "$ "):
            continue
        count += 1
        while place < len(lines) and lines[place].startswith(INDENT) and not lines[place].startswith(INDENT + "$ "):
            place += 1
        out += [(INDENT + text).rstrip() for text in output_of(line[len(INDENT) + 2 :], folder)]
    return out, count


def main():
    parser = argparse.ArgumentParser(
        usage=argparse.SUPPRESS, description=__doc__, formatter_class=argparse.RawDescriptionHelpFormatter
    )
    parser.add_argument("program", nargs="?", default=os.path.join(ROOT, "crates/solidd/out/solidd"))
    parser.add_argument("--write", action="store_true")
    args = parser.parse_args()
    if not os.access(args.program, os.X_OK):
        parser.error("there is no program %s: ./solidd builds it" % args.program)
    wrong = 0
    for page in PAGES:
        path = os.path.join(ROOT, page)
        with open(path, encoding="utf-8") as source:
            old = source.read().splitlines()
        with tempfile.TemporaryDirectory() as folder:
            folder_with(args.program, folder)
            new, count = with_outputs(old, folder)
        print("%s: %d commands" % (page, count))
        if new == old:
            continue
        if args.write:
            with open(path, "w", encoding="utf-8") as sink:
                sink.write("\n".join(new) + "\n")
            continue
        wrong += 1
        at = next((i for i, (a, b) in enumerate(zip(old, new)) if a != b), min(len(old), len(new)))
        print("%s:%d: %r stands, %r is printed" % (page, at + 1, old[at : at + 1], new[at : at + 1]))
    sys.exit(bool(wrong))


if __name__ == "__main__":
    main()
