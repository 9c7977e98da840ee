#!/usr/bin/env python3
"""written_files.py [PROGRAM] [--folder PATH]

Has PROGRAM write each file of examples/ and by real CAD systems again, by an export. Fails where `check` doesn't
tell the same of the written file as of the first, or where the written file, written again, has other bytes.
Files that are refused are passed over. Skips real files where their folder isn't there; its path comes from
--folder, else from SOLIDD_REAL_FILES.
"""
import os
import subprocess
import sys

from real_files import ROOT, arguments, found


def run(program, command, data):
    """The status and the lines that a command prints for an input."""
    done = subprocess.run([program, command], input=data, stdout=subprocess.PIPE, check=False)
    return done.returncode, done.stdout.split(b"\n")


def model_of(data):
    """The lines of a file up to its terminate line, without what stands after them."""
    lines = data.split(b"\n")
    last = next((i for i, line in enumerate(lines) if line[72:73] == b"T"), len(lines) - 1)
    return b"\n".join(lines[: last + 1]) + b"\n"


def exported(program, model):
    """The file that an export of a model gives, or None where the model is refused."""
    status, lines = run(program, "replay", model + b"@1 export\n")
    if status != 0:
        return None
    head = next(i for i, line in enumerate(lines) if line.startswith(b"0 EXPORT "))
    count = int(lines[head].split()[2])
    return b"\n".join(lines[head + 1 : head + 1 + count]) + b"\n"


def fault(program, path):
    """What is wrong with a file that is written again, None where nothing is; and whether it was written."""
    with open(path, "rb") as source:
        model = model_of(source.read())
    written = exported(program, model)
    if written is None:
        return None, False
    if run(program, "check", model) != run(program, "check", written):
        return "a check tells something else of the written file", True
    if exported(program, written) != written:
        return "written again it has other bytes", True
    return None, True


def main():
    options = arguments(__doc__)
    paths = found(os.path.join(ROOT, "examples"), "*.igs")
    paths += [p for pattern in ("*.igs", "*.iges") for p in found(options.folder, pattern)]
    failed = 0
    for path in paths:
        message, was_written = fault(options.program, path)
        if message:
            failed += 1
        print("%-28s %s" % (os.path.basename(path), message or ("the same" if was_written else "refused")))
    print("%d files, %d failed" % (len(paths), failed))
    sys.exit(1 if failed else 0)


if __name__ == "__main__":
    main()
