#!/usr/bin/env python3
"""run_times.py [--runs K] [--instructions] [--keep FOLDER]

Times questions that a book of ask_core answers in rounds, about points against a tree of 1,000
spheres, so 1,000 uses of primitives a question, each under a key of its own: new keys while the
memo has room, new keys on a full memo, where each fill drops an entry, and held keys. Prints the
least nanoseconds of processor time a key; those of new keys without what the same answers take
afresh, with no memo, which stands in the last line. With `--instructions`, which needs valgrind,
it counts in place of that the instructions a key, which no load of the machine changes.

The timed program is made in a folder of its own, from the crates of this repository, and is proved
and built there by `rt run`; `--keep` names a folder to use again.
"""
import argparse
import os
import re
import resource
import shutil
import subprocess
import tempfile

from make_solids import Model
from turn_times import ROOT, write

SPHERES = 1_000
LINE = "run_times: solid_base iges_file solid_questions ask_core\n"

PROGRAM = """\
//! Reads a file whose entity 1 is a tree, and asks about points against it, each so many times, a
//! book or afresh.
#![tactic(auto)]

use ask_core::{Book, push_answer};
use iges_file::read_file;
use solid_base::{Bytes, Tally, U, Vec3};
use solid_questions::{Question, is_lawful};
use std::alloc::{AllocError, Global};
use std::env;
use std::io;
use std::io::Read;

fn ask(
    alloc: Global,
    book: &mut Book,
    afresh: bool,
    points: u32,
    times: u32,
) -> Result<u64, AllocError> {
    let mut leaves = Tally { count: 0 };
    for point in 0..points {
        let at = Vec3 {
            x: point as i128 * U,
            y: U,
            z: U,
        };
        let question = Question::Point { e: 1, at };
        if is_lawful(&question) {
            for _ in 0..times {
                let mut out = Bytes::new(alloc);
                if afresh {
                    push_answer(alloc, &mut out, book.table(), &question, &mut leaves)?;
                } else {
                    book.push_answer(alloc, &mut out, &question, &mut leaves)?;
                }
            }
        }
    }
    Ok(leaves.count)
}

fn number(word: Option<String>) -> u32 {
    match word {
        Some(word) => word.as_str().parse().unwrap_or(0),
        None => 0,
    }
}

fn main(rt: HostRuntime) -> io::Result<()> {
    let mut words = env::args(&rt)?;
    words.next();
    let afresh = number(words.next()) == 1;
    let points = number(words.next());
    let times = number(words.next());
    let mut bytes = Vec::new(rt.alloc());
    rt.stdin().read_to_end(&mut bytes)?;
    if bytes.len() > 1 << 25 {
        return Ok(());
    }
    if let Ok(read) = read_file(rt.alloc(), bytes.as_slice()) {
        let mut book = Book::start_with_graph(rt.alloc(), read.model, read.graph, read.lines)?;
        let evaluated = ask(rt.alloc(), &mut book, afresh, points, times)?;
        println!(&rt; "{evaluated}")?;
    }
    Ok(())
}
"""

# What is timed: the runs that count, those that are taken off, and how many questions are left. A
# run is said by whether it answers afresh, how many points it asks about, and how often it asks
# about each. The memo holds the keys of 65 questions.
CASES = [
    ("new key, with room", ["0 65 1"], ["1 65 1"], 65),
    ("new key, memo full", ["0 265 1", "1 65 1"], ["0 65 1", "1 265 1"], 200),
    ("held key", ["0 65 11"], ["0 65 1"], 650),
    ("evaluated afresh", ["1 265 1"], ["1 65 1"], 200),
]


def build(folder):
    shutil.rmtree(os.path.join(folder, "crates"), ignore_errors=True)
    ignored = shutil.ignore_patterns("out")
    shutil.copytree(os.path.join(ROOT, "crates"), os.path.join(folder, "crates"), ignore=ignored)
    shutil.copy(os.path.join(ROOT, "HANDLES"), folder)
    with open(os.path.join(ROOT, "crates.txt")) as lines:
        write(folder, "crates.txt", lines.read() + LINE)
    write(folder, "crates/run_times/src/main.rt", PROGRAM)
    crate = os.path.join(folder, "crates/run_times")
    command = {"cwd": crate, "capture_output": True, "text": True, "stdin": subprocess.DEVNULL}
    built = subprocess.run(["rt", "run"], **command)
    program = os.path.join(crate, "out/run_times")
    if not os.path.exists(program):
        raise SystemExit("the program wasn't built:\n" + built.stdout + built.stderr)
    return program


def write_tree(path):
    """A tree of spheres, each united with those before it, and the spheres."""
    numbers = [2 * i + 3 for i in range(SPHERES)]
    items = ["-%d" % numbers[0]] + ["-%d,1" % number for number in numbers[1:]]
    model = Model()
    model.add(180, 0, "180,%d,%s;" % (2 * SPHERES - 1, ",".join(items)))
    for i in range(SPHERES):
        model.add(158, 0, "158,1.0,%d.0,0.0,0.0;" % (3 * i))
    with open(path, "w") as out:
        model.write(out)


def seconds(program, words, path):
    before = resource.getrusage(resource.RUSAGE_CHILDREN)
    with open(path) as data:
        subprocess.run([program, *words.split()], stdin=data, capture_output=True, check=True)
    after = resource.getrusage(resource.RUSAGE_CHILDREN)
    return after.ru_utime + after.ru_stime - before.ru_utime - before.ru_stime


def instructions(program, words, path):
    command = ["valgrind", "--tool=callgrind", "--callgrind-out-file=/dev/null", program]
    with open(path) as data:
        run = subprocess.run(
            [*command, *words.split()], stdin=data, capture_output=True, text=True, check=True
        )
    return int(re.search(r"Collected : (\d+)", run.stderr).group(1))


def spent(program, words, path, args):
    if args.instructions:
        return instructions(program, words, path)
    return 1e9 * min(seconds(program, words, path) for _ in range(args.runs))


def main():
    parser = argparse.ArgumentParser(
        usage=argparse.SUPPRESS,
        description=__doc__,
        formatter_class=argparse.RawDescriptionHelpFormatter,
    )
    parser.add_argument("--runs", type=int, default=5)
    parser.add_argument("--instructions", action="store_true")
    parser.add_argument("--keep")
    args = parser.parse_args()
    with tempfile.TemporaryDirectory() as temporary:
        folder = os.path.abspath(args.keep or temporary)
        program = build(folder)
        path = os.path.join(folder, "tree.igs")
        write_tree(path)
        print("instructions a key" if args.instructions else "nanoseconds a key")
        for case, runs, without, questions in CASES:
            whole = sum(spent(program, words, path, args) for words in runs)
            rest = sum(spent(program, words, path, args) for words in without)
            print("%-20s%10.1f" % (case, (whole - rest) / (questions * SPHERES)))


if __name__ == "__main__":
    main()
