#!/usr/bin/env python3
"""walk_times.py [--runs K] [--keep FOLDER]

Times a walk of solid_eval along all uses of one flat tree, in rounds of 256, beside one evaluation
of the tree by `afresh`, at three sizes. The tree's operands are 1,000 spheres in turn. Prints the
least processor time of one of twenty walks, of one of twenty evaluations, and the ratio; what
reading the file takes is taken off.

The timed program is made in a folder of its own, from the crates of this repository, and is proved
and built there by `rt run`; `--keep` names a folder to use again.
"""
import argparse
import os
import resource
import shutil
import subprocess
import tempfile

from make_solids import Model
from turn_times import ROOT, write

SIZES = (25_000, 50_000, 100_000)
SPHERES = 1_000
TIMES = 20
LINE = "walk_times: solid_base fixed_enclosure iges_parameters entity_graph iges_file solid_eval\n"

INVARIANTS = """\
use Rattle.fixed_enclosure.specs.Spans.{IsBox}
use Rattle.solid_eval.specs.Walking.{IsWalk}
use Rattle.walk_times.proofs.walk_all.Given as goal

abbrev pub invariant-loop-2 : goal.invariant-loop-2
invariant-loop-2 l = record { walk : IsWalk l.rows l.walk; there : IsBox l.there }

abbrev pub invariant-loop : goal.invariant-loop
invariant-loop l = record { walk : IsWalk l.rows l.walk; there : IsBox l.there }
"""

ANSWERS = """\
use Rattle.solid_eval.proofs.PassedParts.{none_unread}
use Rattle.walk_times.proofs.evaluate.Goals as goal

pub walk_all-requires-clause-read : goal.walk_all-requires-clause-read
walk_all-requires-clause-read c = none_unread c.args.rows.now 1 _ (rw c.requires.graph at c.opaque.ensures) c.if-opaque-ne0.false
"""

PROGRAM = """\
//! Reads a file whose entity 1 is a tree, and goes along all uses of its primitives by a walk, or
//! evaluates it once, so many times.
#![tactic(auto)]

ghost use Rattle.std.specs.Prelude.{◌≡◌, ◌<◌, ◌≤◌, ◌^◌, ℕ, length};
ghost use Rattle.std.specs.List.{AllByRecursion};
ghost use Rattle.solid_base.specs.Graph.{AreSound};
ghost use Rattle.solid_base.specs.Ranges.{IsLawfulRow};
ghost use Rattle.solid_base.specs.References.{row_at};
ghost use Rattle.fixed_enclosure.specs.Spans.{IsBox};
ghost use Rattle.entity_graph.specs.Opaque.{ReachesOpaque};
ghost use Rattle.solid_eval.specs.Solids.{IsSolidRow};
ghost use Rattle.solid_eval.specs.Walking.{IsWalk};

use entity_graph::Graph;
use fixed_enclosure::Box3;
use iges_file::read_file;
use solid_base::{Cube, Row, Rows, Tally, U, Vec3};
use solid_eval::{Walk, afresh};
use std::alloc::{AllocError, Global};
use std::env;
use std::io;
use std::io::Read;

const ROUND: u32 = 256;

// All uses of entity 1, in rounds, and how many there are.
fn walk_all(alloc: Global, rows: &Rows, graph: &Graph, at: &Box3) -> Result<u64, AllocError>
    requires rows { AllByRecursion (λ e. IsLawfulRow e.row) rows.now }
    requires graph { graph.now ≡ rows.now }
    requires at { IsBox at.now }
    requires read { (n : ℕ) → ¬ ReachesOpaque rows.now 1 n }
    requires solid { IsSolidRow (row_at rows.now 1) }
{
    graph.obeys();
    let mut walk = Walk::new(alloc, 1, at)?;
    let mut there = *at;
    let mut count: u64 = 0;
    for _ in 0..u64::MAX {
        for _ in 0..ROUND {
            match walk.next(rows, &mut there) {
                Some(_) => count = count.saturating_add(1),
                None => return Ok(count),
            }
        }
    }
    Ok(count)
}

fn evaluate(
    alloc: Global,
    rows: &Rows,
    graph: &Graph,
    walks: bool,
    times: u32,
) -> Result<u64, AllocError>
    requires rows { AllByRecursion (λ e. IsLawfulRow e.row) rows.now }
    requires graph { graph.now ≡ rows.now }
{
    match rows.row(1) {
        Some(Row::Tree { .. }) => {}
        _ => return Ok(0),
    }
    if graph.opaque(1) != 0 {
        return Ok(0);
    }
    let far = Vec3 {
        x: 500 * U,
        y: 500 * U,
        z: 500 * U,
    };
    let at = Box3::of(&Cube { lo: far, hi: far });
    let mut leaves = Tally { count: 0 };
    let mut count: u64 = 0;
    for _ in 0..times {
        if walks {
            count = count.saturating_add(walk_all(alloc, rows, graph, &at)?);
        } else {
            afresh(alloc, rows, graph, 1, &at, &mut leaves)?;
        }
    }
    Ok(count.saturating_add(leaves.count))
}

fn main(rt: HostRuntime) -> io::Result<()> {
    let mut words = env::args(&rt)?;
    words.next();
    let word = words.next();
    let walks = match &word {
        Some(word) => word.as_str() == "walk",
        None => false,
    };
    let times = match &word {
        Some(word) => if word.as_str() == "none" { 0 } else { 20 },
        None => 0,
    };
    let mut bytes = Vec::new(rt.alloc());
    rt.stdin().read_to_end(&mut bytes)?;
    if bytes.len() > 1 << 25 {
        return Ok(());
    }
    if let Ok(read) = read_file(rt.alloc(), bytes.as_slice()) {
        let uses = evaluate(rt.alloc(), &read.model.rows, &read.graph, walks, times)?;
        println!(&rt; "{uses}")?;
    }
    Ok(())
}
"""


def build(folder):
    shutil.rmtree(os.path.join(folder, "crates"), ignore_errors=True)
    ignored = shutil.ignore_patterns("out")
    shutil.copytree(os.path.join(ROOT, "crates"), os.path.join(folder, "crates"), ignore=ignored)
    shutil.copy(os.path.join(ROOT, "HANDLES"), folder)
    with open(os.path.join(ROOT, "crates.txt")) as lines:
        write(folder, "crates.txt", lines.read() + LINE)
    write(folder, "crates/walk_times/src/main.rt", PROGRAM)
    write(folder, "crates/walk_times/proofs/walk_all/Invariants.antt", INVARIANTS)
    write(folder, "crates/walk_times/proofs/evaluate/Answers.antt", ANSWERS)
    crate = os.path.join(folder, "crates/walk_times")
    command = {"cwd": crate, "capture_output": True, "text": True, "stdin": subprocess.DEVNULL}
    built = subprocess.run(["rt", "run"], **command)
    program = os.path.join(crate, "out/walk_times")
    if not os.path.exists(program):
        raise SystemExit("the program wasn't built:\n" + built.stdout + built.stderr)
    return program


def write_tree(path, size):
    """A tree of so many operands, each united with those before it, and its spheres."""
    numbers = [2 * (i % SPHERES) + 3 for i in range(size)]
    items = ["-%d" % numbers[0]] + ["-%d,1" % number for number in numbers[1:]]
    model = Model()
    model.add(180, 0, "180,%d,%s;" % (2 * size - 1, ",".join(items)))
    for i in range(SPHERES):
        model.add(158, 0, "158,1.0,%d.0,0.0,0.0;" % (3 * i))
    with open(path, "w") as out:
        model.write(out)


def seconds(program, word, path, wanted):
    before = resource.getrusage(resource.RUSAGE_CHILDREN)
    with open(path) as data:
        run = subprocess.run([program, word], stdin=data, capture_output=True, text=True, check=True)
    after = resource.getrusage(resource.RUSAGE_CHILDREN)
    if int(run.stdout) != wanted:
        raise SystemExit("wanted %d uses: %s" % (wanted, run.stdout))
    return after.ru_utime + after.ru_stime - before.ru_utime - before.ru_stime


def main():
    parser = argparse.ArgumentParser(
        usage=argparse.SUPPRESS,
        description=__doc__,
        formatter_class=argparse.RawDescriptionHelpFormatter,
    )
    parser.add_argument("--runs", type=int, default=5)
    parser.add_argument("--keep")
    args = parser.parse_args()
    with tempfile.TemporaryDirectory() as temporary:
        folder = os.path.abspath(args.keep or temporary)
        program = build(folder)
        print("%10s%20s%20s%10s" % ("operands", "walk, ms", "afresh, ms", "ratio"))
        for size in SIZES:
            path = os.path.join(folder, "tree.igs")
            write_tree(path, size)
            least = {}
            for _ in range(args.runs):
                for word, wanted in (("none", 0), ("walk", TIMES * size), ("afresh", TIMES * size)):
                    time = seconds(program, word, path, wanted)
                    least[word] = min(time, least.get(word, time))
            walk, afresh = (1000 * (least[w] - least["none"]) / TIMES for w in ("walk", "afresh"))
            print("%10d%20.2f%20.2f%10.2f" % (size, walk, afresh, walk / afresh))


if __name__ == "__main__":
    main()
