#!/usr/bin/env python3
"""turn_times.py [--runs K] [--instructions] [--keep FOLDER]

Times five million times take and give of turn_book, on one thread and on two that contend, with
the book given back as it was and with an entry more; and beside it the same with a lock of the
standard library round the same book: the kit's `Mutex`, and Rust's where there is a `rustc`.
Prints for one take and give the least microseconds that passed, and the least processor time of
all threads. With `--instructions`, which needs valgrind, it counts in place of that the
instructions of one take and give on one thread, which no load of the machine changes.

The timed program is made in a folder of its own, from the crates of this repository, and is proved
and built there by `rt run`; `--keep` names a folder to use again.
"""
import argparse
import os
import re
import resource
import shutil
import subprocess
import tempfile
import time

ROOT = os.path.dirname(os.path.dirname(os.path.abspath(__file__)))
ROUNDS = 5_000_000

CRATES = """\
solid_base: itoa
turn_book: solid_base atomic_table
turn_times: solid_base turn_book
"""

INVARIANT = """\
use Rattle.std.proofs.Common.{◌≡◌}
use Rattle.turn_book.specs.Passes.{IsPassOf, IsIdle}
use Rattle.turn_times.proofs.take_turns.Given as goal

abbrev pub invariant-loop-number : goal.invariant-loop-number
invariant-loop-number g l = IsPassOf l.turn l.pass × IsIdle l.pass
"""

PROGRAM = """\
//! Times the turn, and beside it a lock of the standard library round the same book.
#![tactic(auto)]

ghost use Rattle.std.specs.Prelude.{◌≡◌, ◌+◌, ◌<◌, ◌^◌, ◌⊎◌, [], ◌∷◌, ◌++◌, length, IfOk};
ghost use Rattle.turn_book.specs.Passes.{IsPassOf, IsIdle};

use solid_base::Numbers;
use std::alloc::{AllocError, Global};
use std::env;
use std::io;
use std::sync::{Mutex, Wait};
use std::thread;
use std::thread::Threads;
use turn_book::{Logged, Pass, Turn};

/// A book that is a list of numbers.
#[derive(Drop)]
struct Notes {
    log: Numbers,
}

impl Logged for Notes {
    type Opening = ();

    type Entry = u32;

    ghost opening = { λ _. record {} };

    ghost log = { λ b. b.log };

    fn count(&self) -> u64 {
        self.log.len() as u64
    }
}

fn take_turns<R: Wait>(
    rt: &R,
    turn: &Turn<Notes>,
    mut pass: Pass<Notes>,
    rounds: u32,
    adds: bool,
) -> Pass<Notes>
    requires { IsPassOf turn.now pass × IsIdle pass }
    ensures { IsPassOf turn.now result × IsIdle result }
{
    for number in 0..rounds {
        let mut book = turn.take(rt, &mut pass);
        if adds {
            let _ = book.log.push(number);
        }
        book.count();
        turn.give(&mut pass, book);
    }
    pass
}

fn take_locks<R: Wait>(rt: &R, lock: &Mutex<Notes>, rounds: u32, adds: bool) {
    for number in 0..rounds {
        let mut book = lock.lock(rt);
        if adds {
            let _ = book.log.push(number);
        }
        book.count();
    }
}

fn time_turn<R: Threads + Wait + Sync>(
    rt: &R,
    alloc: Global,
    rounds: u32,
    adds: bool,
    two: bool,
) -> Result<usize, AllocError> {
    let log = Numbers::new(alloc);
    let (turn, mut pass) = Turn::new(alloc, Notes { log })?;
    let other = turn.split(&mut pass);
    if !two {
        let pass = take_turns(rt, &turn, pass, rounds, adds);
        return Ok(turn.close(rt, pass).log.len());
    }
    let (mut first, second) = thread::join(
        rt,
        || -> Pass<Notes>
            requires { IsPassOf turn pass × IsIdle pass }
            ensures { IsPassOf turn result × IsIdle result }
        { take_turns(rt, &turn, pass, rounds / 2, adds) },
        || -> Pass<Notes>
            requires { IsPassOf turn other × IsIdle other }
            ensures { IsPassOf turn result × IsIdle result }
        { take_turns(rt, &turn, other, rounds / 2, adds) },
    );
    turn.meet(&mut first, second);
    Ok(turn.close(rt, first).log.len())
}

fn time_lock<R: Threads + Wait + Sync>(
    rt: &R,
    alloc: Global,
    rounds: u32,
    adds: bool,
    two: bool,
) -> usize {
    let log = Numbers::new(alloc);
    let lock = Mutex::new(Notes { log });
    if two {
        thread::join(
            rt,
            || take_locks(rt, &lock, rounds / 2, adds),
            || take_locks(rt, &lock, rounds / 2, adds),
        );
    } else {
        take_locks(rt, &lock, rounds, adds);
    }
    let book = lock.lock(rt);
    book.log.len()
}

fn is_word(word: Option<String>, expected: &str) -> bool {
    match word {
        Some(word) => word.as_str() == expected,
        None => false,
    }
}

fn main(rt: HostRuntime) -> io::Result<()> {
    let mut words = env::args(&rt)?;
    words.next();
    let turn = is_word(words.next(), "turn");
    let two = is_word(words.next(), "two");
    let adds = is_word(words.next(), "adds");
    let entries = if turn {
        time_turn(&rt, rt.alloc(), ROUNDS, adds, two)?
    } else {
        time_lock(&rt, rt.alloc(), ROUNDS, adds, two)
    };
    println!(&rt; "{entries}")?;
    Ok(())
}
""".replace("ROUNDS", str(ROUNDS))

RUST = """\
use std::env;
use std::hint::black_box;
use std::sync::Mutex;
use std::thread;

fn take_locks(lock: &Mutex<Vec<u32>>, rounds: u32, adds: bool) {
    for number in 0..rounds {
        let mut log = lock.lock().unwrap();
        if adds {
            log.push(number);
        }
        black_box(log.len());
    }
}

fn main() {
    let words: Vec<String> = env::args().collect();
    let (two, adds) = (words[2] == "two", words[3] == "adds");
    let lock = Mutex::new(Vec::new());
    if two {
        thread::scope(|scope| {
            scope.spawn(|| take_locks(&lock, ROUNDS / 2, adds));
            take_locks(&lock, ROUNDS / 2, adds);
        });
    } else {
        take_locks(&lock, ROUNDS, adds);
    }
    println!("{}", lock.lock().unwrap().len());
}
""".replace("ROUNDS", str(ROUNDS))

# The words of the program, and what they mean.
CASES = [
    ("one same", "one thread, given back as it was"),
    ("one adds", "one thread, an entry more"),
    ("two same", "two threads, given back as it was"),
    ("two adds", "two threads, an entry more"),
]


def write(folder, path, text):
    path = os.path.join(folder, path)
    os.makedirs(os.path.dirname(path), exist_ok=True)
    with open(path, "w") as file:
        file.write(text)


def build_turn(folder):
    for crate in ("solid_base", "turn_book"):
        target = os.path.join(folder, "crates", crate)
        shutil.rmtree(target, ignore_errors=True)
        shutil.copytree(os.path.join(ROOT, "crates", crate), target)
    shutil.copy(os.path.join(ROOT, "HANDLES"), folder)
    write(folder, "crates.txt", CRATES)
    write(folder, "crates/turn_times/src/main.rt", PROGRAM)
    write(folder, "crates/turn_times/proofs/take_turns/Invariants.antt", INVARIANT)
    crate = os.path.join(folder, "crates/turn_times")
    built = subprocess.run(["rt", "run"], cwd=crate, capture_output=True, text=True)
    program = os.path.join(crate, "out/turn_times")
    if not os.path.exists(program):
        raise SystemExit("the program wasn't built:\n" + built.stdout + built.stderr)
    return program


def build_rust(folder):
    if not shutil.which("rustc"):
        return None
    write(folder, "lock.rs", RUST)
    program = os.path.join(folder, "lock")
    subprocess.run(["rustc", "-O", "-o", program, os.path.join(folder, "lock.rs")], check=True)
    return program


def seconds(program, what, words):
    """The time that passed, and the processor time of all threads."""
    before, start = resource.getrusage(resource.RUSAGE_CHILDREN), time.monotonic()
    command = [program, what, *words.split()]
    run = subprocess.run(command, capture_output=True, text=True, check=True)
    passed, after = time.monotonic() - start, resource.getrusage(resource.RUSAGE_CHILDREN)
    if int(run.stdout) != (ROUNDS if words.endswith("adds") else 0):
        raise SystemExit("entries were lost: " + run.stdout)
    return passed, after.ru_utime + after.ru_stime - before.ru_utime - before.ru_stime


def least(program, what, words, runs):
    times = [seconds(program, what, words) for _ in range(runs)]
    return "%8.3f%8.3f" % tuple(min(column) / ROUNDS * 1e6 for column in zip(*times))


def instructions(program, what, words):
    command = ["valgrind", "--tool=callgrind", "--callgrind-out-file=/dev/null", program, what]
    command += words.split()
    run = subprocess.run(command, capture_output=True, text=True, check=True)
    return "%16.1f" % (int(re.search(r"Collected : (\d+)", run.stderr).group(1)) / ROUNDS)


def main():
    parser = argparse.ArgumentParser(
        usage=argparse.SUPPRESS,
        description=__doc__,
        formatter_class=argparse.RawDescriptionHelpFormatter,
    )
    parser.add_argument("--runs", type=int, default=3)
    parser.add_argument("--instructions", action="store_true")
    parser.add_argument("--keep")
    args = parser.parse_args()
    with tempfile.TemporaryDirectory() as temporary:
        folder = os.path.abspath(args.keep or temporary)
        turn, rust = build_turn(folder), build_rust(folder)
        peers = [(turn, "turn", "turn"), (turn, "lock", "Mutex")]
        if rust:
            peers.append((rust, "lock", "Rust's"))
        head = "instructions" if args.instructions else "microseconds: passed, processor"
        print("%-36s" % head + "".join("%16s" % name for _, _, name in peers))
        for words, case in CASES[:2] if args.instructions else CASES:
            if args.instructions:
                figures = [instructions(program, what, words) for program, what, _ in peers]
            else:
                figures = [least(program, what, words, args.runs) for program, what, _ in peers]
            print("%-36s" % case + "".join(figures))


if __name__ == "__main__":
    main()
