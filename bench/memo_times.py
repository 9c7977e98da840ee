#!/usr/bin/env python3
"""memo_times.py [--runs K] [--instructions] [--keep FOLDER]

Times the memo of memo_graph over keys with boxes of three spans, in a memo of 65,536 entries:
looks on held keys, on a few, on all of them in the order of their last use, and in no order; a look
and a fill for each new key while there is room; and the same on a full memo, where each fill drops
an entry. Beside it stands a lean memo in Rust, a map and a list in one vector, where there is a
`rustc`. Prints the least nanoseconds of processor time a key, without the time to fill the memo
first, turn by turn. With `--instructions`, which needs valgrind, it counts in place of that the
instructions a key, which no load of the machine changes.

The timed program is made in a folder of its own, from the crates of this repository, and is proved
and built there by `rt run`; `--keep` names a folder to use again.
"""
import argparse
import os
import re
import resource
import shutil
import subprocess
import tempfile

ROOT = os.path.dirname(os.path.dirname(os.path.abspath(__file__)))
CAPACITY = 65_536

CRATES = """\
solid_base: itoa
fixed_enclosure: solid_base
memo_graph: solid_base fixed_enclosure lru
memo_times: solid_base fixed_enclosure memo_graph
"""

PROGRAM = """\
//! Times the memo.
#![tactic(auto)]

ghost use Rattle.fixed_enclosure.specs.Spans.{IsEnc};

use fixed_enclosure::{Box3, Enc};
use memo_graph::{HashedKey, Memo};
use solid_base::{Class, Verdict};
use std::alloc::{AllocError, Global};
use std::env;
use std::io;

const CAPACITY: usize = 65_536;

fn span(middle: i32) -> Enc
    ensures { IsEnc result }
{
    let middle = middle as i128;
    Enc::Span {
        lo: middle * 1_000 - 500,
        hi: middle * 1_000 + 500,
    }
}

// A key by its number: boxes that stand side by side, over 64 entities.
fn key(number: u32) -> HashedKey {
    let (place, entity) = (number >> 6, number & 63);
    let at = Box3 {
        x: span((place & 255) as i32),
        y: span((place >> 8 & 255) as i32 - 128),
        z: span((place >> 16) as i32),
    };
    HashedKey::new(2 * entity + 1, 3, &at)
}

fn verdict(number: u32) -> Verdict {
    Verdict {
        class: Class::Mixed,
        leaf: number,
    }
}

// A look, and a fill where the key isn't held. Answers the leaf of the verdict.
fn answer(memo: &mut Memo, number: u32) -> Result<u32, AllocError> {
    let key = key(number);
    if let Some(found) = memo.look(&key) {
        return Ok(found.leaf);
    }
    memo.fill(&key, verdict(number))?;
    Ok(0)
}

fn fill_from(memo: &mut Memo, first: u32, count: u32) -> Result<u32, AllocError> {
    let mut sum: u32 = 0;
    for number in 0..count {
        sum = sum.wrapping_add(answer(memo, first.wrapping_add(number))?);
    }
    Ok(sum)
}

// Looks on the first 2^bits keys, in the order that the step makes: 1 is that of their last use.
fn look_up(memo: &mut Memo, bits: u32, step: u32, count: u32) -> Result<u32, AllocError> {
    let mut sum: u32 = 0;
    let mask = (1u32 << (bits & 31)) - 1;
    for number in 0..count {
        let place = number.wrapping_mul(step) & mask;
        sum = sum.wrapping_add(answer(memo, place)?);
    }
    Ok(sum)
}

fn time(alloc: Global, new: u32, looks: u32, bits: u32, step: u32) -> Result<u32, AllocError> {
    let mut memo = Memo::new(alloc, CAPACITY)?;
    fill_from(&mut memo, 0, new)?;
    look_up(&mut memo, bits, step, looks)
}

fn number(word: Option<String>) -> u32 {
    match word {
        Some(word) => word.as_str().parse().unwrap_or(0),
        None => 0,
    }
}

fn main(rt: HostRuntime) -> io::Result<()> {
    let mut words = env::args(&rt)?;
    words.next();
    let rounds = number(words.next());
    let new = number(words.next());
    let looks = number(words.next());
    let bits = number(words.next());
    let step = number(words.next());
    let mut sum: u32 = 0;
    for _ in 0..rounds {
        sum = sum.wrapping_add(time(rt.alloc(), new, looks, bits, step)?);
    }
    println!(&rt; "{sum}")?;
    Ok(())
}
"""

RUST = """\
use std::collections::HashMap;
use std::env;
use std::hash::{BuildHasherDefault, Hash, Hasher};

const CAPACITY: usize = 65_536;
const NONE: u32 = u32::MAX;

#[derive(Clone, Copy, PartialEq, Eq, Hash)]
enum Enc {
    #[allow(dead_code)]
    All,
    Span { lo: i128, hi: i128 },
}

#[derive(Clone, Copy, PartialEq, Eq, Hash)]
struct Key {
    de: u32,
    stamp: u64,
    at: [Enc; 3],
}

#[derive(Clone, Copy)]
struct Verdict {
    class: u8,
    leaf: u32,
}

#[derive(Default)]
struct Folded(u64);

impl Folded {
    fn add(&mut self, word: u64) {
        let product = u128::from(self.0 ^ word) * 0x9e37_79b9_7f4a_7c15;
        self.0 = product as u64 ^ (product >> 64) as u64;
    }
}

impl Hasher for Folded {
    fn finish(&self) -> u64 {
        self.0
    }

    fn write(&mut self, bytes: &[u8]) {
        for byte in bytes {
            self.add(u64::from(*byte));
        }
    }

    fn write_u32(&mut self, word: u32) {
        self.add(u64::from(word));
    }

    fn write_u64(&mut self, word: u64) {
        self.add(word);
    }

    fn write_i128(&mut self, word: i128) {
        self.add(word as u64);
    }

    fn write_isize(&mut self, word: isize) {
        self.add(word as u64);
    }
}

struct Node {
    before: u32,
    after: u32,
    key: Key,
    verdict: Verdict,
}

struct Memo {
    map: HashMap<Key, u32, BuildHasherDefault<Folded>>,
    nodes: Vec<Node>,
    first: u32,
    last: u32,
}

impl Memo {
    fn new() -> Memo {
        Memo {
            map: HashMap::with_capacity_and_hasher(CAPACITY, BuildHasherDefault::default()),
            nodes: Vec::new(),
            first: NONE,
            last: NONE,
        }
    }

    fn detach(&mut self, at: u32) {
        let (before, after) = (self.nodes[at as usize].before, self.nodes[at as usize].after);
        match before {
            NONE => self.first = after,
            before => self.nodes[before as usize].after = after,
        }
        match after {
            NONE => self.last = before,
            after => self.nodes[after as usize].before = before,
        }
    }

    fn attach(&mut self, at: u32) {
        self.nodes[at as usize].before = NONE;
        self.nodes[at as usize].after = self.first;
        match self.first {
            NONE => self.last = at,
            first => self.nodes[first as usize].before = at,
        }
        self.first = at;
    }

    fn look(&mut self, key: &Key) -> Option<Verdict> {
        let at = *self.map.get(key)?;
        if at != self.first {
            self.detach(at);
            self.attach(at);
        }
        Some(self.nodes[at as usize].verdict)
    }

    fn fill(&mut self, key: Key, verdict: Verdict) {
        let node = Node { before: NONE, after: NONE, key, verdict };
        let at = if self.nodes.len() < CAPACITY {
            self.nodes.push(node);
            self.nodes.len() as u32 - 1
        } else {
            let last = self.last;
            self.detach(last);
            self.map.remove(&self.nodes[last as usize].key);
            self.nodes[last as usize] = node;
            last
        };
        self.map.insert(key, at);
        self.attach(at);
    }
}

fn span(middle: i32) -> Enc {
    let middle = i128::from(middle);
    Enc::Span { lo: middle * 1_000 - 500, hi: middle * 1_000 + 500 }
}

fn key(number: u32) -> Key {
    let (place, entity) = (number >> 6, number & 63);
    Key {
        de: 2 * entity + 1,
        stamp: 3,
        at: [
            span((place & 255) as i32),
            span((place >> 8 & 255) as i32 - 128),
            span((place >> 16) as i32),
        ],
    }
}

#[inline(never)]
fn answer(memo: &mut Memo, number: u32) -> u32 {
    let key = key(number);
    if let Some(found) = memo.look(&key) {
        return found.leaf + u32::from(found.class);
    }
    memo.fill(key, Verdict { class: 0, leaf: number });
    0
}

fn main() {
    let words: Vec<u32> = env::args().skip(1).map(|word| word.parse().unwrap()).collect();
    let (rounds, new, looks, bits, step) = (words[0], words[1], words[2], words[3], words[4]);
    let mut sum: u32 = 0;
    for _ in 0..rounds {
        let mut memo = Memo::new();
        for number in 0..new {
            answer(&mut memo, number);
        }
        for number in 0..looks {
            let place = number.wrapping_mul(step) & ((1 << bits) - 1);
            sum = sum.wrapping_add(answer(&mut memo, place));
        }
    }
    println!("{sum}");
}
"""


def cases(looks, rounds):
    """What is timed: the words of the program, those without the timed keys, and how many."""
    full = CAPACITY + looks
    return [
        ("look, 256 held keys", f"1 256 {looks} 8 1", "1 256 0 0 0", looks),
        ("look, 65,536 held keys", f"1 {CAPACITY} {looks} 16 1", f"1 {CAPACITY} 0 0 0", looks),
        ("the same, in no order", f"1 {CAPACITY} {looks} 16 40503", f"1 {CAPACITY} 0 0 0", looks),
        ("new key, with room", f"{rounds} {CAPACITY} 0 0 0", f"{rounds} 0 0 0 0", rounds * CAPACITY),
        ("new key, memo full", f"1 {full} 0 0 0", f"1 {CAPACITY} 0 0 0", looks),
    ]


def write(folder, path, text):
    path = os.path.join(folder, path)
    os.makedirs(os.path.dirname(path), exist_ok=True)
    with open(path, "w") as file:
        file.write(text)


def build(folder):
    for crate in ("solid_base", "fixed_enclosure", "memo_graph"):
        target = os.path.join(folder, "crates", crate)
        shutil.rmtree(target, ignore_errors=True)
        shutil.copytree(os.path.join(ROOT, "crates", crate), target)
    shutil.copy(os.path.join(ROOT, "HANDLES"), folder)
    write(folder, "crates.txt", CRATES)
    write(folder, "crates/memo_times/src/main.rt", PROGRAM)
    crate = os.path.join(folder, "crates/memo_times")
    built = subprocess.run(["rt", "run"], cwd=crate, capture_output=True, text=True)
    program = os.path.join(crate, "out/memo_times")
    if not os.path.exists(program):
        raise SystemExit("the program wasn't built:\n" + built.stdout + built.stderr)
    return program


def build_rust(folder):
    if not shutil.which("rustc"):
        return None
    write(folder, "memo.rs", RUST)
    program = os.path.join(folder, "memo")
    subprocess.run(["rustc", "-O", "-o", program, os.path.join(folder, "memo.rs")], check=True)
    return program


def seconds(program, words):
    """The processor time of one run, and what it printed."""
    before = resource.getrusage(resource.RUSAGE_CHILDREN)
    run = subprocess.run([program, *words.split()], capture_output=True, check=True)
    after = resource.getrusage(resource.RUSAGE_CHILDREN)
    return after.ru_utime + after.ru_stime - before.ru_utime - before.ru_stime, run.stdout


def instructions(program, words):
    command = ["valgrind", "--tool=callgrind", "--callgrind-out-file=/dev/null", program]
    run = subprocess.run([*command, *words.split()], capture_output=True, text=True, check=True)
    return int(re.search(r"Collected : (\d+)", run.stderr).group(1))


def nanoseconds(programs, words, without, runs):
    """The least time of each program with the timed keys, less that without them."""
    spent = []
    for case in (words, without):
        times = [[seconds(program, case) for program in programs] for _ in range(runs)]
        if len({told for row in times for _, told in row}) > 1:
            raise SystemExit("the programs don't find the same verdicts: " + case)
        spent.append([min(row[i][0] for row in times) for i in range(len(programs))])
    return [(whole - rest) * 1e9 for whole, rest in zip(*spent)]


def main():
    parser = argparse.ArgumentParser(
        usage=argparse.SUPPRESS,
        description=__doc__,
        formatter_class=argparse.RawDescriptionHelpFormatter,
    )
    parser.add_argument("--runs", type=int, default=5)
    parser.add_argument("--instructions", action="store_true")
    parser.add_argument("--keep")
    args = parser.parse_args()
    with tempfile.TemporaryDirectory() as temporary:
        folder = os.path.abspath(args.keep or temporary)
        programs = [program for program in (build(folder), build_rust(folder)) if program]
        head = "instructions a key" if args.instructions else "nanoseconds a key"
        print("%-28s" % head + "".join("%10s" % name for name in ("memo", "Rust's")[:len(programs)]))
        timed = cases(400_000, 4) if args.instructions else cases(4_000_000, 40)
        for case, words, without, keys in timed:
            if args.instructions:
                spent = [instructions(p, words) - instructions(p, without) for p in programs]
            else:
                spent = nanoseconds(programs, words, without, args.runs)
            print("%-28s" % case + "".join("%10.1f" % (each / keys) for each in spent))


if __name__ == "__main__":
    main()
