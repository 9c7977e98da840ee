#!/usr/bin/env python3
"""random_events.py [--program PROGRAM] [--from A] [--to B]

Compares `run_events` of ask_core, on random lists of events over small models, with a plain machine
that keeps no memo: it answers each question afresh, by `PROGRAM replay` on the file, the commits up
to the version on which the question began, and the question. Prints how many lists agree, and fails
at the first that doesn't. A list is made by its seed, from A to B - 1.

The program that calls `run_events` is made in a folder of its own and run by `rt try`, so nothing is
proved of it here. PROGRAM is the built solidd, where none is named that of this repository.
"""
import argparse
import os
import random
import shutil
import subprocess
import sys
import tempfile

from make_solids import Model
from turn_times import ROOT, write

LINE = "random_events: solid_base iges_file solid_questions script_lines edit_core ask_core\n"

PROGRAM = """\
//! Reads cases, each a line with the length of an input and a schedule, and that input: a file and
//! a script. Prints the log and the replies to which the scheduled events come.

use ask_core::{Event, run_events};
use edit_core::Batch;
use iges_file::read_file;
use script_lines::{Command, ScriptReader};
use solid_base::{NoTally, push_decimal, Bytes};
use std::alloc::{AllocError, Global};
use std::io;
use std::io::{Read, Write};

fn push_version(out: &mut Bytes, version: u64) -> Result<(), AllocError> {
    push_decimal(out, version as u32)
}

/// The events of a schedule: each is two bytes, a letter and the digit of a session. `s` takes the
/// next line of the script.
fn events_of(alloc: Global, schedule: &[u8], script: &[u8]) -> Result<Vec<Event>, AllocError> {
    let mut events = Vec::new(alloc);
    let mut reader = ScriptReader::new(script);
    let mut lines = [0u32; 9];
    let mut batches = Vec::new(alloc);
    for _ in 0..9 {
        batches.push(Batch::new(alloc))?;
    }
    for act in schedule.chunks(2) {
        let session = (act[1] - b'0') as u32;
        match act[0] {
            b'l' => events.push(Event::Look { session })?,
            b'w' => events.push(Event::Work { session })?,
            b'f' => events.push(Event::Fill { session })?,
            b'n' => events.push(Event::Newest { session })?,
            _ => {
                if let Some(line) = reader.next(alloc)? {
                    let session = line.session;
                    let at = session as usize;
                    lines[at] += 1;
                    match line.command {
                        Command::Ask { question, live } => events.push(Event::Begin {
                            session,
                            question,
                            live,
                        })?,
                        Command::Replace { de, row } => batches[at].replace(de, row)?,
                        Command::Add { de, row } => batches[at].add(de, row)?,
                        Command::Drop { de } => batches[at].drop_row(de)?,
                        Command::Commit => {
                            let batch = std::mem::replace(&mut batches[at], Batch::new(alloc));
                            events.push(Event::Commit {
                                session,
                                line: lines[at],
                                batch,
                            })?
                        }
                        Command::Bad(_) => {}
                    }
                }
            }
        }
    }
    Ok(events)
}

fn push_case(alloc: Global, out: &mut Bytes, input: &[u8], schedule: &[u8]) -> Result<(), AllocError> {
    let Ok(read) = read_file(alloc, input) else {
        return out.extend_from_slice(b"NO FILE\\n");
    };
    let events = events_of(alloc, schedule, &input[read.end..])?;
    let found = run_events(alloc, read.model, events, &mut NoTally)?;
    let mut version = 0u64;
    for commit in found.log.as_slice() {
        version += 1;
        push_version(out, version)?;
        out.extend_from_slice(b" @")?;
        push_decimal(out, commit.session)?;
        out.extend_from_slice(b" ")?;
        push_decimal(out, commit.line)?;
        out.extend_from_slice(b"\\n")?;
    }
    let mut session = 0u32;
    for replies in found.transcripts.as_slice() {
        for reply in replies.as_slice() {
            out.extend_from_slice(b"@")?;
            push_decimal(out, session)?;
            out.extend_from_slice(b" ")?;
            if let Some(version) = reply.version {
                push_version(out, version)?;
            }
            out.extend_from_slice(b" ")?;
            out.extend_from_slice(reply.body.as_slice())?;
            out.extend_from_slice(b"\\n")?;
        }
        session += 1;
    }
    out.extend_from_slice(b"CASE\\n")
}

fn main(rt: HostRuntime) -> io::Result<()> {
    let alloc = rt.alloc();
    let mut bytes = Vec::new(alloc);
    rt.stdin().read_to_end(&mut bytes)?;
    let mut out = Bytes::new(alloc);
    let mut rest = bytes.as_slice();
    while let Some(end) = rest.iter().position(|b| *b == b'\\n') {
        let mut length = 0usize;
        let mut at = 0usize;
        while rest[at] != b' ' {
            length = length * 10 + (rest[at] - b'0') as usize;
            at += 1;
        }
        let schedule = &rest[at + 1..end];
        let input = &rest[end + 1..end + 1 + length];
        push_case(alloc, &mut out, input, schedule)?;
        rest = &rest[end + 1 + length..];
    }
    rt.stdout().write_all(out.as_slice())
}
"""

ROUND = "lwf"


def write_script(rng):
    """A file of a few spheres, a block, a tree, an assembly and an entity that isn't read."""
    model = Model()
    for _ in range(3):
        centre = [rng.randint(-2, 2) for _ in range(3)]
        model.add(158, 0, "158,%d.0,%s;" % (rng.randint(1, 2), ",".join("%d.0" % c for c in centre)))
    model.add(150, 0, "150,2.0,2.0,2.0;")
    model.add(180, 0, "180,7,-1,-3,1,-5,3,-7,%d;" % rng.randint(1, 3))
    model.add(184, 0, "184,2,9,1,0,0;")
    model.add(110, 0, "110,0.,0.,0.,1.,0.,0.;")
    return model


def question(rng):
    """A question, whether it is live, and how many cells it asks about."""
    e = rng.choice([1, 3, 5, 7, 9, 9, 9, 11, 11, 13, 15, 2])
    live = rng.random() < 0.5
    place = [rng.randint(-6, 6) / 2 for _ in range(3)]
    at = " ".join("%.1f" % c for c in place)
    kind = rng.choice(["point", "point", "point", "cell", "section", "volume", "bounds", "items", "newest"])
    cells = 1
    if kind == "point":
        words = "point %d %s" % (e, at)
    elif kind == "cell":
        words = "cell %d %s %s" % (e, at, " ".join("%.1f" % (c + 0.5) for c in place))
    elif kind == "section":
        words = "section %d %s 1 3 2" % (e, at)
        cells = 6
    elif kind in ("volume", "bounds"):
        words = "%s %d -3 -3 -3 3 3 3 1" % (kind, e)
        cells = 8
    else:
        words = "items %d" % e if kind == "items" else "newest"
        live = False
        cells = 0
    return ("live " if live else "") + words, live, cells


def change(rng):
    e = rng.choice([1, 3, 5, 7, 15, 17])
    sphere = "158 0 0 158,%d.,%d.,0.,0.;" % (rng.randint(1, 2), rng.randint(-2, 2))
    return rng.choice(["replace %d %s" % (e, sphere), "add %d %s" % (e, sphere), "drop %d" % e])


class Case:
    """A list of events, as the program takes it, and what the plain machine answers to it."""

    def __init__(self, seed, program):
        self.rng = random.Random(seed)
        self.program = program
        with tempfile.NamedTemporaryFile("w+") as out:
            write_script(self.rng).write(out)
            out.seek(0)
            self.file = out.read()
        self.script = []
        self.schedule = []
        self.runs = {}
        self.lines = dict.fromkeys(range(9), 0)
        self.staged = {session: [] for session in range(9)}
        self.commits = []
        self.log = []
        self.replies = {session: [] for session in range(9)}
        for _ in range(self.rng.randint(5, 60)):
            self.add_event()

    def afresh(self, version, lines):
        """The last reply to lines that session 2 has after the commits up to a version."""
        script = [line for batch in self.commits[:version] for line in batch]
        text = self.file + "".join("@1 %s\n" % line for line in script)
        text += "".join("@2 %s\n" % line for line in lines)
        run = subprocess.run([self.program, "replay"], input=text, capture_output=True, text=True)
        replies = run.stdout.split("\n@2 %d\n" % len(lines), 1)[1][: -len("END\n")].rstrip("\n").split("\n")
        return "\n".join(replies[len(lines) - 1 :]).split(" ", 1)

    def line(self, session, words):
        self.script.append("@%d %s" % (session, words))
        self.schedule.append("s0")
        self.lines[session] += 1

    def add_event(self):
        session = self.rng.randint(1, 3)
        run = self.runs.get(session)
        newest = len(self.commits)
        kind = self.rng.choice("qqccnlwflwfr" if run else "qqqccnlwf")
        if kind == "q":
            words, live, cells = question(self.rng)
            self.line(session, words)
            if run is None:
                body = self.afresh(newest, [words.removeprefix("live ")])[1]
                if cells == 0 or body.startswith("REFUSED"):
                    self.replies[session].append((newest, body))
                else:
                    self.runs[session] = [newest, live, cells, "l", body]
        elif kind == "c":
            for _ in range(self.rng.choice([0, 1, 1, 1, 2])):
                words = change(self.rng)
                self.line(session, words)
                self.staged[session].append(words)
            self.line(session, "commit")
            batch, self.staged[session] = [*self.staged[session], "commit"], []
            if run is None:
                version, body = self.afresh(newest, batch)
                if body == "COMMITTED":
                    self.commits.append(batch)
                    self.log.append((session, self.lines[session]))
                self.replies[session].append((version, body))
        elif kind == "n":
            self.schedule.append("n%d" % session)
            if run is None:
                self.replies[session].append((newest, "NEWEST"))
            elif run[1] and run[0] < newest:
                self.replies[session].append((run[0], "CANCELLED %d" % newest))
                del self.runs[session]
        else:
            for letter in ROUND if kind == "r" else kind:
                self.step(session, letter)

    def step(self, session, letter):
        self.schedule.append(letter + str(session))
        run = self.runs.get(session)
        if run is None or run[3] != letter:
            return
        run[3] = ROUND[(ROUND.index(letter) + 1) % 3]
        if letter == "f":
            run[2] -= 1
            if run[2] == 0:
                self.replies[session].append((run[0], run[4]))
                del self.runs[session]

    def input(self):
        text = self.file + "".join(line + "\n" for line in self.script)
        return "%d %s\n%s" % (len(text), "".join(self.schedule), text)

    def answer(self):
        """What the plain machine answers."""
        text = "".join("%d @%d %d\n" % (v, *entry) for v, entry in enumerate(self.log, 1))
        for session in range(9):
            text += "".join("@%d %s %s\n" % (session, *reply) for reply in self.replies[session])
        return text


def answers(cases):
    """What `run_events` answers to each case."""
    with tempfile.TemporaryDirectory() as folder:
        ignored = shutil.ignore_patterns("out")
        shutil.copytree(os.path.join(ROOT, "crates"), os.path.join(folder, "crates"), ignore=ignored)
        shutil.copy(os.path.join(ROOT, "HANDLES"), folder)
        with open(os.path.join(ROOT, "crates.txt")) as lines:
            write(folder, "crates.txt", lines.read() + LINE)
        write(folder, "crates/random_events/src/main.rt", PROGRAM)
        crate = os.path.join(folder, "crates/random_events")
        text = "".join(case.input() for case in cases)
        run = subprocess.run(["rt", "try"], cwd=crate, input=text, capture_output=True, text=True)
    found = run.stdout.split("CASE\n")[:-1]
    if len(found) != len(cases):
        raise SystemExit("rt try failed:\n" + run.stdout[-2000:] + run.stderr[-4000:])
    return found


def main():
    parser = argparse.ArgumentParser(
        usage=argparse.SUPPRESS,
        description=__doc__,
        formatter_class=argparse.RawDescriptionHelpFormatter,
    )
    parser.add_argument("--program", default=os.path.join(ROOT, "crates/solidd/out/solidd"))
    parser.add_argument("--from", dest="first", type=int, default=0)
    parser.add_argument("--to", type=int, default=100)
    args = parser.parse_args()
    seeds = range(args.first, args.to)
    cases = [Case(seed, args.program) for seed in seeds]
    for seed, case, found in zip(seeds, cases, answers(cases)):
        if found != case.answer():
            print("seed %d differs\n%s\nthe machine:\n%s\nafresh:\n%s" % (seed, case.input(), found, case.answer()))
            sys.exit(1)
    print("%d lists of events agree" % len(cases))


if __name__ == "__main__":
    main()
