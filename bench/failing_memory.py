#!/usr/bin/env python3
"""failing_memory.py [PROGRAM] [--words WORD..] [--from-there-on] [--tools FOLDER]

Runs the program on one small input again and again; in the Nth run its Nth allocation fails, or with
--from-there-on each from the Nth on. Each run must end with status 4 and write nothing, or with the status and the
text of a run with ample memory, or, for `replay` and `serve`, with status 0 and a text of a lawful outcome in which
some lines are answered MEMORY. The input has questions of each kind, edits, commits that are made and refused, and
exports. The judge (legal.py) is not part of the repository: its folder comes from --tools, else from SOLIDD_TOOLS;
with no judge such texts are only counted. It needs `cc`, for the few lines of C that let an allocation fail.
The last line is 'N runs, M failed'.
"""
import argparse
import os
import subprocess
import sys
import tempfile
from concurrent.futures import ThreadPoolExecutor

HERE = os.path.dirname(os.path.abspath(__file__))
ROOT = os.path.dirname(HERE)

SHIM = r"""
#include <stdlib.h>
#include <unistd.h>
extern void *__libc_malloc(size_t);
extern void *__libc_realloc(void *, size_t);
static long first = -1, last, count;
static int fails(void) {
    if (first < 0) {
        const char *from = getenv("FAIL_FROM"), *to = getenv("FAIL_TO");
        first = from ? atol(from) : 0;
        last = to ? atol(to) : 0;
    }
    long now = __sync_add_and_fetch(&count, 1);
    if (now == first && write(2, "failed\n", 7) != 7) abort();
    return first > 0 && first <= now && now <= last;
}
void *malloc(size_t size) { return fails() ? 0 : __libc_malloc(size); }
void *realloc(void *old, size_t size) { return fails() ? 0 : __libc_realloc(old, size); }
"""

RECORDS = [
    (158, "158,1.0,0.0,0.0,0.0;"),
    (158, "158,1.0,5.0,0.0,0.0;"),
    (180, "180,3,-1,-3,1;"),
    (430, "430,5;"),
    (184, "184,2,1,3,0,0;"),
    (110, "110,0.,0.,0.,1.,0.,0.;"),
]

LINES = """@1 point 5 0 0 0
@1 cell 5 -0.25 -0.25 -0.25 0.25 0.25 0.25
@2 live section 5 0 -1 -1 1 2 2
@2 volume 1 -1 -1 -1 1 1 1 1
@3 bounds 3 4 -1 -1 6 1 1 1
@1 items 9
@1 newest
@1 replace 1 158 0 0 158,1,9,0,0;
@2 replace 3 158 0 0 158,0,5,0,0;
@1 commit
@2 commit
@1 point 5 0 0 0
@3 export
@3 point 11 0 0 0
@3 pint
hello
@2 drop 1
@2 commit
@2 add 13 158 0 0 158,2.5;
@2 commit
@2 point 13 2 0 0
@1 commit
@2 drop 13
@2 replace 7 430 0 0 430,1;
@2 commit
@1 export
@3 live point 7 9 0 0
"""


def small_input():
    """A file of a few entities, and a script behind it."""

    def card(text, section, number):
        return "%-72s%s%7d\n" % (text, section, number)

    count = len(RECORDS)
    cards = [card("Some entities.", "S", 1), card(",,;", "G", 1)]
    for place, (kind, _) in enumerate(RECORDS):
        first = "%8d%8d%40d%16s" % (kind, place + 1, 0, "00000000")
        second = "%8d%24d%8d" % (kind, 1, 0)
        cards += [card(first, "D", 2 * place + 1), card(second, "D", 2 * place + 2)]
    cards += [card(record, "P", place + 1) for place, (_, record) in enumerate(RECORDS)]
    cards.append(card("S%7dG%7dD%7dP%7d" % (1, 1, 2 * count, count), "T", 1))
    return ("".join(cards) + LINES).encode()


def without_lost_batches(legal, data, text):
    """The input and the text with the lines of each batch whose commit lacked memory made lines that are no
    command: nothing of such a batch is left, while the judge takes the commit alone as not there."""
    model, lines = legal.split_input(data, 8)
    log, replies = legal.read_output(text)
    for k in lines:
        batch = []
        for place, line in enumerate(lines[k]):
            word = line.split()[1:2]
            if word in ([b"replace"], [b"add"], [b"drop"]):
                batch.append(place)
            elif word == [b"commit"]:
                if replies[k][place] == (None, b"MEMORY"):
                    for lost in [*batch, place]:
                        lines[k][lost], replies[k][lost] = b"@%d lost" % k, (None, b"REFUSED UnknownCommand")
                batch = []
    script = b"".join(line + b"\n" for k in sorted(lines) for line in lines[k])
    told = b"LOG %d\n" % len(log) + b"".join(b"%d @%d %d\n" % (v, *entry) for v, entry in enumerate(log, 1))
    for k in sorted(replies):
        told += b"@%d %d\n" % (k, len(replies[k]))
        for version, body in replies[k]:
            told += (b"- " if version is None else b"%d " % version) + body + b"\n"
    return model + script, told + b"END\n"


def judge_of(tools):
    """What is wrong with a text, by legal.py; None where it isn't there."""
    if not os.path.exists(os.path.join(tools, "legal.py")):
        return None
    sys.path.insert(0, tools)
    legal = __import__("legal")

    def judge(data, text):
        try:
            legal.check(*without_lost_batches(legal, data, text), 11, memory=True)
        except legal.Wrong as wrong:
            return str(wrong) or "not lawful"
        return None

    return judge


class Runs:
    """Runs of a program over one input, and what was found of the texts so far."""

    def __init__(self, program, words, data, shim, to_end, judge):
        self.command, self.words, self.data = [program] + words, words, data
        self.shim, self.to_end, self.judge = shim, to_end, judge
        self.ample = subprocess.run(self.command, input=data, stdout=subprocess.PIPE)
        self.judged = {}
        self.kinds = {"memory": 0, "ample": 0, "lacking": 0}

    def problem(self, number):
        """Whether the run reached its allocation, and what is wrong with it, None where nothing is."""
        last = 1 << 60 if self.to_end else number
        env = dict(os.environ, LD_PRELOAD=self.shim, FAIL_FROM=str(number), FAIL_TO=str(last))
        done = subprocess.run(self.command, input=self.data, stdout=subprocess.PIPE, stderr=subprocess.PIPE, env=env)
        reached = b"failed" in done.stderr
        if done.returncode == 4:
            self.kinds["memory"] += 1
            return reached, "status 4, and it wrote" if done.stdout else None
        if (done.returncode, done.stdout) == (self.ample.returncode, self.ample.stdout):
            self.kinds["ample"] += 1
            return reached, None
        if done.returncode != 0 or self.words[0] not in ("replay", "serve"):
            return reached, "status %d, and other output" % done.returncode
        self.kinds["lacking"] += 1
        if b"\n- MEMORY\n" not in done.stdout and self.words[0] == "replay":
            return reached, "another text without MEMORY"
        if self.judge and done.stdout not in self.judged:
            self.judged[done.stdout] = self.judge(self.data, done.stdout)
        return reached, self.judged.get(done.stdout)


def main():
    parser = argparse.ArgumentParser(
        usage=argparse.SUPPRESS, description=__doc__, formatter_class=argparse.RawDescriptionHelpFormatter
    )
    parser.add_argument("program", nargs="?", default=os.path.join(ROOT, "crates/solidd/out/solidd"))
    parser.add_argument("--words", nargs="+", default=["replay"])
    parser.add_argument("--from-there-on", action="store_true")
    parser.add_argument("--jobs", type=int, default=2)
    parser.add_argument("--tools", default=os.environ.get("SOLIDD_TOOLS", os.path.join(ROOT, "../shared/tools")))
    args = parser.parse_args()
    judge = judge_of(os.path.abspath(args.tools))
    if judge is None:
        print("no legal.py in %s: no text is judged" % args.tools)
    with tempfile.TemporaryDirectory() as folder:
        source, shim = os.path.join(folder, "shim.c"), os.path.join(folder, "shim.so")
        with open(source, "w") as out:
            out.write(SHIM)
        subprocess.run(["cc", "-O1", "-shared", "-fPIC", "-o", shim, source], check=True)
        runs = Runs(os.path.abspath(args.program), args.words, small_input(), shim, args.from_there_on, judge)
        problems, number, going_on = [], 1, True
        with ThreadPoolExecutor(args.jobs) as pool:
            while going_on:
                batch = range(number, number + 50)
                for at, (reached, problem) in zip(batch, pool.map(runs.problem, batch)):
                    problems += ["allocation %d: %s" % (at, problem)] if problem else []
                    going_on = reached
                number += 50
    for problem in problems[:20]:
        print(problem)
    kinds = runs.kinds
    print("%(memory)d with status 4, %(ample)d as with ample memory, %(lacking)d with a reply MEMORY" % kinds)
    print("%d different texts were judged" % len(runs.judged))
    print("%d runs, %d failed" % (number - 1, len(problems)))
    sys.exit(1 if problems else 0)


if __name__ == "__main__":
    main()
