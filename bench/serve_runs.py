#!/usr/bin/env python3
"""serve_runs.py [PROGRAM] [--runs N] [--tools FOLDER]

Runs `serve` on N inputs with random scripts of eight sessions, and says whether what it wrote is a lawful
outcome each time. The inputs (gen.py) and the judge (legal.py, which finds an order of the lines that the versions
in the replies demand, and has the yardstick replay it) are not part of the repository: their folder comes from
--tools, else from SOLIDD_TOOLS. The last line is 'N passed, M failed'; with no tools it says so and ends with 0.
"""
import argparse
import os
import subprocess
import sys
from concurrent.futures import ThreadPoolExecutor

HERE = os.path.dirname(os.path.abspath(__file__))
ROOT = os.path.dirname(HERE)


def problem_of(program, tools, seed):
    """What is wrong with one run, None where nothing is."""
    gen, legal = tools
    data = gen.make("serve", seed, 11)
    done = subprocess.run([program, "serve"], input=data, stdout=subprocess.PIPE)
    if done.returncode != 0:
        return "seed %d: status %d" % (seed, done.returncode)
    try:
        legal.check(data, done.stdout, 11)
    except legal.Wrong as wrong:
        return "seed %d: %s" % (seed, wrong)
    return None


def main():
    parser = argparse.ArgumentParser(
        usage=argparse.SUPPRESS, description=__doc__, formatter_class=argparse.RawDescriptionHelpFormatter
    )
    parser.add_argument("program", nargs="?", default=os.path.join(ROOT, "crates/solidd/out/solidd"))
    parser.add_argument("--runs", type=int, default=2_000)
    parser.add_argument("--tools", default=os.environ.get("SOLIDD_TOOLS", os.path.join(ROOT, "../shared/tools")))
    args = parser.parse_args()
    if not os.path.exists(os.path.join(args.tools, "legal.py")):
        print("no legal.py in %s: nothing is tried" % args.tools)
        return
    sys.path.insert(0, args.tools)
    tools = (__import__("gen"), __import__("legal"))
    program = os.path.abspath(args.program)
    with ThreadPoolExecutor(4) as pool:
        problems = [p for p in pool.map(lambda seed: problem_of(program, tools, seed), range(args.runs)) if p]
    for problem in problems:
        print(problem)
    print("%d passed, %d failed" % (args.runs - len(problems), len(problems)))
    sys.exit(1 if problems else 0)


if __name__ == "__main__":
    main()
