#!/usr/bin/env python3
"""Measures `vdbench -sim n` at 100,000 and at 1,000,000 steps.

    bench/simulate.py [PROGRAM] [--rounds N]

In each round both run once, one after the other; printed are the medians, their ratio, which is about 10 where the time grows as the
steps do, and the greatest resident memory of the longer one, from a run of its own. Status 1 says that the longer one took more than
10 seconds or 64 MiB. Whether the counts are right is for examples/simulate.py to say; here they must only be the same in each round.
"""

import argparse
import os
import re
import statistics
import subprocess
import sys
import time
from pathlib import Path

sys.dont_write_bytecode = True
from memory import peak_of  # noqa: E402

HERE = Path(__file__).resolve().parent
SHORT = 100000
LONG = 1000000
MOST_SECONDS = 10
MOST_MIB = 64
PATIENCE = 20 * MOST_SECONDS  # where the time grows faster than the steps, a run is given up after so many seconds


def run(program, steps):
    """Seconds and standard output of one run."""
    start = time.perf_counter()
    try:
        done = subprocess.run([program, "-sim", str(steps)], stdin=subprocess.DEVNULL, stdout=subprocess.PIPE, timeout=PATIENCE)
    except subprocess.TimeoutExpired:
        sys.exit(f"-sim {steps} didn't end in {PATIENCE} seconds")
    seconds = time.perf_counter() - start
    line = rb"sim %d taken \d+ idle \d+ ends \d+ stops \d+ wrong 0\nstatus 0\n" % steps
    if done.returncode != 0 or not re.fullmatch(line, done.stdout):
        sys.exit(f"-sim {steps} ended with status {done.returncode}: {done.stdout[:400]!r}")
    return seconds, done.stdout


def main():
    parser = argparse.ArgumentParser()
    parser.add_argument("program", nargs="?", default=str(HERE.parent / "crates/vdbench/out/vdbench"))
    parser.add_argument("--rounds", type=int, default=5)
    options = parser.parse_args()
    program = Path(options.program).resolve()
    if not os.access(program, os.X_OK):
        print(f"bench: skipped, there is no program {program}")
        return 0
    return measure(str(program), options.rounds)


def measure(program, rounds):
    taken = {SHORT: [], LONG: []}
    texts = {SHORT: set(), LONG: set()}
    for _ in range(rounds):
        for steps in taken:
            seconds, text = run(program, steps)
            taken[steps].append(seconds)
            texts[steps].add(text)
    for steps, found in texts.items():
        if len(found) > 1:
            sys.exit(f"-sim {steps} printed {sorted(found)!r}")
    peak = peak_of([program, "-sim", str(LONG)], patience=PATIENCE) / 1024
    short = statistics.median(taken[SHORT])
    long = statistics.median(taken[LONG])
    print(f"{rounds} rounds, {os.cpu_count()} processors")
    print(f"-sim {SHORT:7}: {short:7.3f} seconds")
    print(f"-sim {LONG:7}: {long:7.3f} seconds, wanted at most {MOST_SECONDS}")
    print(f"ratio: {long / short:.2f}, wanted about {LONG // SHORT}")
    if peak == 0:
        sys.exit("the memory wasn't seen")
    print(f"peak resident memory: {peak:.1f} MiB, wanted at most {MOST_MIB}")
    beyond = long > MOST_SECONDS or peak > MOST_MIB
    print("bench: beyond a limit" if beyond else "bench: within the limits")
    return 1 if beyond else 0


if __name__ == "__main__":
    sys.exit(main())
