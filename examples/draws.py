#!/usr/bin/env python3
"""The turns of three workers, computed from docs/FORMATS.md alone: nothing here is taken from the program.

    draws.py            prints them as they stand in the tests of crates/workload_gen
    draws.py --check    compares them with those tests, and ends with status 1 where they differ
"""

import re
import sys
from itertools import islice
from pathlib import Path

ALL = 1 << 64
FACTOR = 6364136223846793005
TESTS = Path(__file__).resolve().parent.parent / "crates/workload_gen/src/tests.rt"


def words(run, worker):
    """The words of a worker of a run, without end."""
    odd = 2 * worker + 1
    state = ((run + odd) * FACTOR + odd) % ALL
    while True:
        low = ((state ^ (state >> 18)) >> 27) % (1 << 32)
        by = state >> 59
        yield ((low >> by) | (low << (32 - by))) % (1 << 32)
        state = (state * FACTOR + odd) % ALL


def turns(run, worker, workers, rate, blocks, start, shares):
    """A worker's turns, without end: first block, blocks, whether it reads, when it is due, the share's place.

    A share is its place in the run, its weight, rdpct, seekpct and the blocks of a transfer.
    """
    word = words(run, worker)
    position = start
    turn = 0
    while True:
        left = next(word) % sum(weight for _, weight, _, _, _ in shares)
        for place, weight, rdpct, seekpct, many in shares:
            if left < weight:
                break
            left -= weight
        read = next(word) % 100 < rdpct
        at_random = next(word) % 100 < seekpct
        place_word = next(word)
        if at_random:
            block = place_word % (blocks // many) * many
        else:
            block = position if position + many <= blocks else 0
            position = (block + many) % blocks
        due = 0 if rate == 0 else (turn * workers + worker) * 1_000_000 // rate
        yield block, many, read, due, place
        turn += 1


# how many turns, and of which worker
CASES = {
    "at_random": (8, (42, 54, 55, 0, 16, 0, [(0, 100, 50, 100, 1)])),
    "in_order": (6, (2, 0, 1, 0, 16, 0, [(0, 100, 0, 0, 4)])),
    "three_shares": (12, (7, 2, 5, 300, 50, 45, [(0, 45, 30, 40, 4), (2, 35, 80, 10, 7), (3, 20, 100, 100, 3)])),
}


def wanted(count, task):
    return [f"turn({block}, {many}, {str(read).lower()}, {due}, {place})" for block, many, read, due, place in islice(turns(*task), count)]


def written(case):
    """The turns that a test has, with no underscores in numbers."""
    body = TESTS.read_text().split(f"fn {case}(")[1].split("\n}\n")[0]
    return [f"turn({numbers})" for numbers in re.findall(r"\bturn\((.*?)\)", re.sub(r"(?<=\d)_(?=\d)", "", body))]


def main():
    bad = 0
    for case, (count, task) in CASES.items():
        lines = wanted(count, task)
        if sys.argv[1:] == ["--check"]:
            same = written(case) == lines
            bad += not same
            print(case, "same" if same else "differs")
        else:
            print(case, *lines, sep="\n    ")
    return bad > 0


if __name__ == "__main__":
    sys.exit(main())
