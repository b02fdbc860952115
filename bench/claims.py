#!/usr/bin/env python3
"""Measures `claim_table`: claims and releases a second beside the same loop over `Mutex<Vec<bool>>`, and memory.

    bench/claims.py [PROGRAM] [--rounds N] [--blocks N]

In each round the two programs run one after the other, over blocks of each thread's own and over shared ones, with 1, 2 and 4 threads;
printed are the medians and their ratios. `bench/claims/mutex.rs` is built by rustc; without rustc only the table is timed. Memory is
the resident size of a table, with the list of its passes and its book, less that of passes and book alone, by the block. A slot holds a
pass and the tag that says that it is there; what is left beyond the slots is the words, wanted at most 2 bytes a block, else the status
is 1.
"""

import argparse
import os
import re
import shutil
import statistics
import subprocess
import sys
import tempfile
from pathlib import Path

sys.dont_write_bytecode = True
from memory import held_by  # noqa: E402

HERE = Path(__file__).resolve().parent
MODES = ("disjoint", "shared")
THREADS = (1, 2, 4)
PATIENCE = 600
# Bytes of a pass of the program's, and of a slot that holds one, with its tag.
PASS, SLOT = 8, 16
# Bytes a block wanted at most in words. What the system counts has a little besides, as the stack and the program's pages.
WORDS, BESIDES = 2, 0.1


def run(program, mode, threads):
    """Claims a second, and the part of them that met a busy block."""
    done = subprocess.run([program, mode, str(threads)], stdin=subprocess.DEVNULL, stdout=subprocess.PIPE, timeout=PATIENCE, text=True)
    line = re.fullmatch(r"claims (\d+) had (\d+) micros (\d+)\n", done.stdout)
    if done.returncode != 0 or not line:
        sys.exit(f"{program} {mode} {threads} ended with status {done.returncode}: {done.stdout[:400]!r}")
    claims, had, micros = map(int, line.groups())
    if had > claims or (mode == "disjoint" and had != claims):
        sys.exit(f"{program} {mode} {threads} had {had} of {claims} claims")
    return claims / micros * 1e6, 1 - had / claims


def mutex_program(folder):
    """The other program, where it can be built."""
    if not shutil.which("rustc"):
        return None
    program = Path(folder) / "mutex"
    done = subprocess.run(["rustc", "--edition", "2021", "-C", "opt-level=3", "-o", str(program), str(HERE / "claims/mutex.rs")])
    return str(program) if done.returncode == 0 else None


def time_all(programs, rounds):
    rates = {}
    for _ in range(rounds):
        for mode in MODES:
            for threads in THREADS:
                for name, program in programs.items():
                    rates.setdefault((mode, threads, name), []).append(run(program, mode, threads))
    for mode in MODES:
        for threads in THREADS:
            medians = {name: [statistics.median(part) for part in zip(*rates[mode, threads, name])] for name in programs}
            text = ", ".join(f"{name} {rate / 1e6:6.2f} million a second, {busy:6.2%} busy" for name, (rate, busy) in medians.items())
            if "mutex" in medians:
                text += f", ratio {medians['table'][0] / medians['mutex'][0]:.2f}"
            print(f"{mode:8} {threads} threads: {text}")


def memory(program, blocks):
    alone, _ = held_by([program, "passes", str(blocks)], patience=PATIENCE)
    whole, most = held_by([program, "table", str(blocks)], patience=PATIENCE)
    if alone == 0 or whole == 0:
        sys.exit("the memory wasn't seen")
    a_block = {"passes and book": alone, "words and slots": whole - alone, "all": whole, "all, at most while the table is made": most}
    print(f"{blocks} blocks, resident bytes a block: " + ", ".join(f"{name} {kib * 1024 / blocks:.2f}" for name, kib in a_block.items()))
    words = (whole - alone) * 1024 / blocks - SLOT
    within = words <= WORDS + BESIDES
    print(f"of these a slot {SLOT}, for a pass of {PASS} and its tag, and words {words:.2f}, wanted at most {WORDS}: {'met' if within else 'missed'}")
    return within


def main():
    parser = argparse.ArgumentParser()
    parser.add_argument("program", nargs="?", default=str(HERE.parent / "crates/bench_claims/out/bench_claims"))
    parser.add_argument("--rounds", type=int, default=5)
    parser.add_argument("--blocks", type=int, default=16777216)
    options = parser.parse_args()
    program = Path(options.program).resolve()
    if not os.access(program, os.X_OK):
        print(f"bench: skipped, there is no program {program}")
        return 0
    with tempfile.TemporaryDirectory() as folder:
        programs = {"table": str(program)}
        mutex = mutex_program(folder)
        if mutex:
            programs["mutex"] = mutex
        else:
            print("bench: there is no rustc, so only the table is timed")
        print(f"{options.rounds} rounds, {os.cpu_count()} processors")
        time_all(programs, options.rounds)
    return 0 if memory(str(program), options.blocks) else 1


if __name__ == "__main__":
    sys.exit(main())
