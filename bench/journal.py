#!/usr/bin/env python3
"""Measures the journal beside `dd`, in one folder.

    bench/journal.py [PROGRAM] [--folder FOLDER] [--records N] [--rounds N]

In each round each program runs once, one after the other; printed are the medians and their ratios, with the targets.

- Appends with a flush each, beside as many writes of 512 bytes by `dd oflag=dsync`. Both write over sectors of a file that has them.
- Appends with a flush behind each thirtieth, which is one write and one sync for thirty records. Told by `strace`, where it is installed.
- A journal of the greatest geometry made new, 128 MiB, beside `dd conv=fdatasync` of as many bytes, by writes of 512 bytes as dd makes them
  unless it is told otherwise, and by writes of 64 KiB. All write over a file that is there.

Status 1 says that a target was missed. The default folder is the system's for temporary files; one that is held in memory says nothing of syncs.
"""

import argparse
import os
import re
import shutil
import statistics
import subprocess
import sys
import tempfile
import time
from pathlib import Path

HERE = Path(__file__).resolve().parent
SECTOR = 512
BLOCKS = 16
LOG_SECTORS = 4096
GREATEST_BLOCKS = 16_777_216
GREATEST_LOG = 65_536
GREATEST_SECTORS = 262_146
LEAST_RATE = 0.8
MOST_TIME = 2.0


def seconds_of(words, folder):
    start = time.perf_counter()
    done = subprocess.run(words, cwd=folder, stdin=subprocess.DEVNULL, stdout=subprocess.DEVNULL, stderr=subprocess.PIPE)
    seconds = time.perf_counter() - start
    if done.returncode != 0:
        sys.exit(f"{' '.join(words)} ended with status {done.returncode}: {done.stderr[:400]!r}")
    return seconds


def appends(program, records, each):
    return [program, "append", "small", str(BLOCKS), str(LOG_SECTORS), str(records), str(each)]


def calls_of(program, folder, records, each):
    """The writes and syncs of so many appends, beside those of an opening without one; None where strace isn't there."""
    if shutil.which("strace") is None:
        return None
    counts = []
    for some in (0, records):
        words = ["strace", "-f", "-c", "-o", "calls", *appends(program, some, each)]
        seconds_of(words, folder)
        text = (folder / "calls").read_text()
        counts.append([sum(int(line.split()[3]) for line in text.splitlines() if re.search(rf"\s{name}$", line)) for name in ("pwrite64", "fdatasync")])
    return tuple(after - before for before, after in zip(*counts))


def medians(calls, folder, rounds):
    taken = {name: [] for name in calls}
    for _ in range(rounds):
        for name, words in calls.items():
            taken[name].append(seconds_of(words, folder))
    return {name: statistics.median(found) for name, found in taken.items()}


def measure(program, folder, records, rounds):
    seconds_of([program, "make", "small", str(BLOCKS), str(LOG_SECTORS)], folder)
    with (folder / "plain").open("wb") as out:
        out.write(bytes(SECTOR * records))
        os.fsync(out.fileno())
    sync = ["dd", "if=/dev/zero", "of=plain", f"bs={SECTOR}", f"count={records}", "oflag=dsync", "conv=notrunc"]
    own = medians({"none": appends(program, 0, 1), "each": appends(program, records, 1), "shared": appends(program, records, 30), "dd": sync}, folder, rounds)
    each = records / (own["each"] - own["none"])
    plain = records / own["dd"]
    print(f"{rounds} rounds of {records} records, {os.cpu_count()} processors; opening alone: {own['none']:.3f} seconds, not counted")
    print(f"append and flush:         {each:10.0f} a second")
    print(f"dd oflag=dsync, 512 bytes:{plain:10.0f} a second")
    print(f"ratio: {each / plain:.2f}, wanted at least {LEAST_RATE}")
    print(f"append, flush each 30th:  {records / max(own['shared'] - own['none'], 1e-9):10.0f} a second")
    calls = calls_of(program, folder, 30, 30)
    print(f"30 appends and a flush: {calls[0]} writes, {calls[1]} syncs, wanted 1 and 1" if calls else "30 appends and a flush: there is no strace")

    make = [program, "make", "great", str(GREATEST_BLOCKS), str(GREATEST_LOG)]
    copy = ["dd", "if=/dev/zero", "of=bytes", f"count={GREATEST_SECTORS * SECTOR}", "iflag=count_bytes", "conv=notrunc,fdatasync"]
    seconds_of(make, folder)
    seconds_of(copy, folder)
    great = medians({"make": make, "dd": copy, "long": [*copy, "bs=64k"]}, folder, rounds)
    print(f"a journal of 128 MiB made:    {great['make']:.3f} seconds")
    print(f"dd conv=fdatasync, 512 bytes: {great['dd']:.3f} seconds")
    print(f"dd conv=fdatasync, 64 KiB:    {great['long']:.3f} seconds")
    print(f"ratio: {great['make'] / great['dd']:.2f}, wanted at most {MOST_TIME}; to writes of 64 KiB: {great['make'] / great['long']:.2f}")
    missed = each / plain < LEAST_RATE or great["make"] / great["dd"] > MOST_TIME or (calls is not None and calls != (1, 1))
    print("bench: beyond a target" if missed else "bench: within the targets")
    return 1 if missed else 0


def main():
    parser = argparse.ArgumentParser()
    parser.add_argument("program", nargs="?", default=str(HERE.parent / "crates/journal_bench/out/journal_bench"))
    parser.add_argument("--folder", default=None)
    parser.add_argument("--records", type=int, default=3000)
    parser.add_argument("--rounds", type=int, default=5)
    options = parser.parse_args()
    program = Path(options.program).resolve()
    if not os.access(program, os.X_OK):
        print(f"bench: skipped, there is no program {program}")
        return 0
    with tempfile.TemporaryDirectory(dir=options.folder) as folder:
        return measure(str(program), Path(folder), options.records, options.rounds)


if __name__ == "__main__":
    sys.exit(main())
