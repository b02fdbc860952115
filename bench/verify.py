#!/usr/bin/env python3
"""Measures `vdbench -jro` over a store whose blocks are all settled, beside other programs on the same file.

    bench/verify.py [PROGRAM] [--kib N] [--rounds N]

The store, its journal, a second copy of the data and the files that fio checks stand in the system's folder for temporary files, which is removed at the end.
All files have one size and are read once before the first round. In each round each program runs once, one after the other; printed
are the medians, their ratios, the targets and the greatest resident memory of vdbench.

fio, where it is installed, reads files that it wrote itself, 4 KiB at a time: one whose blocks have a known pattern, and one with a
checksum for each sector. Its time is what it tells of its reads, without its start; that of the others is of the whole program.
"""

import argparse
import json
import os
import shutil
import signal
import statistics
import subprocess
import sys
import tempfile
import time
from pathlib import Path

HERE = Path(__file__).resolve().parent
OWN = "vdbench -jro"
CMP = "cmp of two copies"
CHECKSUMS = "fio verify=crc32c"
sys.dont_write_bytecode = True
sys.path.insert(0, str(HERE.parent / "examples"))
import formats as f  # noqa: E402
from memory import peak_of  # noqa: E402


def write_data(path, name, first, last):
    """The blocks from first to last - 1, each with the key of its number."""
    with path.open("r+b") as out:
        out.seek(first * f.BLOCK)
        for block in range(first, last):
            out.write(f.block_image(name, block, block % f.LAST_KEY + 1))


def make_store(folder, kib):
    """The parameter file, the journal and the data, written by one process a processor."""
    blocks = kib // 4
    (folder / "parm").write_bytes(f.parameters("sd1", "data", kib))
    entries = [("settled", block % f.LAST_KEY + 1) for block in range(blocks)]
    (folder / "sd1.jnl").write_bytes(f.journal(2, 1, "sd1", entries, 4096, []))
    data = folder / "data"
    data.write_bytes(b"")
    os.truncate(data, blocks * f.BLOCK)
    lanes = os.cpu_count() or 1
    children = []
    for lane in range(lanes):
        child = os.fork()
        if child == 0:
            status = 1
            try:
                write_data(data, "sd1", lane * blocks // lanes, (lane + 1) * blocks // lanes)
                status = 0
            finally:
                os._exit(status)
        children.append(child)
    if any([os.waitpid(child, 0)[1] for child in children]):
        sys.exit("the data wasn't written")
    shutil.copyfile(data, folder / "copy")
    return blocks


def fio_words(kib, kind, check):
    """How fio is called for one of its files: a plain read or write call for each block, and the pages that are in memory stay there."""
    return ["fio", "--output-format=json", "--name=check", f"--filename={kind}", f"--size={kib}k", "--bs=4k", "--ioengine=psync",
            "--direct=0", "--invalidate=0", "--thread", *check]


def fio_checks(folder, kib):
    """The calls of fio by which its files are checked, after they were written; none where it isn't installed."""
    if shutil.which("fio") is None:
        return {}
    kinds = {
        "fio verify=pattern": ("pattern", ["--verify=pattern", "--verify_pattern=0x3c5a7e91"]),
        CHECKSUMS: ("checksums", ["--verify=crc32c", "--verify_interval=512"]),
    }
    calls = {}
    for name, (kind, check) in kinds.items():
        run(fio_words(kib, kind, ["--rw=write", "--do_verify=0", *check]), folder)
        calls[name] = fio_words(kib, kind, ["--rw=read", *check])
    return calls


def fio_seconds(text, size):
    """How long fio read, as it tells."""
    job = json.loads(text)["jobs"][0]
    if job["error"] or job["read"]["io_bytes"] != size:
        sys.exit(f"fio ended with error {job['error']} after {job['read']['io_bytes']} bytes")
    return job["read"]["runtime"] / 1000


def run(words, folder):
    """Seconds and standard output of a program."""
    start = time.perf_counter()
    done = subprocess.run(words, cwd=folder, stdin=subprocess.DEVNULL, stdout=subprocess.PIPE)
    seconds = time.perf_counter() - start
    if done.returncode != 0:
        sys.exit(f"{words[0]} ended with status {done.returncode}: {done.stdout[:400]!r}")
    return seconds, done.stdout


def read_once(folder):
    for path in folder.iterdir():
        with path.open("rb") as file:
            while file.read(1 << 20):
                pass


def main():
    parser = argparse.ArgumentParser()
    parser.add_argument("program", nargs="?", default=str(HERE.parent / "crates/vdbench/out/vdbench"))
    parser.add_argument("--kib", type=int, default=512 * 1024)
    parser.add_argument("--rounds", type=int, default=5)
    options = parser.parse_args()
    program = Path(options.program).resolve()
    if not os.access(program, os.X_OK):
        print(f"bench: skipped, there is no program {program}")
        return 0
    signal.signal(signal.SIGTERM, lambda number, frame: sys.exit("bench: stopped"))
    folder = Path(tempfile.mkdtemp(prefix="vdbench-bench-"))
    try:
        measure(str(program), folder, options)
    finally:
        shutil.rmtree(folder, ignore_errors=True)
    return 0


def measure(program, folder, options):
    blocks = make_store(folder, options.kib)
    size = blocks * f.BLOCK
    commands = {
        OWN: [program, "-jro", "-f", "parm"],
        CMP: ["cmp", "data", "copy"],
        "sha256sum": ["sha256sum", "data"],
        "cat to nowhere": ["sh", "-c", "cat data >/dev/null"],
        **fio_checks(folder, size // 1024),
    }
    read_once(folder)
    wanted = (f"journal sd1 epoch 1 records 0\n"
              f"verified sd1 blocks {blocks} corrupt 0 pending 0 bad 0 faults 0\nstatus 0\n").encode()
    taken = {name: [] for name in commands}
    for _ in range(options.rounds):
        for name, words in commands.items():
            seconds, text = run(words, folder)
            if name == OWN and text != wanted:
                sys.exit(f"vdbench printed {text[:400]!r}, wanted {wanted!r}")
            taken[name].append(fio_seconds(text, size) if words[0] == "fio" else seconds)
    peak = peak_of(commands[OWN], folder)
    median = {name: statistics.median(seconds) for name, seconds in taken.items()}
    report(blocks, options.rounds, median)
    print(f"peak resident memory of vdbench: {peak / 1024:.1f} MiB")


def report(blocks, rounds, median):
    size = blocks * f.BLOCK / 1e6
    own = median[OWN]
    print(f"{blocks} blocks of {f.BLOCK} bytes, all settled, {size:.0f} MB, warm; medians of {rounds} rounds, {os.cpu_count()} processors")
    print(f"{'':18} {'seconds':>9} {'MB/s':>8} {'speed of vdbench to it':>24}")
    for name, seconds in median.items():
        print(f"{name:18} {seconds:9.3f} {size / seconds:8.0f} {seconds / own:24.2f}")
    for name, least in ((CMP, 0.9), (CHECKSUMS, 1.0)):
        if name in median:
            ratio = median[name] / own
            print(f"target: at least {least:.1f} of {name}: {ratio:.2f}, {'met' if ratio >= least else 'MISSED'}")
        else:
            print(f"target: at least {least:.1f} of {name}: not measured, fio isn't installed")


if __name__ == "__main__":
    sys.exit(main())
