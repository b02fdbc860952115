#!/usr/bin/env python3
"""Measures `vdbench -s` over parameter files of 64 KiB to 1 MiB, beside `fio --parse-only` over job files of the same size.

    bench/plan.py [PROGRAM] [--rounds N]

The kinds of files:
    short      as many definitions as there may be, and short `default` ones, of which there may be any number; else comments
    long       lines of 4,096 bytes, each a run definition with one list of words
    patterns   lines of 4,096 bytes, each a run definition with a list of patterns over 64 names
    loops      runs by loops, 1,000 of them in 1 MiB; else comments

In each round each command runs once, one after the other; the best time of each counts. A start is the time over an empty file. What
vdbench prints is compared with examples/plan.py. Targets: the time grows by at most 1.3 times the growth of the size, from 64 KiB to
1 MiB as it is, and from 256 KiB to 1 MiB without the start, which would hide growth in short times; 1 MiB takes at most the time of fio.
"""

import argparse
import os
import shutil
import signal
import subprocess
import sys
import tempfile
import time
from pathlib import Path

HERE = Path(__file__).resolve().parent
sys.dont_write_bytecode = True
sys.path.insert(0, str(HERE.parent / "examples"))
import plan  # noqa: E402
from memory import peak_of  # noqa: E402

KIB = 1024
SIZES = (64 * KIB, 256 * KIB, 1024 * KIB)
MOST_GROWTH = 1.3
LINE = 4096


def filled(text, size, note):
    """The text with lines of notes behind it up to the size."""
    left = size - len(text)
    return text + note * (left // len(note)) + "#" * (left % len(note))


def long_line(start, word, end, separator=","):
    """A line of 4,096 bytes and its end: the start, one word again and again, and the end."""
    many = (LINE - len(start) - len(end) + len(separator)) // (len(word) + len(separator))
    line = start + separator.join([word] * many)
    return line + end + " " * (LINE - len(line) - len(end)) + "\n"


def stores(many):
    return "".join(f"sd=sd{i},lun=/d/{i},size=1m,threads=1\n" for i in range(many))


def short_file(size):
    share = size / SIZES[-1]
    text = stores(int(64 * share)) + "".join(f"wd=wd{i},sd=sd0\n" for i in range(int(64 * share)))
    text += "".join(f"rd=rd{i},wd=wd{i % int(64 * share)}\n" for i in range(int(256 * share)))
    kinds = ("sd=default,threads=8\n", "rd=default,interval=2\n", "wd=default,rdpct=50\n", "hd=default,jvms=2\n")
    while len(text) < size * 3 // 4:
        text += "".join(kinds)
    return filled(text, size, "* a note\n")


def long_file(size):
    text = stores(1) + "wd=wd1,sd=sd*\n"
    number = 0
    while len(text) + LINE + 1 <= size:
        text += long_line(f"rd=rd{number},wd=wd1,openflags=(", "o_direct", ")")
        number += 1
    return filled(text, size, "#\n")


def pattern_file(size):
    text = stores(1) + "".join(f"wd=wd{i},sd=sd0\n" for i in range(64))
    number = 0
    while len(text) + LINE + 1 <= size:
        text += long_line(f"rd=rd{number},wd=(", f"wd{number * 4 % 64}*", ")")
        number += 1
    return filled(text, size, "#\n")


def loop_file(size):
    many = int(1000 * size / SIZES[-1])
    text = stores(4) + "wd=wd1,sd=sd*,xfersize=4k\nwd=wd2,sd=sd1,xfersize=8k,rdpct=0\n"
    if many == 1000:
        text += f"rd=rd1,wd=wd*,forthreads=({','.join('12345678')}),forxfersize=(4k,8k,16k,32k,64k)," + \
                f"\n  forrdpct=({','.join(str(i) for i in range(25))})\n"
    else:
        text += f"rd=rd1,wd=wd*,forrdpct=({','.join(str(i % 101) for i in range(many))})\n"
    return filled(text, size, "# a note\n")


def fio_file(kind, size):
    """A job file with as many sections as the parameter file has definitions that are counted, in lines as long."""
    if kind in ("short", "loops"):
        many = int((400 if kind == "short" else 1000) * size / SIZES[-1])
        return filled("".join(f"[j{i}]\nrw=read\nsize=1m\n" for i in range(many)), size, "; a note\n")
    text = ""
    number = 0
    while len(text) + LINE + 40 <= size:
        text += f"[j{number}]\nsize=1m\n" + long_line("filename=", "sd1", "", ":")
        number += 1
    return filled(text, size, "#\n")


KINDS = {"short": short_file, "long": long_file, "patterns": pattern_file, "loops": loop_file}


def seconds_of(words, folder, good):
    start = time.perf_counter()
    done = subprocess.run(words, cwd=folder, stdin=subprocess.DEVNULL, stdout=subprocess.PIPE, stderr=subprocess.PIPE)
    taken = time.perf_counter() - start
    if done.returncode != good:
        sys.exit(f"{' '.join(words)} ended with status {done.returncode}: {done.stdout[-300:]!r} {done.stderr[-300:]!r}")
    return taken, done.stdout


def make_files(folder):
    """The parameter files and job files, and what is wanted of each parameter file."""
    (folder / "empty").write_bytes(b"")
    wanted = {"empty": plan.shown(b"")}
    for kind, make in KINDS.items():
        for size in SIZES:
            name = f"{kind}-{size // KIB}"
            data = make(size).encode()
            if len(data) != size:
                sys.exit(f"{name} has {len(data)} bytes")
            (folder / name).write_bytes(data)
            wanted[name] = plan.shown(data)
            if wanted[name][1] != 0:
                sys.exit(f"{name} has no plan: {wanted[name][0]}")
        (folder / f"{kind}.fio").write_text(fio_file(kind, SIZES[-1]))
    return wanted


def measure(program, folder, rounds):
    wanted = make_files(folder)
    commands = {name: ([program, "-s", "-f", name], status) for name, (_, status) in wanted.items()}
    fio = shutil.which("fio") is not None
    if fio:
        (folder / "empty.fio").write_text("[j]\nsize=1m\n")
        for kind in (*KINDS, "empty"):
            commands[f"fio {kind}"] = (["fio", "--parse-only", f"{kind}.fio"], 0)
    best = dict.fromkeys(commands, float("inf"))
    for _ in range(rounds):
        for name, (words, status) in commands.items():
            taken, printed = seconds_of(words, folder, status)
            if name in wanted and printed != wanted[name][0].encode():
                sys.exit(f"vdbench -s -f {name} printed {printed[:300]!r}, which examples/plan.py doesn't")
            best[name] = min(best[name], taken)
    print(f"best of {rounds} rounds, {os.cpu_count()} processors; a start is {1000 * best['empty']:.2f} ms of vdbench"
          + (f", {1000 * best['fio empty']:.2f} ms of fio" if fio else ""))
    report(program, folder, best, fio)


def report(program, folder, best, fio):
    print(f"{'':10} {'64 KiB':>10} {'256 KiB':>10} {'1 MiB':>10} {'growth by 16':>13} {'net by 4':>9} {'fio':>10} {'vdbench to it':>14} {'memory':>9}")
    missed = []
    for kind in KINDS:
        small, middle, large = (best[f"{kind}-{size // KIB}"] for size in SIZES)
        growth, net = large / small, (large - best["empty"]) / max(middle - best["empty"], 0.0001)
        peak = max(peak_of([program, "-s", "-f", f"{kind}-{SIZES[-1] // KIB}"], folder) for _ in range(5)) / KIB
        other = best.get(f"fio {kind}")
        beside = f"{1000 * other:7.1f} ms {large / other:14.3f}" if fio else f"{'none':>10} {'':14}"
        print(f"{kind:10} {1000 * small:7.2f} ms {1000 * middle:7.2f} ms {1000 * large:7.2f} ms {growth:13.1f} {net:9.1f} {beside} {peak:5.1f} MiB")
        if growth > MOST_GROWTH * 16 or net > MOST_GROWTH * 4:
            missed.append(f"growth of {kind}")
        if fio and large > other:
            missed.append(f"{kind} beside fio")
    print(f"targets: growth at most {MOST_GROWTH * 16:.1f}, net at most {MOST_GROWTH * 4:.1f}; at most the time of fio"
          + ("" if fio else ", not measured, it isn't installed") + f": {'MISSED, ' + ', '.join(missed) if missed else 'met'}")


def main():
    parser = argparse.ArgumentParser()
    parser.add_argument("program", nargs="?", default=str(HERE.parent / "crates/vdbench/out/vdbench"))
    parser.add_argument("--rounds", type=int, default=15)
    options = parser.parse_args()
    program = Path(options.program).resolve()
    if not os.access(program, os.X_OK):
        print(f"bench: skipped, there is no program {program}")
        return 0
    signal.signal(signal.SIGTERM, lambda number, frame: sys.exit("bench: stopped"))
    folder = Path(tempfile.mkdtemp(prefix="vdbench-bench-"))
    try:
        measure(str(program), folder, options.rounds)
    finally:
        shutil.rmtree(folder, ignore_errors=True)
    return 0


if __name__ == "__main__":
    sys.exit(main())
