#!/usr/bin/env python3
"""Refuses each growth of memory of the built program in turn, and looks at how the command then ends and at what it leaves.

    growth.py PROGRAM [--most N]

The commands are `-s` over two stores, `-j` over a new store, and `-jr` over a store in which a write was in flight. Where a growth is
refused the command ends as it does without that, by `no memory` with status 20, or by the status of an object whose own growth that was (5,
6, 7 or 12); what it printed before its last lines is a front of the whole text. Behind `-j` and `-jr` the command `-jro` must end with 0,
with 8 where the journal's first gate wasn't written yet, or with 12 where its file isn't there, and with no corrupt line.

Growths are refused by a small library (malloc, calloc, realloc, aligned_alloc, posix_memalign) that cc makes, and that is loaded
before the program. Without cc, or where no growth of the program goes through it, this says so and ends with status 0. Ends with status 1
where something differs.
"""

import argparse
import os
import re
import shutil
import subprocess
import sys
import tempfile
from pathlib import Path

import formats as f
from rows import BEGUN, FIRST, RUN

SHIM = r"""
#define _GNU_SOURCE
#include <errno.h>
#include <stdlib.h>
#include <string.h>
#include <unistd.h>
static long seen, refused = -1;
static int begun;
__attribute__((constructor)) static void begin(void) {
  const char *which = getenv("REFUSED_GROWTH");
  refused = which ? atol(which) : -1;
  begun = 1;
}
static int is_refused(void) {
  if (!begun) return 0;
  if (__sync_add_and_fetch(&seen, 1) != refused) return 0;
  const char *told = getenv("GROWTH_TOLD");
  if (told) (void)!symlink("refused", told);
  errno = ENOMEM;
  return 1;
}
extern void *__libc_malloc(size_t);
extern void *__libc_calloc(size_t, size_t);
extern void *__libc_realloc(void *, size_t);
extern void *__libc_memalign(size_t, size_t);
void *malloc(size_t size) { return is_refused() ? NULL : __libc_malloc(size); }
void *calloc(size_t many, size_t size) { return is_refused() ? NULL : __libc_calloc(many, size); }
void *realloc(void *at, size_t size) { return is_refused() ? NULL : __libc_realloc(at, size); }
void *aligned_alloc(size_t to, size_t size) { return is_refused() ? NULL : __libc_memalign(to, size); }
int posix_memalign(void **at, size_t to, size_t size) {
  if (is_refused()) return ENOMEM;
  *at = __libc_memalign(to, size);
  return *at ? 0 : ENOMEM;
}
"""

OBJECTS = {5, 6, 7, 12}


def library(folder):
    """The library that refuses a growth, or None where it can't be made."""
    cc = shutil.which("cc") or shutil.which("gcc") or shutil.which("clang")
    if not cc:
        return None
    (folder / "growth.c").write_text(SHIM)
    done = subprocess.run([cc, "-O1", "-fPIC", "-shared", "-fno-builtin", "-o", folder / "growth.so", folder / "growth.c"], capture_output=True)
    return None if done.returncode else folder / "growth.so"


def with_micros_hidden(text):
    """Times differ from run to run."""
    return re.sub(r"micros \d+", "micros T", text)


def run(program, words, folder, shim=None, growth=0, told=None):
    """What a command prints and its status, where that growth is refused."""
    env = dict(os.environ)
    if shim:
        env.update(LD_PRELOAD=str(shim), REFUSED_GROWTH=str(growth), GROWTH_TOLD=str(told))
    done = subprocess.run([program, *words], cwd=folder, env=env, stdin=subprocess.DEVNULL, capture_output=True, timeout=60)
    return with_micros_hidden(done.stdout.decode()), done.returncode, done.stderr


def commands():
    """Words, and the files that are there before."""
    two = "sd=default,openflags=o_direct,threads=8\nsd=sd1,lun=/d/a,size=1g\nsd=sd2,lun=/d/b,size=1g\nwd=wd1,sd=sd*,xfersize=4k,rdpct=50\nrd=rd1,wd=wd1,iorate=max,elapsed=60,interval=1\n"
    one = FIRST + RUN.format(4)
    data = b"".join(f.block_image("sd1", block, key) for block, key in ((0, 1), (1, 1)))
    there = {"sd1.jnl": f.journal(2, 0, "sd1", [("settled", 0)] * 16, 1, BEGUN), "sd1.dat": data + bytes(14 * f.BLOCK)}
    yield ["-s", "-f", "parm"], {"parm": two.encode()}
    yield ["-j", "-f", "parm"], {"parm": one.encode()}
    yield ["-jr", "-f", "parm"], {"parm": one.encode(), **there}


def in_folder(files):
    """A new folder with these files."""
    folder = Path(tempfile.mkdtemp(prefix="growth-"))
    for name, bytes_of in files.items():
        (folder / name).write_bytes(bytes_of)
    return folder


def is_front(text, whole):
    """The lines are first ones of the whole text's."""
    lines, all_lines = text.splitlines(), whole.splitlines()
    return lines == all_lines[:len(lines)]


def wrong(words, status, text, whole, whole_status, recovered):
    """What is wrong with how a command ended, or None."""
    if status == whole_status:
        if text != whole:
            return "another text"
    elif status == 20:
        if not text.endswith("no memory\nstatus 20\n") or not is_front(text[:-len("no memory\nstatus 20\n")], whole):
            return "no front of the text before want of memory"
    elif status not in OBJECTS:
        return "a status of nothing that failed"
    if recovered and (recovered[1] not in (0, 8, 12, 20) or "corrupt sd1 block" in recovered[0]):
        return f"-jro ends with {recovered[1]}: {recovered[0]!r}"
    return None


def refuse_each(program, shim, words, files, most):
    """How many growths a command has, and the statuses behind each; ends with status 1 where something is wrong."""
    folder = in_folder(files)
    whole, whole_status, _ = run(program, words, folder)
    shutil.rmtree(folder)
    statuses = {}
    for growth in range(1, most + 1):
        folder = in_folder(files)
        told = folder / "told"
        text, status, err = run(program, words, folder, shim, growth, told)
        reached = told.is_symlink()
        recovered = run(program, ["-jro", "-f", "parm"], folder) if words[0] != "-s" else None
        why = "something on standard error" if err else wrong(words, status, text, whole, whole_status, recovered)
        shutil.rmtree(folder)
        if why:
            print(f"growth {growth} of {' '.join(words)}: status {status}, {why}\n  printed {text!r}\n  without {whole!r}")
            return None
        if not reached:
            return growth - 1, statuses
        statuses[status] = statuses.get(status, 0) + 1
    return most, statuses


def main():
    """Runs all commands."""
    parser = argparse.ArgumentParser(description=__doc__, formatter_class=argparse.RawDescriptionHelpFormatter)
    parser.add_argument("program")
    parser.add_argument("--most", type=int, default=400)
    given = parser.parse_args()
    program = str(Path(given.program).resolve())
    with tempfile.TemporaryDirectory() as made:
        shim = library(Path(made))
        if not shim:
            print("growth: skipped, there is no cc that makes a library")
            return 0
        many = 0
        for words, files in commands():
            told = refuse_each(program, shim, words, files, given.most)
            if told is None:
                return 1
            many += told[0]
            print(f"{' '.join(words)}: {told[0]} growths refused in turn, statuses " + ", ".join(f"{status} {n} times" for status, n in sorted(told[1].items())))
        if not many:
            print("growth: no growth of the program goes through the library")
    return 0


if __name__ == "__main__":
    sys.exit(main())
