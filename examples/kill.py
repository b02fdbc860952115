#!/usr/bin/env python3
"""Kills the built program (SIGKILL) at a random moment of `-j`, goes on by `-jr`, and asks `-jro` what is left.

    kill.py PROGRAM [--cases N] [--seconds N] [--seed S]

Each case is a parameter file with a run that goes on for long, over an empty folder or over what an earlier `-j` of the same stores left.
What `-jro` must print is computed from the files (formats.py, plan.py). Its status is never 1: it is 0 once the program said that its
journals are open, and before that 0, 8, or 12 where a journal's file isn't there yet. Where it is 0, half of the cases go on by `-jr` over
the same stores, up to three times, each killed as well or left to its end; then `-jro` is asked again, whose status must be 0 whatever
happened. Files and journals are on one file system, and only the program is killed, so this says nothing of syncs. No case starts once so
many seconds are over (20 unless given). Ends with status 1 where something differs.
"""

import argparse
import random
import re
import subprocess
import sys
import tempfile
import time
from pathlib import Path

import plan
from runs import FOLDERS


def some_stores(rng):
    """The lines of stores, and the size of their blocks."""
    size = rng.choice([512, 4096, 4096, 16384])
    many = rng.choice([1, 1, 2])
    return size, [f"sd=sd{i},lun=sd{i}.dat,size={64 * size},keyblock={size},threads={rng.choice([1, 2, 4])}" for i in range(1, many + 1)]


def parameters(rng, stores, turns):
    """A parameter file of these stores, whose run has so many turns a worker, or goes on for a minute."""
    size, lines = stores
    logs = rng.choice([1, 1, 2, 5, 300, None])
    head = [f"journal_sectors={logs}"] if logs else []
    if rng.random() < 0.3:
        head.append("validate=" + rng.choice(["no_preread", "read_after_write"]))
    works = []
    for i, part in enumerate(rng.choice([[100], [70, 30]])):
        many, reads, seek = rng.choice([1, 1, 2, 5]), rng.choice([0, 0, 40]), rng.choice([0, 100])
        works.append(f"wd=wd{i},sd=sd*,xfersize={many * size},rdpct={reads},seekpct={seek},skew={part}")
    end = f",turns={turns}" if turns else ""
    return "\n".join([*head, *lines, *works, f"rd=rd1,wd=wd*,elapsed=60,interval=60,iorate=max{end}"]) + "\n"


def run_for(program, words, folder, line, seconds):
    """Runs the program, kills it so many seconds after it printed a line, or after its start, and gives what it printed by then."""
    with (folder / "out").open("wb") as out:
        child = subprocess.Popen([program, *words], cwd=folder, stdin=subprocess.DEVNULL, stdout=out, stderr=subprocess.STDOUT)
        while line not in (folder / "out").read_text() and child.poll() is None:
            time.sleep(0.001)
        try:
            child.wait(timeout=seconds)
        except subprocess.TimeoutExpired:
            child.kill()
            child.wait()
    return (folder / "out").read_text()


def recovery(program, folder, text):
    """What `-jro` must print by the files that are there, its status, and what is wrong with what it does print, or None."""
    stores = plan.plan_of(text.encode())[0]
    journals = {s.journal: (folder / s.journal).read_bytes() for s in stores if (folder / s.journal).exists()}
    held = {s.path: (folder / s.path).read_bytes() for s in stores if (folder / s.path).exists()}
    wanted, status = plan.recovered_only(text.encode(), journals, lambda path: held.get(path, b""))
    done = subprocess.run([program, "-jro", "-f", "parm"], cwd=folder, stdin=subprocess.DEVNULL, capture_output=True, timeout=60)
    if (done.stdout.decode(), done.returncode, done.stderr) != (wanted, status, b""):
        return wanted, status, f"-jro: status {done.returncode}, printed {done.stdout!r}\n  wanted  {wanted!r}"
    return wanted, status, None


def after_kill(program, folder, text, said):
    """What `-jro` prints behind a killed `-j`, its status, and what is wrong with it, or None."""
    wanted, status, why = recovery(program, folder, text)
    stores = plan.plan_of(text.encode())[0]
    opened = all(f"opened {s.name} epoch 0\n" in said for s in stores)
    missing = any(not (folder / s.journal).exists() for s in stores)
    if why or status == 0 or not opened and (status == 8 or status == 12 and missing):
        return wanted, status, why
    return wanted, status, f"status {status} where it printed {said!r}: {wanted!r}"


def call(mode, rng):
    return [mode, *rng.choice([[], ["-v"], ["-vr"]]), "-f", "parm"]


def moment(rng, lines):
    """When to kill: now and then soon behind the start, mostly in the run."""
    if rng.random() < 0.25:
        return "", rng.uniform(0, 0.05)
    return rng.choice(lines), rng.choice([rng.uniform(0, 0.02), rng.uniform(0, 0.3)])


def beginning(before):
    """What `-jr` says before its runs, where `-jro` says this."""
    epochs = re.findall(r"(?m)^journal (\w+) epoch (\d+) ", before)
    return before.removesuffix("status 0\n") + "".join(f"opened {name} epoch {int(epoch) + 1}\n" for name, epoch in epochs)


def go_on(program, rng, folder, stores, before):
    """Goes on by `-jr` where `-jro` would say this: what `-jro` then says, whether it was killed, and what is wrong, or None."""
    killed = rng.random() < 0.6
    text = parameters(rng, stores, None if killed else rng.randint(1, 40))
    (folder / "parm").write_text(text)
    line, seconds = moment(rng, ["verified ", "opened ", f"opened sd{len(stores[1])} "]) if killed else ("", 60)
    said = run_for(program, call("-jr", rng), folder, line, seconds)
    wanted = beginning(before)
    if not (said.startswith(wanted) and said.endswith("\nstatus 0\n") or killed and wanted.startswith(said)):
        return before, killed, f"-jr{' killed' if killed else ''}: printed {said!r}\n  wanted  {wanted!r}\n{text}"
    after, status, why = recovery(program, folder, text)
    if status and not why:
        why = f"status {status} where it printed {said!r}: {after!r}"
    where = f"-jr, killed {seconds:.3f} seconds after {line or 'its start'}" if killed else "-jr"
    return after, killed, why and f"{where}: {why}\n{text}"


def a_case(program, rng, folder, counts):
    """A case: the status of the first `-jro`, and what is wrong, or None. It counts the commands that go on."""
    stores = some_stores(rng)
    if rng.random() < 0.5:
        text = parameters(rng, stores, rng.randint(1, 40))
        (folder / "parm").write_text(text)
        said = run_for(program, ["-j", "-f", "parm"], folder, "", 60)
        if not said.endswith("status 0\n"):
            return 0, f"the run that ends printed {said!r}\n{text}"
    text = parameters(rng, stores, None)
    (folder / "parm").write_text(text)
    line, seconds = moment(rng, [f"opened sd{len(stores[1])} "])
    said = run_for(program, call("-j", rng), folder, line, seconds)
    if "status" in said:
        return 0, f"it ended by itself, and printed {said!r}\n{text}"
    before, status, why = after_kill(program, folder, text, said)
    why = why and f"killed {seconds:.3f} seconds after {line or 'its start'}: {why}\n{text}"
    for _ in range(rng.randint(1, 3) if status == 0 and rng.random() < 0.5 else 0):
        if why is None:
            before, killed, why = go_on(program, rng, folder, stores, before)
            counts[killed] += 1
    return status, why


def main():
    options = argparse.ArgumentParser(description=__doc__.splitlines()[0])
    options.add_argument("program", type=lambda path: str(Path(path).resolve()))
    options.add_argument("--cases", type=int, default=30)
    options.add_argument("--seconds", type=int, default=20)
    options.add_argument("--seed", type=int, default=None)
    given = options.parse_args()
    # what a kill leaves is another thing each time, so by default the plans are too
    seed = time.time_ns() % 1_000_000 if given.seed is None else given.seed
    rng = random.Random(seed)
    seen, bad, on = {}, 0, [0, 0]
    until = time.monotonic() + given.seconds
    for number in range(given.cases):
        if time.monotonic() > until:
            break
        with tempfile.TemporaryDirectory(prefix="vdbench-kill-", dir=FOLDERS) as folder:
            status, why = a_case(given.program, rng, Path(folder), on)
        seen[status] = seen.get(status, 0) + 1
        if why:
            bad += 1
            print(f"kill: case {number} of seed {seed}: {why}")
    counts = ", ".join(f"{many} with status {status}" for status, many in sorted(seen.items()))
    print(f"kill: {sum(seen.values())} runs of seed {seed} killed, -jro: {counts}; went on by -jr {sum(on)} times, {on[1]} of these killed; {bad} differ")
    return bad > 0


if __name__ == "__main__":
    sys.exit(main())
