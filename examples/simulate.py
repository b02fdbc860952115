#!/usr/bin/env python3
"""The schedule of `vdbench -sim n`, computed from its definition alone: nothing here is taken from the program.

    simulate.py N..                 prints the line of each N
    simulate.py --check PROGRAM     compares PROGRAM with these lines, and its answers to words that are no command

A check prints each case that differs and one line at the end, and ends with status 1 where a case differs.
"""

import argparse
import os
import subprocess
import sys
from pathlib import Path

BLOCKS = 64
SECTORS = 8
WORKERS = 4
LAST_KEY = 126
BAD = ()
USAGE = "usage: vdbench -f file [-s or -v or -vr or -j or -jr or -jro] [-o dir], or vdbench -sim n"
LONGEST = 300  # seconds after which a run of the program counts as one that doesn't end


# ---- entries: an entry is the tuple of the keys that it permits, so (k,) is settled, (k, next) pending, () bad

def next_key(key):
    return key % LAST_KEY + 1


def begun(entry):
    (old,) = entry  # a Begin is legal at a settled entry only
    return (old, next_key(old))


def ended(entry):
    _, new = entry  # an End is legal at a pending entry only
    return (new,)


def matches(sector, key):
    """Key 0 stands for a block that was never written, so it says nothing of the bytes."""
    return key == 0 or sector == key


def fits(sector, entry):
    return any(matches(sector, key) for key in entry)


def settle(entry, sectors):
    """The entry after recovery read these sectors."""
    if entry == BAD or not all(fits(sector, entry) for sector in sectors):
        return BAD
    for key in reversed(entry):  # the new key wins over the old one
        if all(matches(sector, key) for sector in sectors):
            return (key,)
    return entry


# ---- the world

class Hold:
    """What a worker does with its block."""

    def __init__(self, block):
        self.block = block
        self.stage = "claimed"
        self.written = set()


class World:
    """Each event answers whether it is enabled; where it isn't, it changes nothing."""

    def __init__(self, blocks, sectors, workers):
        self.sectors = sectors
        self.holds = [None] * workers
        self.keys = [[0] * sectors for _ in range(blocks)]
        self.start([(0,)] * blocks)

    def start(self, base):
        """These entries as the base, without records."""
        self.base = base
        self.entries = list(base)  # the base with all records applied, kept up to date to spare a replay at each step
        self.records = []  # pairs of a block and the change of its entry
        self.last = {}  # the place of each block's last record
        self.synced = 0

    def stage(self, worker):
        hold = self.holds[worker]
        return hold.stage if hold else "none"

    def append(self, block, change):
        self.last[block] = len(self.records)
        self.records.append((block, change))
        self.entries[block] = change(self.entries[block])

    def claim(self, worker, block):
        if self.holds[worker] or self.entries[block] == BAD:
            return False
        if not any(hold and hold.block == block for hold in self.holds):  # else the answer is busy, which is a step too
            self.holds[worker] = Hold(block)
        return True

    def begin(self, worker):
        if self.stage(worker) != "claimed":
            return False
        hold = self.holds[worker]
        if len(self.entries[hold.block]) == 1:  # a block left pending by a fault goes on with its key
            self.append(hold.block, begun)
        hold.stage = "queued"
        return True

    def sync(self):
        self.synced = len(self.records)
        return True

    def write(self, worker, sector):
        if self.stage(worker) not in ("queued", "writing"):
            return False
        hold = self.holds[worker]
        entry = self.entries[hold.block]
        if len(entry) != 2 or self.last.get(hold.block, -1) >= self.synced:
            return False
        self.keys[hold.block][sector] = entry[1]
        hold.written.add(sector)
        hold.stage = "writing"
        return True

    def ack(self, worker):
        if self.stage(worker) != "writing" or len(self.holds[worker].written) < self.sectors:
            return False
        self.holds[worker].stage = "acked"
        return True

    def fault(self, worker):
        if self.stage(worker) not in ("queued", "writing", "acked"):
            return False
        self.holds[worker].stage = "done"
        return True

    def end(self, worker):
        if self.stage(worker) != "acked":
            return False
        self.append(self.holds[worker].block, ended)
        self.holds[worker].stage = "done"
        return True

    def release(self, worker):
        if self.stage(worker) not in ("claimed", "done"):
            return False
        self.holds[worker] = None
        return True

    def turnover(self):
        self.start(self.entries)
        return True

    def stop(self, keep):
        if not self.synced <= keep <= len(self.records):
            return False
        del self.records[keep:]
        self.entries = list(self.base)
        for block, change in self.records:
            self.entries[block] = change(self.entries[block])
        self.holds = [None] * len(self.holds)
        return True

    def recover(self):
        self.start([settle(entry, sectors) for entry, sectors in zip(self.entries, self.keys)])

    def wrong(self):
        """How many sectors have a key that their entry doesn't permit."""
        return sum(not fits(sector, entry)
                   for entry, sectors in zip(self.entries, self.keys) if entry != BAD
                   for sector in sectors)


# ---- the schedule

def drawn(state, stream):
    """The words of the generator Lcg64Xsh32, without end."""
    multiplier = 6364136223846793005
    step = 2 * stream + 1
    mask = (1 << 64) - 1
    state = ((state + step) * multiplier + step) & mask
    while True:
        word = ((state ^ state >> 18) >> 27) & 0xffffffff
        turn = state >> 59
        yield (word >> turn | word << 32 - turn) & 0xffffffff
        state = (state * multiplier + step) & mask


def simulate(number):
    """The counts taken, idle, ends, stops and wrong of `number` steps."""
    world = World(BLOCKS, SECTORS, WORKERS)
    words = drawn(number, 0)
    taken = ends = stops = wrong = 0
    for _ in range(number):
        x, y, z = next(words), next(words), next(words)
        kind = x % 16
        worker = y % WORKERS
        is_end = False
        if kind <= 1:
            enabled = world.claim(worker, z % BLOCKS)
        elif kind <= 3:
            enabled = world.begin(worker)
        elif kind == 4:
            enabled = world.sync()
        elif kind <= 9:
            enabled = world.write(worker, z % SECTORS)
        elif kind == 10:
            enabled = world.ack(worker)
        elif kind in (12, 13):
            enabled = world.release(worker)
        elif kind == 14:
            enabled = world.fault(worker) if z % 64 == 0 else world.ack(worker)
        elif kind == 15 and z % 256 == 0:
            enabled = world.turnover()
        elif kind == 15 and z % 256 == 1:
            # always enabled: keep is drawn from what a stop may leave
            enabled = world.stop(world.synced + z // 256 % (len(world.records) - world.synced + 1))
            wrong += world.wrong()  # counted before the recovery settles what it finds
            world.recover()
            stops += 1
        else:
            is_end = True
            enabled = world.end(worker)
        taken += enabled
        ends += is_end and enabled
    return taken, number - taken, ends, stops, wrong


def line_of(number):
    taken, idle, ends, stops, wrong = simulate(number)
    return f"sim {number} taken {taken} idle {idle} ends {ends} stops {stops} wrong {wrong}\n"


# ---- the check of a program

def answer(program, words):
    """What the program prints on both outputs, and its exit status."""
    try:
        done = subprocess.run([program, *words], stdin=subprocess.DEVNULL, stdout=subprocess.PIPE, stderr=subprocess.PIPE,
                              timeout=LONGEST)
    except subprocess.TimeoutExpired:
        return "no end", b"", None
    return done.stdout, done.stderr, done.returncode


def wanted_answer(line, status):
    return f"{line}status {status}\n".encode(), b"", status


def check(program):
    if not os.access(program, os.X_OK):
        sys.exit(f"simulate: there is no program {program}")
    lines = {number: line_of(number) for number in (0, 1, 2, 100, 10000, 200000)}
    cases = [(["-sim", str(number)], wanted_answer(line, 0)) for number, line in lines.items()]
    cases.append((["-sim", "0001"], wanted_answer(lines[1], 0)))
    for words in (["1000001"], [], ["x"], ["1", "2"], ["-1"], [""]):
        cases.append((["-sim", *words], wanted_answer(USAGE + "\n", 4)))
    # a second run of the longest schedule: nothing but the number may go into its line
    cases.append((["-sim", "200000"], wanted_answer(lines[200000], 0)))
    differ = 0
    for words, wanted in cases:
        found = answer(program, words)
        if found != wanted:
            differ += 1
            print(f"{' '.join(repr(word) for word in words)}: found {found}, wanted {wanted}")
    print(f"simulate: {len(cases)} cases, {differ} differ")
    return 1 if differ else 0


def main():
    parser = argparse.ArgumentParser(description="The lines of `vdbench -sim n`.")
    parser.add_argument("numbers", nargs="*", type=int, metavar="N")
    parser.add_argument("--check", metavar="PROGRAM")
    options = parser.parse_args()
    if not options.numbers and options.check is None:
        parser.error("a number or --check is wanted")
    if any(not 0 <= number <= 1000000 for number in options.numbers):
        parser.error("a number is from 0 to 1000000")
    for number in options.numbers:
        print(line_of(number), end="", flush=True)
    return check(str(Path(options.check).resolve())) if options.check is not None else 0


if __name__ == "__main__":
    sys.exit(main())
