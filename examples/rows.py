"""Commands of `-jr` that are written out, over journals and data made by hand."""

import re
import subprocess
import tempfile
from pathlib import Path

import formats as f
from books import LAST_EPOCH

FIRST = "sd=sd1,lun=sd1.dat,size=64k,threads=1\n"
SECOND = "sd=sd2,lun=sd2.dat,size=64k,threads=1\n"
RUN = "wd=wd1,sd=sd*,xfersize=4k,rdpct=0,seekpct=0\nrd=rd1,wd=wd1,turns={}\n"
NEW = [("settled", 0)] * 16
# two blocks were written and a third one's beginning was recorded; a block whose write went on over half of it
BEGUN = [("begin", 0, 0, 1), ("end", 0, 1), ("begin", 1, 0, 1), ("end", 1, 1), ("begin", 2, 0, 1)]
HALF = [("pending", 1, 2)] + NEW[1:]
HALF_DATA = f.block_image("sd1", 0, 1)[:f.BLOCK // 2] + f.block_image("sd1", 0, 2)[f.BLOCK // 2:]

WENT_ON = """\
journal sd1 epoch 0 records 5
pending sd1 block 2 keys 0 1 holds old
verified sd1 blocks 3 corrupt 0 pending 1 bad 0 faults 0
opened sd1 epoch 1
run 1 rd1
interval 1 reads 0 writes 4 bytes 24576 micros 0
slave 1 workers 1 turns 4
total sd1 turns 4 reads 0 prereads 2 rereads 0 writes 4 busy 0 badskip 0 bytes 24576 faults 0 corrupt 0
status 0
"""
LAST = """\
journal sd1 epoch 9223372036854775807 records 0
verified sd1 blocks 0 corrupt 0 pending 0 bad 0 faults 0
epoch end sd1
status 13
"""
# a log is full behind the 30th record: a beginning is refused, or the end of a block's write that was pending from the start
FULL = """\
journal sd1 epoch 9223372036854775806 records 0
verified sd1 blocks 0 corrupt 0 pending 0 bad 0 faults 0
opened sd1 epoch 9223372036854775807
run 1 rd1
interval 1 reads 0 writes 15 bytes 61440 micros 0
slave 1 workers 1 turns 16
total sd1 turns 16 reads 0 prereads 0 rereads 0 writes 15 busy 0 badskip 0 bytes 61440 faults 0 corrupt 0
epoch end sd1
status 13
"""
FULL_AT_END = """\
journal sd1 epoch 9223372036854775806 records 0
pending sd1 block 0 keys 1 2 holds mixed
verified sd1 blocks 1 corrupt 0 pending 1 bad 0 faults 0
opened sd1 epoch 9223372036854775807
run 1 rd1
interval 1 reads 0 writes 15 bytes 69632 micros 0
slave 1 workers 1 turns 16
total sd1 turns 16 reads 0 prereads 1 rereads 0 writes 15 busy 0 badskip 0 bytes 69632 faults 0 corrupt 0
epoch end sd1
status 13
"""
JOURNAL = "journal sd1 epoch 0 records 5\n"
VERIFIED = JOURNAL + """\
journal sd2 epoch 9223372036854775807 records 0
pending sd1 block 2 keys 0 1 holds old
verified sd1 blocks 3 corrupt 0 pending 1 bad 0 faults 0
verified sd2 blocks 0 corrupt 0 pending 0 bad 0 faults 0
"""


def journal(epoch, name="sd1", entries=NEW, logs=1, records=()):
    return f.journal(2, epoch, name, entries, logs, list(records))


GOOD = {"sd1.jnl": journal(0, records=BEGUN), "sd1.dat": f.block_image("sd1", 0, 1) + f.block_image("sd1", 1, 1)}

# What a row is called, the turns of its run, its stores, the files, the text, None where the output takes nothing, the status, the
# keys of the first blocks afterwards, and the journals that must be as they were.
ROWS = [
    ("going on behind five records", 4, FIRST, GOOD, WENT_ON, 0, (2, 2, 1, 1), ()),
    ("the last epoch", 4, FIRST, {"sd1.jnl": journal(LAST_EPOCH)}, LAST, 13, (), ("sd1.jnl",)),
    ("full at the end", 16, FIRST, {"sd1.jnl": journal(LAST_EPOCH - 1)}, FULL, 13, (1,) * 15, ()),
    ("full at an end of a write", 16, FIRST, {"sd1.jnl": journal(LAST_EPOCH - 1, entries=HALF), "sd1.dat": HALF_DATA}, FULL_AT_END, 13, (2, *(1,) * 15), ()),
    ("no second journal", 4, FIRST + SECOND, GOOD, JOURNAL + "cannot open sd2.jnl\nstatus 12\n", 12, (1, 1), ("sd1.jnl",)),
    ("an empty second journal", 4, FIRST + SECOND, {**GOOD, "sd2.jnl": b""}, JOURNAL + "no journal sd2\nstatus 8\n", 8, (1, 1), ("sd1.jnl", "sd2.jnl")),
    ("a damaged second journal", 4, FIRST + SECOND, {**GOOD, "sd2.jnl": journal(0, "sd2", records=[("end", 2, 1)])},
     JOURNAL + "damaged sd2 sector 3 record 0\nstatus 9\n", 9, (1, 1), ("sd1.jnl", "sd2.jnl")),
    ("a second journal of another store", 4, FIRST + SECOND, {**GOOD, "sd2.jnl": journal(0)},
     JOURNAL + "mismatch found sd1 blocks 16 of 4096 wanted sd2 blocks 16 of 4096\nstatus 10\n", 10, (1, 1), ("sd1.jnl", "sd2.jnl")),
    ("a second journal in its last epoch", 4, FIRST + SECOND, {**GOOD, "sd2.jnl": journal(LAST_EPOCH, "sd2")},
     VERIFIED + "opened sd1 epoch 1\nepoch end sd2\nstatus 13\n", 13, (1, 1), ("sd2.jnl",)),
    ("an output that takes nothing", 4, FIRST, GOOD, None, 6, (1, 1), ("sd1.jnl",)),
]


def wrong_row(program, turns, stores, files, text, status, keys, kept, folder):
    """What is wrong with a row, or None."""
    (folder / "parm").write_text(stores + RUN.format(turns))
    for name, held in files.items():
        (folder / name).write_bytes(held)
    with open("/dev/full", "wb") as full:
        done = subprocess.run([program, "-jr", "-f", "parm"], cwd=folder, stdin=subprocess.DEVNULL, stdout=full if text is None else subprocess.PIPE,
                              stderr=subprocess.STDOUT, timeout=60)
    said = re.sub(r"micros \d+", "micros 0", (done.stdout or b"").decode())
    if (said, done.returncode) != (text or "", status):
        return f"status {done.returncode}, printed {said!r}\n  wanted  {text!r}"
    if any((folder / name).read_bytes() != files[name] for name in kept):
        return "a journal was changed"
    data = (folder / "sd1.dat").read_bytes()
    wanted = b"".join(f.block_image("sd1", block, key) for block, key in enumerate(keys))
    return None if data.startswith(wanted) and not any(data[len(wanted):]) else "the data differ"


def wrong_rows(program, place):
    """What differs in the rows, line by line; their folders lie in this one."""
    for name, *row in ROWS:
        with tempfile.TemporaryDirectory(dir=place) as folder:
            why = wrong_row(program, *row, Path(folder))
        if why:
            yield f"row {name}: {why}"
