#!/usr/bin/env python3
"""Writes the example folders, or with --check compares them with what it would write.

Every byte and every wanted line is computed by formats.py and plan.py, not by the program. A folder's file `words` has what the program
is called with, one word a line; without it that is `-jro -f parm`.
"""

import sys
from pathlib import Path

import formats as f
import plan

HERE = Path(__file__).resolve().parent
NAME, PATH, KIB = "sd1", "sd1.dat", 64
BLOCKS = KIB // 4
LOGS = 8


def settled(key):
    return ("settled", key)


def untouched():
    return [settled(0)] * BLOCKS


def data_of(keys):
    """A data file whose block b holds the image of keys[b]; zeros where that is 0."""
    parts = [f.block_image(NAME, b, k) if k else bytes(f.BLOCK) for b, k in enumerate(keys)]
    return bytearray(b"".join(parts))


def put_sector(data, block, sector, image):
    at = block * f.BLOCK + sector * f.SECTOR
    data[at:at + f.SECTOR] = image


def case(files, disk, data):
    """The files of one example: what is given, and what the program must answer."""
    given = f.parameters(NAME, PATH, KIB)
    text, status = plan.recovered_only(given, {NAME + ".jnl": disk}, lambda _: data or b"")
    files["parm"] = given
    files[NAME + ".jnl"] = disk
    if data is not None:
        files[PATH] = bytes(data)
    files["stdout"] = text.encode()
    files["status"] = f"{status}\n".encode()
    return files


def clean():
    """Every block holds what the journal says; one was marked bad in an earlier run."""
    entries = [settled(3), settled(126), settled(7), ("bad",)] + [settled(1)] * 4 + [settled(0)] * 8
    records = [("begin", 0, 3, 4), ("begin", 1, 126, 1), ("end", 0, 4), ("end", 1, 1),
               ("beginrun", 4, 4), ("endrun", 4, 4), ("begin", 8, 0, 1), ("end", 8, 1)]
    disk = f.journal(2, 4, NAME, entries, LOGS, records)
    return case({}, disk, data_of([4, 1, 7, 0, 2, 2, 2, 2, 1, 0, 0, 0, 0, 0, 0, 0]))


def corrupt():
    """A stale sector, a block that holds another block's data, a torn byte, and a block of zeros."""
    entries = untouched()
    entries[0], entries[7], entries[8] = settled(3), settled(5), settled(5)
    entries[9], entries[10] = settled(5), ("pending", 1, 2)
    data = data_of([3, 0, 0, 0, 0, 0, 0, 0, 5, 0, 1, 0, 0, 0, 0, 0])
    put_sector(data, 0, 2, f.image(NAME, 1024, 2))
    data[7 * f.BLOCK:8 * f.BLOCK] = f.block_image(NAME, 8, 5)
    data[8 * f.BLOCK + 3 * f.SECTOR + 100] ^= 1
    put_sector(data, 10, 6, f.image(NAME, 10 * f.BLOCK + 6 * f.SECTOR, 3))
    return case({}, f.journal(1, 0, NAME, entries, LOGS, []), data)


def pending():
    """Blocks that were in flight: one mixed, one at the wrap of the keys, one never written, one old, a run begun."""
    entries = untouched()
    entries[5], entries[6], entries[7] = ("pending", 3, 4), ("pending", 126, 1), ("pending", 0, 1)
    entries[8], entries[12], entries[13] = ("pending", 9, 10), settled(20), settled(21)
    records = [("beginrun", 11, 3)]
    data = data_of([0, 0, 0, 0, 0, 3, 1, 0, 9, 0, 0, 0, 21, 21, 0, 0])
    for sector in range(4):
        put_sector(data, 5, sector, f.image(NAME, 5 * f.BLOCK + sector * f.SECTOR, 4))
    data[7 * f.BLOCK:8 * f.BLOCK] = bytes([170]) * f.BLOCK
    return case({}, f.journal(2, 1, NAME, entries, LOGS, records), data)


def damaged():
    """Journals that recovery refuses, each in a folder of its own, without a data file: none is opened."""
    sound = f.journal(1, 0, NAME, untouched(), LOGS, [])
    log = f.log_at(0, 0, BLOCKS, LOGS) * f.SECTOR

    def with_log(sector):
        return sound[:log] + sector + sound[log + f.SECTOR:]

    tail = bytearray(f.log_sector(1, 0, 0, [("begin", 0, 0, 1)]))
    tail[32 + 16] = 1
    header = f.log_head(1, 0, 0, 31).ljust(f.SECTOR, b"\0")
    wrong_map = bytearray(sound)
    wrong_map[2 * f.SECTOR:2 * f.SECTOR + 2] = bytes([127, 0])
    disks = {
        "empty": b"",
        "missing": sound[:f.SECTOR],
        "map": bytes(wrong_map),
        "header": with_log(header),
        "end_without_begin": with_log(f.log_sector(1, 0, 0, [("end", 2, 1)])),
        "run_in_version_1": with_log(f.log_sector(1, 0, 0, [("beginrun", 0, 2)])),
        "past_the_end": with_log(f.log_sector(1, 0, 0, [("begin", 16, 0, 1)])),
        "tail": with_log(bytes(tail)),
        "epoch_too_great": f.gate(1, 2 ** 63, NAME, BLOCKS, f.BLOCK, LOGS) + sound[f.SECTOR:],
        "other_store": f.journal(1, 0, "sd2", untouched(), LOGS, []),
    }
    return {name: case({}, disk, None) for name, disk in disks.items()}


PLANS = {
    "two_stores": """\
* usual
sd=default,openflags=o_direct,threads=8
sd=sd1,lun=/d/a,size=1g
sd=sd2,lun=/d/b,size=1g
wd=wd1,sd=sd*,xfersize=4k,rdpct=50
rd=rd1,wd=wd1,iorate=max,elapsed=60,interval=1
""",
    "counted_stores": """\
sd=sd,lun=/d/x,size=1m,count=(1,3)
wd=w,sd=(sd1,sd3),xfersize=4k
rd=r,wd=w
""",
    "loops": """\
# Two hosts have three slaves; each run definition has loops of its own, and one more from the default.
hd=localhost,jvms=2
hd=second,system=localhost
sd=sd1,lun=/d/a,size=64k,keyblock=4k   blocks of 4 KiB, whatever the transfers are
wd=reads,sd=sd1,xfersize=4k
wd=writes,sd=sd1,xfersize=8k,rdpct=0,seekpct=seq,skew=30
rd=default,forthreads=(1,2)
rd=rd1,wd=*,
   forxfersize=(4k,8k), turns=1000,
   iorate=200
rd=rd2,wd=reads*,forrdpct=("50",100),elapsed=5m,interval=10
""",
    "nothing_selected": """\
sd=sd1,lun=/d/a,size=64k
wd=wd1,sd=zz*
rd=rd1,wd=wd1
""",
    "no_part": """\
sd=sd1,,lun=/d/a,size=64k
""",
}


def plans():
    """Parameter files whose plan is printed, or why there is none."""
    made = {}
    for name, given in PLANS.items():
        text, status = plan.shown(given.encode())
        made[name] = {"parm": given.encode(), "words": b"-s\n-f\nparm\n", "stdout": text.encode(), "status": f"{status}\n".encode()}
    return made


TWO = b"""\
* The second store has blocks of 8 KiB, since its only transfers have that size, and names its journal.
sd=default,size=64k
sd=sd1,lun=sd1.dat
sd=sd2,lun=sd2.dat,journal=second.jnl
wd=wd1,sd=sd1,xfersize=4k
wd=wd2,sd=sd2,xfersize=8k
rd=rd1,wd=wd*
"""


def two(disks, data):
    """The files of an example of two stores. A store without data has no file of it, and none is made."""
    journals = dict(zip(("sd1.jnl", "second.jnl"), disks))
    contents = dict(zip(("sd1.dat", "sd2.dat"), data))
    text, status = plan.recovered_only(TWO, journals, lambda path: contents.get(path, b""))
    return {"parm": TWO, **journals, **contents, "stdout": text.encode(), "status": f"{status}\n".encode()}


def two_stores():
    """Two stores: all as it should be, a corrupt block in the second, and a second journal that is damaged."""
    size = 8192
    first = untouched()
    first[0], first[1], first[2] = settled(3), ("pending", 126, 1), settled(9)
    first_disk = f.journal(2, 4, NAME, first, LOGS, [("begin", 0, 3, 4), ("end", 0, 4)])
    first_data = bytes(data_of([4, 1, 9] + [0] * 13))
    second = [settled(5), settled(6), ("pending", 1, 2), ("bad",)] + [settled(0)] * 4
    records = [("beginrun", 4, 2), ("endrun", 4, 2)]
    second_disk = f.journal(2, 1, "sd2", second, LOGS, records, size)
    keys = [5, 6, 1, 0, 1, 1, 0, 0]
    second_data = bytearray(b"".join(f.block_image("sd2", b, k, size) if k else bytes(size) for b, k in enumerate(keys)))
    wrong_data = bytearray(second_data)
    wrong_data[size + 15 * f.SECTOR + 40] ^= 8
    log = f.log_at(1, 0, len(second), LOGS) * f.SECTOR
    wrong_disk = bytearray(second_disk)
    wrong_disk[log + 32 + 16:log + 32 + 32] = f.record_bytes(("endrun", 5, 2))
    return {
        "clean": two((first_disk, second_disk), (first_data, bytes(second_data))),
        "corrupt": two((first_disk, second_disk), (first_data, bytes(wrong_data))),
        "damaged": two((first_disk, bytes(wrong_disk)), ()),
    }


def all_files():
    folders = {"clean": clean(), "corrupt": corrupt(), "pending": pending()}
    folders.update({"damaged/" + name: files for name, files in damaged().items()})
    folders.update({"plans/" + name: files for name, files in plans().items()})
    folders.update({"two_stores/" + name: files for name, files in two_stores().items()})
    return {f"{folder}/{name}": data for folder, files in folders.items() for name, data in files.items()}


def main(arguments):
    wanted = all_files()
    if arguments == ["--check"]:
        there = {str(p.relative_to(HERE)) for folder in ("clean", "corrupt", "pending", "damaged", "plans", "two_stores")
                 for p in (HERE / folder).rglob("*") if p.is_file()}
        wrong = sorted(n for n in set(wanted) | there
                       if n not in there or n not in wanted or (HERE / n).read_bytes() != wanted[n])
        for name in wrong:
            print(f"examples/{name} is not what make.py computes")
        print(f"examples: {len(wanted)} files, {len(wrong)} differ")
        return 1 if wrong else 0
    if arguments:
        print("usage: make.py [--check]")
        return 2
    for name, data in wanted.items():
        path = HERE / name
        path.parent.mkdir(parents=True, exist_ok=True)
        path.write_bytes(data)
    print(f"examples: wrote {len(wanted)} files")
    return 0


if __name__ == "__main__":
    sys.exit(main(sys.argv[1:]))
