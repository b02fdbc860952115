#!/usr/bin/env python3
"""Runs a built program over generated cases and compares its text and status with formats.py and plan.py.

    fuzz.py PROGRAM [--cases N] [--seed S] [--keep FOLDER]

Each case has a parameter file, journals and data files in a folder of its own. A journal is sound, or damaged in one or two places;
afterwards it must be as it was, and so must a data file, but for zeros up to the store's length. A case that fails is printed with
its number, and with --keep its files are left in FOLDER.
"""

import argparse
import random
import resource
import shutil
import signal
import subprocess
import sys
import tempfile
from pathlib import Path

import formats as f
import plan

LETTERS = "abcdefghijklmnopqrstuvwxyzABCDEFGHIJKLMNOPQRSTUVWXYZ0123456789_"
PATH_LETTERS = LETTERS + "!#$%&'*+-.:;<=>?@[\\]^`{|}~"


class Store:
    """What a case's parameter file says of a store."""

    def __init__(self, name, path, journal, blocks, size):
        self.name, self.path, self.journal, self.blocks, self.size = name, path, journal, blocks, size


class Case:
    """One case: the words, the files, and what is wanted."""

    def __init__(self, words, parameter_bytes, journals, contents):
        self.words = words
        self.parameters = parameter_bytes
        self.journals = {path: bytes(disk) for path, disk in journals.items() if disk is not None}
        self.contents = {path: data for path, data in contents.items() if data is not None}
        self.stores = stores_of(parameter_bytes)

    def held(self, path):
        """What a data file holds, None where it can't be opened or made."""
        return self.contents.get(path, b"") if can_be_made(path) else None

    def wanted(self):
        found = command(self.words)
        if found is None:
            return f.finish(f.USAGE, 4)
        if self.parameters is None:
            return f.finish(f"cannot open {found[1]}\n", 12)
        if found[0] == "-s":
            return plan.shown(self.parameters)
        return plan.recovered_only(self.parameters, self.journals, self.held)


def single(words, parameter_bytes, disk, data):
    """A case of one store, whose files lie where its parameter file says."""
    case = Case(words, parameter_bytes, {}, {})
    for store in case.stores:
        if disk is not None:
            case.journals[store.journal] = bytes(disk)
        if data is not None:
            case.contents[store.path] = data
    return case


def stores_of(parameter_bytes):
    if parameter_bytes is None:
        return []
    try:
        return [Store(s.name, s.path, s.journal, s.blocks, s.block_size) for s in plan.plan_of(parameter_bytes)[0]]
    except plan.Refused:
        return []


def can_be_made(path):
    return "/" not in path and len(path) <= 255 and path not in (".", "..")


def command(words):
    """(mode, parameter file), where the words are a command that is built."""
    options = {"mode": [], "check": [], "-f": [], "-o": []}
    left = list(words)
    while left:
        word = left.pop(0)
        if word in ("-s", "-j", "-jr", "-jro"):
            options["mode"].append(word)
        elif word in ("-v", "-vr"):
            options["check"].append(word)
        elif word[:2] in ("-f", "-o"):
            if len(word) == 2 and (not left or left[0] == "" or left[0][0] == "-"):
                return None
            options[word[:2]].append(word[2:] or left.pop(0))
        else:
            return None
    if any(len(given) > 1 for given in options.values()) or not options["-f"] or options["mode"] not in (["-s"], ["-jro"]):
        return None
    return options["mode"][0], options["-f"][0]


# ---- random parts

def random_name(rng):
    return "".join(rng.choice(LETTERS) for _ in range(rng.randint(1, 8)))


def random_path(rng):
    first = rng.choice(LETTERS)
    return first + "".join(rng.choice(PATH_LETTERS) for _ in range(rng.choice([0, 3, 12, 200]))) + ".d"


def random_key(rng, least=0):
    return rng.choice([least, 1, 2, 125, 126, rng.randint(1, 126)])


def random_entry(rng):
    kind = rng.random()
    if kind < 0.35:
        return ("settled", 0)
    if kind < 0.75:
        return ("settled", random_key(rng))
    if kind < 0.95:
        key = random_key(rng)
        return ("pending", key, f.next_key(key))
    return ("bad",)


def random_records(rng, version, entries, many):
    """Records that are legal one after the other, and the entries after them."""
    entries = list(entries)
    records = []
    for _ in range(20 * many):
        if len(records) == many:
            break
        kind = rng.choice(["begin", "end"] * 6 + ["bad"] + (["beginrun", "endrun"] * 3 + ["clear"] if version == 2 else []))
        block = rng.randrange(len(entries))
        entry = entries[block]
        if kind == "begin":
            made = ("begin", block, entry[1] if entry[0] == "settled" else 0, f.next_key(entry[1]) if entry[0] == "settled" else 1)
        elif kind == "end":
            made = ("end", block, entry[2] if entry[0] == "pending" else 1)
        elif kind == "bad":
            made = ("bad", block)
        else:
            least = 1 if kind == "clear" else 2
            room = min(64, len(entries) - block)
            if room < least:
                continue
            made = (kind, block, rng.randint(least, min(room, rng.choice([2, 3, 64]))) if room > least else least)
        after = [f.step(entries[b], made) for b in f.blocks_of(made)]
        if None in after:
            continue
        for b, changed in zip(f.blocks_of(made), after):
            entries[b] = changed
        records.append(made)
    return records, entries


def random_journal(rng, name, blocks, size=f.BLOCK):
    """A sound journal, and what is in it: (bytes, layout)."""
    version = rng.choice([1, 2])
    epoch = rng.choice([0, 1, 2, 7, 1000, 2 ** 63 - 1, 2 ** 62])
    logs = rng.choice([1, 2, 3, 8])
    entries = [random_entry(rng) for _ in range(blocks)]
    many = rng.choice([0, 1, 5, 29, 30, 31, 60, 30 * logs])
    records, now = random_records(rng, version, entries, min(many, 30 * logs))
    disk = bytearray(f.journal(version, epoch, name, entries, logs, records, size))
    if epoch > 0 and rng.random() < 0.6:
        other = f.journal(rng.choice([1, 2]), epoch - 1, name, [("settled", 1)] * blocks, logs, [], size)
        area = 1 - epoch % 2
        disk[area * 512:area * 512 + 512] = other[area * 512:area * 512 + 512]
    if len(records) < 30 * (logs - 1) and rng.random() < 0.5:
        at = f.log_at(epoch % 2, logs - 1, blocks, logs) * 512
        disk[at:at + 512] = f.log_sector(version, epoch, logs - 1, [("bad", 0)])
    return disk, (version, epoch, logs, records), now


def damage(rng, disk, blocks, layout):
    """One change, often at a place that matters."""
    version, epoch, logs, records = layout
    area = epoch % 2

    def put(at, data):
        if at + len(data) <= len(disk):
            disk[at:at + len(data)] = data

    at = rng.randrange(len(records)) if records and rng.random() < 0.8 else 0
    log = f.log_at(area, at // 30, blocks, logs) * 512
    place = log + 32 + 16 * (at % 30 if rng.random() < 0.9 else rng.randrange(30))
    kind = rng.randrange(14)
    if kind == 0:
        put(rng.randrange(max(1, len(disk))), bytes([rng.randrange(256)]))
    elif kind == 1:
        del disk[rng.choice([0, 511, 512, 513, 1024, max(0, len(disk) - 1), rng.randrange(len(disk) + 1)]):]
    elif kind == 2:
        put(rng.choice([0, 512]) + rng.randrange(40), bytes([rng.choice([0, 1, 2, 127, 128, 255])]))
    elif kind == 3:
        block = rng.choice([rng.randrange(blocks), blocks, blocks + 1, -(-blocks // 256) * 256 - 1])
        pair = rng.choice([(1, 0), (1, 0), (1, 3), (126, 2), (127, 0), (0, 254), (0, 255), (255, 255), (126, 1), (0, 2), (127, 1)])
        put(f.map_at(area, 0, blocks, logs) * 512 + 2 * block, bytes(pair))
    elif kind == 4:
        put(log + 20, rng.choice([0, 1, 29, 30, 31, 256, 65535]).to_bytes(2, "big"))
    elif kind == 5:
        put(log + 22 + rng.randrange(10), bytes([rng.choice([0, 1, 255])]))
    elif kind == 6:
        put(log + rng.randrange(20), bytes([rng.choice([0, 1, 0x31, 0x32, 255])]))
    elif kind == 7:
        put(place + rng.choice([0, 1, 2, 3, 7, 8, 15]), bytes([rng.choice([0, 1, 2, 3, 4, 5, 6, 7, 64, 65, 126, 127, 255])]))
    elif kind == 8:
        many = rng.choice([0, 1, 1, 2, 3, 64, 65, 255])
        first = rng.choice([rng.randrange(blocks), rng.randrange(blocks), max(0, blocks - many), max(0, blocks - many + 1), blocks, 2 ** 32 - 1])
        put(place, bytes([rng.choice([4, 5, 6]), 0, 0, many]) + first.to_bytes(4, "big") + bytes(8))
    elif kind == 9:
        made = ("begin", rng.choice([0, blocks - 1, blocks]), 0, 1)
        put(place, f.record_bytes(made))
    elif kind == 10:
        one, two = (rng.randrange(len(disk) // 512 + 1) * 512 for _ in range(2))
        put(one, bytes(disk[two:two + 512]))
    elif kind == 11:
        put(rng.choice([0, 512]), bytes(512))
    elif kind == 12:
        put(log + 32 + 16 * len(records[at - at % 30:][:30]) + rng.randrange(16), bytes([rng.choice([1, 255])]))
    else:
        put(log + rng.randrange(512), bytes([rng.randrange(256)]))


def random_data(rng, name, entries, size=f.BLOCK):
    """A data file that mostly holds what the entries permit."""
    parts = []
    for block, entry in enumerate(entries):
        keys = entry[1:] or (rng.choice([0, 1]),)
        at = block * size
        choice = rng.random()
        if choice < 0.7 or len(keys) == 1:
            key = rng.choice(keys)
            part = bytearray(f.block_image(name, block, key, size) if key else bytes([rng.choice([0, 170])]) * size)
        else:
            part = bytearray(b"".join(f.image(name, at + s * 512, rng.choice(keys) or 1) for s in range(size // 512)))
        if rng.random() < 0.25:
            sector = rng.randrange(size // 512)
            where = sector * 512
            wrong = rng.randrange(5)
            if wrong == 0:
                part[where + rng.choice([0, 7, 8, 16, 17, 18, 20, 27, 28, 31, 32, 511, rng.randrange(512)])] ^= rng.randint(1, 255)
            elif wrong == 1:
                part[where:where + 512] = f.image(name, at + where, random_key(rng, 1))
            elif wrong == 2:
                part[where:where + 512] = f.image(random_name(rng), at + where, max(keys[-1], 1))
            elif wrong == 3:
                part[where:where + 512] = f.image(name, at + where + 512, max(keys[-1], 1))
            else:
                part[where:where + 512] = bytes(512)
        parts.append(bytes(part))
    return b"".join(parts)


def random_parameters(rng, name, path, kib):
    """A parameter file, mostly of the form."""
    given = f.parameters(name, path, kib)
    if rng.random() < 0.85:
        return given
    kind = rng.randrange(6)
    if kind == 0:
        at = rng.randrange(len(given))
        return given[:at] + bytes([rng.randrange(256)]) + given[at + 1:]
    if kind == 1:
        return given[:rng.randrange(len(given))]
    if kind == 2:
        return given + rng.choice([b"\n", b"#", b"rd=rd1,wd=wd1\n"])
    if kind == 3:
        return given.replace(b"size=", b"size=" + rng.choice([b"0", b"+", b" ", b"9999999999999999999999", b"1000"]))
    if kind == 4:
        return given.replace(b"lun=", b"lun=" + rng.choice([b"(", b'"', b"a,", b" ", b"\x7f", b"\xc3\xa9"]))
    return rng.choice([b"", b"\n", b"sd=", b"sd=sd1,lun=,size=64k\n", given.replace(b"\n", b"\r\n"), given * 9])


def random_disk_and_data(rng, name, blocks, size=f.BLOCK):
    disk, layout, entries = random_journal(rng, name, blocks, size)
    if rng.random() < 0.06:
        disk = bytearray(f.journal(1, 0, rng.choice([name, random_name(rng)]), [("settled", 0)] * rng.choice([blocks, blocks + 1]), 1, [],
                                   rng.choice([size, f.BLOCK])))
    for _ in range(rng.choice([0, 0, 0, 1, 1, 2])):
        damage(rng, disk, blocks, layout)
    data = random_data(rng, name, entries, size)
    cut = rng.random()
    if cut < 0.1:
        data = data[:rng.randrange(len(data) + 1)]
    elif cut < 0.15:
        data = None
    elif cut < 0.2:
        data += b"more"
    return disk, data


def random_case(rng):
    if rng.random() < 0.5:
        return case_of_stores(rng)
    name, path = random_name(rng), random_path(rng)
    blocks = rng.choice([1, 2, 3, 16, 40, rng.randint(1, 70), rng.choice([255, 256, 257, 600])])
    kib = 4 * blocks + rng.randrange(4)
    disk, data = random_disk_and_data(rng, name, blocks)
    words = ["-jro", "-f", "parm"]
    if rng.random() < 0.05:
        words = rng.choice([[], ["-jro"], ["-jro", "-f"], ["-j", "-jr", "-f", "parm"], ["-f", "parm", "-jro"], ["-jro", "-f", "-x"],
                            ["-jro", "-f", ""], ["-jro", "-f", "parm", "parm"], ["-jr", "-jro", "-f", "parm"], ["-jro", "-fparm", "x"],
                            ["--help"], ["--version"], ["-sim", "1000001"]])
    given = random_parameters(rng, name, path, kib)
    if any(store.path[0] == "/" or store.journal[0] == "/" for store in stores_of(given)):
        given = f.parameters(name, path, kib)
    return Case(words, given, {name + ".jnl": None if rng.random() < 0.03 else disk}, {path: data})


def case_of_stores(rng):
    """Several stores of several block sizes, whose parameter file has more of the language."""
    lines, journals, contents = [], {}, {}
    names = list(dict.fromkeys(random_name(rng) for _ in range(rng.choice([1, 2, 2, 3]))))
    for i, name in enumerate(names):
        size = rng.choice([512, 1024, 4096, 4096, 8192, 3 * 512])
        blocks = rng.choice([1, 2, 3, 16, rng.randint(1, 40), rng.choice([255, 256, 257])])
        path, journal = random_path(rng) + str(i), rng.choice([None, None, random_path(rng) + f".j{i}"])
        disk, data = random_disk_and_data(rng, name, blocks, size)
        if rng.random() < 0.5:
            disk = random_journal(rng, name, blocks, size)[0]
        journals[journal or name + ".jnl"] = None if rng.random() < 0.03 else disk
        contents[path] = data
        extra = f',journal="{journal}"' if journal else ""
        if rng.random() < 0.5:
            extra += f",keyblock={size}"
        lines.append(f'sd={name},lun="{path}",size={blocks * size + rng.randrange(size)}{extra}\n')
        lines.append(f"wd=wd{i},sd={name},xfersize={size}\n")
    if rng.random() < 0.5:
        rng.shuffle(lines)
    given = "".join(lines) + f"rd=rd1,wd={rng.choice(['*', 'wd*'])},forthreads=({rng.randint(1, 9)},2)\n"
    words = rng.choice(["-jro -f parm"] * 6 + ["-f parm -jro", "-fparm -jro", "-jro -v -fparm", "-vr -o x -jro -f parm", "-s -f parm", "-s -vr -fparm",
                       "-ox -f parm -s", "-s -jro -f parm", "-jro -f parm -fparm", "-jro -f-parm", "-jro -f -parm",
                       "-jro -o -x -f parm", "-jro -o -f parm", "-v -vr -jro -fparm"]).split()
    case = Case(words, given.encode(), journals, contents)
    if "-f-parm" in words:
        case.parameters = None
    return case


def fixed_cases():
    """Cases that chance is slow to find."""
    rng = random.Random(1)
    words = ["-jro", "-f", "parm"]
    disk = f.journal(1, 0, "s", [("settled", 1)] * 2, 1, [])
    for path in ("nowhere/data", "x" * 256, "s.jnl"):
        yield single(words, f.parameters("s", path, 8), disk, None)
    yield Case(["-jro", "-f", "absent"], None, {}, {})
    yield Case(["-s", "-f", "absent"], None, {}, {})
    yield Case(["-s", "-f", "parm"], f.parameters("s", "d", 3), {}, {})
    yield single(words, f.parameters("s", "d", 3), disk, None)
    for blocks in (249999, 250000):
        entries = [("settled", 0)] * blocks
        entries[0], entries[-1] = ("settled", 9), ("pending", 4, 5)
        disk, data = f.journal(2, 3, "big", entries, 2, []), f.block_image("big", 0, 9)
        yield single(words, f.parameters("big", "d", 4 * blocks), disk, data)
    yield single(words, f.parameters("s", "d", 8).ljust(1048577, b"\n"), disk, None)
    for kib in (4, 5, 7):
        disk = f.journal(2, 2 ** 63 - 1, "A_9", [("pending", 126, 1)], 1, [("end", 0, 1)])
        yield single(words, f.parameters("A_9", "d", kib), disk, f.block_image("A_9", 0, 1))
    yield random_case(rng)


# ---- running

def run_case(program, case, folder):
    """What is wrong with a case, or None."""
    if case.parameters is not None:
        (folder / "parm").write_bytes(case.parameters)
    for path, data in [*case.journals.items(), *case.contents.items()]:
        if can_be_made(path):
            (folder / path).write_bytes(data)
    text, status = case.wanted()
    done = subprocess.run([program, *case.words], cwd=folder, stdin=subprocess.DEVNULL, capture_output=True, timeout=120)
    if done.stdout != text.encode():
        return f"printed {done.stdout[:600]!r}\n  wanted  {text.encode()[:600]!r}"
    if done.returncode != status:
        return f"status {done.returncode}, wanted {status}"
    if done.stderr:
        return f"standard error has {done.stderr[:200]!r}"
    if any((folder / path).read_bytes() != disk for path, disk in case.journals.items() if can_be_made(path)):
        return "a journal was changed"
    opened = {store.path: store.blocks * store.size for store in case.stores if f"\nverified {store.name} " in text}
    for path in {*case.contents, *opened}:
        if not can_be_made(path):
            continue
        if path in opened:
            if not holds(folder / path, case.contents.get(path, b""), opened[path]):
                return "a data file is not the one that was there, with zeros behind it"
        elif (folder / path).read_bytes() != case.contents[path]:
            return "a data file was changed that isn't to be opened"
    there = {"parm", *case.journals, *case.contents, *opened}
    more = [path.name for path in folder.iterdir() if path.name not in there]
    return f"it made {more}" if more else None


def outside_cases(program):
    """Folders where files should be, and outputs that take nothing: what differs, line by line."""
    given = f.parameters("s", "d", 8)
    disk = f.journal(1, 0, "s", [("settled", 0)] * 2, 1, [])
    first = "journal s epoch 0 records 0\n"
    for folder, (text, status) in {
        "parm": f.finish("cannot read parm\n", 5),
        "s.jnl": f.finish("cannot open s.jnl\n", 12),
        "d": f.finish(first + "cannot open d\n", 12),
    }.items():
        with tempfile.TemporaryDirectory(prefix="vdbench-fuzz-") as place:
            for name, data in (("parm", given), ("s.jnl", disk)):
                if name != folder:
                    Path(place, name).write_bytes(data)
            Path(place, folder).mkdir()
            done = subprocess.run([program, "-jro", "-f", "parm"], cwd=place, stdin=subprocess.DEVNULL, capture_output=True)
            if (done.stdout, done.returncode) != (text.encode(), status):
                yield f"a folder at {folder}: {done.stdout!r}, status {done.returncode}"
    with tempfile.TemporaryDirectory(prefix="vdbench-fuzz-") as place, open("/dev/full", "wb") as full:
        Path(place, "parm").write_bytes(given)
        Path(place, "s.jnl").write_bytes(disk)
        done = subprocess.run([program, "-jro", "-f", "parm"], cwd=place, stdin=subprocess.DEVNULL, stdout=full)
        if done.returncode != 6:
            yield f"an output that is full: status {done.returncode}"


def memory_cases(program):
    """A large store in little address space: the whole text, or a front of its lines and that memory ran out."""
    blocks = 249999
    entries = [("settled", 0)] * blocks
    entries[0] = entries[5000] = ("settled", 1)
    disk = f.journal(2, 1, "s", entries, 1, [])
    given = f.parameters("s", "d", 4 * blocks)
    text, status = plan.recovered_only(given, {"s.jnl": disk}, lambda _: b"")
    lines = text.splitlines(keepends=True)[:-2]
    for mib in (4, 5, 6, 8, 64):
        with tempfile.TemporaryDirectory(prefix="vdbench-fuzz-") as place:
            Path(place, "parm").write_bytes(given)
            Path(place, "s.jnl").write_bytes(disk)
            done = subprocess.run([program, "-jro", "-f", "parm"], cwd=place, stdin=subprocess.DEVNULL, capture_output=True,
                                  preexec_fn=lambda: resource.setrlimit(resource.RLIMIT_AS, (mib << 20, mib << 20)))
            answer = (done.stdout.decode(), done.returncode)
            fronts = [("".join(lines[:n]) + "no memory\nstatus 20\n", 20) for n in range(len(lines) + 1)]
            if answer != (text, status) and (mib == 64 or answer not in fronts):
                yield f"{mib} MiB of address space: {answer}"


def holds(path, before, least):
    """Whether a file has these bytes, and zeros up to the store's length."""
    if path.stat().st_size != max(len(before), least):
        return False
    with path.open("rb") as file:
        if file.read(len(before)) != before:
            return False
        return least > 2 ** 26 or not any(file.read())


def main():
    parser = argparse.ArgumentParser()
    parser.add_argument("program")
    parser.add_argument("--cases", type=int, default=400)
    parser.add_argument("--seed", type=int, default=1)
    parser.add_argument("--keep", type=Path)
    options = parser.parse_args()
    signal.signal(signal.SIGTERM, lambda number, frame: sys.exit("fuzz: stopped"))
    program = str(Path(options.program).resolve())
    numbered = [("fixed", i, c) for i, c in enumerate(fixed_cases())]
    numbered += [("case", i, random_case(random.Random(f"{options.seed} {i}"))) for i in range(options.cases)]
    wrong = 0
    seen = {}
    for kind, i, case in numbered:
        seen[case.wanted()[1]] = seen.get(case.wanted()[1], 0) + 1
        folder = Path(tempfile.mkdtemp(prefix="vdbench-fuzz-"))
        try:
            why = run_case(program, case, folder)
            if why is not None:
                wrong += 1
                print(f"{kind} {i} (seed {options.seed}), words {case.words}: {why}")
                if options.keep is not None:
                    shutil.copytree(folder, options.keep / f"{kind}-{i}", dirs_exist_ok=True)
        finally:
            shutil.rmtree(folder, ignore_errors=True)
    for why in [*outside_cases(program), *memory_cases(program)]:
        wrong += 1
        print(why)
    counts = ", ".join(f"{many} of status {status}" for status, many in sorted(seen.items()))
    print(f"fuzz: {len(numbered)} cases ({counts}), {wrong} differ")
    return 1 if wrong else 0


if __name__ == "__main__":
    sys.exit(main())
