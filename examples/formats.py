"""The formats of docs/FORMATS.md, computed from that page alone.

Nothing here is taken from the program: the examples, the generated cases and the measurements compare the program with this file.
"""

import re

SECTOR = 512
BLOCK = 4096
PER_MAP = 256
PER_LOG = 30
LAST_KEY = 126
USAGE = "usage: vdbench -f file [-s or -v or -vr or -j or -jr or -jro] [-o dir], or vdbench -sim n\n"


# ---- the stamp

def plain_pattern(seed):
    """The 480 bytes of a seed, one bit at a time."""
    bits = [(seed >> i) & 1 for i in range(32)]
    while len(bits) < 480 * 8:
        bits.append(bits[-32] ^ bits[-31] ^ bits[-30] ^ bits[-10])
    return sum(bit << i for i, bit in enumerate(bits)).to_bytes(480, "little")


def _tables():
    """Each bit of a pattern is a sum of bits of the seed, so a pattern is the sum of those of the seed's bytes."""
    single = [int.from_bytes(plain_pattern(1 << i), "little") for i in range(32)]
    tables = []
    for byte in range(4):
        table = [0]
        for value in range(1, 256):
            low = (value & -value).bit_length() - 1
            table.append(table[value & (value - 1)] ^ single[8 * byte + low])
        tables.append(table)
    return tables


T0, T1, T2, T3 = _tables()


def pattern(seed):
    value = T0[seed & 255] ^ T1[(seed >> 8) & 255] ^ T2[(seed >> 16) & 255] ^ T3[seed >> 24]
    return value.to_bytes(480, "little")


def seed_of(address, key):
    return ((address // SECTOR) * 127 + key) % 4294967295 + 1


def padded(name):
    return name.encode().ljust(8, b"\0")


def image(name, address, key):
    """The 512 bytes of a sector at this address that was written with this key."""
    where = address.to_bytes(8, "big")
    check = key
    for byte in where:
        check ^= byte
    return (where + bytes(8) + bytes([key, check]) + bytes(2) + padded(name) + bytes(4)
            + pattern(seed_of(address, key)))


def block_image(name, block, key, size=BLOCK):
    return b"".join(image(name, block * size + s * SECTOR, key) for s in range(size // SECTOR))


def first_difference(name, address, key, sector):
    wanted = image(name, address, key)
    if sector == wanted:
        return None
    if sector[20:28] != wanted[20:28]:
        return "name"
    if sector[0:8] != wanted[0:8]:
        return "address"
    if sector[16:18] != wanted[16:18]:
        return "key"
    return "pattern"


# ---- the journal: what is written

def next_key(key):
    return key % LAST_KEY + 1


def map_sectors(blocks):
    return -(-blocks // PER_MAP)


def end_of(blocks, log_sectors):
    return 2 + 2 * (map_sectors(blocks) + log_sectors)


def map_at(area, i, blocks, log_sectors):
    return 2 + area * (map_sectors(blocks) + log_sectors) + i


def log_at(area, i, blocks, log_sectors):
    return map_at(area, 0, blocks, log_sectors) + map_sectors(blocks) + i


def gate(version, epoch, name, blocks, size, log_sectors):
    out = b"VDJGATE%d" % version + epoch.to_bytes(8, "big") + padded(name)
    for number in (blocks, size, log_sectors):
        out += number.to_bytes(4, "big")
    return out.ljust(SECTOR, b"\0")


def entry_bytes(entry):
    kind = entry[0]
    if kind == "settled":
        return bytes([entry[1], 0])
    if kind == "pending":
        return bytes([entry[1], entry[2]])
    return bytes([0, 255])


def map_sector(entries):
    return b"".join(entry_bytes(e) for e in entries).ljust(SECTOR, b"\0")


def log_head(version, epoch, place, count):
    return (b"VDJLOGS%d" % version + epoch.to_bytes(8, "big") + place.to_bytes(4, "big")
            + count.to_bytes(2, "big") + bytes(10))


KINDS = {"begin": 1, "end": 2, "bad": 3, "beginrun": 4, "endrun": 5, "clear": 6}


def record_bytes(record):
    kind = record[0]
    block = record[1].to_bytes(4, "big")
    if kind == "begin":
        head = bytes([1, record[2], record[3], 0])
    elif kind == "end":
        head = bytes([2, 0, record[2], 0])
    elif kind == "bad":
        head = bytes([3, 0, 0, 0])
    else:
        head = bytes([KINDS[kind], 0, 0, record[2]])
    return head + block + bytes(8)


def log_sector(version, epoch, place, records):
    head = log_head(version, epoch, place, len(records))
    return (head + b"".join(record_bytes(r) for r in records)).ljust(SECTOR, b"\0")


def journal(version, epoch, name, entries, log_sectors, records, size=BLOCK):
    """A journal whose live area is the epoch's, and whose other area is zeros."""
    blocks = len(entries)
    out = bytearray(SECTOR * end_of(blocks, log_sectors))

    def put(at, sector):
        out[at * SECTOR:(at + 1) * SECTOR] = sector

    area = epoch % 2
    put(area, gate(version, epoch, name, blocks, size, log_sectors))
    for i in range(map_sectors(blocks)):
        put(map_at(area, i, blocks, log_sectors), map_sector(entries[i * PER_MAP:(i + 1) * PER_MAP]))
    for place in range(-(-len(records) // PER_LOG)):
        part = records[place * PER_LOG:(place + 1) * PER_LOG]
        put(log_at(area, place, blocks, log_sectors), log_sector(version, epoch, place, part))
    return bytes(out)


# ---- the journal: what is read

class Refused(Exception):
    """A journal that isn't recovered: the line and the status."""

    def __init__(self, line, status):
        super().__init__(line)
        self.line = line
        self.status = status


def number(data):
    return int.from_bytes(data, "big")


def is_store_name(text):
    return re.fullmatch(rb"[A-Za-z0-9_]{1,8}", text) is not None


def read_gate(sector, area):
    """(version, epoch, name, blocks, size, log sectors), where the gate is valid for its area."""
    if sector[:7] != b"VDJGATE" or sector[7:8] not in (b"1", b"2") or any(sector[36:]):
        return None
    name = sector[16:24].rstrip(b"\0")
    epoch = number(sector[8:16])
    blocks, size, logs = number(sector[24:28]), number(sector[28:32]), number(sector[32:36])
    fits = (is_store_name(name) and 1 <= blocks <= 16777216 and size % 512 == 0 and 512 <= size <= 1048576
            and 1 <= logs <= 65536 and epoch < 2 ** 63 and epoch % 2 == area)
    return (sector[7] - 48, epoch, name.decode(), blocks, size, logs) if fits else None


def read_entry(pair):
    first, second = pair
    if second == 0 and first <= LAST_KEY:
        return ("settled", first)
    if first <= LAST_KEY and second == next_key(first):
        return ("pending", first, second)
    if (first, second) == (0, 255):
        return ("bad",)
    return None


def read_record(data, version, blocks):
    kind, old, new, many = data[0], data[1], data[2], data[3]
    block = number(data[4:8])
    if any(data[8:]) or block >= blocks:
        return None
    if kind == 1:
        good = many == 0 and old <= LAST_KEY and new == next_key(old)
        return ("begin", block, old, new) if good else None
    if kind == 2:
        return ("end", block, new) if old == 0 and many == 0 and 1 <= new <= LAST_KEY else None
    if kind == 3:
        return ("bad", block) if old == new == many == 0 else None
    if version == 2 and kind in (4, 5, 6):
        least = 1 if kind == 6 else 2
        good = old == new == 0 and least <= many <= 64 and block + many <= blocks
        return ({4: "beginrun", 5: "endrun", 6: "clear"}[kind], block, many) if good else None
    return None


def blocks_of(record):
    many = record[2] if record[0] in ("beginrun", "endrun", "clear") else 1
    return range(record[1], record[1] + many)


def step(entry, record):
    """The entry after a record, where the record is legal at it."""
    kind = record[0]
    if kind == "begin":
        return ("pending", record[2], record[3]) if entry == ("settled", record[2]) else None
    if kind == "end":
        return ("settled", record[2]) if entry[0] == "pending" and entry[2] == record[2] else None
    if kind == "bad":
        return ("bad",) if entry[0] != "bad" else None
    if entry[0] == "bad":
        return None
    if kind == "beginrun":
        return entry if entry[0] == "pending" else ("pending", entry[1], next_key(entry[1]))
    if kind == "endrun":
        return ("settled", entry[2]) if entry[0] == "pending" else None
    return ("settled", 0)


def live_gate(disk):
    """The valid gate with the greater epoch, None where neither is valid."""
    gates = [read_gate(disk[area * SECTOR:(area + 1) * SECTOR], area) for area in (0, 1) if area < len(disk) // SECTOR]
    return max((gate for gate in gates if gate is not None), key=lambda gate: gate[1], default=None)


def recovered(disk, name, blocks, wanted=BLOCK):
    """(epoch, number of records, entries), or Refused."""
    have = len(disk) // SECTOR

    def at(i):
        return disk[i * SECTOR:(i + 1) * SECTOR]

    live = live_gate(disk)
    if live is None:
        raise Refused(f"no journal {name}\n", 8)
    version, epoch, found, found_blocks, size, logs = live
    if (found, found_blocks, size) != (name, blocks, wanted):
        raise Refused(f"mismatch found {found} blocks {found_blocks} of {size}"
                      f" wanted {name} blocks {blocks} of {wanted}\n", 10)

    def damaged(sector, what, place):
        return Refused(f"damaged {name} sector {sector} {what} {place}\n", 9)

    if have < end_of(blocks, logs):
        raise damaged(have, "missing", 0)
    area = epoch % 2
    entries = []
    for i in range(map_sectors(blocks)):
        sector = at(map_at(area, i, blocks, logs))
        for j in range(PER_MAP):
            pair = sector[2 * j:2 * j + 2]
            entry = read_entry(pair)
            past = i * PER_MAP + j >= blocks
            if entry is None or (past and any(pair)):
                raise damaged(map_at(area, i, blocks, logs), "map", j)
            if not past:
                entries.append(entry)
    records = 0
    for place in range(logs):
        where = log_at(area, place, blocks, logs)
        sector = at(where)
        if sector[:20] != log_head(version, epoch, place, 0)[:20]:
            break
        count = number(sector[20:22])
        if not 1 <= count <= PER_LOG or any(sector[22:32]):
            raise damaged(where, "header", 0)
        for j in range(count):
            record = read_record(sector[32 + 16 * j:48 + 16 * j], version, blocks)
            after = None if record is None else [step(entries[b], record) for b in blocks_of(record)]
            if after is None or None in after:
                raise damaged(where, "record", j)
            for b, entry in zip(blocks_of(record), after):
                entries[b] = entry
        if any(sector[32 + 16 * count:]):
            raise damaged(where, "tail", count)
        records += count
        if count < PER_LOG:
            break
    return epoch, records, entries


# ---- verification and the whole command

def matches(name, address, key, sector):
    return key == 0 or sector == image(name, address, key)


def verdict(name, block, entry, data):
    """("corrupt", sector, part), "clean", "old", "new" or "mixed"."""
    keys = entry[1:]
    old, new = True, True
    for s in range(len(data) // SECTOR):
        address = block * len(data) + s * SECTOR
        sector = data[s * SECTOR:(s + 1) * SECTOR]
        is_old = matches(name, address, keys[0], sector)
        is_new = matches(name, address, keys[-1], sector)
        if not is_old and not is_new:
            return ("corrupt", s, first_difference(name, address, keys[-1], sector))
        old = old and is_old
        new = new and is_new
    if len(keys) == 1:
        return ("clean",)
    return ("new",) if new else ("old",) if old else ("mixed",)


def verified(name, entries, block_bytes, size=BLOCK):
    """The lines of a store's verification, and the status. `block_bytes(b)` is what block b holds, whose size is given."""
    lines = []
    read = corrupt = 0
    for block, entry in enumerate(entries):
        if entry[0] == "bad" or entry == ("settled", 0):
            continue
        read += 1
        found = verdict(name, block, entry, block_bytes(block))
        keys = " ".join(str(k) for k in entry[1:])
        if found[0] == "corrupt":
            corrupt += 1
            address = block * size + found[1] * SECTOR
            lines.append(f"corrupt {name} block {block} sector {found[1]} address {address} part {found[2]} keys {keys}\n")
        elif entry[0] == "pending":
            lines.append(f"pending {name} block {block} keys {keys} holds {found[0]}\n")
    pending = sum(e[0] == "pending" for e in entries)
    bad = sum(e[0] == "bad" for e in entries)
    lines.append(f"verified {name} blocks {read} corrupt {corrupt} pending {pending} bad {bad} faults 0\n")
    return "".join(lines), 1 if corrupt else 0


def parameters(name, path, kib):
    return f"sd={name},lun={path},size={kib}k\nwd=wd1,sd={name},xfersize=4k\nrd=rd1,wd=wd1\n".encode()


def finish(text, status):
    return text + f"status {status}\n", status
