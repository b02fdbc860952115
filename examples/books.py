"""Journals that runs leave, computed from docs/FORMATS.md alone: nothing here is taken from the program."""

import formats as f

VERSION = 2
LAST_EPOCH = 2 ** 63 - 1


class EpochEnd(Exception):
    """An epoch behind the last one is due: nothing has changed."""


class Book:
    """A journal that is open, whose records come in a known order. Its file may be longer."""

    def __init__(self, name, size, logs, entries, disk, epoch):
        self.name, self.blocks, self.size, self.logs = name, len(entries), size, logs
        self.entries, self.disk = list(entries), bytearray(disk)
        self.first = epoch
        self.begin_epoch(epoch)

    @classmethod
    def made(cls, name, blocks, size, logs, old=b""):
        """A journal made anew where a file has these bytes."""
        end = f.SECTOR * f.end_of(blocks, logs)
        return cls(name, size, logs, [("settled", 0)] * blocks, bytes(end) + old[end:], 0)

    @classmethod
    def reopened(cls, name, size, entries, disk):
        """A recovered journal that is opened in its next epoch, after these entries."""
        _, live, _, blocks, _, logs = f.live_gate(disk)
        if live == LAST_EPOCH:
            raise EpochEnd
        cleared = bytearray(disk)
        for at in (f.SECTOR * f.log_at(area, place, blocks, logs) for area in (0, 1) for place in range(logs)):
            if f.number(cleared[at + 8:at + 16]) > live:
                cleared[at:at + f.SECTOR] = bytes(f.SECTOR)
        return cls(name, size, logs, entries, cleared, live + 1)

    def put(self, at, sector):
        self.disk[at * f.SECTOR:(at + 1) * f.SECTOR] = sector

    def begin_epoch(self, epoch):
        self.epoch, self.records = epoch, []
        area = epoch % 2
        self.put(area, f.gate(VERSION, epoch, self.name, self.blocks, self.size, self.logs))
        for i in range(f.map_sectors(self.blocks)):
            self.put(f.map_at(area, i, self.blocks, self.logs), f.map_sector(self.entries[i * f.PER_MAP:(i + 1) * f.PER_MAP]))

    def append(self, record):
        full = len(self.records) == f.PER_LOG * self.logs
        if full and self.epoch == LAST_EPOCH:
            raise EpochEnd
        for block in f.blocks_of(record):
            self.entries[block] = f.step(self.entries[block], record)
        assert None not in self.entries
        if full:
            self.begin_epoch(self.epoch + 1)
            return
        self.records.append(record)
        place = (len(self.records) - 1) // f.PER_LOG
        self.put(f.log_at(self.epoch % 2, place, self.blocks, self.logs),
                 f.log_sector(VERSION, self.epoch, place, self.records[place * f.PER_LOG:]))

    def begin(self, block, many):
        """The beginning of a write of these blocks: a record where one of them is settled."""
        first = self.entries[block]
        if all(entry[0] == "pending" for entry in self.entries[block:block + many]):
            return
        self.append(("beginrun", block, many) if many > 1 else ("begin", block, first[1], f.next_key(first[1])))

    def end(self, block, many):
        """The end of a write of these blocks."""
        self.append(("endrun", block, many) if many > 1 else ("end", block, self.entries[block][2]))


def all_records(epochs, records, logs):
    """How many records were appended since a journal was opened, so many epochs ago: an epoch's map holds the one behind a full log."""
    return epochs * (f.PER_LOG * logs + 1) + records


def settled(name, entries, block_bytes, size):
    """The entries that verification leaves of recovered ones. `block_bytes(b)` is what block b holds."""
    left = list(entries)
    for block, entry in enumerate(entries):
        if entry[0] != "bad" and entry != ("settled", 0):
            found = f.verdict(name, block, entry, block_bytes(block))[0]
            left[block] = {"corrupt": ("bad",), "old": ("settled", entry[1]), "new": ("settled", entry[-1])}.get(found, entry)
    return left


def cut_off(disk, name, blocks, size, many):
    """A journal whose last log sector lost its last records, so many or all that it has: a stop keeps no more of what wasn't synced."""
    epoch, records, _ = f.recovered(disk, name, blocks, size)
    if records == 0:
        return disk
    at = f.SECTOR * f.log_at(epoch % 2, (records - 1) // f.PER_LOG, blocks, f.live_gate(disk)[5])
    left = max(0, (records - 1) % f.PER_LOG + 1 - many)
    sector = disk[at:at + 20] + left.to_bytes(2, "big") + disk[at + 22:at + 32 + 16 * left] if left else b""
    return disk[:at] + sector.ljust(f.SECTOR, b"\0") + disk[at + f.SECTOR:]


def wrong_turnover(disk, name, blocks, size, logs):
    """What is wrong with the area of the epoch before the live one, or None: its log is full, and one more record gives the live map."""
    epoch, _, _ = f.recovered(disk, name, blocks, size)
    if epoch == 0:
        return None
    before = bytearray(disk)
    live = epoch % 2
    before[live * f.SECTOR:(live + 1) * f.SECTOR] = bytes(f.SECTOR)
    old_epoch, old_records, old = f.recovered(bytes(before), name, blocks, size)
    if (old_epoch, old_records) != (epoch - 1, f.PER_LOG * logs):
        return f"behind epoch {epoch} stands epoch {old_epoch} with {old_records} records"
    emptied = bytearray(disk)
    log = f.log_at(live, 0, blocks, logs) * f.SECTOR
    emptied[log:log + f.SECTOR] = bytes(f.SECTOR)
    _, _, base = f.recovered(bytes(emptied), name, blocks, size)
    changed = [block for block in range(blocks) if base[block] != old[block]]
    first, many = (changed[0], len(changed)) if changed else (0, 0)
    if changed != list(range(first, first + many)):
        return f"the map of epoch {epoch} differs in the blocks {changed}"
    for block in changed:
        was, now = old[block], base[block]
        if now not in (("pending", was[1], f.next_key(was[1])), ("settled", was[-1])) or len(now) == len(was):
            return f"block {block} went from {was} to {now} in the map of epoch {epoch}"
    return None if changed else f"the map of epoch {epoch} has no record more than the log before it"
