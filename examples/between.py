"""What may happen to the files of a store between two commands: nothing here is taken from the program."""

import formats as f
import fuzz
from books import LAST_EPOCH, cut_off


def contents(path):
    """What a file holds, None where there is none."""
    return path.read_bytes() if path.exists() else None


def nothing(rng, store, disk, data):
    return disk, data


def flipped(rng, store, disk, data):
    """Some bytes of the data are others."""
    other = bytearray(data)
    for _ in range(rng.randint(1, 4) if data else 0):
        other[rng.randrange(len(other))] ^= rng.randint(1, 255)
    return disk, bytes(other)


def shortened(rng, store, disk, data):
    return disk, data[:rng.randrange(len(data) + 1)]


def torn(rng, store, entries, data):
    """Data whose pending blocks may have sectors from before their writes."""
    old = bytearray(data)
    for block, entry in enumerate(entries):
        if entry[0] == "pending" and rng.random() < 0.8:
            for at in range(block * store.size, min((block + 1) * store.size, len(old) - f.SECTOR + 1), f.SECTOR):
                if rng.random() < 0.5:
                    old[at:at + f.SECTOR] = f.image(store.name, at, entry[1]) if entry[1] else rng.randbytes(f.SECTOR)
    return bytes(old)


def stopped(rng, store, disk, data):
    """A stop: the last records weren't stored, and a write in flight was, in part. Where more than those of one write are gone the data are
    ahead of the journal."""
    disk = cut_off(disk, store.name, store.blocks, store.size, rng.choice([1, 1, 1, 1, 2, 3, 30]))
    return disk, torn(rng, store, f.recovered(disk, store.name, store.blocks, store.size)[2], data)


def lost(rng, store, disk, data):
    return None, data


def damaged(rng, store, disk, data):
    """The journal is cut short, has no live gate, or other bytes in its live area."""
    _, epoch, _, blocks, _, logs = f.live_gate(disk)
    area, after = epoch % 2, bytearray(disk)
    kind = rng.randrange(3)
    if kind == 0:
        return disk[:rng.randrange(len(disk))], data
    if kind == 1:
        after[area * f.SECTOR:(area + 1) * f.SECTOR] = bytes(f.SECTOR)
    else:
        sector = rng.choice([f.map_at(area, 0, blocks, logs), f.log_at(area, 0, blocks, logs)])
        after[sector * f.SECTOR + rng.randrange(f.SECTOR)] ^= rng.randint(1, 255)
    return bytes(after), data


def late(rng, store, disk, data):
    """The same entries in the last epoch, or where nobody else works on the store in one shortly before."""
    entries = f.recovered(disk, store.name, store.blocks, store.size)[2]
    epoch = LAST_EPOCH - (rng.choice([0, 1, 1, 2]) if store.threads == 1 else 0)
    return f.journal(rng.choice([1, 2]), epoch, store.name, entries, f.live_gate(disk)[5], [], store.size), data


def later(rng, store, disk, data):
    """Log sectors of epochs to come, and of one that is over, stand behind the live log and in the other area."""
    (_, live, _, blocks, _, logs), (_, records, _) = f.live_gate(disk), f.recovered(disk, store.name, store.blocks, store.size)
    places = [(live % 2, place) for place in range(-(-records // f.PER_LOG), logs)] + [(1 - live % 2, place) for place in range(logs)]
    after = bytearray(disk)
    for area, place in rng.sample(places, min(len(places), rng.randint(1, 4))):
        epoch = rng.choice([live + 1, live + 1, live + 2, LAST_EPOCH + 1, 2 ** 64 - 1] + [live - 2] * (live > 1))
        at = f.SECTOR * f.log_at(area, place, blocks, logs)
        after[at:at + f.SECTOR] = f.log_sector(rng.choice([1, 2]), epoch, place, [("bad", 0)])
    return bytes(after), data


def foreign(rng, store, disk, data):
    """Any other journal of such a store, and data that mostly fit it."""
    disk, _, entries = fuzz.random_journal(rng, store.name, store.blocks, store.size)
    return bytes(disk), fuzz.random_data(rng, store.name, entries, store.size)


OFTEN = [nothing] * 4 + [flipped] * 4 + [stopped] * 5 + [late] * 2 + [later] * 4 + [foreign] * 2 + [shortened, lost, damaged, damaged]
# where a file takes nothing behind a place, files keep their lengths
LIMITED = [nothing, flipped, stopped, late, later]


def happens(rng, store, folder, limited):
    """Changes the files of a store where its journal is recovered, and says what it was."""
    disk, data = contents(folder / store.journal), contents(folder / store.path) or b""
    try:
        f.recovered(disk or b"", store.name, store.blocks, store.size)
    except f.Refused:
        return nothing
    event = rng.choice(LIMITED if limited else OFTEN)
    after, held = event(rng, store, disk, data)
    if after is None:
        (folder / store.journal).unlink()
    elif after != disk:
        (folder / store.journal).write_bytes(after)
    if held != data:
        (folder / store.path).write_bytes(held)
    return event
