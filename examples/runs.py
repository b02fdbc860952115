#!/usr/bin/env python3
"""Runs of the built program, without journals, over new ones and over recovered ones, against what docs/FORMATS.md says of them: nothing
here is taken from the program.

    runs.py PROGRAM [--cases N] [--seed N]

Each case is a parameter file and data files, some missing, short or long; half of them run by -j, over journals of whatever was there
before. Where a store has one worker all that is printed, but for times, and every byte of its data and its journal are computed here; in
some of these cases the system takes no byte of a file behind a place, so that writes fail. Where several workers share a store, what holds
in every order of theirs is: each block holds the image of one key, the keys add up to the writes, and the journal recovers to just these
keys, by a legal history of as many records as there were writes. Then -jro must find no corrupt block.

Most cases over journals go on by -jr, once or twice, over the files that are left and what happened to them in between (between.py), for
the same parameter file or another one of the same stores. Ends with status 1 where something differs.
"""

import argparse
import copy
import os
import random
import re
import resource
import signal
import subprocess
import sys
import tempfile
from pathlib import Path

import formats as f
import fuzz
import plan
from between import contents, happens
from books import Book, EpochEnd, all_records, settled, wrong_turnover
from draws import turns
from rows import wrong_rows

INTERVAL = re.compile(r"interval (\d+) reads (\d+) writes (\d+) bytes (\d+) micros (\d+)\n")
NUMBERS = ("turns", "reads", "prereads", "rereads", "writes", "busy", "badskip", "bytes", "faults", "corrupt")
SEEN = ("turnovers", "failed writes", "recovery that goes on", "corrupt blocks", "blocks skipped", "pending blocks", "a journal refused",
        "an end of epochs")
# In memory, where there is such a folder: syncs take time, and a program that isn't stopped shows nothing of them.
FOLDERS = "/dev/shm" if os.access("/dev/shm", os.W_OK) else None


class Store:
    def __init__(self, name, size, blocks, threads):
        self.name, self.size, self.blocks, self.threads = name, size, blocks, threads
        self.path, self.journal = name + ".dat", name + ".jnl"
        # the files before a command, None where there are none; the data by now, and the journal, None where a command didn't open it
        self.before = self.old_journal = self.data = self.book = None

    def put(self, folder):
        """Lays down the files before the first command."""
        for path, held in ((self.path, self.before), (self.journal, self.old_journal)):
            if held is not None:
                (folder / path).write_bytes(held)

    def look(self, folder):
        """Takes the files before a command as they are."""
        self.before, self.old_journal = contents(folder / self.path), contents(folder / self.journal)
        self.data = bytearray((self.before or b"").ljust(self.blocks * self.size, b"\0"))
        self.book = None

    def held(self, block):
        """What a block holds by now."""
        return bytes(self.data[block * self.size:(block + 1) * self.size])

    def old(self, rng):
        """What may stand where a new journal is made: nothing, anything, a journal of this store or of another."""
        kind = rng.random()
        if kind < 0.4:
            return None
        if kind < 0.6:
            return rng.randbytes(rng.choice([0, 1, 511, 512, 1500, 4096, 20000]))
        name, blocks, size = rng.choice([(self.name, self.blocks, self.size), ("other", self.blocks + 3, 512)])
        return bytes(fuzz.random_journal(rng, name, blocks, size)[0]) + bytes(rng.choice([0, 0, 100, 9000]))


class Share:
    """What a workload does to a store: its place among the run's shares, and the numbers of a draw."""

    def __init__(self, store, weight, rdpct, seekpct, many):
        self.store, self.weight, self.rdpct, self.seekpct, self.many = store, weight, rdpct, seekpct, many


class Case:
    """A command over stores, and what it is to do."""

    def __init__(self, rng):
        sharing = rng.random() < 0.35
        self.stores = []
        for i in range(rng.choice([1, 1, 2, 3])):
            size = rng.choice([512, 1024, 4096])
            threads = rng.randint(2, 8) if sharing else 1
            self.stores.append(Store(f"sd{i + 1}", size, rng.randint(16, 80), threads))
        self.journaled, self.recovers = rng.random() < 0.5, False
        self.works(rng)
        self.call(rng)
        # errors behind which workers stop, and the place behind which a file takes nothing
        self.most_errors, self.limit = 50, None
        if not sharing and self.logs < 4096 and rng.random() < 0.4:
            self.limited(rng)
        for store in self.stores:
            self.files(rng, store)

    def works(self, rng):
        """What the parameter file says of the stores' runs."""
        self.preread = rng.random() < 0.7
        self.reread = rng.random() < 0.3
        self.logs = rng.choice([1, 1, 1, 2, 3, 20, 4096])
        most = rng.choice([40, 40, 150]) if self.journaled else 40
        self.runs = []
        for number in range(1, rng.choice([1, 1, 2, 3]) + 1):
            using = rng.sample(self.stores, rng.randint(1, len(self.stores)))
            using.sort(key=self.stores.index)
            self.runs.append((number, rng.randint(1, most), rng.choice([1, 1, 2, 3]), self.shares(rng, using)))

    def call(self, rng):
        """The words of the command."""
        self.again = rng.random() < 0.3
        mode = ["-jr"] if self.recovers else ["-j"] if self.journaled else []
        self.words = [*mode, *rng.choice([["-vr"]] if self.again else [["-v"], []]), "-f", "parm"]

    def goes_on(self, rng):
        """A command that goes on from what this one left, for the same parameter file or another one of the same stores."""
        after = copy.copy(self)
        after.recovers = True
        if rng.random() < 0.5:
            after.works(rng)
        after.call(rng)
        if rng.random() < 0.5:
            after.limit = None
        return after

    def limited(self, rng):
        """Writes behind a place fail, and journals lie before it. With several workers errors don't stop any: which one would be is open."""
        ends = [f.SECTOR * f.end_of(store.blocks, self.logs) for store in self.stores]
        self.limit = max(ends) + f.SECTOR * rng.randint(0, 100)
        self.most_errors = rng.choice([1, 2, 5, 50]) if len(self.stores) == 1 else 10000

    def files(self, rng, store):
        """The files of a store before the runs."""
        whole = store.blocks * store.size
        length = rng.choice([0, rng.randint(0, whole), whole, whole + 700])
        store.before = rng.randbytes(length if self.limit is None else whole) if self.limit or rng.random() < 0.7 else None
        if self.journaled:
            store.old_journal = store.old(rng)
            if self.limit and store.old_journal:
                store.old_journal = store.old_journal[:self.limit]

    def shares(self, rng, using):
        many_workloads = rng.choice([1, 1, 2])
        parts = [100] if many_workloads == 1 else [60, 40]
        shares = []
        for part in parts:
            rdpct, seekpct, many = rng.choice([0, 0, 30, 50, 100]), rng.choice([0, 50, 100]), rng.choice([1, 1, 2, 3])
            shares += [Share(store, part, rdpct, seekpct, many) for store in using]
        return shares

    def parameters(self):
        """The file. Each share is a workload of its own."""
        lines = []
        validate = ",".join((["no_preread"] if not self.preread else []) + (["read_after_write"] if self.reread else []))
        if validate:
            lines.append(f"validate=({validate})" if "," in validate else f"validate={validate}")
        if self.most_errors != 50:
            lines.append(f"data_errors={self.most_errors}")
        if self.journaled and self.logs != 4096:
            lines.append(f"journal_sectors={self.logs}")
        for store in self.stores:
            lines.append(f"sd={store.name},lun={store.path},size={store.blocks * store.size},threads={store.threads},keyblock={store.size}")
        for number, count, slaves, shares in self.runs:
            for i, share in enumerate(shares):
                lines.append(f"wd=w{number}x{i},sd={share.store.name},xfersize={share.many * share.store.size},rdpct={share.rdpct},seekpct={share.seekpct}")
        for number, count, slaves, shares in self.runs:
            lines.append(f"rd=r{number},wd=w{number}x*,turns={count},elapsed=3600,interval=3600,iorate=max")
        return ("\n".join(lines) + "\n").encode()


def weigh(shares):
    """Weights of workloads without skew: 100 over their number, the first ones one more."""
    each, more = divmod(100, len(shares))
    for i, share in enumerate(shares):
        share.weight = each + (i < more)


def count(got, word, many, size):
    """A transfer of so many blocks that went well."""
    got[word] += many
    got["bytes"] += many * size


def write_turn(case, store, block, many, got):
    """A write turn of a worker that has a store for itself: it is counted in `got`. The line of what it found."""
    entries = store.book.entries[block:block + many]
    if case.preread and any(entry != ("settled", 0) for entry in entries):
        count(got, "prereads", many, store.size)
    store.book.begin(block, many)
    images = b"".join(f.block_image(store.name, b, store.book.entries[b][2], store.size) for b in range(block, block + many))
    at = block * store.size
    room = len(images) if case.limit is None else max(0, case.limit - at)
    store.data[at:at + min(room, len(images))] = images[:room]
    if room < len(images):
        got["faults"] += 1
        return f"writefault {store.name} block {block}\n"
    got["bytes"] += len(images)
    store.book.end(block, many)
    got["writes"] += many
    if case.reread or case.again:
        count(got, "rereads", many, store.size)
    return ""


def alone(case, number, most, worker, workers, store, shares, errors):
    """What one worker that has a store for itself does, with so many errors before: the numbers of its total line, its findings, and whether
    it met the end of the last epoch."""
    got = dict.fromkeys(NUMBERS, 0)
    findings = ""
    task = [(place, share.weight, share.rdpct, share.seekpct, share.many) for place, share in enumerate(shares) if share.store is store]
    drawn = turns(number, worker, workers, 0, store.blocks, 0, task)
    while got["turns"] < most and (got["faults"] == 0 or errors + got["faults"] < case.most_errors):
        block, many, read, _, _ = next(drawn)
        got["turns"] += 1
        if ("bad",) in store.book.entries[block:block + many]:
            got["badskip"] += 1
        elif read:
            count(got, "reads", many, store.size)
        else:
            try:
                findings += write_turn(case, store, block, many, got)
            except EpochEnd:
                return got, findings, True
    return got, findings, False


def total_line(store, got):
    return f"total {store.name} " + " ".join(f"{word} {got[word]}" for word in NUMBERS) + "\n"


def read_totals(text):
    return {line.split()[1]: dict(zip(line.split()[2::2], map(int, line.split()[3::2]))) for line in text.splitlines() if line.startswith("total ")}


def intervals_add_up(text, totals):
    """The intervals of a run have all reads, writes and bytes of its stores."""
    rows = [tuple(map(int, row)) for row in INTERVAL.findall(text)]
    return all(sum(row[place] for row in rows) == sum(got[word] for got in totals.values()) for place, word in ((1, "reads"), (2, "writes"), (3, "bytes")))


class Sofar:
    """What a command came to by now: the errors of its runs, and whether a store of theirs met the end of the last epoch."""

    def __init__(self):
        self.errors, self.ended = 0, False


def impossible(store, shares, most, got):
    """Whether the workers of a store that they share can't have got these numbers, of so many turns each."""
    singles = {share.many for share in shares if share.store is store} == {1}
    return (got["turns"] != store.threads * most or got["faults"] + got["corrupt"] > 0
            or got["badskip"] > 0 and ("bad",) not in store.book.entries
            or singles and got["reads"] + got["writes"] + got["busy"] + got["badskip"] != got["turns"])


def wrong_run(case, text, run, sofar):
    """What is wrong with the text of a run, or None. It brings `sofar` up to date, and what stores hold whose workers are alone."""
    number, most, _, shares = run
    using = [store for store in case.stores if any(share.store is store for share in shares)]
    workers = sum(store.threads for store in using)
    totals = read_totals(text)
    if list(totals) != [store.name for store in using]:
        return f"other stores: {text!r}"
    if not intervals_add_up(text, totals):
        return "the intervals don't add up"
    first, all_turns, findings, lines, ends = 0, 0, "", "", ""
    for store in using:
        got = totals[store.name]
        if store.threads == 1:
            got, found, ended = alone(case, number, most, first, workers, store, shares, sofar.errors)
            findings += found
            ends += f"epoch end {store.name}\n" if ended else ""
        elif impossible(store, shares, most, got):
            return f"turns, faults or sums that it can't have: {text!r}"
        first, all_turns = first + store.threads, all_turns + got["turns"]
        lines += total_line(store, got)
    sofar.errors += findings.count("\n")
    sofar.ended = ends != ""
    wanted = f"run {number} r{number}\n{findings}slave 1 workers {workers} turns {all_turns}\n{lines}{ends}"
    return None if INTERVAL.sub("", text) == wanted else f"printed {text!r}\n  wanted  {wanted!r}"


def begun(case):
    """What a command says before its runs, its status by then, and whether the runs follow. It opens the books of the stores."""
    if case.recovers:
        return recovered(case)
    for store in case.stores:
        store.book = Book.made(store.name, store.blocks, store.size, case.logs if case.journaled else 1, store.old_journal or b"")
    return "".join(f"opened {store.name} epoch 0\n" for store in case.stores) if case.journaled else "", 0, True


def recovered(case):
    """The same where the command recovers its journals first."""
    journals = {store.journal: store.old_journal for store in case.stores if store.old_journal is not None}
    held = {store.path: store.before or b"" for store in case.stores}
    text, status = plan.recovered_only(case.parameters(), journals, held.get)
    if status not in (0, 1):
        return text, status, False
    text = text.removesuffix(f"status {status}\n")
    for store in case.stores:
        _, _, entries = f.recovered(store.old_journal, store.name, store.blocks, store.size)
        try:
            store.book = Book.reopened(store.name, store.size, settled(store.name, entries, store.held, store.size), store.old_journal)
        except EpochEnd:
            return text + f"epoch end {store.name}\nstatus 13\n", 13, False
        text += f"opened {store.name} epoch {store.book.epoch}\n"
    return text, status, True


def wrong_text(case, beginning, seen, text, status):
    """What is wrong with the text and the status of a case whose runs follow behind this beginning and status, or None."""
    parts = re.split(r"(?m)^(?=run \d+ r\d+$|status \d+$)", text)
    if parts[0] != beginning:
        return f"it begins with {parts[0]!r}\n  wanted  {beginning!r}"
    left = parts[1:]
    sofar = Sofar()
    for run in case.runs:
        if sofar.ended or sofar.errors >= case.most_errors:
            break
        why = wrong_run(case, left.pop(0) if left else "", run, sofar)
        if why:
            return f"run {run[0]}: {why}"
    wanted = 13 if sofar.ended else 2 if sofar.errors else seen
    if (left, status) != ([f"status {wanted}\n"], wanted):
        return f"status {status}, and it ends with {left!r}, behind {sofar.errors} errors, wanted {wanted}"
    return None


def left_entries(store, after, journal):
    """What is known of the blocks of a store that workers share: what its journal says, and where there is none what its data say."""
    if journal is not None:
        return f.recovered(journal, store.name, store.blocks, store.size)[2]
    places = range(0, store.blocks * store.size, store.size)
    return [("settled", after[at + 16] if after[at:at + store.size] != store.data[at:at + store.size] else 0) for at in places]


def wrong_keys(store, written, after, entries):
    """What is wrong with the data of a store that workers share, of which these entries are left, or None."""
    if len(after) != len(store.data) or after[store.blocks * store.size:] != store.data[store.blocks * store.size:]:
        return "the file has another length, or changed behind the store"
    steps = 0
    for block, (was, now) in enumerate(zip(store.book.entries, entries)):
        here = after[block * store.size:(block + 1) * store.size]
        if now == was:
            if here != store.held(block):
                return f"block {block} is another one, and its entry isn't"
        elif "bad" in (was[0], now[0]) or now[0] != "settled" or here != f.block_image(store.name, block, now[1], store.size):
            return f"block {block} went from {was} to {now}, and isn't the image of that key"
        else:
            steps += (now[1] - was[1]) % f.LAST_KEY
    return None if (steps - written) % f.LAST_KEY == 0 else f"keys rose by {steps}, and {written} writes were told"


def least_and_most(case, store, written):
    """How few and how many writes of whole runs of blocks may have made so many writes of blocks."""
    many = {share.many for _, _, _, shares in case.runs for share in shares if share.store is store} or {1}
    return -(-written // max(many)), written // min(many)


def wrong_history(case, store, written, after):
    """What is wrong with the journal of a store that workers share, which recovers, or None."""
    book = store.book
    epoch, records, _ = f.recovered(after, store.name, store.blocks, store.size)
    made = all_records(epoch - book.epoch, records, book.logs)
    least, most = least_and_most(case, store, written)
    # a write of pending blocks may have no beginning
    pending = sum(entry[0] == "pending" for entry in book.entries)
    if not 2 * least - pending <= made <= 2 * most or made % 2 > pending:
        return f"{made} records in {epoch - book.epoch} epochs and {records}, and {written} writes were told"
    if epoch > book.epoch:
        return wrong_turnover(after, store.name, store.blocks, store.size, book.logs)
    log = slice(*(f.SECTOR * f.log_at(epoch % 2, place, store.blocks, book.logs) for place in (0, book.logs)))
    other = bytearray(after)
    other[log] = book.disk[log]
    return None if other == book.disk else "the journal changed outside of its log"


def wrong_shared(case, store, written, folder):
    """What is wrong with the files of a store that workers share, or None. It brings what the store holds up to date."""
    after, journal = (folder / store.path).read_bytes(), contents(folder / store.journal) if case.journaled else None
    try:
        entries = left_entries(store, after, journal)
    except f.Refused as refused:
        return f"the journal is refused: {refused.line}"
    why = wrong_keys(store, written, after, entries) or journal and wrong_history(case, store, written, journal)
    store.book.entries = entries
    return why


def wrong_journal(store, after):
    """What is wrong with the file of a journal of which every byte is known, or None."""
    wanted = store.old_journal if store.book is None else store.book.disk
    if after == wanted:
        return None
    if after is None or wanted is None or len(after) != len(wanted):
        return "the journal's file has another length"
    sector = next(i for i in range(len(after) // f.SECTOR + 1) if after[i * f.SECTOR:(i + 1) * f.SECTOR] != wanted[i * f.SECTOR:(i + 1) * f.SECTOR])
    state = f"of epoch {store.book.epoch} with {len(store.book.records)} records" if store.book else "and it wasn't opened"
    return f"sector {sector} of the journal differs, {state}"


def wrong_store(case, store, text, folder):
    """What is wrong with the files of a store behind a command with this text, or None."""
    written = sum(map(int, re.findall(rf"(?m)^total {store.name} .* writes (\d+)", text)))
    if store.threads > 1 and re.search(rf"(?m)^total {store.name} ", text):
        return wrong_shared(case, store, written, folder)
    after = contents(folder / store.path)
    if not re.search(rf"(?m)^(total|verified) {store.name} ", text):
        if after != store.before:
            return "the data were touched, and it was neither verified nor has a run"
    elif after != store.data:
        return "the data differ"
    return wrong_journal(store, contents(folder / store.journal)) if case.journaled else None


def wrong_files(case, text, folder):
    """What is wrong with the files behind a command with this text, or None."""
    for store in case.stores:
        why = wrong_store(case, store, text, folder)
        if why:
            return f"{store.name}: {why}"
    more = {path.name for path in folder.iterdir()} - {"parm", *(store.path for store in case.stores)}
    if more - ({store.journal for store in case.stores} if case.journaled else set()):
        return f"it made {sorted(more)}"
    return None


def wrong_recovery(program, case, folder):
    """What `-jro` says wrong behind the runs of a case, or None."""
    journals = {store.journal: (folder / store.journal).read_bytes() for store in case.stores}
    held = {store.path: contents(folder / store.path) or b"" for store in case.stores}
    text, status = plan.recovered_only(case.parameters(), journals, held.get)
    for store in case.stores:
        pending, bad = (sum(entry[0] == kind for entry in store.book.entries) for kind in ("pending", "bad"))
        read = sum(entry != ("settled", 0) for entry in store.book.entries) - bad
        if status or f"\nverified {store.name} blocks {read} corrupt 0 pending {pending} bad {bad} faults 0\n" not in text:
            return f"journals and data don't fit: {text!r}"
    done = subprocess.run([program, "-jro", "-f", "parm"], cwd=folder, stdin=subprocess.DEVNULL, capture_output=True, timeout=120)
    if (done.stdout.decode(), done.returncode, done.stderr) != (text, 0, b""):
        return f"-jro: status {done.returncode}, printed {done.stdout!r}\n  wanted  {text!r}"
    if any((folder / path).read_bytes() != disk for path, disk in journals.items()):
        return "-jro changed a journal"
    return None


def limits(limit):
    """What the program's process is to do before it starts: nothing, or let no file grow or be written behind a place, without a signal."""
    if limit is None:
        return None

    def before():
        signal.signal(signal.SIGXFSZ, signal.SIG_IGN)
        resource.setrlimit(resource.RLIMIT_FSIZE, (limit, limit))
    return before


def note(case, text, status, had):
    """Adds to `had` what a command had of what chance is to bring about."""
    books = [store.book for store in case.stores if store.book is not None]
    had |= {word for word, there in (
        ("turnovers", case.journaled and any(book.epoch > book.first for book in books)),
        ("failed writes", "\nwritefault " in text),
        ("recovery that goes on", case.recovers),
        ("corrupt blocks", case.recovers and "\ncorrupt " in text),
        ("blocks skipped", bool(re.search(" badskip [1-9]", text))),
        ("pending blocks", case.recovers and "\npending " in text),
        ("a journal refused", case.recovers and status in (8, 9, 10, 12)),
        ("an end of epochs", status == 13)) if there}


def wrong_command(program, case, folder, had):
    """What is wrong with a command over the files that are there, or None."""
    for _, _, _, shares in case.runs:
        weigh(shares)
    (folder / "parm").write_bytes(case.parameters())
    for store in case.stores:
        store.look(folder)
    beginning, seen, runs = begun(case)
    done = subprocess.run([program, *case.words], cwd=folder, stdin=subprocess.DEVNULL, capture_output=True, timeout=120,
                          preexec_fn=limits(case.limit))
    text = done.stdout.decode()
    if done.stderr:
        return f"status {done.returncode}, printed {text[-300:]!r}, standard error {done.stderr[:200]!r}"
    if runs:
        why = wrong_text(case, beginning, seen, text, done.returncode)
    else:
        why = None if (text, done.returncode) == (beginning, seen) else f"status {done.returncode}, printed {text!r}\n  wanted  {beginning!r}"
    why = why or wrong_files(case, text, folder)
    note(case, text, done.returncode, had)
    return why or (wrong_recovery(program, case, folder) if case.journaled and runs else None)


def wrong_case(program, case, rng, folder, had):
    """What is wrong with a case and the commands that go on from it, or None."""
    for store in case.stores:
        store.put(folder)
    events = []
    why = wrong_command(program, case, folder, had)
    for _ in range(rng.choice([0, 1, 1, 2]) if case.journaled else 0):
        if why:
            break
        events.append([happens(rng, store, folder, case.limit is not None).__name__ for store in case.stores])
        case = case.goes_on(rng)
        why = wrong_command(program, case, folder, had)
    return why and f"{' '.join(case.words)}, behind {events}: {why}\n{case.parameters().decode()}"


TWO = b"""\
journal_sectors=1
sd=sd1,lun=sd1.dat,size=64k,threads=1
sd=sd2,lun=sd2.dat,size=64k,threads=1
wd=wd1,sd=sd*,xfersize=4k,rdpct=0,seekpct=0
rd=rd1,wd=wd1,turns=2
"""
OPENED = "opened sd1 epoch 0\nopened sd2 epoch 0\n"

# What can't be opened or written, what `-j` then prints over TWO, its status, and how many blocks the journals have, None where there is none.
REFUSED = [
    ({"sd1.jnl": None}, None, "cannot open sd1.jnl\nstatus 12\n", 12, (None, None)),
    ({"sd2.jnl": None}, None, "opened sd1 epoch 0\ncannot open sd2.jnl\nstatus 12\n", 12, (0, None)),
    ({"sd1.dat": None}, None, OPENED + "cannot open sd1.dat\nstatus 12\n", 12, (0, 0)),
    ({"sd2.dat": None}, None, OPENED + "cannot open sd2.dat\nstatus 12\n", 12, (0, 0)),
    # a file that is long enough, of which the system takes no byte of the last sector
    ({"sd1.jnl": bytes(3072)}, 2560, "journalfault sd1 record 0\nstatus 7\n", 7, (None, None)),
    # an output that takes nothing: the runs go on unheard
    ({}, None, None, 6, (2, 2)),
]


def wrong_refusal(program, there, limit, text, status, blocks, folder):
    """What is wrong with a command of which something can't be opened or written, or None. A file that is None is a folder."""
    (folder / "parm").write_bytes(TWO)
    for name, data in there.items():
        (folder / name).mkdir() if data is None else (folder / name).write_bytes(data)
    with open("/dev/full", "wb") as full:
        done = subprocess.run([program, "-j", "-f", "parm"], cwd=folder, stdin=subprocess.DEVNULL, stdout=full if text is None else subprocess.PIPE,
                              stderr=subprocess.STDOUT, timeout=60, preexec_fn=limits(limit))
    if (done.stdout or b"").decode() != (text or "") or done.returncode != status:
        return f"status {done.returncode}, printed {done.stdout!r}, wanted {text!r}"
    for name, many in zip(("sd1", "sd2"), blocks):
        journal, data = folder / (name + ".jnl"), folder / (name + ".dat")
        if many is None:
            if journal.is_file() and name + ".jnl" not in there:
                return f"{name}.jnl was made"
            continue
        book = Book.made(name, 16, 4096, 1)
        for block in range(many):
            book.begin(block, 1)
            book.end(block, 1)
        if journal.read_bytes() != book.disk:
            return f"{name}.jnl isn't a journal of {many} writes"
        images = b"".join(f.block_image(name, block, 1) for block in range(many))
        if data.is_file() and data.read_bytes() != images.ljust(65536, b"\0") or many and not data.is_file():
            return f"{name}.dat isn't that of {many} writes"
    return None


def refused_cases(program):
    """What differs where something can't be opened or written, line by line."""
    for there, limit, text, status, blocks in REFUSED:
        with tempfile.TemporaryDirectory(dir=FOLDERS) as folder:
            why = wrong_refusal(program, there, limit, text, status, blocks, Path(folder))
        if why:
            yield f"{list(there) or 'an output that takes nothing'}: {why}"


def main():
    options = argparse.ArgumentParser(description=__doc__.splitlines()[0])
    options.add_argument("program", type=lambda path: str(Path(path).resolve()))
    options.add_argument("--cases", type=int, default=200)
    options.add_argument("--seed", type=int, default=1)
    given = options.parse_args()
    bad = over = 0
    seen = dict.fromkeys(SEEN, 0)
    for number in range(given.cases):
        # each case by itself: what happens between its commands takes other numbers where workers shared a store in another order
        rng = random.Random(f"{given.seed} {number}")
        case, had = Case(rng), set()
        with tempfile.TemporaryDirectory(dir=FOLDERS) as folder:
            why = wrong_case(given.program, case, rng, Path(folder), had)
        if why:
            bad += 1
            print(f"runs: case {number} of seed {given.seed}, {why}")
        over += case.journaled
        for word in had:
            seen[word] += 1
    for why in (*refused_cases(given.program), *wrong_rows(given.program, FOLDERS)):
        bad += 1
        print(f"runs: {why}")
    counts = ", ".join(f"{many} with {word}" for word, many in seen.items())
    print(f"runs: {given.cases} cases, {over} over journals; of these {counts}; {bad} differ")
    return bad > 0


if __name__ == "__main__":
    sys.exit(main())
