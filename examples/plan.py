#!/usr/bin/env python3
"""A parameter file's plan, computed from what the formats say alone, and a comparison of a built program with it.

    plan.py FILE                                    prints what `vdbench -s -f FILE` must print, and ends with its status
    plan.py --fuzz PROGRAM [--cases N] [--seed S]   compares a program over generated parameter files, good and broken ones

Nothing here is taken from the program. A file's first fault counts: of its lines, then of its definitions, then of the plan.
"""

import argparse
import re
import sys
from pathlib import Path

import formats as f

# Whether file systems are planned; until then each file that defines one, or a workload on one, is refused.
TREES = False

FILE_LIMIT = 1048576
LINE_LIMIT = 4096
BLOCKS_LIMIT = 16777216
LARGEST_TRANSFER = 1048576
KINDS = ("hd", "sd", "wd", "rd", "fsd", "fwd")
MOST = {"hd": 16, "sd": 64, "wd": 64, "rd": 256, "fsd": 64, "fwd": 64}
LOOPS = ("forthreads", "forxfersize", "forrdpct")


class Refused(Exception):
    """A parameter file that has no plan, with the line that says why."""

    def __init__(self, text):
        super().__init__(text)
        self.text = text


def refused_at(line, column, why):
    return Refused(f"parameter line {line} column {column}: {why}\n")


def refused(line, why):
    return Refused(f"parameter line {line}: {why}\n")


# ---- lines

WORD = re.compile(rb"[A-Za-z0-9_]*")
BLANKS = re.compile(rb"[ \t]*")
BARE = re.compile(rb"[!#-'*+\--~]*")
QUOTED = re.compile(rb"[ !#-~]*")


class Reader:
    """One line's bytes, read from the left. A fault names the place where it stands."""

    def __init__(self, line, number):
        self.line = line
        self.number = number
        self.at = 0

    def here(self):
        return self.line[self.at] if self.at < len(self.line) else None

    def fault(self, why):
        byte = self.here()
        if byte is not None and byte != 9 and not 0x20 <= byte <= 0x7e:
            why = "bad byte"
        return refused_at(self.number, self.at + 1, why)

    def run_of(self, allowed):
        found = allowed.match(self.line, self.at)
        self.at = found.end()
        return found[0]

    def item(self):
        if self.here() == ord('"'):
            self.at += 1
            inside = self.run_of(QUOTED)
            if self.here() != ord('"'):
                raise self.fault("unclosed quote")
            self.at += 1
            return inside
        bare = self.run_of(BARE)
        if not bare:
            raise self.fault("empty value")
        return bare

    def value(self):
        if self.here() != ord("("):
            return [self.item()]
        items = []
        while True:
            self.at += 1
            self.run_of(BLANKS)
            items.append(self.item())
            self.run_of(BLANKS)
            if self.here() == ord(")"):
                self.at += 1
                return items
            if self.here() != ord(","):
                raise self.fault("unclosed list" if self.here() is None else "unexpected text")

    def parts(self):
        """The line's parts, and whether it is continued."""
        parts = []
        self.run_of(BLANKS)
        while True:
            word = self.run_of(WORD)
            if not word:
                raise self.fault("empty part")
            if self.here() != ord("="):
                raise self.fault("missing equals")
            self.at += 1
            parts.append((self.number, word.decode(), self.value()))
            if self.here() is None or self.here() in b" \t":
                return parts, False
            if self.here() != ord(","):
                raise self.fault("unexpected text")
            self.at += 1
            self.run_of(BLANKS)
            if self.here() is None:
                return parts, True


def lines_of(data):
    """The definitions of a file: each a list of parts (line, word, items)."""
    if len(data) > FILE_LIMIT:
        raise refused_at(0, 0, "file too long")
    definitions = []
    going_on = None
    too_long = None
    for number, line in enumerate(data.split(b"\n"), 1):
        if line.endswith(b"\r"):
            line = line[:-1]
        bare = line.lstrip(b" \t")
        skipped = not bare or bare[:1] in (b"#", b"*", b"/")
        if len(line) > LINE_LIMIT:
            too_long = too_long or refused_at(number, LINE_LIMIT + 1, "line too long")
        if too_long and (going_on is None or not skipped):
            raise too_long
        if skipped:
            continue
        parts, continued = Reader(line, number).parts()
        if going_on is None:
            definitions.append(parts)
        else:
            definitions[-1] += parts
        going_on = refused_at(number, len(line) + 1, "open end") if continued else None
    if going_on:
        raise going_on
    return definitions


# ---- values

class Fault(Exception):
    """Why a part is refused."""


def one(read):
    def form(items):
        if len(items) != 1:
            raise Fault("wrong number of values")
        return read(items[0])
    return form


def some(read):
    return lambda items: [read(item) for item in items]


def digits(item):
    return int(item) if re.fullmatch(rb"[0-9]{1,20}", item) else None


def within(value, least, greatest):
    if value is None:
        raise Fault("bad number")
    if not least <= value <= greatest:
        raise Fault("out of range")
    return value


def number(least, greatest):
    return lambda item: within(digits(item), least, greatest)


def scaled(item, units):
    """A number and perhaps a unit behind it."""
    if item[-1:] in units:
        plain = digits(item[:-1])
        return None if plain is None else plain * units[item[-1:]]
    return digits(item)


SIZES = {letter: 1024 ** power for power, letters in enumerate(("kK", "mM", "gG", "tT"), 1) for letter in map(str.encode, letters)}


def size(item):
    return within(scaled(item, SIZES), 1, 2 ** 63 - 1)


def transfer(item):
    value = size(item)
    if value % 512 or value > LARGEST_TRANSFER:
        raise Fault("out of range")
    return value


def seconds(item):
    return within(scaled(item, {b"s": 1, b"m": 60, b"h": 3600}), 1, 8640000)


percent = number(0, 100)


def choice(*words):
    def read(item):
        if item.decode() not in words:
            raise Fault("bad choice")
        return item.decode()
    return read


def word_or_number(words, least, greatest):
    def read(item):
        if item.decode() in words:
            return words[item.decode()]
        if digits(item) is None:
            raise Fault("bad choice")
        return within(digits(item), least, greatest)
    return read


def path(item):
    if not 1 <= len(item) <= 1024:
        raise Fault("bad choice")
    return item.decode()


def text(item):
    return item.decode()


def is_store_name(name):
    return re.fullmatch(r"[A-Za-z0-9_]{1,8}", name) is not None


def is_other_name(name):
    return re.fullmatch(r"[A-Za-z0-9_.-]{1,32}", name) is not None


def a_name(is_name):
    def read(item):
        if not is_name(item.decode()):
            raise Fault("bad name")
        return item.decode()
    return read


def a_pattern(is_name):
    """A name, or the front of one with a star behind it; the front may have no byte."""
    def read(item):
        name = item.decode()
        if not is_name(name) and not (name.endswith("*") and (name == "*" or is_name(name[:-1]))):
            raise Fault("bad name")
        return name
    return read


def count(items):
    if len(items) != 2:
        raise Fault("wrong number of values")
    return number(0, 100000)(items[0]), number(1, 64)(items[1])


def file_sizes(items):
    if len(items) != 1 and len(items) % 2:
        raise Fault("wrong number of values")
    read = [percent(item) if place % 2 else size(item) for place, item in enumerate(items)]
    return [(read[0], 100)] if len(read) == 1 else list(zip(read[::2], read[1::2]))


stores = some(a_pattern(is_store_name))
others = some(a_pattern(is_other_name))
SEEK = {"random": 100, "rand": 100, "sequential": 0, "seq": 0}
rate = one(word_or_number({"max": 0}, 1, 10000000))
SAME = {"openflags": some(text), "journal": one(path), "count": count, "keyblock": one(transfer)}

KEYS = {
    "general": {
        "data_errors": one(number(1, 10000)), "validate": some(choice("yes", "no_preread", "read_after_write")),
        "journal_sectors": one(number(1, 65536)), "create_anchors": one(choice("yes", "no")), "messagescan": one(choice("yes", "no")),
    },
    "hd": {"system": one(text), "jvms": one(number(1, 16)), "vdbench": one(path), "user": one(path), "shell": one(path)},
    "sd": {"lun": one(path), "size": one(size), "threads": one(number(1, 256)), "host": others, **SAME},
    "wd": {
        "sd": stores, "xfersize": one(transfer), "rdpct": one(percent), "seekpct": one(word_or_number(SEEK, 0, 100)),
        "skew": one(number(1, 100)), "host": others,
    },
    "rd": {
        "wd": others, "fwd": others, "iorate": rate, "fwdrate": rate, "elapsed": one(seconds), "interval": one(seconds),
        "turns": one(number(1, 4294967295)), "forthreads": some(number(1, 256)), "forxfersize": some(transfer),
        "forrdpct": some(percent), "format": one(choice("no", "yes", "only")), "openflags": some(text),
    },
    "fsd": {
        "anchor": one(path), "depth": one(number(1, 1048576)), "width": one(number(1, 1048576)), "files": one(number(1, 1048576)),
        "sizes": file_sizes, "distribution": one(choice("bottom", "all")), "shared": one(choice("no")), **SAME,
    },
    "fwd": {
        "fsd": stores, "operation": one(choice("read", "write")), "rdpct": one(percent),
        "fileio": one(choice("random", "sequential")), "fileselect": one(choice("random", "sequential")),
        "xfersize": one(transfer), "skew": one(number(1, 100)), "host": others, "threads": one(number(1, 256)),
    },
}


# ---- definitions

class Definition:
    """One definition: its first line, its name, the values that it gives or has from a default, and its own loops as written."""

    def __init__(self, line, name, values, loops):
        self.line = line
        self.name = name
        self.values = values
        self.loops = loops

    def get(self, word, absent=None):
        return self.values.get(word, absent)


class Definitions:
    def __init__(self):
        self.general = {}
        self.of = {kind: [] for kind in KINDS}
        self.defaults = {kind: {} for kind in KINDS}
        self.storage = set()

    def add(self, parts):
        line, word, items = parts[0]
        kind = word if word in KINDS else "general"
        name = None
        if kind != "general":
            name = self.name_of(kind, line, items)
        given = {}
        for line_of_part, word, items in parts[1 if name is not None else 0:]:
            try:
                self.add_part(kind, name, given, word, items)
            except Fault as fault:
                raise refused(line_of_part, fault) from None
        if kind == "general":
            self.general.update(given)
        else:
            self.whole(kind, line, name, given)

    def name_of(self, kind, line, items):
        try:
            name = one(a_name(is_store_name if kind in ("sd", "fsd") else is_other_name))(items)
        except Fault as fault:
            raise refused(line, fault) from None
        if kind in ("sd", "wd", "fsd", "fwd"):
            self.storage.add(kind[0] == "f")
            if len(self.storage) == 2:
                raise refused(line, "both kinds of storage")
        return name

    def add_part(self, kind, name, given, word, items):
        if word not in KEYS[kind]:
            raise Fault("unknown keyword")
        if word in given or (kind == "general" and word in self.general):
            raise Fault("repeated keyword")
        given[word] = KEYS[kind][word](items)
        if word == "count" and name == "default":
            raise Fault("bad choice")

    def whole(self, kind, line, name, given):
        """Checks a definition as a whole, and adds it, or what it gives to later ones."""
        values = {**self.defaults[kind], **given}
        loops = [word for word in given if word in LOOPS]
        made = [] if name == "default" else self.counted(line, name, values, loops)
        is_name = is_store_name if kind in ("sd", "fsd") else is_other_name
        if not all(is_name(one_of.name) for one_of in made):
            raise refused(line, "bad name")
        if {one_of.name for one_of in made} & {one_of.name for one_of in self.of[kind]}:
            raise refused(line, "name taken")
        if kind == "hd" and values.get("system", name) not in (["localhost"] if "system" in values else ["localhost", "default"]):
            raise refused(line, "remote host")
        if len(self.of[kind]) + len(made) > MOST[kind]:
            raise refused(line, "too many definitions")
        if name == "default":
            self.defaults[kind] = values
        self.of[kind] += made

    def counted(self, line, name, values, loops):
        if "count" not in values:
            return [Definition(line, name, values, loops)]
        first, many = values["count"]
        made = []
        for i in range(first, first + many):
            numbered = {word: f"{values[word]}{i}" for word in ("lun", "anchor", "journal") if word in values}
            made.append(Definition(line, f"{name}{i}", {**values, **numbered}, loops))
        return made


def definitions_of(data):
    definitions = Definitions()
    for parts in lines_of(data):
        definitions.add(parts)
    return definitions


# ---- the plan

class Store:
    def __init__(self, kind, made):
        self.line, self.name, self.made = made.line, made.name, made
        self.path = made.get("lun" if kind == "sd" else "anchor")
        self.journal = made.get("journal", made.name + ".jnl")
        self.threads = made.get("threads", 8)
        self.flags = ",".join(made.get("openflags", []))
        self.tree = None
        self.transfers = set()
        self.block_size = self.blocks = 0


class Tree:
    """How many files a file system has, and of which sizes."""

    def __init__(self, made):
        depth, width, each = made.get("depth"), made.get("width"), made.get("files")
        self.sizes = made.get("sizes")
        levels = [1] * depth if width == 1 else [width ** level for level in range(1, min(depth, 64) + 1)]
        directories = sum(levels)
        holding = levels[-1] if made.get("distribution", "bottom") == "bottom" else directories
        self.files = holding * each
        self.good = sum(part for _, part in self.sizes) == 100 and directories <= 65536 and self.files <= 1048576

    def counts(self):
        """The sizes that files have, each with how many files have it."""
        edge = 0
        for bytes_of, part in self.sizes:
            many = sum((self.files - place + 99) // 100 for place in range(edge, min(edge + part, 100)) if place < self.files)
            edge += part
            if many:
                yield bytes_of, many


class Run:
    """One turn through the loops of a run definition: what it prints is kept as it will be printed."""

    def __init__(self, head, shares, workers):
        self.head, self.shares, self.workers = head, shares, workers


def fits(pattern, name):
    return name.startswith(pattern[:-1]) if pattern.endswith("*") else name == pattern


def select(patterns, names):
    """The names that fit some pattern, in their order; None where a pattern fits none, or where there is none."""
    patterns = list(dict.fromkeys(patterns or []))
    if not patterns or not all(any(fits(pattern, name) for name in names) for pattern in patterns):
        return None
    return [name for name in names if any(fits(pattern, name) for pattern in patterns)]


def plan_of(data):
    """(stores, runs), or Refused."""
    given = definitions_of(data)
    kind = "fsd" if given.of["fsd"] or given.of["fwd"] else "sd"
    if kind == "fsd" and not TREES:
        raise refused(min(made.line for made in given.of["fsd"] + given.of["fwd"]), "tree not built")
    if not given.of["rd"]:
        raise refused(0, "no runs")
    planned = plan_stores(kind, given.of[kind])
    workloads = given.of["wd" if kind == "sd" else "fwd"]
    hosts = [made.name for made in given.of["hd"]] or ["localhost"]
    slaves = sum(made.get("jvms", 1) for made in given.of["hd"]) or 1
    for made in given.of[kind] if kind == "sd" else []:
        if select(made.get("host", ["*"]), hosts) is None:
            raise refused(made.line, "nothing is selected")
    for made in workloads:
        if select(made.get(kind), [s.name for s in planned]) is None or select(made.get("host", ["*"]), hosts) is None:
            raise refused(made.line, "nothing is selected")
    runs = []
    for made in given.of["rd"]:
        runs += plan_runs(made, planned, workloads, given, slaves, len(runs))
    geometry(planned)
    return planned, runs


def plan_stores(kind, made_stores):
    planned = []
    paths = set()
    for made in made_stores:
        store = Store(kind, made)
        if store.path is None:
            raise refused(made.line, "no path")
        if any(made.get(word) is None for word in (["size"] if kind == "sd" else ["depth", "width", "files", "sizes"])):
            raise refused(made.line, "no size")
        if kind == "fsd":
            store.tree = Tree(made)
            if not store.tree.good:
                raise refused(made.line, "bad tree")
        if store.path == store.journal or {store.path, store.journal} & paths:
            raise refused(made.line, "path taken")
        paths |= {store.path, store.journal}
        planned.append(store)
    return planned


def weights(workloads):
    """The weight of each workload, or None where there are no such weights."""
    rest = 100 - sum(made.get("skew", 0) for made in workloads)
    without = [made for made in workloads if made.get("skew") is None]
    if not without:
        return [made.get("skew") for made in workloads] if rest == 0 else None
    if rest < len(without):
        return None
    each, more = divmod(rest, len(without))
    shares = iter([each + 1] * more + [each] * (len(without) - more))
    return [made.get("skew") or next(shares) for made in workloads]


def plan_runs(made, planned, workloads, given, slaves, before):
    """The runs of one run definition."""
    on_trees = made.get("fwd") is not None
    if (made.get("wd") is not None) == on_trees:
        raise refused(made.line, "nothing is selected")
    there = given.of["fwd" if on_trees else "wd"]
    names = select(made.get("fwd" if on_trees else "wd"), [w.name for w in there])
    if names is None:
        raise refused(made.line, "nothing is selected")
    if made.get("format", "no") != "no" and not on_trees:
        raise refused(made.line, "format without a file system")
    chosen = [w for w in workloads if w.name in names]
    weight = weights(chosen)
    if weight is None:
        raise refused(made.line, "bad skew")
    elapsed, interval = made.get("elapsed", 30), made.get("interval", 1)
    if -(-elapsed // interval) > 100000:
        raise refused(made.line, "too many intervals")
    selected = [select(w.get("fsd" if on_trees else "sd"), [s.name for s in planned]) for w in chosen]
    threads = []
    for store in planned:
        using = [w.get("threads", 1) for w, stores_of in zip(chosen, selected) if store.name in stores_of]
        if using:
            threads.append(max(using) if on_trees else store.threads)
    loops = made.loops + [word for word in LOOPS if word in made.values and word not in made.loops]
    most = len(threads) * max(made.get("forthreads")) if "forthreads" in loops else sum(threads)
    if most > 512:
        raise refused(made.line, "too many workers")
    many = 1
    for word in loops:
        many *= len(made.get(word))
    if before + many > 1000:
        raise refused(made.line, "too many runs")
    rate_of = made.get("fwdrate" if on_trees else "iorate", 0)
    runs = []
    for turn in turns_of(loops, made):
        workers = len(threads) * turn["forthreads"] if "forthreads" in turn else sum(threads)
        shares = []
        for w, stores_of, part in zip(chosen, selected, weight):
            transfer_size = turn.get("forxfersize", w.get("xfersize", 4096))
            reads = turn.get("forrdpct", w.get("rdpct", 0 if w.get("operation") == "write" else 100))
            seek = w.get("seekpct", 100) if not on_trees else 100 if w.get("fileio") == "random" else 0
            for store in planned:
                if store.name in stores_of:
                    store.transfers.add(transfer_size)
                    shares.append(f"share {w.name} {store.name} xfersize {transfer_size} rdpct {reads} seekpct {seek} weight {part}\n")
        head = (f"run {before + len(runs) + 1} {made.name} iorate {rate_of or 'max'} elapsed {elapsed} interval {interval} "
                f"turns {made.get('turns', 4294967295)} format {made.get('format', 'no')} slaves {slaves} workers {workers}\n")
        runs.append(Run(head, shares, workers))
    return runs


def turns_of(loops, made):
    """Each choice of the loops' values, the outermost loop slowest."""
    turns = [{}]
    for word in loops:
        turns = [{**turn, word: value} for turn in turns for value in made.get(word)]
    return turns


def geometry(planned):
    """The block size and the blocks of each store."""
    total = 0
    for store in planned:
        store.block_size = store.made.get("keyblock") or min(store.transfers, default=4096)
        if any(t % store.block_size or t // store.block_size > 64 for t in store.transfers):
            raise refused(store.line, "transfer not a multiple")
        files = [(store.made.get("size"), 1)] if store.tree is None else list(store.tree.counts())
        store.blocks = sum(bytes_of // store.block_size * many for bytes_of, many in files)
        largest = max(store.transfers, default=0) // store.block_size
        if any(bytes_of < store.block_size for bytes_of, _ in files) or store.blocks < largest:
            raise refused(store.line, "size too small")
        total += store.blocks
        if total > BLOCKS_LIMIT:
            raise refused(store.line, "too many blocks")


def store_line(store):
    kind = "lun" if store.tree is None else "anchor"
    held = f"threads {store.threads}" if store.tree is None else f"files {store.tree.files}"
    flags = f" openflags {store.flags}" if store.flags else ""
    return f"store {store.name} {kind} {store.path} blocks {store.blocks} of {store.block_size} {held} journal {store.journal}{flags}\n"


def shown(data):
    """What `vdbench -s` prints of a file of these bytes, and its status."""
    try:
        planned, runs = plan_of(data)
    except Refused as why:
        return f.finish(why.text, 3)
    return f.finish("".join(map(store_line, planned)) + "".join(run.head + "".join(run.shares) for run in runs), 0)


# ---- journals and data over a plan

def recovered_only(data, journals, contents):
    """What `vdbench -jro` prints over a parameter file of these bytes, and its status.

    `journals` has the journals that can be opened, by their paths. `contents(path)` is what a data file holds, no byte where there is
    none yet, and None where it can't be opened."""
    try:
        planned, _ = plan_of(data)
    except Refused as why:
        return f.finish(why.text, 3)
    printed = ""
    found = []
    for store in planned:
        if store.journal not in journals:
            return f.finish(printed + f"cannot open {store.journal}\n", 12)
        try:
            epoch, records, entries = f.recovered(journals[store.journal], store.name, store.blocks, store.block_size)
        except f.Refused as why:
            return f.finish(printed + why.line, why.status)
        printed += f"journal {store.name} epoch {epoch} records {records}\n"
        found.append(entries)
    status = 0
    for store, entries in zip(planned, found):
        held = contents(store.path)
        if held is None:
            return f.finish(printed + f"cannot open {store.path}\n", 12)
        edges = range(0, store.blocks * store.block_size, store.block_size)
        more, worst = f.verified(store.name, entries, lambda block: held[edges[block]:edges[block] + store.block_size].ljust(store.block_size, b"\0"),
                                 store.block_size)
        printed += more
        status = max(status, worst)
    return f.finish(printed, status)


def main():
    parser = argparse.ArgumentParser()
    parser.add_argument("file", nargs="?", type=Path)
    parser.add_argument("--fuzz", metavar="PROGRAM")
    parser.add_argument("--cases", type=int, default=2000)
    parser.add_argument("--seed", type=int, default=1)
    options = parser.parse_args()
    if options.fuzz:
        from plan_files import fuzz
        return fuzz(options.fuzz, options.cases, options.seed)
    if options.file is None:
        parser.error("a file, or --fuzz and a program")
    text_of, status = shown(options.file.read_bytes())
    sys.stdout.write(text_of)
    return status


if __name__ == "__main__":
    sys.exit(main())
