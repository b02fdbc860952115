"""Parameter files by chance, good ones and broken ones, and a program's answers to them beside those of plan.py."""

import random
import subprocess
import sys
import tempfile
from pathlib import Path

import plan
from plan import shown

# ---- generated files

TOPICS = ("transfer", "pattern", "path", "store", "run", "skew")


class Maker:
    """Parameter files by chance: mostly ones that have a plan."""

    def __init__(self, rng):
        self.rng = rng
        self.wrong = rng.random() < 0.35
        self.muddled = rng.sample(TOPICS, rng.randint(1, 2)) if not self.wrong and rng.random() < 0.35 else []
        self.skewed = rng.random() < (0.8 if "skew" in self.muddled else 0.12)
        self.counted = rng.random() < 0.25
        self.trees = rng.random() < (0.3 if plan.TREES else 0.06)

    def often(self, chance):
        return self.rng.random() < chance

    def muddle(self, topic, chance):
        """Whether something that is read but can't be planned is put in: in some files only, and there of one or two kinds."""
        return topic in self.muddled and self.often(chance)

    def value(self, good, bad):
        """A good value, or in a file that may be wrong now and then a bad one."""
        return self.rng.choice(bad if self.wrong and self.often(0.08) else good)

    def number(self, least, greatest, likely=()):
        good = [least, greatest, *likely, *likely, self.rng.randint(least, greatest), f"00{least}", str(greatest).zfill(20)]
        bad = [least - 1 if least else "-1", greatest + 1, "", "x", "1x", "+1", str(greatest).zfill(21), "9" * 20, "9" * 21, " 1", "1 ", "0x1", "1.0"]
        return str(self.value(good, bad))

    def size(self, likely):
        bad = ["0", "0k", "", "k", "1x", "4kk", "9223372036854775808", "8388608t", "9" * 20 + "t", "9" * 21, "-1", "4 k", "4b", "1e3"]
        return str(self.value([*likely, *likely, "9223372036854775807", "8388607T"], bad) if self.often(0.02) else self.value(likely, bad))

    def transfer(self):
        if self.muddle("transfer", 0.4):
            return self.rng.choice(["512", "1k", "1536", "64k", "256k", "1m", "7k"])
        return self.value(["4k", "4K", "4096", "8k", "512", "1k", "64k", "16384", "1m", "04k"] if self.often(0.3) else ["4k", "8k", "16k"],
                          ["0", "1000", "513", "1025k", "2m", "1g", "", "4", "4kb", "256k", "511", "1048577", "x", "9" * 21])

    def other_pattern(self, names):
        if self.muddle("pattern", 0.15):
            return self.rng.choice(["zz*", "none", names[0] + "x", names[0][:1]])
        return self.value([*names, *names, "*", self.rng.choice(names)[:2] + "*", self.rng.choice(names) + "*"],
                          ["zz*", "zz", "", "**", "a*b", "a b", "%", "x" * 33, "x" * 32 + "*", "x" * 33 + "*", "-", "."])

    def store_pattern(self, names):
        if self.muddle("pattern", 0.15):
            return self.rng.choice(["zz*", "none", "sd", "sd1x"])
        return self.value([*(["*"] if self.counted else names), "*", self.rng.choice(names)[:2] + "*", self.rng.choice(names) + "*"],
                          ["zz*", "zz", "", "**", "a-b", "abcdefghi", "abcdefgh*", "abcdefghi*", ".", "*a"])

    def list_of(self, make, most=3):
        return [make() for _ in range(self.rng.choice([1] * 4 + list(range(1, most + 1))))]

    def path(self, i):
        if self.muddle("path", 0.3):
            return self.rng.choice(["sd1.jnl", "sd2.jnl", "same", "/d/1", "j"])
        good = [f"/d/{i}", f"dev{i}", f"/a b/{i}", f"=;'#*{i}", f"{i}" + "p" * self.rng.choice([0, 30, 1020])]
        return self.value(good, ["", "p" * 1025, "/d/1", "sd1.jnl", "sd2.jnl"])

    def some_of(self, parts, chance):
        """A few of a definition's parts, at times in another order, at times one twice or with a word that is none."""
        chosen = [(word, make()) for word, make in parts if self.often(chance)]
        if self.often(0.5):
            self.rng.shuffle(chosen)
        if self.wrong and self.often(0.04) and chosen:
            chosen.append(self.rng.choice(chosen))
        if self.wrong and self.often(0.04):
            word = self.rng.choice(["hitarea", *plan.KINDS, "lunn", "LUN", "size", "count", "xfersize", "cleanup", "duppct", "_"])
            chosen.insert(self.rng.randint(0, len(chosen)), (word, self.rng.choice([["1"], ["4k"], ["a"], ["1", "2"]])))
        if self.wrong and self.often(0.04) and chosen:
            at = self.rng.randrange(len(chosen))
            word, items = chosen[at]
            chosen[at] = (word, items * 2 if self.often(0.7) else items * 3)
        return chosen

    def flags(self):
        return self.list_of(lambda: self.rng.choice(["o_direct", "fsync", "", "x y", "o_sync", "=,("]))

    def counts(self):
        low = self.rng.choice([1, 1, 1, 9, 98, 0, 99999, 100000]) if self.often(0.5) else 1
        many = [1, 2, 2, 3, 4] if self.often(0.9) else [12, 64]
        return [str(self.value([low], ["100001", "x", "", "-1"])), str(self.value(many, ["0", "65", "x"]))]

    def store(self, name, i):
        sizes = ["64k", "1m", "1M", "65536", "8m", "64K", "2m", "1g", "100000", "262145k"] if self.often(0.9) else ["4k", "5000", "20g"]
        sized = ("size", lambda: [self.size(sizes)])
        placed = ("lun", lambda: [self.path(i)])
        more = self.some_of([
            ("threads", lambda: [self.number(1, 256, [1, 2, 8, 3])]), ("openflags", self.flags), ("journal", lambda: [self.path(f"j{i}")]),
            ("host", lambda: self.list_of(lambda: self.other_pattern(self.hosts))),
        ], 0.25)
        if self.often(0.06):
            more.append(("keyblock", [self.transfer()]))
        if self.counted and self.often(0.3):
            more.append(("count", self.counts()))
        for part in (sized, placed):
            if not (self.wrong and self.often(0.05)) and not self.muddle("store", 0.12):
                more.insert(self.rng.randint(0, len(more)), (part[0], part[1]()))
        return [("sd", [name]), *more]

    def workload(self, name):
        more = [part for part in self.some_of([
            ("xfersize", lambda: [self.transfer()]), ("rdpct", lambda: [self.number(0, 100, [50])]),
            ("seekpct", lambda: [self.value(["0", "100", "random", "rand", "seq", "sequential", "7"],
                                            ["101", "Random", "", "x", "9" * 20, "9" * 21, "-1"])]),
            ("skew", lambda: [self.number(1, 100, [10, 20, 40, 50])] if self.wrong and self.often(0.2) else [self.rng.choice(["5", "10", "20"])]),
            ("host", lambda: self.list_of(lambda: self.other_pattern(self.hosts))),
        ], 0.35) if part[0] != "skew" or self.skewed]
        if not (self.wrong and self.often(0.04)) and not self.muddle("pattern", 0.05):
            more.insert(self.rng.randint(0, len(more)), ("sd", self.list_of(lambda: self.store_pattern(self.stores))))
        return [("wd", [name]), *more]

    def run_parts(self, chance):
        few = 3 if self.often(0.93) else 12
        return self.some_of([
            ("iorate", lambda: [self.value(["max", "1", "100", "10000000"], ["0", "10000001", "Max", "", "curve", "9" * 21, "9" * 20])]),
            ("fwdrate", lambda: [self.value(["max", "7"], ["0", "x"])]),
            ("elapsed", lambda: [self.value(["60", "5m", "1h", "24h", "30s", "100000"],
                                            ["8640000", "2400h", "100001", "0", "2401h", "5M", "m", "", "9" * 20 + "h", "1d"])]),
            ("interval", lambda: [self.value(["1", "5", "1m", "100"], ["0", "8640001", "x"])]),
            ("turns", lambda: [self.number(1, 4294967295, [5])]),
            ("forthreads", lambda: self.list_of(lambda: self.number(1, 256, [1, 2, 4, 8, 3]), few)),
            ("forxfersize", lambda: self.list_of(self.transfer, few)),
            ("forrdpct", lambda: self.list_of(lambda: self.number(0, 100, [50]), few)),
            ("openflags", self.flags), ("format", lambda: [self.value(["no"], ["yes", "only", "none", ""])]),
        ], chance)

    def run(self, name):
        more = self.run_parts(0.15)
        if self.muddle("run", 0.5):
            more = [part for part in more if part[0] not in ("format", "elapsed", "forthreads")]
            many = [str(i % 9 + 1) for i in range(self.rng.choice([400, 999, 1001]))]
            more.append(self.rng.choice([("format", ["yes"]), ("format", ["only"]), ("elapsed", ["2400h"]), ("elapsed", ["100001"]),
                                         ("forthreads", ["3", "256", "2"]), ("forthreads", many)]))
        if not (self.wrong and self.often(0.04)) and not self.muddle("pattern", 0.05):
            more.insert(self.rng.randint(0, len(more)), ("wd", self.list_of(lambda: self.other_pattern(self.workloads))))
        if self.wrong and self.often(0.03) or self.muddle("run", 0.08):
            more.append(("fwd", ["*"]))
        return [("rd", [name]), *more]

    def default(self, kind):
        if kind == "sd":
            more = [part for part in self.store("default", "x")[1:] if part[0] not in ("count", "lun", "journal") or self.often(0.1)]
        elif kind == "wd":
            more = self.workload("default")[1:]
        elif kind == "hd":
            more = self.host("default")[1:]
        else:
            more = self.run_parts(0.2) + ([("wd", ["*"])] if self.often(0.3) else [])
        return [(kind, ["default"]), *[part for part in more if self.often(0.7)]]

    def host(self, name):
        return [("hd", [name]), *self.some_of([
            ("system", lambda: [self.value(["localhost"], ["other", "", "Localhost", "local host"])]), ("jvms", lambda: [self.number(1, 16, [2, 4])]),
            ("user", lambda: [self.path("u")]), ("shell", lambda: [self.path("s")]), ("vdbench", lambda: [self.path("v")]),
        ], 0.4)]

    def general(self):
        return self.some_of([
            ("data_errors", lambda: [self.number(1, 10000)]),
            ("validate", lambda: self.list_of(lambda: self.value(["yes", "no_preread", "read_after_write"], ["no", "", "Yes"]))),
            ("journal_sectors", lambda: [self.number(1, 65536)]), ("create_anchors", lambda: [self.value(["yes", "no"], ["y", ""])]),
            ("messagescan", lambda: [self.value(["yes", "no"], ["x"])]),
        ], 0.5)

    def tree_parts(self):
        return [
            [("fsd", ["fsd1"]), *self.some_of([("anchor", lambda: [self.path("t")]), ("depth", lambda: [self.number(1, 1048576, [1, 2, 3] * 9)]),
             ("width", lambda: [self.number(1, 1048576, [1, 2, 3] * 9)]), ("files", lambda: [self.number(1, 1048576, [1, 5, 100] * 9)]),
             ("sizes", lambda: self.rng.choice([["8k"], ["4k", "50", "64k", "50"], ["4k", "99", "100", "1"], ["4k", "50", "8k"]])),
             ("distribution", lambda: [self.value(["bottom", "all"], ["x"])]), ("keyblock", lambda: [self.transfer()])], 0.93)],
            [("fwd", ["fwd1"]), ("fsd", ["fsd*"]), *self.some_of([("operation", lambda: [self.value(["read", "write"], ["copy"])]),
             ("rdpct", lambda: [self.number(0, 100)]), ("fileio", lambda: [self.value(["random", "sequential"], ["x"])]),
             ("fileselect", lambda: ["random"]), ("xfersize", lambda: [self.transfer()]), ("threads", lambda: [self.number(1, 256, [2])])], 0.3)],
            [("rd", ["rd1"]), ("fwd", [self.other_pattern(["fwd1"])]), *self.run_parts(0.1)],
        ]

    def definitions(self):
        rng = self.rng
        many = rng.choice([1, 1, 2, 2, 3, rng.choice([5, 20, 65 if self.wrong else 40])])
        self.stores = [f"sd{i}" for i in range(1, many + 1)]
        self.hosts = rng.sample(["localhost", "h1", "h-2", "h.3"], rng.randint(1, 4)) if self.often(0.3) else ["localhost"]
        self.workloads = [f"wd{i}" for i in range(1, rng.choice([1, 1, 2, 3, 4]) + 1)]
        made = {"general": [], "hd": [], "sd": [], "wd": [], "rd": []}
        if self.often(0.3):
            made["general"] = [[part] for part in self.general()] if self.often(0.5) else [part for part in [self.general()] if part]
        if self.hosts != ["localhost"] or self.often(0.1):
            for h in self.hosts:
                system = [] if h == "localhost" else [("system", ["localhost"])]
                made["hd"].append([("hd", [h]), *system, *([("jvms", ["2"])] if self.often(0.4) else [])])
            if self.wrong and self.often(0.1):
                made["hd"].append(self.host(rng.choice(["other", "localhost", "h1"])))
        made["sd"] = [self.store(name, i) for i, name in enumerate(self.stores)]
        made["wd"] = [self.workload(name) for name in self.workloads]
        made["rd"] = [self.run(f"rd{i}") for i in range(rng.choice([1, 1, 1, 2, 3]))]
        for kind in ("hd", "sd", "wd", "rd"):
            while self.often(0.18 if kind != "hd" else 0.05):
                made[kind].insert(rng.randint(0, len(made[kind])), self.default(kind))
            if self.wrong and self.often(0.03) and made[kind]:
                made[kind].append(rng.choice(made[kind]))
            if self.wrong and self.often(0.03):
                del made[kind][:]
        if self.trees:
            made["sd"], made["wd"], made["rd"] = [], [], self.tree_parts()
            if self.often(0.3):
                made["sd"] = [self.store("sd1", 1)]
        kinds = list(made)
        if self.often(0.3):
            rng.shuffle(kinds)
        listed = [definition for kind in kinds for definition in made[kind]]
        if self.often(0.15):
            rng.shuffle(listed)
        return listed

    def item(self, item):
        if any(byte in ' ,()"' for byte in item) or not item or self.often(0.08):
            return '"' + item.replace('"', "'") + '"'
        return item

    def blanks(self, chance=0.15):
        return "".join(self.rng.choice(" \t") for _ in range(self.rng.randint(1, 3))) if self.often(chance) else ""

    def written(self, part):
        word, items = part
        if len(items) == 1 and not self.often(0.1):
            return f"{word}={self.item(items[0])}"
        inside = ",".join(self.blanks() + self.item(item) + self.blanks() for item in items)
        return f"{word}=({inside})"

    def skipped(self):
        return self.rng.choice(["", "  ", "# note", "* note, with a comma,", "/ path", "  #sd=x", "\t*", "#" + "c" * 300])

    def text(self):
        end = self.rng.choice(["\n"] * 6 + ["\r\n"])
        out = []
        for definition in self.definitions():
            while self.often(0.08):
                out.append(self.skipped() + end)
            line = self.blanks(0.05)
            for i, part in enumerate(definition):
                line += self.written(part)
                if i + 1 == len(definition):
                    break
                line += "," + self.blanks(0.1)
                if self.often(0.12):
                    line += end
                    while self.often(0.2):
                        line += self.skipped() + end
                    line += self.blanks(0.5)
            if self.often(0.1):
                line += self.rng.choice([" ", "\t", " a note", " , sd=x", ' "(', " = \x01\xff"])
            out.append(line + (end if self.often(0.98) else "\r" + end if self.often(0.1) else end))
        whole = "".join(out)
        if self.often(0.1):
            whole = whole.rstrip("\r\n")
        return whole.encode("latin-1")


BYTES = b',=()"# \t\r\n*/\x00\x7f\x80\xffaz09_-.k'


def broken(rng, data):
    """A file with a few bytes changed, put in or left out."""
    data = bytearray(data)
    for _ in range(rng.choice([1, 1, 1, 2, 3])):
        at = rng.randrange(len(data) + 1)
        kind = rng.randrange(7)
        if kind == 0:
            data[at:at + 1] = bytes([rng.randrange(256)])
        elif kind in (1, 2):
            data[at:at] = bytes([rng.choice(BYTES)])
        elif kind in (3, 4):
            del data[at:at + rng.choice([1, 1, 1, 2, 5])]
        elif kind == 5:
            data[at:at + 1] = bytes([rng.choice(BYTES)])
        else:
            del data[at:]
    return bytes(data)


SHORT = b'sdw=a,() \t\r\n"#*/1k_\x7f\x01'


def random_file(rng):
    choice_of = rng.random()
    if choice_of < 0.08:
        return bytes(rng.choice(SHORT) for _ in range(rng.randint(0, 14)))
    if choice_of < 0.13:
        line = b"".join(rng.choice([b"sd=a", b"sd=", b"a", b",", b" ", b"=", b"(", b")", b'"', b"lun=b", b"\r", b"\n", b"\t", b"#", b"size=4k"])
                        for _ in range(rng.randint(1, 12)))
        return line
    data = Maker(rng).text()
    return broken(rng, data) if rng.random() < 0.25 else data


STORE = b"sd=sd1,lun=/d/a,size=64k\n"
WORK = b"wd=wd1,sd=sd1,xfersize=4k\n"
RUN = b"rd=rd1,wd=wd1\n"


# Lines with a fault, and some that only look so.
LINES = [
    b'sd=sd1,', b'sd=sd1,  ', b'sd=sd1, \r', b'sd=sd1,\r\r', b'\r', b' \r', b'\r\r', b'sd=a, # c', b'sd=a, note', b'sd = a',
    b'sd=a ,lun=b', b'sd=a ,', b'sd=a,sd=b', b'sd=(a)', b'sd=(a,b)', b'sd=""', b'sd="a"b', b'sd=("a"b)', b'sd=(a\x7f)', b'sd=a\x7f',
    b'sd="a\tb"', b'sd="a\x01b"', b'sd=(a,', b'sd=(a,)', b'sd=(,a)', b'sd=()', b'sd=( )', b'sd=(', b'sd=( ', b'sd=((a))', b'sd', b'sd=',
    b'=a', b',sd=a', b'sd=a,,lun=b', b'sd=a)', b'sd=a(', b'sd=a"', b'sd=a\r,', b'sd=a,\rlun=b', b'sd\r=a', b'sd\x80=a', b'\x80',
    b'sd=\x80', b'sd=a,\x80', b'sd=a \x80,', b'sd=a,\x0b',
]


def fixed_files():
    """Files that chance is slow to find."""
    whole = STORE + WORK + RUN
    yield b""
    yield whole
    yield b"\n" * 1048577
    yield whole.ljust(1048576, b"\n")
    yield whole.ljust(1048577, b"\n")
    for many in (4095, 4096, 4097):
        yield b"#" * many
        yield b"#" * many + b"\r\n" + whole
        yield b" " * many + b"\n" + whole
        yield b" " * (many - len(STORE) + 1) + STORE + WORK + RUN
        yield b"sd=sd1,\n" + b"#" * many + b"\n" + b"lun=/d/a,size=64k\n" + WORK + RUN
        yield b"sd=sd1,  \r\n" + b"#" * many
        yield b"sd=sd1,\n" + b" " * many + b"\n\n"
        yield b"sd=sd1,\n" + b"#" * many + b"\n" + b"lun=" + b"a" * many
        yield whole + b"sd=" + b"\x01".ljust(many - 3, b"x")
    for line in LINES:
        yield line
        yield line + b"\n"
        yield line + b"\n# note\n"
        yield line + b"\nlun=/d/a,size=64k\n" + WORK + RUN
    yield b"sd=default,count=(x,1)\n"
    yield b"sd=default,count=(1,1)\n" + whole
    yield b"sd=default,count=(1)\n" + whole
    yield b"hd=default,jvms=4\n" + whole
    yield b"hd=default,system=localhost\nhd=a\n" + whole
    yield b"hd=default,system=other\n" + whole
    yield b"hd=a\n" + whole
    for word in (b"wd", b"sd", b"fsd", b"fwd", b"hd", b"rd"):
        for other in (b"wd", b"sd", b"fsd", b"fwd", b"hd", b"rd"):
            yield word + b"=x," + other + b"=y\n" + whole
            yield word + b"=default\n" + other + b"=default\n" + whole
    for item in (b"64", b"64K", b"64x", b"63", b"4095", b"4096", b"1t", b"8g", b"8589934592", b"8589935104", b"9223372036854775807",
                 b"9223372036854775808",
                 b"00000000000000000064k", b"000000000000000000064k", b"9" * 20, b"9" * 21, b"0", b"16777216t", b"8388607t", b"8388608t", b"", b"k"):
        yield b'sd=sd1,lun=/d/a,size="' + item + b'"\n' + WORK + RUN
        yield b'sd=sd1,lun=/d/a,size="' + item + b'"\nwd=wd1,sd=sd1,xfersize=512\n' + RUN
    for more in (b",keyblock=4k", b",keyblock=512", b",keyblock=8k", b",keyblock=64k", b",keyblock=1000", b",keyblock=2m"):
        for transfer_size in (b"512", b"4k", b"6k", b"32k", b"64k", b"128k", b"256k", b"512k"):
            yield STORE[:-1] + more + b"\nwd=wd1,sd=sd1,xfersize=" + transfer_size + b"\n" + RUN
    yield STORE + b"sd=sd2,lun=/d/b,size=9000m\n" + b"wd=wd1,sd=sd*,xfersize=512\n" + RUN
    yield b"sd=sd,lun=/d/x,size=1m,count=(1,3)\nwd=w,sd=(sd1,sd3),xfersize=4k\nrd=r,wd=w\n"
    yield b"sd=sd,lun=/d/x,journal=j,size=1m,count=(99,3)\nwd=w,sd=*,xfersize=4k\nrd=r,wd=w\n"
    yield b"sd=default,lun=/d/x,journal=j\nsd=sd,size=1m,count=(8,3)\nwd=w,sd=*\nrd=r,wd=w\n"
    yield b"sd=sdsdsd,size=1m,lun=x,count=(98,3)\n" + WORK + RUN
    yield b"sd=sd1,size=1m,lun=x\nsd=sd,size=1m,lun=y,count=(0,3)\n" + WORK + RUN
    yield b"sd=abcdefgh,lun=x,size=1m\nwd=w,sd=abcdefgh*\nrd=r,wd=w\n"
    yield b"sd=abcdefgh,lun=x,size=1m\nwd=w,sd=abcdefghi*\nrd=r,wd=w\n"
    yield b"sd=s,lun=x,size=1m,count=(1,64)\nwd=w,sd=*\nrd=r,wd=w\n"
    yield b"sd=s,lun=x,size=1m,count=(1,64)\nsd=t,lun=y,size=1m\nwd=w,sd=*\nrd=r,wd=w\n"
    yield b"sd=s,lun=x,size=1m,threads=9,count=(1,57)\nwd=w,sd=*\nrd=r,wd=w\n"
    yield b"".join(b"wd=w%d,sd=*\n" % i for i in range(64)) + STORE + b"rd=r,wd=*\n"
    yield b"".join(b"wd=w%d,sd=*\n" % i for i in range(65)) + STORE + b"rd=r,wd=*\n"
    yield STORE + WORK + b"".join(b"rd=r%d,wd=wd1\n" % i for i in range(256))
    yield STORE + WORK + b"".join(b"rd=r%d,wd=wd1\n" % i for i in range(257))
    yield b"".join(b"hd=h%d,system=localhost,jvms=16\n" % i for i in range(16)) + whole
    yield b"".join(b"hd=h%d,system=localhost\n" % i for i in range(17)) + whole
    loops = [b"forthreads=(" + b",".join(b"%d" % (i % 4 + 1) for i in range(n)) + b")" for n in (10, 100, 1000, 1001)]
    for loop in loops:
        yield STORE + WORK + b"rd=rd1,wd=wd1," + loop + b"\n"
    yield STORE + WORK + b"rd=a,wd=wd1\nrd=rd1,wd=wd1," + loops[2] + b"\n"
    yield STORE + WORK + b"rd=rd1,wd=wd1," + loops[1] + b",\nforxfersize=(4k,8k,4k,8k,4k,8k,4k,8k,4k,8k)\n"
    long_loops = b"forrdpct=(" + b",".join([b"1"] * 1300) + b"),\nforxfersize=(" + b",".join([b"4k"] * 1000) + b"),\n"
    yield STORE + WORK + b"rd=rd1,wd=wd1," + long_loops + loops[3] + b"\n"
    yield (STORE + WORK + b"rd=default,forrdpct=(1,2),forthreads=(3,4)\nrd=rd1,forxfersize=(8k,4k),wd=wd1\n"
           b"rd=rd2,forrdpct=(7,8),forxfersize=(4k,8k),wd=wd1\n")
    for run in (b"elapsed=100000", b"elapsed=100001", b"elapsed=8640000,interval=86", b"elapsed=8640000,interval=87",
                b"elapsed=24h,interval=1", b"elapsed=1,interval=5", b"iorate=max", b"iorate=9999999", b"forthreads=256", b"forthreads=(1,256)",
                b"format=yes", b"format=only", b"format=no", b"fwd=x", b"fwdrate=5"):
        yield STORE + b"sd=sd2,lun=b,size=1m\nsd=sd3,lun=c,size=1m\n" + b"wd=wd1,sd=*\nrd=rd1,wd=wd1," + run + b"\n"
    for skews in ((100,), (99,), (1,), (50, 50), (50, 51), (0, 100), (0, 99), (0, 0, 0), (0, 0, 99), (0, 0, 98), (0, 33, 0, 0), (60, 60)):
        yield STORE + b"".join(b"wd=w%d,sd=sd1" % i + (b",skew=%d" % s if s else b"") + b"\n" for i, s in enumerate(skews)) + b"rd=r,wd=*\n"
    many = b"".join(b"sd=s%d,lun=x\n" % i for i in range(63))
    for last in (b"sd=s63,lun=x", b"sd=s1,lun=x", b"sd=s,count=(60,5)", b"sd=s,count=(63,1)", b"sd=s,count=(64,2)",
                 b"sd=abcdefg,count=(9,2)", b"sd=default", b"sd=s,count=(100000,64)"):
        yield many + last + b"\n" + WORK + RUN
        yield many + b"sd=z,lun=x\n" + last + b"\n" + WORK + RUN
    hosts = b"".join(b"hd=h%d,system=localhost\n" % i for i in range(16))
    for last in (b"hd=h3", b"hd=h3,system=x", b"hd=h17,system=localhost", b"hd=h17", b"hd=localhost", b"hd=default"):
        yield hosts + last + b"\n" + whole
    yield b"hd=h,system=localhost\nhd=default,system=localhost\nhd=k\nhd=default,jvms=3\nhd=m\n" + whole
    yield whole + b"fsd=default,depth=2\n"
    yield b"fsd=default,depth=2\n" + whole
    yield b"fsd=default,depth=2\nrd=r,wd=x\n"
    yield b"create_anchors=yes\nfsd=fsd1,anchor=/a,depth=2,width=2,files=2,sizes=8k\nfwd=fwd1,fsd=fsd1,xfersize=4k\nrd=rd1,fwd=fwd1,format=only\n"
    yield b"fsd=fsd1,anchor=/a,depth=2,width=300,files=1,sizes=8k\nfwd=fwd1,fsd=fsd1\nrd=rd1,fwd=fwd1\n"
    yield b"data_errors=5,journal_sectors=9\nvalidate=(no_preread,read_after_write)\n" + whole
    yield b"data_errors=5\ndata_errors=5\n" + whole
    yield b"data_errors=5,lun=x\n" + whole
    yield b"frobnicate=5\n" + whole
    yield whole + whole
    for lun, journal in ((b"sd1.jnl", None), (b"a", b"a"), (b"b", None), (b"sd2.jnl", None), (b"a", b"b"), (b"a", b"sd2.jnl")):
        yield (b"sd=sd1,size=1m,lun=" + lun + (b",journal=" + journal if journal else b"") + b"\nsd=sd2,lun=b,size=1m\nwd=w,sd=*\nrd=r,wd=w\n")


# Files whose first printed line is stated, with that line: the computation here is held to them before any program is.
STATED = [
    (b"", "parameter line 0: no runs"),
    (b"\n" * 1048577, "parameter line 0 column 0: file too long"),
    (b"#" * 4097, "parameter line 1 column 4097: line too long"),
    (b"sd=", "parameter line 1 column 4: empty value"),
    (b"sd=((a))", "parameter line 1 column 5: empty value"),
    (b"sd=(sd1", "parameter line 1 column 8: unclosed list"),
    (b'sd="sd1', "parameter line 1 column 8: unclosed quote"),
    (b"sd=sd1,", "parameter line 1 column 8: open end"),
    (b"sd=sd1,  ", "parameter line 1 column 10: open end"),
    (b"sd=\x80", "parameter line 1 column 4: bad byte"),
    (b"sd=a, # c", "parameter line 1 column 7: empty part"),
    (b"sd=a, note", "parameter line 1 column 11: missing equals"),
    (b"sd = a", "parameter line 1 column 3: missing equals"),
    (b"\r\r", "parameter line 1 column 1: bad byte"),
    (b"sd=sd1,\n" + b"#" * 4097 + b"\n", "parameter line 1 column 8: open end"),
    (b"sd=sd1,\n" + b"#" * 4097 + b"\nlun=a", "parameter line 2 column 4097: line too long"),
    (b"sd=sd1,,lun=/d/a,size=64k\n" + WORK + RUN, "parameter line 1 column 8: empty part"),
    (STORE[:-1] + b",hitarea=1m\n" + WORK + RUN, "parameter line 1: unknown keyword"),
    (b"sd=a,sd=b", "parameter line 1: unknown keyword"),
    (b"sd=sd1,lun=/d/a,size=64x\n" + WORK + RUN, "parameter line 1: bad number"),
    (b"sd=default,count=(x,1)\n", "parameter line 1: bad number"),
    (b"sd=default,count=(1,1)\n", "parameter line 1: bad choice"),
    (b"sd=(a,b)", "parameter line 1: wrong number of values"),
    (b'sd=""', "parameter line 1: bad name"),
    (STORE + b"wd=wd1,sd=sd1,xfersize=1000\n" + RUN, "parameter line 2: out of range"),
    (b"sd=sd1,lun=/d/a,lun=/d/b,size=64k\n" + WORK + RUN, "parameter line 1: repeated keyword"),
    (STORE + b"wd=wd1,sd=zz*\n" + RUN, "parameter line 2: nothing is selected"),
    (b"sd=sd1,lun=/d/a,size=64k,keyblock=4k\nwd=wd1,sd=sd1,xfersize=256k\n" + RUN, "parameter line 1: size too small"),
    (b"sd=sd1,lun=/d/a,size=64k,keyblock=4k\nwd=wd1,sd=sd1,xfersize=512k\n" + RUN, "parameter line 1: transfer not a multiple"),
    (b"sd=sd1,lun=/d/a,size=8589935104\nwd=wd1,sd=sd1,xfersize=512\n" + RUN, "parameter line 1: too many blocks"),
    (b"hd=default,system=other\n" + STORE + WORK + RUN, "parameter line 1: remote host"),
    (b"sd=sd1,lun=/d/a,size=8g\nwd=wd1,sd=sd1,xfersize=512\n" + RUN, "store sd1 lun /d/a blocks 16777216 of 512 threads 8 journal sd1.jnl"),
    (b'sd=sd1,lun="/d/a b",size=64k\n' + WORK + RUN, "store sd1 lun /d/a b blocks 16 of 4096 threads 8 journal sd1.jnl"),
    (b"hd=default,system=localhost\nhd=a\n" + STORE + WORK + RUN, "store sd1 lun /d/a blocks 16 of 4096 threads 8 journal sd1.jnl"),
]


# ---- the comparison

def answer_of(program, data, place):
    (place / "parm").write_bytes(data)
    done = subprocess.run([program, "-s", "-f", "parm"], cwd=place, stdin=subprocess.DEVNULL, capture_output=True, timeout=120)
    return done.stdout, done.returncode, done.stderr


def differs(program, data, place):
    wanted, status = shown(data)
    return answer_of(program, data, place) != (wanted.encode(), status, b"")


def smaller(program, data, place, tries=600):
    """A smaller file over which the program still differs: pieces are left out, shorter and shorter ones."""
    step = max(1, len(data) // 2)
    while step and tries:
        at = 0
        while at < len(data) and tries:
            tries -= 1
            less = data[:at] + data[at + step:]
            if differs(program, less, place):
                data = less
            else:
                at += step
        step //= 2
    return data


def fuzz(program, cases, seed):
    for data, line in STATED:
        if not shown(data)[0].startswith(line + "\n"):
            sys.exit(f"plans: {data[:80]!r} must give {line!r}, and not {shown(data)[0][:200]!r}")
    program = str(Path(program).resolve())
    files = [*(data for data, _ in STATED), *fixed_files(), *(random_file(random.Random(f"{seed} {i}")) for i in range(cases))]
    wrong = []
    good = 0
    with tempfile.TemporaryDirectory(prefix="vdbench-plan-") as folder:
        place = Path(folder)
        for data in files:
            good += shown(data)[1] == 0
            if differs(program, data, place):
                wrong.append(data)
        if not wrong:
            print(f"plans: {len(files)} compared, none differ; {good} have a plan")
            return 0
        least = smaller(program, min(wrong, key=len), place)
        printed, status, said = answer_of(program, least, place)
        wanted = shown(least)
        print(f"plans: {len(files)} compared, {len(wrong)} differ; one of them, made smaller: {least!r}")
        print(f"  printed {printed[:600]!r}, status {status}{f', standard error {said[:200]!r}' if said else ''}")
        print(f"  wanted  {wanted[0].encode()[:600]!r}, status {wanted[1]}")
    return 1
