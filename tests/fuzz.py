#!/usr/bin/env python3
"""Compares transcripts of a coldfloor program with model.py on random scripts.

    python3 tests/fuzz.py BINARY [--commands a,b,c] [--scripts N] [--seed S]

The scripts use only the commands that are named (all of them where none are),
so that a program that has not all commands yet can be tested. Script number i
of a seed is always the same. The first script whose transcripts differ is
printed up to the difference, and kept in a file.
"""

import argparse
import os
import random
import subprocess
import sys
import tempfile

sys.dont_write_bytecode = True
sys.path.insert(0, os.path.dirname(os.path.abspath(__file__)))
import model  # noqa: E402

ALL = list(model.COUNTS) + list(model.GRID_COUNTS)
TEMPERATURES = (0, 1, -1, 3, -7, 20000000, -18000000, 10 ** 9, -10 ** 9, 10 ** 9 - 1)
EDGES = (-2 ** 63, 2 ** 63 - 1, 10 ** 9 + 1, -10 ** 9 - 1, 10 ** 12, 10 ** 12 + 1, -10 ** 12 - 1)


class Maker:
    """Makes one script. Follows it in a session of the model, so that most commands mean something."""

    def __init__(self, chance, commands):
        self.r = chance
        self.commands = commands
        self.session = model.Session()
        self.lines = []

    def add(self, line):
        self.lines.append(line)
        model.answer(self.session, len(self.lines), line)

    @property
    def stage(self):
        if self.session.study is not None:
            return "study"
        if self.session.ground is None:
            return "none"
        return "ground" if self.session.ground.rows is None else "table"

    @property
    def cells(self):
        floor = self.session.study or self.session.ground
        return floor.n if floor else 9

    def free_cells(self):
        if self.session.study is not None:
            return [equation[0] for equation in self.session.study.equations]
        if self.session.ground is not None:
            return [k for k, cell in enumerate(self.session.ground.plan()) if cell[0] == "free"]
        return []

    def temperature(self):
        r = self.r
        roll = r.random()
        if roll < 0.5:
            return r.choice(TEMPERATURES)
        if roll < 0.93:
            return r.randint(-50, 50)
        return r.choice(EDGES)

    def heat(self):
        r = self.r
        roll = r.random()
        if roll < 0.6:
            return r.randint(-12, 12)
        if roll < 0.9:
            return r.choice((0, 4000000000, 4000000001, 10 ** 12, -10 ** 12, r.randint(-10 ** 12, 10 ** 12)))
        return r.choice(EDGES)

    def side(self):
        r = self.r
        roll = r.random()
        if roll < 0.85:
            return r.randint(1, 6)
        if roll < 0.95:
            return r.choice((1, 2, 7, 13))
        return r.choice((0, -1, 64, 65, 2 ** 63 - 1))

    def weight(self):
        r = self.r
        roll = r.random()
        if roll < 0.8:
            return r.randint(0, 3)
        if roll < 0.95:
            return r.choice((0, 1, 7, 999, 1000))
        return r.choice((-1, 1001, 2 ** 62))

    def cell(self):
        r = self.r
        free = self.free_cells()
        if free and r.random() < 0.6:
            return r.choice(free)
        if r.random() < 0.9:
            return r.randrange(max(1, self.cells))
        return r.choice((self.cells, self.cells - 1, self.cells + 1, 2 ** 63 - 1, 99999, 100000, -1, -0))

    def walks(self):
        r = self.r
        roll = r.random()
        if roll < 0.85:
            return r.randint(1, 30)
        if roll < 0.95:
            return r.randint(1, 400)
        return r.choice((0, -1, 1000001, 2 ** 63 - 1, -2 ** 63))

    def margin(self):
        return self.r.choice((1, 1, 2, 10, 100, 9999, 10000, 10001, 0, -1)) if self.r.random() < 0.5 else self.r.randint(1, 50)

    def factor(self):
        return self.r.choice((1, 199, 200, 0, -5, 100, 150)) if self.r.random() < 0.3 else self.r.randint(1, 199)

    def grid(self):
        return self.r.choice(model.GRIDS)

    def entry(self, grid):
        r = self.r
        if grid == "temperatures":
            return [self.temperature()]
        if grid == "majorant":
            return [r.choice((0, 1, 1, 2, 5, 500000, 500001, -1, r.randint(0, 40)))]
        lo = r.choice((self.temperature(), -2 * 10 ** 9, -2 * 10 ** 9 - 1))
        return [lo, r.choice((self.temperature(), lo, lo + 3, lo - 1, 2 * 10 ** 9, 2 * 10 ** 9 + 1))]

    def numbers(self, name):
        r = self.r
        if name in ("slab", "ring", "listed"):
            w, h = self.side(), self.side()
            held = {"slab": 4, "ring": 3, "listed": 0}[name]
            rest = [self.temperature() for _ in range(held)]
            if name != "listed":
                rest.append(self.heat())
            return [w, h] + rest
        if name == "free":
            return [self.weight() for _ in range(5)] + [self.heat()]
        return {
            "held": lambda: [self.temperature()],
            "void": lambda: [],
            "loss": lambda: [self.cell(), self.weight()],
            "study": lambda: [r.choice((0, 1, 2, 10, 10 ** 9, 10 ** 9 + 1, -1)) if r.random() < 0.3 else r.randint(0, 5)],
            "pin": lambda: [self.cell(), self.temperature()],
            "release": lambda: [self.cell()],
            "relax": lambda: [self.factor(), self.walks()],
            "raise": lambda: [self.margin(), self.walks()],
            "certify": lambda: [],
            "tighten": lambda: [self.walks()],
            "bracket": lambda: [self.cell()],
            "open": lambda: [],
            "finished": lambda: [],
        }[name]()

    def command(self, name):
        """The words of the command."""
        r = self.r
        if name in model.GRID_COUNTS:
            grid = self.grid()
            if name == "show":
                numbers = []
            elif name == "write":
                numbers = [self.cell()] + self.entry(grid)
            else:
                length = self.cells if r.random() < 0.7 else r.choice(
                    (0, 1, self.cells + 1, self.cells - 1, 4096, 100000, 100001, 2 ** 63 - 1, -1))
                numbers = [length]
            words = [name, grid] + numbers
        else:
            numbers = self.numbers(name)
            words = [name] + numbers
        return [str(word).encode() for word in words]

    def spoil(self, words):
        """Makes a command one that cannot be read, or one that is written oddly."""
        r = self.r
        words = list(words)
        roll = r.randrange(9)
        at = r.randrange(len(words))
        if roll == 0:
            words.insert(at + 1, str(r.randint(-3, 9)).encode())
        elif roll == 1:
            del words[at]
        elif roll == 2:
            words[at] = self.bad_word()
        elif roll == 3:
            words.append(self.bad_word())
        elif roll == 4 and at > 0:
            words[at] = b"-" + words[at]
        elif roll == 5 and at > 0:
            words[at] = words[at].replace(b"-", b"-00") if b"-" in words[at] else b"000" + words[at]
        elif roll == 6:
            words[at] = words[at] + r.choice((b"\r", b"x", b".0", b"\x00", b"\xff"))
        elif roll == 7:
            words[at] = words[at].upper()
        else:
            words = words + words
        return words

    def bad_word(self):
        r = self.r
        return r.choice((
            b"x", b"-", b"--1", b"+1", b"1.5", b"0x10", b"1e3", b"-0", b"9223372036854775808",
            b"-9223372036854775808", b"-9223372036854775809", b"9" * 40, b"0" * 60 + b"7", b"\r", b"\xff\xfe",
            "\u0663".encode(), b"'", b"#", b"temperatures", b"brackets", b"majorants", b"sho", b"Slab", b"1_000",
            bytes(r.choice([b for b in range(256) if b not in (9, 10, 32)]) for _ in range(r.randint(1, 9)))))

    def line(self, words):
        """The words as a line, mostly joined by single spaces."""
        r = self.r
        if r.random() < 0.9:
            return b" ".join(words)
        out = r.choice((b"", b" ", b"\t", b"  \t "))
        for word in words:
            out += word + r.choice((b" ", b"\t", b"  ", b" \t\t "))
        return out

    def odd_line(self):
        r = self.r
        return r.choice((
            b"", b" ", b"\t \t", b"# a remark", b"   # one more, indented", b"#", b"#slab 3 3", b"\r", b"\x00",
            self.bad_word(), bytes(r.choice([b for b in range(256) if b != 10]) for _ in range(r.randint(1, 30))),
            b"x" * r.choice((1, 300, 5000, 70000)), b"open " + b"1 " * r.choice((3, 40, 3000)),
            b" ".join([b"write", b"brackets"] + [b"7"] * r.choice((1, 2, 4, 60)))))

    # The next command: what fits the stage, or now and then any.
    def next_name(self):
        r = self.r
        if r.random() < 0.06:
            return r.choice(self.commands)
        weights = {
            "none": {"slab": 5, "ring": 3, "listed": 5},
            "ground": {"loss": 3, "study": 3, "slab": 1},
            "table": {"free": 14, "held": 5, "void": 3, "loss": 2, "study": 2, "listed": 1},
            "study": {
                "pin": 4, "release": 3, "relax": 5, "raise": 5, "certify": 8, "tighten": 5, "bracket": 5, "open": 2,
                "finished": 3, "show": 6, "write": 6, "length": 2, "slab": 1, "ring": 1, "listed": 2,
            },
        }[self.stage]
        names = [name for name in weights if name in self.commands]
        if not names:
            return r.choice(self.commands)
        return r.choices(names, [weights[name] for name in names])[0]

    def many_losses(self):
        """More losses than their table takes, some of them put again."""
        for _ in range(self.r.randint(14, 24)):
            self.add(b"loss %d %d" % (self.r.randrange(self.cells), self.r.randint(0, 9)))

    def many_pins(self):
        """Mostly more pins than their table takes, where there are so many free cells."""
        for _ in range(self.r.randint(30, 50)):
            free, pins = self.free_cells(), list(self.session.study.pins)
            if pins and self.r.random() < 0.1 and "release" in self.commands:
                self.add(b"release %d" % self.r.choice(pins))
            elif free:
                self.add(b"pin %d %d" % (self.r.choice(free), self.r.randint(-9, 9)))

    def proved(self):
        """What leads to brackets, and then perhaps to some that cross."""
        r = self.r
        need = {"raise", "certify", "relax", "write", "tighten"}
        free = self.free_cells()
        if not free or not need <= set(self.commands):
            return
        for grid in model.GRIDS:
            self.add(b"length %s %d" % (grid.encode(), self.cells))
        self.add(b"relax %d %d" % (r.randint(50, 160), r.randint(1, 40)))
        self.add(b"raise %d 400" % r.randint(1, 60))
        self.add(b"certify")
        for _ in range(r.randint(0, 4)):
            cell = r.choice(free)
            lo, hi = model.read_bracket(self.session.study.grids["brackets"][cell])
            lo, hi = lo + r.randint(-3, 3), hi + r.randint(-3, 3)
            if r.random() < 0.4:
                lo = hi = r.choice((lo, hi)) + r.randint(-9, 9)
            self.add(b"write brackets %d %d %d" % (cell, lo, hi))
            if r.random() < 0.3:
                self.add(b"relax %d %d" % (r.randint(50, 160), r.randint(1, 40)))
            self.add(r.choice((b"tighten %d" % r.randint(1, 20), b"certify")))
            self.add(r.choice((b"show brackets", b"bracket %d" % cell, b"open", b"finished")))

    def outside(self):
        """A grid's entry outside its limits, or just within, and a call that reads it."""
        r = self.r
        free = self.free_cells()
        if not free or "write" not in self.commands:
            return
        if r.random() < 0.5:
            value = r.choice((10 ** 9, 10 ** 9 + 1, -10 ** 9, -10 ** 9 - 1, 2 ** 63 - 1, -2 ** 63))
            self.add(b"write temperatures %d %d" % (r.choice(free), value))
        else:
            value = r.choice((0, -1, 500000, 500001, 2 ** 63 - 1, -2 ** 63))
            self.add(b"write majorant %d %d" % (r.choice(free), value))
        for line in (b"relax 100 3", b"raise 2 9", b"certify", b"show temperatures", b"show majorant"):
            if line.split()[0].decode() in self.commands and r.random() < 0.6:
                self.add(line)

    def large(self):
        r = self.r
        w, h = r.randint(6, 14), r.randint(6, 14)
        if "slab" in self.commands:
            self.add(b"slab %d %d 5 -5 0 9 %d" % (w, h, r.randint(-9, 9)))

    def whole_table(self):
        """A table with a row for each cell, mostly free and linked."""
        r = self.r
        if not {"listed", "free", "held", "void"} <= set(self.commands):
            return
        w, h = r.randint(1, 5), r.randint(1, 5)
        self.add(b"listed %d %d" % (w, h))
        for _ in range(w * h + r.choice((0, 0, -1, 2))):
            roll = r.random()
            if roll < 0.7:
                row = [b"free"] + [b"%d" % self.weight() for _ in range(4)] + [b"%d" % r.choice((0, 1, 2)), b"%d" % self.heat()]
            elif roll < 0.9:
                row = [b"held", b"%d" % self.temperature()]
            else:
                row = [b"void"]
            self.add(b" ".join(row))

    def gadget(self):
        """A few lines that go together; whether there were any."""
        r = self.r
        before = len(self.lines)
        if self.stage in ("ground", "table") and "loss" in self.commands:
            if r.random() < 0.3:
                self.many_losses()
        elif self.stage == "study":
            roll = r.random()
            if roll < 0.3:
                self.outside()
            elif roll < 0.9:
                self.proved()
            elif "pin" in self.commands:
                self.many_pins()
        return len(self.lines) > before

    def script(self):
        r = self.r
        opening = r.random()
        if opening < 0.15:
            self.large()
        elif opening < 0.4:
            self.whole_table()
        for _ in range(r.choice((3, 10, 25, 60))):
            roll = r.random()
            if roll < 0.04:
                self.add(self.odd_line())
                continue
            if roll < 0.12 and self.gadget():
                continue
            words = self.command(self.next_name())
            if r.random() < 0.07:
                words = self.spoil(words)
            if words:
                self.add(self.line(words))
        text = b"\n".join(self.lines)
        return text if r.random() < 0.2 else text + b"\n"


def known_only(text, commands):
    """Whether no line is a command that the program has not."""
    absent = [name.encode() for name in ALL if name not in commands]
    for line in text.split(b"\n"):
        words = line.replace(b"\t", b" ").split()
        if words and words[0] in absent:
            return False
    return True


def difference(text, ours, theirs):
    a, b = ours.split(b"\n"), theirs.split(b"\n")
    at = 0
    while at < len(a) and at < len(b) and a[at] == b[at]:
        at += 1
    print("first difference at line %d of the transcript" % (at + 1))
    for line in a[max(0, at - 6):at]:
        print("  both:    ", repr(line[:300]))
    print("  model:   ", repr(a[at][:300]) if at < len(a) else "(ended)")
    print("  program: ", repr(b[at][:300]) if at < len(b) else "(ended)")


def main():
    reader = argparse.ArgumentParser()
    reader.add_argument("binary")
    reader.add_argument("--commands", default=",".join(ALL))
    reader.add_argument("--scripts", type=int, default=1000)
    reader.add_argument("--seed", type=int, default=1)
    given = reader.parse_args()
    commands = given.commands.split(",")
    for name in commands:
        if name not in ALL:
            reader.error("no command '%s'" % name)
    tried = 0
    for number in range(given.scripts):
        text = Maker(random.Random("%d/%d" % (given.seed, number)), commands).script()
        if not known_only(text, commands):
            continue
        tried += 1
        expected = model.transcript(text)
        run = subprocess.run([given.binary], input=text, stdout=subprocess.PIPE, stderr=subprocess.PIPE)
        if run.returncode == 0 and run.stdout == expected:
            continue
        with tempfile.NamedTemporaryFile(prefix="coldfloor-", suffix=".script", delete=False) as kept:
            kept.write(text)
        print("script %d of seed %d, kept in %s" % (number, given.seed, kept.name))
        if run.returncode != 0:
            print("the program ended with status %d: %r" % (run.returncode, run.stderr[-300:]))
        difference(text, expected, run.stdout)
        return 1
    print("%d scripts agree" % tried)
    return 0


if __name__ == "__main__":
    sys.exit(main())
