#!/usr/bin/env python3
"""An independent calculation of coldfloor's transcripts.

It reads a script on standard input and writes the transcript to standard
output. It shares no code with the program and uses whole numbers of any size
and plain loops, so that a transcript of the program can be compared with it.

Where the format leaves a choice, it is made here as follows:
- a last line that does not end in a newline is a line;
- only spaces and tabs separate words; any other byte, a carriage return too,
  belongs to a word, and words are echoed byte for byte;
- every line that is not passed over is echoed, also one that cannot be read;
- a number is an optional '-' and one or more digits 0 to 9; zeros in front
  and '-0' are allowed, '+' is not; answers show the number without them;
- the test for '-' in front looks at the place of the cell or the length only
  and comes before any other word is read as a number; surplus words are read
  as numbers before they are counted.
"""

import sys

TEMPERATURE = 10 ** 9
HEAT = 10 ** 12
WIDEST = 2 * 10 ** 9
WEIGHT = 1000
HIGHEST_MAJORANT = 500000
MOST_WALKS = 1000000
MOST_ENTRIES = 100000

CAUSES = {
    1: "no such cell",
    2: "not a free cell",
    3: "pinned already",
    4: "no pin to release",
    5: "table full",
    6: "number outside its limits",
    7: "wrong grid length",
    8: "not proved",
    9: "crossed",
    10: "temperature outside its limits",
    11: "majorant outside its limits",
    12: "margin below 1",
    13: "spread too wide",
}

GRIDS = ("temperatures", "majorant", "brackets")

# How many numbers each command takes; for a grid's command, after the grid.
COUNTS = {
    "slab": 7, "ring": 6, "listed": 2, "free": 6, "held": 1, "void": 0,
    "loss": 2, "study": 1, "pin": 2, "release": 1, "relax": 2, "raise": 2,
    "certify": 0, "tighten": 1, "bracket": 1, "open": 0, "finished": 0,
}
GRID_COUNTS = {
    "show": {"temperatures": 0, "majorant": 0, "brackets": 0},
    "write": {"temperatures": 2, "majorant": 2, "brackets": 3},
    "length": {"temperatures": 1, "majorant": 1, "brackets": 1},
}
# The commands whose first number is a cell or a length.
FROM_ZERO = ("loss", "pin", "release", "bracket", "write", "length")


class Refused(Exception):
    def __init__(self, number, place, level="call"):
        Exception.__init__(self)
        self.number, self.place, self.level = number, place, level


class Unreadable(Exception):
    def __init__(self, what):
        Exception.__init__(self)
        self.what = what


def within(position, number, least, most):
    if number < least or number > most:
        raise Refused(6, position)


def floor_div(a, b):
    return a // b


def ceil_div(a, b):
    return -((-a) // b)


# Grounds: (W, H, list of N cells). A cell is ("free", n, w, e, s, loss, heat),
# ("held", t) or ("void",).

def make_shape(w, h):
    within(1, w, 1, 64)
    within(2, h, 1, 64)


def make_slab(w, h, top, bottom, first, last, heat):
    make_shape(w, h)
    for position, t in enumerate((top, bottom, first, last), 1):
        within(position, t, -TEMPERATURE, TEMPERATURE)
    within(5, heat, -HEAT, HEAT)
    cells = []
    for i in range(h):
        for j in range(w):
            if i == 0:
                cells.append(("held", top))
            elif i == h - 1:
                cells.append(("held", bottom))
            elif j == 0:
                cells.append(("held", first))
            elif j == w - 1:
                cells.append(("held", last))
            else:
                cells.append(("free", 1, 1, 1, 1, 0, heat))
    return cells


def make_ring(w, h, top, bottom, last, q):
    make_shape(w, h)
    for position, t in enumerate((top, bottom, last), 1):
        within(position, t, -TEMPERATURE, TEMPERATURE)
    within(4, q, -10 ** 9, 10 ** 9)
    cells = []
    for i in range(h):
        for j in range(w):
            if i == 0:
                cells.append(("held", top))
            elif i == h - 1:
                cells.append(("held", bottom))
            elif j == w - 1:
                cells.append(("held", last))
            else:
                around = 2 * j + 1
                cells.append(("free", around, 2 * j, 2 * j + 2, around, 0, q * around))
    return cells


def read_row(row):
    """A table's row outside the limits reads as void."""
    if row[0] == "free":
        weights, heat = row[1:6], row[6]
        if all(0 <= x <= WEIGHT for x in weights) and -HEAT <= heat <= HEAT:
            return row
        return ("void",)
    if row[0] == "held" and not -TEMPERATURE <= row[1] <= TEMPERATURE:
        return ("void",)
    return row


def read_bracket(row):
    lo, hi = row
    if -WIDEST <= lo <= hi <= WIDEST:
        return row
    return (-WIDEST, WIDEST)


class Ground:
    def __init__(self, w, h, cells, rows=None):
        self.w, self.h, self.n = w, h, w * h
        self.cells = cells    # of a slab or a ring
        self.rows = rows      # of an open table, else None
        self.losses = {}

    def put_loss(self, cell, weight):
        if cell >= self.n:
            raise Refused(1, cell)
        within(2, weight, 0, WEIGHT)
        if cell not in self.losses and len(self.losses) == 16:
            raise Refused(5, cell, "table")
        self.losses[cell] = weight

    def plan(self):
        if self.rows is None:
            cells = list(self.cells)
        else:
            cells = [read_row(row) for row in self.rows[:self.n]]
            cells += [("void",)] * (self.n - len(cells))
        for cell, weight in self.losses.items():
            old = cells[cell]
            if old[0] == "free":
                cells[cell] = old[:5] + (weight, old[6])
        return cells


class Study:
    def __init__(self, ground, tolerance):
        within(1, tolerance, 0, 10 ** 9)
        self.w, self.h, self.n = ground.w, ground.h, ground.n
        self.below = ground.plan()
        self.tolerance = tolerance
        self.pins = {}
        self.proved = False
        self.grids = {
            "temperatures": [0] * self.n,
            "majorant": [0] * self.n,
            "brackets": [(0, 0)] * self.n,
        }
        self.settle_equations()

    # The equations with the pins that stand; also makes the study unproved.
    def settle_equations(self):
        cells = list(self.below)
        for cell, t in self.pins.items():
            cells[cell] = ("held", t)
        self.cells = cells
        self.equations = []
        for k in range(self.n):
            if cells[k][0] == "free":
                self.equations.append((k,) + self.equation(k))
        self.proved = False
        self.open = len(self.equations)

    # d, the heat, the links toward free cells, and those toward held ones.
    def equation(self, k):
        i, j = divmod(k, self.w)
        north, west, east, south, loss, heat = self.cells[k][1:]
        sides = ((north, i - 1, j), (west, i, j - 1), (east, i, j + 1), (south, i + 1, j))
        d, to_free, to_held = loss, [], []
        for c, y, x in sides:
            if not (0 <= y < self.h and 0 <= x < self.w):
                continue
            other = y * self.w + x
            if self.cells[other][0] == "free":
                d += c
                to_free.append((c, other))
            elif self.cells[other][0] == "held":
                d += c
                to_held.append((c, self.cells[other][1]))
        return d, heat, to_free, to_held

    def is_free(self, cell):
        return self.cells[cell][0] == "free"

    def lengths(self, *names):
        for name in names:
            if len(self.grids[name]) != self.n:
                raise Refused(7, len(self.grids[name]))

    # Walks until one changes nothing, at most n; step(k, ..) says if it changed cell k.
    def run(self, n, step):
        walks = changed = 0
        while walks < n:
            walks += 1
            changed = 0
            for equation in self.equations:
                if step(walks, changed, *equation):
                    changed += 1
            if changed == 0:
                break
        return walks, changed

    def pin(self, cell, t):
        if cell >= self.n:
            raise Refused(1, cell)
        within(2, t, -TEMPERATURE, TEMPERATURE)
        if cell in self.pins:
            raise Refused(3, cell, "table")
        if not self.is_free(cell):
            raise Refused(2, cell)
        if len(self.pins) == 32:
            raise Refused(5, cell, "table")
        self.pins[cell] = t
        self.settle_equations()

    def release(self, cell):
        if cell >= self.n:
            raise Refused(1, cell)
        if cell not in self.pins:
            raise Refused(4, cell, "table")
        del self.pins[cell]
        self.settle_equations()

    def check_temperatures(self):
        u = self.grids["temperatures"]
        for k, _, _, _, _ in self.equations:
            if not -TEMPERATURE <= u[k] <= TEMPERATURE:
                raise Refused(10, k)

    def relax(self, factor, n):
        self.lengths("temperatures")
        within(1, factor, 1, 199)
        within(2, n, 1, MOST_WALKS)
        self.check_temperatures()
        u = self.grids["temperatures"]

        def step(_walks, _changed, k, d, heat, to_free, to_held):
            if d == 0:
                return False
            s = heat
            for c, other in to_free:
                s += c * u[other]
            for c, t in to_held:
                s += c * t
            over, under = factor * s + (100 - factor) * d * u[k], 100 * d
            new = floor_div(2 * over + under, 2 * under)
            new = max(-TEMPERATURE, min(TEMPERATURE, new))
            if new == u[k]:
                return False
            u[k] = new
            return True

        return self.run(n, step)

    def raise_majorant(self, margin, n):
        self.lengths("majorant")
        within(1, margin, 1, 10000)
        within(2, n, 1, MOST_WALKS)
        w = self.grids["majorant"]
        for k, _, _, _, _ in self.equations:
            w[k] = 0

        class NoneAt(Exception):
            pass

        def step(walks, changed, k, d, _heat, to_free, _to_held):
            if d == 0:
                raise NoneAt(k, walks, changed)
            s = margin
            for c, other in to_free:
                s += c * w[other]
            new = ceil_div(s, d)
            if new > HIGHEST_MAJORANT:
                raise NoneAt(k, walks, changed)
            if new == w[k]:
                return False
            w[k] = new
            return True

        try:
            walks, changed = self.run(n, step)
        except NoneAt as none:
            cell, walks, changed = none.args
            return "none at %d" % cell, walks, changed
        return ("settled" if changed == 0 else "moving"), walks, changed

    def count_open(self):
        b = self.grids["brackets"]
        self.open = 0
        for k, _, _, _, _ in self.equations:
            lo, hi = read_bracket(b[k])
            if hi - lo > self.tolerance:
                self.open += 1

    def tighten(self, n):
        self.lengths("brackets")
        if not self.proved:
            raise Refused(8, 0)
        within(1, n, 1, MOST_WALKS)
        b = self.grids["brackets"]

        def step(_walks, _changed, k, d, heat, to_free, to_held):
            if d == 0:
                return False
            low = high = heat
            for c, other in to_free:
                lo, hi = read_bracket(b[other])
                low += c * lo
                high += c * hi
            for c, t in to_held:
                low += c * t
                high += c * t
            old = read_bracket(b[k])
            new = (max(old[0], floor_div(low, d)), min(old[1], ceil_div(high, d)))
            if new[0] > new[1]:
                raise Refused(9, k, "walk")
            if new == old:
                return False
            b[k] = new
            return True

        try:
            return self.run(n, step)
        finally:
            self.count_open()

    def certify(self):
        self.lengths("temperatures", "majorant", "brackets")
        u, w, b = (self.grids[name] for name in GRIDS)
        self.check_temperatures()
        for k, _, _, _, _ in self.equations:
            if not 0 <= w[k] <= HIGHEST_MAJORANT:
                raise Refused(11, k)
        margins, rests = [], []
        for k, d, heat, to_free, to_held in self.equations:
            margins.append(d * w[k] - sum(c * w[other] for c, other in to_free))
            s = heat + sum(c * u[other] for c, other in to_free) + sum(c * t for c, t in to_held)
            rests.append(abs(s - d * u[k]))
            if margins[-1] < 1:
                raise Refused(12, k)
        rest, margin = max(rests, default=0), min(margins, default=0)
        written = []
        for k, _, _, _, _ in self.equations:
            spread = ceil_div(rest * w[k], margin)
            if spread > 10 ** 9:
                raise Refused(13, k)
            written.append((u[k] - spread, u[k] + spread))
        if self.proved:
            for at, (k, _, _, _, _) in enumerate(self.equations):
                lo, hi = read_bracket(b[k])
                both = (max(lo, written[at][0]), min(hi, written[at][1]))
                if both[0] > both[1]:
                    raise Refused(9, k)
                written[at] = both
        for at, (k, _, _, _, _) in enumerate(self.equations):
            b[k] = written[at]
        self.proved = True
        self.count_open()
        return rest, margin

    def bracket(self, cell):
        self.lengths("brackets")
        if not self.proved:
            raise Refused(8, 0)
        if cell >= self.n:
            raise Refused(1, cell)
        if not self.is_free(cell):
            raise Refused(2, cell)
        return read_bracket(self.grids["brackets"][cell])

    def finished(self):
        return self.proved and self.open == 0


def number_of(word):
    digits = word[1:] if word[:1] == b"-" else word
    if not digits or any(byte not in b"0123456789" for byte in digits):
        return None
    # Python limits how long a text it reads as a number: drop zeros, then length tells.
    digits = digits.lstrip(b"0") or b"0"
    if len(digits) > 19:
        return None
    value = int(digits)
    if word[:1] == b"-":
        value = -value
    return value if -2 ** 63 <= value < 2 ** 63 else None


def read_command(words):
    """The command, its grid (or None) and its numbers."""
    try:
        name = words[0].decode("ascii")
    except UnicodeDecodeError:
        name = None
    if name not in COUNTS and name not in GRID_COUNTS:
        raise Unreadable(b"unknown command '" + words[0] + b"'")
    grid, rest, called = None, words[1:], words[0]
    if name in GRID_COUNTS:
        for known in GRIDS:
            if rest and rest[0] == known.encode():
                grid = known
        if grid is None:
            raise Unreadable(words[0] + b" takes temperatures, majorant or brackets")
        called = words[0] + b" " + rest[0]
        rest = rest[1:]
    if name in FROM_ZERO and rest and rest[0][:1] == b"-":
        raise Unreadable(b"'" + rest[0] + b"' is not a whole number from 0")
    numbers = []
    for word in rest:
        number = number_of(word)
        if number is None:
            raise Unreadable(b"'" + word + b"' is not a whole number")
        numbers.append(number)
    count = COUNTS[name] if grid is None else GRID_COUNTS[name][grid]
    if len(numbers) != count:
        raise Unreadable(called + b" takes %d numbers" % count)
    return name, grid, numbers


class Session:
    def __init__(self):
        self.ground = None
        self.study = None

    def begin(self, name, w, h, cells, rows=None):
        self.ground, self.study = Ground(w, h, cells, rows), None
        free = sum(cell[0] == "free" for cell in self.ground.plan())
        return ["%s: %d by %d, %d free" % (name, w, h, free)]

    def carry_out(self, name, grid, numbers):
        """The lines of the answer."""
        if name == "slab":
            return self.begin(name, numbers[0], numbers[1], make_slab(*numbers))
        if name == "ring":
            return self.begin(name, numbers[0], numbers[1], make_ring(*numbers))
        if name == "listed":
            make_shape(*numbers)
            return self.begin(name, numbers[0], numbers[1], None, [])
        if name in ("loss", "study"):
            if self.ground is None:
                raise Unreadable(b"no ground yet")
            if name == "loss":
                self.ground.put_loss(*numbers)
                return ["loss at %d: %d" % tuple(numbers)]
            self.study = Study(self.ground, *numbers)
            self.ground = None
            return ["study: tolerance %d, %d open" % (numbers[0], self.study.open)]
        if name in ("free", "held", "void"):
            if self.ground is None or self.ground.rows is None:
                raise Unreadable(b"no table is open")
            self.ground.rows.append((name,) + tuple(numbers))
            return ["row %d: %s" % (len(self.ground.rows) - 1, name)]
        if self.study is None:
            raise Unreadable(b"no study yet")
        if grid is not None:
            return self.on_grid(name, grid, numbers)
        return [self.on_study(self.study, name, numbers)]

    def on_study(self, study, name, numbers):
        if name == "pin":
            study.pin(*numbers)
            return "pinned %d at %d: %d open" % (numbers[0], numbers[1], study.open)
        if name == "release":
            study.release(*numbers)
            return "released %d: %d open" % (numbers[0], study.open)
        if name == "relax":
            return "relaxed: %d walks, %d changed" % study.relax(*numbers)
        if name == "raise":
            return "raised: %s, %d walks, %d changed" % study.raise_majorant(*numbers)
        if name == "certify":
            rest, margin = study.certify()
            return "certified: rest %d, margin %d, %d open" % (rest, margin, study.open)
        if name == "tighten":
            walks, changed = study.tighten(*numbers)
            return "tightened: %d walks, %d changed, %d open" % (walks, changed, study.open)
        if name == "bracket":
            return "bracket at %d: %d to %d" % ((numbers[0],) + study.bracket(*numbers))
        if name == "open":
            return "open: %d" % study.open
        assert name == "finished"
        return "finished: " + ("yes" if study.finished() else "no")

    def on_grid(self, name, grid, numbers):
        entries = self.study.grids[grid]
        if name == "show":
            if len(entries) != self.study.n:
                raise Unreadable(b"%s has %d entries, not %d" % (grid.encode(), len(entries), self.study.n))
            w = self.study.w
            return [" ".join(self.shown(grid, k) for k in range(i * w, i * w + w))
                    for i in range(self.study.h)]
        if name == "write":
            cell = numbers[0]
            if cell >= len(entries):
                raise Unreadable(b"cell %d is past the end of %s" % (cell, grid.encode()))
            entries[cell] = (numbers[1], numbers[2]) if grid == "brackets" else numbers[1]
            return ["written: %s at %d" % (grid, cell)]
        assert name == "length"
        count = numbers[0]
        if count > MOST_ENTRIES:
            raise Unreadable(b"a grid has at most 100000 entries")
        del entries[count:]
        entries.extend([(0, 0) if grid == "brackets" else 0] * (count - len(entries)))
        return ["%s: %d entries" % (grid, count)]

    def shown(self, grid, k):
        if not self.study.is_free(k):
            return "-"
        entry = self.study.grids[grid][k]
        return "%d..%d" % entry if grid == "brackets" else str(entry)


def answer(session, number, line):
    """What the transcript gains by one line of a script, the echo first."""
    words = [word for word in line.replace(b"\t", b" ").split(b" ") if word]
    if not words or words[0][:1] == b"#":
        return []
    out = [b"> " + b" ".join(words)]
    try:
        out += [text.encode() for text in session.carry_out(*read_command(words))]
    except Refused as r:
        out.append(("refused %d at %d, level %s: %s" % (r.number, r.place, r.level, CAUSES[r.number])).encode())
    except Unreadable as u:
        out.append(b"line %d: " % number + u.what)
    return out


def transcript(script):
    session, out = Session(), []
    lines = script.split(b"\n")
    if lines[-1] == b"":
        lines.pop()
    for number, line in enumerate(lines, 1):
        out += answer(session, number, line)
    return b"".join(line + b"\n" for line in out)


if __name__ == "__main__":
    sys.stdout.buffer.write(transcript(sys.stdin.buffer.read()))
