#!/usr/bin/env python3
"""The text that the program afternoon must print, worked out with the model.

The floor and the calls are written down here once more; walks, counts and
brackets come from model.py alone. It takes some seconds.
"""

import sys

from model import CAUSES, Ground, Refused, Study

SIDE = 64
SENSORS = ((4, 3100000), (12, 2400000), (20, 2000000), (28, 1800000),
           (35, 1900000), (43, 2200000), (51, 2600000), (59, 3300000))


def record(row, column):
    if row == 0:
        return ("held", -20000000)
    if row == SIDE - 1:
        return ("held", 8000000)
    if column in (0, SIDE - 1):
        return ("held", 4000000)
    up, here = (1 if row - 1 <= 6 else 4), (1 if row <= 6 else 4)
    strips = list(range(6, 29)) + list(range(35, 58))
    return ("free", up, here, here, here, 0, 3400000 if row == 8 and column in strips else 0)


def grouped(number):
    return format(number, ",")


def degrees(t):
    sign, size = ("-" if t < 0 else ""), abs(t)
    digits = "%d.%06d" % divmod(size, 10 ** 6)
    return sign + (digits[:-5] if digits.endswith("00000") else digits)


def at(cell):
    return "row %d, column %d" % divmod(cell, SIDE)


class Desk:
    def __init__(self):
        rows = [record(i, j) for i in range(SIDE) for j in range(SIDE)]
        self.study = Study(Ground(SIDE, SIDE, None, rows), 2000)

    def step(self, asked, call, *numbers):
        before = self.study.open
        try:
            text = call(*numbers)
        except Refused as r:
            text = "%s is refused (%d): %s" % (asked, r.number, CAUSES[r.number])
            if r.number == 12:
                text += " at " + at(r.place)
        print("  %s: %s open before, %s after" % (text, grouped(before), grouped(self.study.open)))

    def pin(self, cell, t):
        self.study.pin(cell, t)
        return "pinned %s at %s degrees" % (at(cell), degrees(t))

    def release(self, cell):
        self.study.release(cell)
        return "released %s" % at(cell)

    def relax(self, walks):
        return "relaxed in %s walks (%s cells in the last)" % tuple(
            map(grouped, self.study.relax(190, walks)))

    def raise_majorant(self):
        how, walks, _ = self.study.raise_majorant(10, 5000)
        assert how == "settled"
        return "raised the majorant, settled after %s walks" % grouped(walks)

    def certify(self):
        return "certified with rest %d over margin %d" % self.study.certify()

    def tighten(self):
        return "tightened in %s walks (%s cells in the last)" % tuple(
            map(grouped, self.study.tighten(100)))

    def prove(self):
        self.step("certifying", self.certify)
        while not self.study.finished():
            self.step("tightening", self.tighten)
        for column in (2, 16, 32, 48):
            cell = 7 * SIDE + column
            lo, hi = self.study.bracket(cell)
            print("  %s: %s to %s degrees" % (at(cell), degrees(lo), degrees(hi)))
        print("  finished: " + ("yes" if self.study.finished() else "no"))


def main():
    desk = Desk()
    print("The sensors:")
    for column, t in SENSORS:
        desk.step("pinning", desk.pin, 14 * SIDE + column, t)
    print("The first proof:")
    desk.step("relaxing", desk.relax, 165)
    desk.step("raising", desk.raise_majorant)
    desk.prove()
    print("A thermostat is tried:")
    desk.step("pinning", desk.pin, 9 * SIDE + 32, 5200000)
    desk.step("relaxing", desk.relax, 150)
    desk.prove()
    print("It is taken away again:")
    desk.step("releasing", desk.release, 9 * SIDE + 32)
    desk.step("tightening", desk.tighten)
    desk.step("relaxing", desk.relax, 150)
    desk.prove()
    print("A broken sensor is released:")
    desk.step("releasing", desk.release, 14 * SIDE + 43)
    desk.step("certifying", desk.certify)
    desk.step("relaxing", desk.relax, 150)
    desk.step("raising", desk.raise_majorant)
    desk.prove()


if __name__ == "__main__":
    sys.exit(main())
