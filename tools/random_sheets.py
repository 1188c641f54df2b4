#!/usr/bin/env python3
"""Random sheets, each carried out by the sheet program and by interpret.py, and the two reports held against each other.

    random_sheets.py [COUNT [SEED]]      COUNT sheets (300 by default), made from SEED (1 by default)
    random_sheets.py print SEED INDEX    one of these sheets

It wants crates/sheet/out/sheet, which ./run makes. The first sheets on which they differ are printed with both
reports, and the status is then 1. A sheet is a program of user A's, made of listed instructions for the most part, over
a few blocks that are mapped at random; it is run in pieces, started again, and its cells and map are changed between.
At the end of most sheets user B sums up all the blocks that A can reach, so that what A did to its cells is reported too.
Every tenth sheet is a text with something wrong.
"""
import os
import random
import subprocess
import sys

import interpret

SHEET = os.path.join(os.path.dirname(os.path.abspath(__file__)), '..', 'crates', 'sheet', 'out', 'sheet')
A_BLOCKS = 4                       # physical blocks 0 to 3 are A's; B's sum is made in block 15

# (code, free bits), as in the table of codes of docs/MACHINE.md
TWO, ONE, BASED, ONE_BASED, EXACT = 0o074000, 0o014000, 0o001400, 0o015400, 0
STRAIGHT = (                       # one word, and the program goes on behind it
    [(c, TWO) for c in (
        0o100010, 0o100110, 0o100210, 0o100310, 0o100410, 0o100510, 0o100610, 0o100710, 0o101010, 0o101110, 0o101210,
        0o101310, 0o101410, 0o101510, 0o101610, 0o101710, 0o102410, 0o102510, 0o102610)]
    + 3 * [(c, TWO) for c in (0o102010, 0o102110, 0o102210, 0o102310, 0o102710, 0o102770, 0o103010, 0o103110, 0o103210)]
    + [(0o143370, ONE), (0o113410, EXACT)] + 3 * [(0o103370, ONE), (0o123370, ONE), (0o103710, EXACT)]
    + 4 * [(0o113710, EXACT), (0o133710, EXACT)])
WITH_SECOND = (                    # two words, likewise
    [(c, ONE) for c in (0o103770, 0o123770, 0o143770, 0o163770)] + 2 * [(0o163710, EXACT)]
    + 2 * [(c, BASED) for c in (0o112070, 0o116070)] + 2 * [(c, ONE_BASED) for c in (0o122070, 0o142070, 0o162070)])
AWAY = [(0o117710, EXACT), (0o127710, EXACT), (0o103510, TWO)]
AWAY_WITH_SECOND = [(c, BASED) for c in (0o102070, 0o106070, 0o102270)]
REFERENCES = [0o010000, 0o014000] + 4 * [0o020000, 0o040000] + [0o060000]
# addresses at which something can happen: automatic locations, stack pointers, accumulators' cells, endless chains, the
# program, a stack, block ends
PLACES = 3 * [range(0o20, 0o40)] + [range(0o40, 0o43), range(0o50, 0o54), range(0o60, 0o64), range(0o100, 0o160), range(0o400, 0o450), range(0o1770, 0o2010), range(0o77770, 0o100000)]


class Maker:
    def __init__(self, seed, index):
        self.random = random.Random('%d/%d' % (seed, index))
        self.rows = []

    def one_in(self, n):
        return self.random.randrange(n) == 0

    def address(self):
        return self.random.choice(self.random.choice(PLACES)) if not self.one_in(8) else self.random.randrange(0o100000)

    def pointer(self):
        """An address, indirect once in three; or any word."""
        return self.random.randrange(0o200000) if self.one_in(6) else self.address() + (0o100000 if self.one_in(3) else 0)

    def filled(self, codes):
        code, free = self.random.choice(codes)
        return code | self.random.randrange(0o200000) & free

    def reference(self, ops):
        """An instruction with an address in its own word: mostly in the first 256 words, where the chains begin."""
        field = self.random.choice(ops) | self.random.randrange(4) << 11
        field &= 0o174000 if field >= 0o020000 else 0o176000 & ~0o2000
        if self.one_in(4):
            return field | self.random.randrange(0o4000)
        return field | (0o2000 if self.one_in(2) else 0) | self.address() % 0o200

    def instruction(self):
        """The words of one instruction."""
        kind = self.random.randrange(24)
        if kind == 0:
            return [self.random.randrange(0o200000)]
        if kind == 1:
            return [self.filled(AWAY_WITH_SECOND), self.pointer()] if self.one_in(2) else [self.filled(AWAY)]
        if kind == 2:
            return [self.reference([0, 0o004000])] if self.one_in(3) else [0o100000 | self.random.randrange(0o100000)]
        if kind < 9:
            return [self.reference(REFERENCES)]
        if kind < 14:
            return [self.filled(WITH_SECOND), self.random.randrange(8) if self.one_in(4) else self.pointer()]
        return [self.filled(STRAIGHT)]

    def held(self):
        """What an accumulator holds: a pointer, a small count, an instruction for XCT, or XCT itself."""
        kind = self.random.randrange(8)
        if kind == 0:
            return self.random.randrange(12)
        if kind == 1:
            return self.instruction()[0]
        return 0o123370 | self.random.randrange(4) << 11 if kind < 4 else self.pointer()

    def row(self, do, user, at, word):
        self.rows.append('%o %o %o %o\n' % (do, user, at, word))

    def map_a(self):
        logical = self.random.choice([0, 0, 1, 1, 31, self.random.randrange(32)])
        protect = 0o200 if self.one_in(5) else 0
        block = 0o377 if self.one_in(12) else protect | self.random.randrange(A_BLOCKS)
        self.row(0, 0, 0, logical << 10 | 0o1000 | block)

    def status(self):
        self.row(0, 0, 0, self.random.choice([0o130, 0o30, 0o20, 0o120, 0o10, 0o31]))

    def program(self):
        """LDA of each accumulator, random instructions behind, and the cells that they are likely to use."""
        for n in range(4):
            self.row(1, 0, 0o100 + n, 0o020000 | n << 11 | 0o50 + n)
            self.row(1, 0, 0o50 + n, self.held())
        words = [word for _ in range(self.random.randrange(6, 30)) for word in self.instruction()]
        for n, word in enumerate(words):
            self.row(1, 0, 0o104 + n, word)
        for at in range(0o20, 0o40):
            if not self.one_in(4):
                self.row(1, 0, at, self.pointer())
        for at in range(0o60, 0o64):
            self.row(1, 0, at, 0o100000 | self.random.randrange(0o60, 0o64))
        top = self.random.choice([0o400, 0o403, 0o410, 0o1774, self.address()])
        self.row(1, 0, 0o40, top)
        self.row(1, 0, 0o41, top + self.random.randrange(8))
        self.row(1, 0, 0o42, min(0o177777, top + self.random.choice([0, 1, 2, 3, 4, 5, 8, 12, 40])))
        for _ in range(self.random.randrange(25)):
            self.row(1, 0, self.random.randrange(A_BLOCKS) * 0o2000 + self.address() % 0o2000, self.pointer())

    def runs(self):
        self.row(2, 0, 0o100, 0)
        for _ in range(self.random.randrange(3, 14)):
            what = self.random.randrange(9)
            if what == 0:
                self.map_a()
            elif what == 1:
                self.status()
            elif what == 2:
                self.row(1, 0, self.random.randrange(A_BLOCKS * 0o2000), self.pointer())
            elif what == 3:
                self.row(2, self.random.randrange(2), self.random.choice([0o100, 0o104, self.address(), 0o100000]), 0)
            else:
                self.row(3, 0, 0, self.random.choice([0, 1, 2, 3, 5, 9, 30, 200]))
                if self.one_in(3):
                    self.row(2, 0, 0o100, 0)

    def sum_up(self):
        """B adds and rotates the words of A's blocks; AC0 and carry tell of all of them."""
        for block in range(A_BLOCKS):
            self.row(0, 0, 0, block << 10 | 0o1400 | 0o200 | block)
        self.row(0, 0, 0, 31 << 10 | 0o1400 | 15)
        words = [0o025000, 0o123100, 0o110010, 0o014403, 0o000774, 0o103510, A_BLOCKS * 0o2000]
        for n, word in enumerate(words):                # LDA 1,0,2; ADDL 1,0; ADI 1,2; DSZ .+3; JMP .-4; SYC; the count
            self.row(1, 0, 15 * 0o2000 + n, word)
        self.row(2, 1, 0o76000, 0)
        self.row(3, 1, 0, 0o177777)

    def sheet(self, wrong):
        for logical in range(32):
            if logical < 2 or not self.one_in(4):
                self.row(0, 0, 0, logical << 10 | 0o1000 | logical % A_BLOCKS)
        for _ in range(self.random.randrange(4)):
            self.map_a()
        if self.one_in(3):
            self.status()
        self.program()
        self.runs()
        if not self.one_in(5):
            self.sum_up()
        text = b'do user at word\n' + ''.join(self.rows).encode()
        return self.spoil(text) if wrong else text

    def spoil(self, text):
        at = self.random.randrange(len(text))
        other = bytes([self.random.choice(b'0178 9\n\t\r-do')])
        return self.random.choice([text[:at] + text[at + 1:], text[:at] + other + text[at:], text[:at] + other + text[at + 1:], text[:at], text * 4])


def sheet_of(seed, index):
    return Maker(seed, index).sheet(index % 10 == 9)


def main():
    if sys.argv[1:2] == ['print']:
        sys.stdout.buffer.write(sheet_of(int(sys.argv[2]), int(sys.argv[3])))
        return
    count, seed = [int(x) for x in sys.argv[1:]] + [300, 1][len(sys.argv) - 1:]
    differ, stops = 0, {}
    for index in range(count):
        sheet = sheet_of(seed, index)
        want = interpret.report(sheet)
        got = subprocess.run([SHEET], input=sheet, capture_output=True).stdout.decode('ascii', 'replace')
        for line in want.split('\n')[1:-1]:
            stop = int(line.split(' ')[2], 8)
            stops[stop] = stops.get(stop, 0) + 1
        if want != got:
            differ += 1
            if differ <= 3:
                print('sheet %d of seed %d\n%s\nby the interpreter\n%s\nby the program\n%s' % (index, seed, sheet.decode('ascii', 'replace'), want, got))
    told = ', '.join('%d: %d' % (s, stops[s]) for s in sorted(stops) if s)
    print('%d sheets of seed %d: %d differ (runs that ended with stop %s)' % (count, seed, differ, told))
    sys.exit(1 if differ else 0)


if __name__ == '__main__':
    main()
