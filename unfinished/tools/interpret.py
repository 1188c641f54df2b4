#!/usr/bin/env python3
"""A slow, plain interpreter of sheets, for working out what a sheet must report.

    interpret.py sheet < a-sheet     > its report
    interpret.py cases < cases.stdin > cases.stdout

It does what docs/MACHINE.md and docs/SHEET.md say, in the plainest way, and makes no attempt at speed.
Instructions: JMP JSR ISZ DSZ LDA STA, LEF, the eight two-accumulator operations, ADI SBI DAD DSB, IOR XOR ANC XCH,
SGT SGE, LSH DLSH HXL HXR DHXL DHXR, LOB LRB COB, HLV, IORI XORI ANDI ADDI, EJMP EJSR EISZ EDSZ ELDA ESTA ELEF,
BTO BTZ SZB SNB SZBO, LDB STB, PSH POP PSHR PSHJ POPJ SAVE RTN MSP, BAM BLM, XCT, LMP, SYC.
Every other word is stop 16 (I/O word, LEF off) or stop 18.
"""
import sys

BLOCK = 1024
HELD, READY = 'Held', 'Ready'


# ---------------------------------------------------------------- answers

class Denied(Exception):
    """A call that was denied, by its number."""
    def __init__(self, number):
        super().__init__(number)
        self.number = number


class Fault(Exception):
    """Why a step stopped (12 to 19), before the instruction's address and word are known."""
    def __init__(self, reason, logical=0, physical=0, cause=0):
        super().__init__(reason)
        self.reason, self.logical, self.physical, self.cause = reason, logical, physical, cause


class Stop:
    """Six numbers; a field that this stop does not have is 0."""
    def __init__(self, reason=0, address=0, word=0, logical=0, physical=0, cause=0):
        self.values = (reason, address, word, logical, physical, cause)
        self.reason = reason


# ---------------------------------------------------------------- bits

def bits(word, first, last):
    """Bits first..last of a 16-bit word, bit 0 being the highest."""
    return (word >> (15 - last)) & ((1 << (last - first + 1)) - 1)


def bit(word, n):
    return bits(word, n, n)


def signed(number, width):
    """A number of that many bits, read as two's complement."""
    return number - (1 << width) if number >> (width - 1) else number


def row_of_bits(number, width):
    """The bits as a text of 0 and 1, highest first."""
    return bin(number)[2:].rjust(width, '0')


def moved(number, width, left):
    """The bits moved `left` places to the left (to the right if below 0); zeros come in, what goes out is lost."""
    row = row_of_bits(number, width)
    for _ in range(abs(left)):
        row = row[1:] + '0' if left > 0 else '0' + row[:-1]
    return int(row, 2)


def by_bits(rule, one, other):
    """The word whose every bit is what the rule gives for the two bits in its place."""
    pairs = zip(row_of_bits(one, 16), row_of_bits(other, 16))
    return int(''.join(str(rule(int(a), int(b))) for a, b in pairs), 2)


def with_bit(word, n, value):
    """The word with its bit n made the value, 0 or 1."""
    row = row_of_bits(word, 16)
    return int(row[:n] + str(value) + row[n + 1:], 2)


def leading_zeros(word):
    row = row_of_bits(word, 16)
    return row.index('1') if '1' in row else 16


def without_leading_one(word):
    return int(row_of_bits(word, 16).replace('1', '0', 1), 2)


# ---------------------------------------------------------------- memory

class PlainCore:
    """A handed-in list of words; no cell is ever spoiled."""
    def __init__(self, words):
        if len(words) % BLOCK != 0 or not 1 <= len(words) // BLOCK <= 127:
            raise Denied(7)
        self.words = words

    def blocks(self):
        return len(self.words) // BLOCK

    def read(self, at):
        if at >= len(self.words):
            raise Denied(1)
        return self.words[at]

    def write(self, at, word):
        if at >= len(self.words):
            raise Denied(1)
        self.words[at] = word


# ---------------------------------------------------------------- users

class Registers:
    def __init__(self, ac=(0, 0, 0, 0), carry=0, pc=0):
        self.ac = list(ac)
        self.carry = carry
        self.pc = pc

    def copy(self):
        return Registers(self.ac, self.carry, self.pc)


class User:
    def __init__(self):
        self.registers = Registers()
        self.entries = [None] * 32          # None, or (physical block, write protect)
        self.lef = False
        self.write_protection = True
        self.indirect_protection = True
        self.kind = HELD
        self.latest = Stop()


# ---------------------------------------------------------------- one step

class Step:
    """One step of one user: the registers it would leave, and the memory as it goes."""

    def __init__(self, memory, user):
        self.memory = memory
        self.user = user
        self.r = user.registers.copy()

    # --- access through the map

    def place(self, logical, writes):
        entry = self.user.entries[bits(logical, 1, 5)]
        if entry is None:
            raise Fault(12, logical)
        block, protected = entry
        if writes and protected and self.user.write_protection:
            raise Fault(13, logical)
        return block * BLOCK + logical % BLOCK

    def read(self, logical):
        physical = self.place(logical, False)
        try:
            return self.memory.read(physical)
        except Denied as d:
            raise Fault(15, logical, physical, d.number)

    def write(self, logical, word):
        physical = self.place(logical, True)
        try:
            self.memory.write(physical, word)
        except Denied as d:
            raise Fault(15, logical, physical, d.number)

    # --- addresses

    def resolve(self, at):
        """Follow an indirect chain that begins with a fetch at `at`."""
        limit = 16 if self.user.indirect_protection else 4096
        fetched = 0
        while True:
            if fetched == limit:
                raise Fault(14, at)
            word = self.read(at)
            fetched += 1
            if 0o20 <= at <= 0o27:
                word = (word + 1) % 65536
                self.write(at, word)
            elif 0o30 <= at <= 0o37:
                word = (word - 1) % 65536
                self.write(at, word)
            at = bits(word, 1, 15)
            if bit(word, 0) == 0:
                return at

    def effective(self, word):
        base = bits(word, 6, 7)
        displacement = bits(word, 8, 15)
        if base == 0:
            first = displacement
        else:
            if displacement >= 128:
                displacement -= 256
            origin = {1: self.r.pc, 2: self.r.ac[2], 3: self.r.ac[3]}[base]
            first = (origin + displacement) % 32768
        return self.resolve(first) if bit(word, 5) else first

    def extended_effective(self, word):
        """The address of an instruction whose second word has the indirect bit and the displacement."""
        second = self.second_word()
        behind = (self.r.pc + 1) % 32768
        origin = {0: 0, 1: behind, 2: self.r.ac[2], 3: self.r.ac[3]}[bits(word, 6, 7)]
        first = (origin + bits(second, 1, 15)) % 32768
        return self.resolve(first) if bit(second, 0) else first

    def pointed(self, pointer):
        """The address that a word gives: its bits 1-15, or where a chain from there ends if its bit 0 is 1."""
        return self.resolve(bits(pointer, 1, 15)) if bit(pointer, 0) else pointer

    # --- instructions

    def advance(self, skip=False):
        self.r.pc = (self.r.pc + (2 if skip else 1)) % 32768

    def count(self, at, by):
        word = (self.read(at) + by) % 65536
        self.write(at, word)
        self.advance(skip=(word == 0))

    def two_accumulator(self, word):
        s, d = self.r.ac[bits(word, 1, 2)], self.r.ac[bits(word, 3, 4)]
        carry = {0: self.r.carry, 1: 0, 2: 1, 3: 1 - self.r.carry}[bits(word, 10, 11)]
        function = {
            0: 65535 - s,               # COM
            1: 65536 - s,               # NEG
            2: s,                       # MOV
            3: s + 1,                   # INC
            4: d + 65535 - s,           # ADC
            5: d + 65536 - s,           # SUB
            6: d + s,                   # ADD
            7: d & s,                   # AND
        }[bits(word, 5, 7)]
        seventeen = (carry * 65536 + function) % 131072
        shift = bits(word, 8, 9)
        if shift == 1:
            seventeen = (seventeen * 2) % 131072 + seventeen // 65536
        elif shift == 2:
            seventeen = seventeen // 2 + (seventeen % 2) * 65536
        elif shift == 3:
            high, low = (seventeen // 256) % 256, seventeen % 256
            seventeen = (seventeen // 65536) * 65536 + low * 256 + high
        carry, result = seventeen // 65536, seventeen % 65536
        skip = {
            0: False,
            1: True,
            2: carry == 0,
            3: carry != 0,
            4: result == 0,
            5: result != 0,
            6: carry == 0 or result == 0,
            7: carry != 0 and result != 0,
        }[bits(word, 13, 15)]
        if bit(word, 12) == 0:
            self.r.ac[bits(word, 3, 4)] = result
            self.r.carry = carry
        self.advance(skip)

    # --- words with bit 0 set that end in binary 1000

    def second_word(self):
        return self.read((self.r.pc + 1) % 32768)

    def change(self, ac, value):
        """An accumulator becomes the value, modulo 65,536."""
        self.r.ac[ac] = value % 65536

    def pair(self, ac):
        """An accumulator and the next one (after AC3 comes AC0) as one 32-bit number."""
        return self.r.ac[ac] * 65536 + self.r.ac[(ac + 1) % 4]

    def change_pair(self, ac, value):
        self.r.ac[ac] = value // 65536
        self.r.ac[(ac + 1) % 4] = value % 65536

    def decimal(self, acd, total, carry, fix):
        """The low digit of ACD becomes (total + fix) mod 16; its other twelve bits stay."""
        self.r.ac[acd] = bits(self.r.ac[acd], 0, 11) * 16 + (total + fix) % 16
        self.r.carry = carry

    # --- the stack

    def store_upward(self, pointer, words):
        """The words go behind the one that is pointed at."""
        for n, word in enumerate(words):
            self.write((pointer + 1 + n) % 32768, word)

    def push(self, words):
        pointer = self.read(0o40)
        limit = self.read(0o42)
        if pointer + len(words) > limit:
            raise Fault(17)
        self.store_upward(pointer, words)
        self.write(0o40, pointer + len(words))

    def popped(self, cell, n):
        """n words read downward from where the cell points, and the pointer below them; nothing is written yet."""
        pointer = self.read(cell)
        if pointer - n < 0o400:
            raise Fault(17)
        return [self.read((pointer - k) % 32768) for k in range(n)], pointer - n

    def next_but_one(self):
        return (self.r.pc + 2) % 32768

    def push_accumulators(self, acs, acd):          # PSH
        self.push([self.r.ac[(acs + k) % 4] for k in range((acd - acs) % 4 + 1)])

    def pop_accumulators(self, acs, acd):           # POP
        words, pointer = self.popped(0o40, (acs - acd) % 4 + 1)
        self.write(0o40, pointer)
        for k, word in enumerate(words):
            self.r.ac[(acs - k) % 4] = word

    def save(self):                                 # SAVE
        size = self.second_word()
        pointer = self.read(0o40)
        limit = self.read(0o42)
        old = self.read(0o41)
        if pointer + 5 + size > limit:
            raise Fault(17)
        place = self.r.carry * 32768 + bits(self.r.ac[3], 1, 15)
        self.store_upward(pointer, self.r.ac[:3] + [old, place])
        self.write(0o41, pointer + 5)
        self.write(0o40, pointer + 5 + size)
        self.r.ac[3] = pointer + 5
        self.r.pc = self.next_but_one()

    def back(self):                                 # RTN
        words, pointer = self.popped(0o41, 5)
        self.write(0o40, pointer)
        self.write(0o41, words[1])
        self.r.carry, self.r.pc = bit(words[0], 0), bits(words[0], 1, 15)
        self.r.ac = [words[4], words[3], words[2], words[1]]

    def modify_stack_pointer(self, ac):             # MSP
        pointer = self.read(0o40)
        limit = self.read(0o42)
        total = (pointer + self.r.ac[ac]) % 65536
        if total > limit:
            raise Fault(17)
        self.write(0o40, total)
        self.advance()

    # --- bits and bytes in memory

    def bit_place(self, acs, acd):
        """Address and number of the bit that two accumulators point at."""
        base = 0 if acs == acd else self.pointed(self.r.ac[acs])
        d = self.r.ac[acd]
        return (base + bits(d, 0, 11)) % 32768, bits(d, 12, 15)

    def bit_of_memory(self, acs, acd, becomes=None):
        """The bit as it is; the word is written back, with the bit changed, if `becomes` is 0 or 1."""
        at, n = self.bit_place(acs, acd)
        word = self.read(at)
        if becomes is not None:
            self.write(at, with_bit(word, n, becomes))
        return bit(word, n)

    def load_byte(self, acs, acd):                  # LDB
        pointer = self.r.ac[acs]
        word = self.read(pointer // 2)
        self.r.ac[acd] = bits(word, 8, 15) if pointer % 2 else bits(word, 0, 7)

    def store_byte(self, acs, acd):                 # STB
        pointer, byte = self.r.ac[acs], bits(self.r.ac[acd], 8, 15)
        word = self.read(pointer // 2)
        high, low = bits(word, 0, 7), bits(word, 8, 15)
        self.write(pointer // 2, high * 256 + byte if pointer % 2 else byte * 256 + low)

    # --- block moves

    def move(self, addend):
        """One word of BAM or BLM."""
        count = self.r.ac[1]
        if count == 0 or count > 0o100000:
            self.advance()
            return
        source = self.pointed(self.r.ac[2])
        target = self.pointed(self.r.ac[3])
        self.write(target, (self.read(source) + addend) % 65536)
        self.r.ac[1] = count - 1
        self.r.ac[2] = (source + 1) % 32768
        self.r.ac[3] = (target + 1) % 32768
        if count == 1:
            self.advance()

    # --- two words, the second with an address

    def with_address(self, word):
        """The E forms and PSHJ; bits 1-4 choose among those that have bit 8 clear."""
        first, ac = bits(word, 1, 2), bits(word, 3, 4)
        if bit(word, 8) and (first, ac) != (0, 0):
            raise Fault(18)
        at = self.extended_effective(word)
        on = self.next_but_one()
        if bit(word, 8):                            # PSHJ
            self.push([on])
            on = at
        elif first == 1:                            # ELDA
            self.r.ac[ac] = self.read(at)
        elif first == 2:                            # ESTA
            self.write(at, self.r.ac[ac])
        elif first == 3:                            # ELEF
            self.r.ac[ac] = at
        elif ac == 0:                               # EJMP
            on = at
        elif ac == 1:                               # EJSR
            self.r.ac[3] = on
            on = at
        else:                                       # EISZ, EDSZ
            counted = (self.read(at) + (1 if ac == 2 else -1)) % 65536
            self.write(at, counted)
            if counted == 0:
                on = (on + 1) % 32768
        self.r.pc = on

    def executed(self, word):
        """The word that is carried out: that of the accumulator where a row of XCT ends, or the word itself."""
        followed = 0
        while bits(word, 0, 2) == 5 and bits(word, 5, 15) == 0o3370:
            if followed == 4:
                raise Fault(19)
            word = self.r.ac[bits(word, 3, 4)]
            followed += 1
        return word

    def extended(self, word):
        """Answers True if it was SYC."""
        if word == 0o113410:                        # LMP
            self.advance()
            return False
        if word == 0o113710:                        # BAM
            self.move(self.r.ac[0])
            return False
        if word == 0o133710:                        # BLM
            self.move(0)
            return False
        if word == 0o103710:                        # PSHR
            self.push([self.next_but_one()])
            self.advance()
            return False
        if word == 0o117710:                        # POPJ
            words, pointer = self.popped(0o40, 1)
            self.write(0o40, pointer)
            self.r.pc = bits(words[0], 1, 15)
            return False
        if word == 0o127710:                        # RTN
            self.back()
            return False
        if word == 0o163710:                        # SAVE
            self.save()
            return False
        if bit(word, 5) and bits(word, 8, 15) in (0o070, 0o270):
            self.with_address(word)
            return False
        first, ac = bits(word, 1, 2), bits(word, 3, 4)
        code = word - first * 0o20000 - ac * 0o4000     # the word with zeros for both fields
        if code == 0o103370:                        # the first field chooses: MSP, XCT (met before), HLV, nothing
            if first == 0:
                self.modify_stack_pointer(ac)
                return False
            if first != 2:
                raise Fault(18)
            self.change(ac, int(signed(self.r.ac[ac], 16) / 2))         # int() drops the fraction: toward 0
            self.advance()
            return False
        if code == 0o103770:                        # the first field chooses: IORI, XORI, ANDI, ADDI
            i, d = self.second_word(), self.r.ac[ac]
            self.change(ac, (by_bits(max, i, d),
                             by_bits(lambda a, b: int(a != b), i, d),
                             by_bits(min, i, d),
                             i + d)[first])
            self.advance(skip=True)                 # on by two: past the second word
            return False
        return self.two_fields(code, first, ac)

    def two_fields(self, code, acs, acd):
        """The codes whose bits 1-2 and 3-4 are free."""
        s, d = self.r.ac[acs], self.r.ac[acd]
        n = acs + 1                                 # ADI, SBI and the hex shifts count with the first field
        skip = False
        if code == 0o100010:                        # ADI
            self.change(acd, d + n)
        elif code == 0o100110:                      # SBI
            self.change(acd, d - n)
        elif code == 0o100210:                      # DAD
            total = d % 16 + s % 16 + self.r.carry
            if total > 9:
                self.decimal(acd, total, 1, 6)
            else:
                self.decimal(acd, total, 0, 0)
        elif code == 0o100310:                      # DSB
            total = d % 16 - s % 16 - 1 + self.r.carry
            if total < 0:
                self.decimal(acd, total, 0, 10)
            else:
                self.decimal(acd, total, 1, 0)
        elif code == 0o100410:                      # IOR
            self.change(acd, by_bits(max, s, d))
        elif code == 0o100510:                      # XOR
            self.change(acd, by_bits(lambda a, b: int(a != b), s, d))
        elif code == 0o100610:                      # ANC
            self.change(acd, by_bits(min, 65535 - s, d))
        elif code == 0o100710:                      # XCH
            self.r.ac[acs] = d
            self.r.ac[acd] = s
        elif code == 0o101010:                      # SGT
            skip = signed(s, 16) > signed(d, 16)
        elif code == 0o101110:                      # SGE
            skip = signed(s, 16) >= signed(d, 16)
        elif code == 0o101210:                      # LSH
            self.change(acd, moved(d, 16, signed(s % 256, 8)))
        elif code == 0o101310:                      # DLSH
            self.change_pair(acd, moved(self.pair(acd), 32, signed(s % 256, 8)))
        elif code == 0o101410:                      # HXL
            self.change(acd, moved(d, 16, 4 * n))
        elif code == 0o101510:                      # HXR
            self.change(acd, moved(d, 16, -4 * n))
        elif code == 0o101610:                      # DHXL
            self.change_pair(acd, moved(self.pair(acd), 32, 4 * n))
        elif code == 0o101710:                      # DHXR
            self.change_pair(acd, moved(self.pair(acd), 32, -4 * n))
        elif code == 0o102410:                      # LOB
            self.change(acd, d + leading_zeros(s))
        elif code == 0o102510:                      # LRB
            if acs != acd:
                self.change(acd, d + leading_zeros(s))
            self.change(acs, without_leading_one(s))
        elif code == 0o102610:                      # COB
            self.change(acd, d + row_of_bits(s, 16).count('1'))
        elif code == 0o102010:                      # BTO
            self.bit_of_memory(acs, acd, 1)
        elif code == 0o102110:                      # BTZ
            self.bit_of_memory(acs, acd, 0)
        elif code == 0o102210:                      # SZB
            skip = self.bit_of_memory(acs, acd) == 0
        elif code == 0o102310:                      # SZBO
            skip = self.bit_of_memory(acs, acd, 1) == 0
        elif code == 0o102770:                      # SNB
            skip = self.bit_of_memory(acs, acd) == 1
        elif code == 0o102710:                      # LDB
            self.load_byte(acs, acd)
        elif code == 0o103010:                      # STB
            self.store_byte(acs, acd)
        elif code == 0o103110:                      # PSH
            self.push_accumulators(acs, acd)
        elif code == 0o103210:                      # POP
            self.pop_accumulators(acs, acd)
        elif code != 0o103510:                      # and SYC does nothing but go on and end the run
            raise Fault(18)
        self.advance(skip)
        return code == 0o103510

    def carry_out(self, word):
        """Do what the word says.  Answers True if it was SYC."""
        word = self.executed(word)
        if bit(word, 0):
            if bits(word, 12, 15) != 0o10:
                self.two_accumulator(word)
                return False
            return self.extended(word)
        top = bits(word, 1, 2)
        if top == 3 and not self.user.lef:          # an I/O word
            raise Fault(16)
        at = self.effective(word)
        ac = bits(word, 3, 4)
        if top == 3:                                # LEF
            self.r.ac[ac] = at
            self.advance()
        elif top == 1:                              # LDA
            self.r.ac[ac] = self.read(at)
            self.advance()
        elif top == 2:                              # STA
            self.write(at, self.r.ac[ac])
            self.advance()
        elif ac == 0:                               # JMP
            self.r.pc = at
        elif ac == 1:                               # JSR
            self.r.ac[3] = (self.r.pc + 1) % 32768
            self.r.pc = at
        elif ac == 2:                               # ISZ
            self.count(at, 1)
        else:                                       # DSZ
            self.count(at, -1)
        return False


# ---------------------------------------------------------------- the machine

class Machine:
    """Permits are pairs (user, kind); a denied start or run leaves the caller's permit as it was."""

    def __init__(self, memory):
        self.memory = memory
        self.users = [User(), User()]

    def permits(self):
        return [(0, HELD), (1, HELD)]

    def map(self, word):
        form = bits(word, 6, 7)
        if form in (2, 3):
            user = self.users[form - 2]
            protect, block = bit(word, 8), bits(word, 9, 15)
            if protect and block == 127:
                entry = None
            elif block >= self.memory.blocks():
                raise Denied(4)
            else:
                entry = (block, bool(protect))
            user.entries[bits(word, 1, 5)] = entry
            return
        if form == 1 or bit(word, 1):
            raise Denied(5)
        if bit(word, 10) or bits(word, 13, 15):
            raise Denied(5)
        user = self.users[bit(word, 2)]
        user.lef = bool(bit(word, 9))
        user.write_protection = bool(bit(word, 11))
        user.indirect_protection = bool(bit(word, 12))

    def put(self, at, word):
        self.memory.write(at, word)

    def get(self, at):
        return self.memory.read(at)

    def start(self, permit, ac, carry, pc):
        who, kind = permit
        user = self.users[who]
        if kind != HELD or user.kind != HELD:
            raise Denied(6)
        if pc > 0o77777:
            raise Denied(3)
        user.registers = Registers(ac, carry, pc)
        user.kind = READY
        return (who, READY)

    def run(self, permit, budget):
        who, kind = permit
        user = self.users[who]
        if kind != READY or user.kind != READY:
            raise Denied(6)
        steps = 0
        while True:
            pc = user.registers.pc
            if steps == budget:
                stop = Stop(10, pc)
                break
            word = 0
            step = Step(self.memory, user)
            try:
                word = step.read(pc)
                called = step.carry_out(word)
            except Fault as f:
                stop = Stop(f.reason, pc, word, f.logical, f.physical, f.cause)
                break
            user.registers = step.r
            steps += 1
            if called:
                stop = Stop(11, pc, word)
                break
        user.latest = stop
        user.kind = READY if stop.reason == 10 else HELD
        return steps, stop, (who, user.kind)

    def show(self, who):
        user = self.users[who]
        return user.registers, user.kind, user.latest


# ---------------------------------------------------------------- sheets

FIRST_LINE = b'do user at word\n'
REPORT_LINE = 'row answer stop steps pc ac0 ac1 ac2 ac3 carry\n'
LONGEST = 4096


def number(text):
    """One to six octal digits, at most 0177777; None if the text is anything else."""
    if not 1 <= len(text) <= 6 or any(c not in b'01234567' for c in text):
        return None
    value = int(text, 8)
    return value if value <= 0o177777 else None


def row_of(line):
    """The four numbers of a row (its newline taken off), or None if its form is wrong."""
    fields = [number(f) for f in line.split(b' ')]
    if len(fields) != 4 or None in fields:
        return None
    do, user, at, word = fields
    if do > 3 or user > 1:
        return None
    named = {0: (word,), 1: (at, word), 2: (user, at), 3: (user, word)}[do]
    if sum(fields) != do + sum(named):              # some field that `do` does not name is not 0
        return None
    return do, user, at, word


def line_of(row, answer, stop=0, steps=0, registers=None):
    r = registers or Registers()
    values = [row, answer, stop, steps, r.pc] + r.ac + [r.carry]
    return ' '.join('%o' % v for v in values) + '\n'


def report(sheet):
    """The whole report of a sheet (bytes in, text out)."""
    out = REPORT_LINE
    if len(sheet) > LONGEST or not sheet.startswith(FIRST_LINE):
        return out + line_of(0, 8)
    rest = sheet[len(FIRST_LINE):]
    machine = Machine(PlainCore([0] * (16 * BLOCK)))
    permits = machine.permits()
    row = 0
    while rest:
        row += 1
        line, newline, rest = rest.partition(b'\n')
        fields = row_of(line) if newline else None
        if fields is None:
            return out + line_of(row, 8)
        do, user, at, word = fields
        try:
            if do == 0:
                machine.map(word)
                out += line_of(row, 0)
            elif do == 1:
                machine.put(at, word)
                out += line_of(row, 0)
            elif do == 2:
                permits[user] = machine.start(permits[user], (0, 0, 0, 0), 0, at)
                out += line_of(row, 0, registers=machine.show(user)[0])
            else:
                steps, stop, permits[user] = machine.run(permits[user], word)
                out += line_of(row, 0, stop.reason, steps, machine.show(user)[0])
        except Denied as d:
            out += line_of(row, d.number)
    return out


# ---------------------------------------------------------------- cases

def cases_of(text):
    """(name, sheet) of each case.  A case begins with a line `= NAME`.
    If its last line is a single `~`, that line and the newline before it are no part of the sheet."""
    found = []
    for line in lines_of(text):
        if line.startswith(b'= '):
            found.append([line[2:].rstrip(b'\n').decode('ascii'), b''])
        else:
            found[-1][1] += line
    for case in found:
        sheet = case[1]
        if sheet == b'~\n':
            case[1] = b''
        elif sheet.endswith(b'\n~\n'):
            case[1] = sheet[:-3]
    return [tuple(c) for c in found]


def lines_of(text):
    """Lines with their newline; only the byte 10 ends a line."""
    lines = text.split(b'\n')
    last = lines.pop()
    return [l + b'\n' for l in lines] + ([last] if last else [])


def main():
    text = sys.stdin.buffer.read()
    if sys.argv[1:] == ['cases']:
        for name, sheet in cases_of(text):
            sys.stdout.write('= ' + name + '\n' + report(sheet))
    elif sys.argv[1:] in ([], ['sheet']):
        sys.stdout.write(report(text))
    else:
        sys.exit(__doc__)


if __name__ == '__main__':
    main()
