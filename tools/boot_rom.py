#!/usr/bin/env python3
"""Boot ROMs for the tests of crates/rom_gen, made from the description of a machine by the layout's own words, with the words of
an assembler (llvm-mc). It shares nothing with the crates. Each ROM is also executed here, by an interpreter of the few instructions that
ROMs need, and has to lead to the machine that it was made from. Run by hand: `boot_rom.py words` prints src/tests/words.rt and `boot_rom.py
numbers` prints src/tests/numbers.rt."""
import sys
import textwrap
from instruction_rows import ROWS, decode
from reference_machine import BASE, M64, Hart, Machine, signed
from step_rows import assemble, full, named, number

ROM = 0x10000
# the registers that a hart's block writes, in its order, but for dcsr and dpc at the end
LISTED = [0x300, 0x302, 0x303, 0x304, 0x305, 0x306, 0x30A, 0x340, 0x341, 0x342, 0x343, 0x344, 0x105, 0x106, 0x10A, 0x140, 0x141,
          0x142, 0x143, 0x180, 0xB00, 0xB02]
CONTROLS = LISTED + [0x7B0, 0x7B1]


# ---- the machine that a ROM is made from: harts of reference_machine.py, and a board


class Board:
    """The devices' registers, and what a load or a store of one does."""

    def __init__(self, harts):
        self.harts = harts
        self.priority, self.served = [0, 0, 0], 0
        self.enabled, self.threshold = [0] * (2 * harts), [0] * (2 * harts)
        self.ctrl, self.txaddr, self.queue, self.sent = 0, 0, [], []
        self.msip, self.compare, self.time = [0] * harts, [M64 - 1] * harts, 0

    def claim(self, c):
        levels = (2 if self.ctrl & 1 and self.queue else 0) | (4 if self.ctrl & 2 else 0)
        ready = [s for s in (1, 2) if (levels & ~self.served & self.enabled[c]) >> s & 1 and self.priority[s]]
        s = max(ready, key=lambda s: (self.priority[s], -s), default=0)
        self.served |= 1 << s if s else 0
        return s

    def load(self, at, n):
        for c in range(2 * self.harts):
            if (at, n) == (0xC200004 + 0x1000 * c, 4):
                return self.claim(c)
        if (at, n) == (0x10000000, 1):
            return self.queue.pop(0) if self.queue else 0
        raise ValueError("load %x %d" % (at, n))

    def store(self, at, n, v):
        v %= 2 ** (8 * n)
        for h in range(self.harts):
            if (at, n) == (0x2000000 + 4 * h, 4):
                self.msip[h] = v & 1
                return
            if (at, n) == (0x2004000 + 8 * h, 8):
                self.compare[h] = v
                return
        for c in range(2 * self.harts):
            if (at, n) == (0xC002000 + 0x80 * c, 4):
                self.enabled[c] = v & 6
                return
            if (at, n) == (0xC200000 + 0x1000 * c, 4):
                self.threshold[c] = v & 7
                return
        if (at, n) == (0x200BFF8, 8):
            self.time = v
        elif (at, n) in ((0xC000004, 4), (0xC000008, 4)):
            self.priority[(at - 0xC000000) // 4] = v & 7
        elif (at, n) == (0x10000008, 4):
            self.ctrl = v & 7
        elif (at, n) == (0x10000010, 8):
            self.txaddr = v
        elif (at, n) == (0x10000000, 1):
            if not self.ctrl & 4:
                self.sent.append(v)
            elif len(self.queue) < 16:
                self.queue.append(v)
        else:
            raise ValueError("store %x %d" % (at, n))


def at_reset(harts):
    return [Hart(h, BASE) for h in range(harts)], Board(harts)


def state(machine):
    """All that a boot has to bring back."""
    harts, board = machine
    return [(h.number, h.pc, h.mode, h.x, h.c) for h in harts], vars(board)


# ---- the layout


class Block:
    """The code and the pool of a block."""

    def __init__(self):
        self.lines, self.pool = [], []

    def code(self, text):
        self.lines += [(x.strip(), None) for x in text.split(";")]

    def put(self, r, v):
        """Writes v into register r: by addi, by lui and addiw, or from the pool."""
        s = signed(v, 64)
        if -2048 <= s <= 2047:
            self.code("addi x%d,x0,%d" % (r, s))
        elif -(2**31) <= s <= 2**31 - 1:
            self.pair(r, s)
        else:
            self.lines.append(("ld x%d,%%d(x1)" % r, len(self.pool)))
            self.pool.append(v)

    def pair(self, r, s):
        low = signed(s, 12)
        self.code("lui x%d,0x%x; addiw x%d,x%d,%d" % (r, (s - low) // 4096 % 2**20, r, r, low))

    def keep(self, op, v, place):
        """Stores v, from x0 where it is 0 and else by x6."""
        if v:
            self.put(6, v)
        self.code("%s x%d,%s" % (op, 6 if v else 0, place))

    def register(self, number, v):
        if v <= 31:
            self.code("csrrwi x0,0x%x,%d" % (number, v))
        else:
            self.put(2, v)
            self.code("csrrw x0,0x%x,x2" % number)

    def words(self):
        """The words of the block, each with a note."""
        count = len(self.lines) + len(self.lines) % 2
        lines = [x if i is None else x % (4 * count + 8 * i) for x, i in self.lines] + ["addi x0,x0,0"] * (count - len(self.lines))
        return list(zip(assemble(lines), lines)) + numbers_as_words(self.pool, "pool")


def numbers_as_words(numbers, note):
    return [(w, note) for v in numbers for w in (v % 2**32, v >> 32)]


def data(words):
    return b"".join(w.to_bytes(4, "little") for w, _ in words)


def dispatch(starts):
    lines = ["auipc x1,0", "csrrs x2,0xf14,x0", "slli x2,x2,3", "add x1,x1,x2", "ld x1,24(x1)", "jalr x0,0(x1)"]
    return list(zip(assemble(lines), lines)) + numbers_as_words(starts, "table")


def hart_block(hart):
    b = Block()
    for number in LISTED:
        b.register(number, hart.c[number])
    b.register(0x7B0, 0x400006C0 + hart.mode)
    b.register(0x7B1, hart.pc)
    for i in list(range(2, 32)) + [1]:
        b.put(i, hart.x[i])
    b.code("dret")
    return b.words()


def device_block(board, following):
    b = Block()
    b.code("lui x2,0x10000; lui x3,0xc000; lui x4,0xc002; lui x5,0xc200")
    # both sources are raised, those to be served are enabled and claimed, and the byte that raised one is taken
    b.code("addi x6,x0,1; sw x6,4(x3); sw x6,8(x3)")
    b.keep("sw", board.served, "0(x4)")
    b.code("addi x6,x0,7; sw x6,8(x2); sb x0,0(x2); lw x6,4(x5); lw x6,4(x5); lbu x6,0(x2)")
    for byte in board.queue:
        b.keep("sb", byte, "0(x2)")
    b.keep("sw", board.priority[1], "4(x3)")
    b.keep("sw", board.priority[2], "8(x3)")
    for c in range(2 * board.harts):
        b.keep("sw", board.enabled[c], "%d(x4)" % (128 * c))
        b.code("lui x5,0x%x" % (0xC200 + c))
        b.keep("sw", board.threshold[c], "0(x5)")
    b.keep("sw", board.ctrl, "8(x2)")
    b.keep("sd", board.txaddr, "16(x2)")
    b.code("lui x5,0x2000")
    for h in range(board.harts):
        b.keep("sw", board.msip[h], "%d(x5)" % (4 * h))
    b.code("lui x7,0x2004")
    for h in range(board.harts):
        b.keep("sd", board.compare[h], "%d(x7)" % (8 * h))
    b.code("lui x5,0x200c")
    b.keep("sd", board.time, "-8(x5)")
    b.pair(1, following)
    b.code("jalr x0,0(x1)")
    return b.words()


def rom_of(machine):
    harts, board = machine
    blocks = [hart_block(hart) for hart in harts]
    devices = ROM + 24 + 8 * len(harts)
    at = devices + 4 * len(device_block(board, ROM))
    starts = []
    for block in blocks:
        starts.append(at)
        at += 4 * len(block)
    return dispatch([devices] + starts[1:]) + device_block(board, starts[0]) + sum(blocks, [])


# ---- a boot


class Booting:
    """Harts in debug mode over a ROM, with the instructions that the ROMs here need."""

    def __init__(self, rom, harts):
        self.rom, self.board = rom, Board(harts)
        self.harts, self.steps = [], []
        for h in range(harts):
            hart, self.debug = Hart(h, ROM), {0x7B0: 0x400006C3, 0x7B1: 0}
            steps = 0
            while self.debug:
                self.step(hart)
                steps += 1
                assert steps <= 1024
            self.harts.append(hart)
            self.steps.append(steps)

    def read(self, at, n):
        at -= ROM
        assert 0 <= at and at + n <= len(self.rom), hex(at)
        return int.from_bytes(self.rom[at:at + n], "little")

    def load(self, at, n):
        assert at % n == 0
        return self.read(at, n) if ROM <= at < ROM + len(self.rom) else self.board.load(at, n)

    def write(self, hart, number, v):
        if number == 0x7B0:
            self.debug[number] = 0x400006C0 + (0 if v % 4 == 2 else v % 4)
        elif number == 0x7B1:
            self.debug[number] = v // 2 * 2
        else:
            hart.write(number, v % M64)

    def step(self, hart):
        row, a, b, c = decode(self.read(hart.pc, 4))
        name, x, following = ROWS[row][3] if row < len(ROWS) else "", hart.x, hart.pc + 4
        sizes = {"sb": 1, "sw": 4, "sd": 8, "lbu": 1, "lw": 4, "lwu": 4, "ld": 8}
        if name in ("lui", "auipc", "addi", "addiw", "slli", "add"):
            x[a] = {"lui": lambda: b, "auipc": lambda: hart.pc + b, "addi": lambda: x[b] + c, "addiw": lambda: signed(x[b] + c, 32),
                    "slli": lambda: x[b] << c, "add": lambda: x[b] + x[c]}[name]() % M64
        elif name in ("lbu", "lw", "lwu", "ld"):
            n = sizes[name]
            v = self.load((x[b] + c) % M64, n)
            x[a] = signed(v, 32) % M64 if name == "lw" else v
        elif name in ("sb", "sw", "sd"):
            self.board.store((x[a] + c) % M64, sizes[name], x[b])
        elif name == "jalr":
            x[a], following = following, (x[b] + c) % M64
        elif name == "jal":
            x[a], following = following, hart.pc + b
        elif name in ("beq", "bne"):
            following = hart.pc + c if (x[a] == x[b]) == (name == "beq") else following
        elif name == "csrrs":
            assert (b, c) == (0, 0xF14)
            x[a] = hart.number
        elif name in ("csrrw", "csrrwi"):
            assert a == 0
            self.write(hart, c, x[b] if name == "csrrw" else b)
        elif name == "dret":
            hart.mode, following, self.debug = self.debug[0x7B0] % 4, self.debug[0x7B1], None
        else:
            raise ValueError("%s at %x" % (name, hart.pc))
        x[0], hart.pc = 0, following


def booted(rom, harts):
    b = Booting(rom, harts)
    assert not b.board.sent
    return (b.harts, b.board), b.steps


def made(machine):
    """The words of a machine's ROM, which boots to it, and the steps of each hart."""
    words = rom_of(machine)
    left, steps = booted(data(words), len(machine[0]))
    assert state(left) == state(machine)
    return words, steps


# ---- a ROM of no layout, that lays numbers


LAYS = """
    auipc x1,0
    csrrs x2,0xf14,x0
    slli x3,x2,9
    add x3,x3,x1
    bne x2,x0,{registers}
    lui x4,1
    add x4,x4,x1
next:
    lwu x5,0x204(x4)
    beq x5,x0,{registers}
    lwu x6,0x200(x4)
    ld x7,0x208(x4)
    addi x4,x4,16
    addi x5,x5,-1
    beq x5,x0,{word}
    addi x5,x5,-1
    beq x5,x0,{double}
    addi x5,x5,-1
    beq x5,x0,{byte}
    addi x5,x5,-1
    beq x5,x0,{take}
    lw x0,0(x6)
    jal x0,{next}
word:
    sw x7,0(x6)
    jal x0,{next}
double:
    sd x7,0(x6)
    jal x0,{next}
byte:
    sb x7,0(x6)
    jal x0,{next}
take:
    lbu x0,0(x6)
    jal x0,{next}
registers:
""" + "".join("ld x2,0x%x(x3)\ncsrrw x0,0x%x,x2\n" % (0x200 + 8 * i, n) for i, n in enumerate(CONTROLS)) + "".join(
    "ld x%d,0x%x(x3)\n" % (i, 0x2B8 + 8 * i) for i in [1, 2] + list(range(4, 32)) + [3]) + "dret\n"
NUMBERS, ROWS_AT, LAYS_LENGTH = 0x200, 0x1200, 0x1800
WORD, DOUBLE, BYTE, TAKE, CLAIM = range(1, 6)  # kinds of rows: three stores, a load of a byte, and one of a word


def lays_code():
    places, lines = {}, []
    for line in LAYS.split("\n"):
        if line.endswith(":"):
            places[line[:-1]] = 4 * len(lines)
        elif line.strip():
            lines.append(line.strip())
    for i, line in enumerate(lines):
        name = line[line.index("{") + 1:-1] if "{" in line else None
        lines[i] = line.replace("{%s}" % name, str(places[name] - 4 * i)) if name else line
    return lines, assemble(lines)


def laid(numbers):
    """The ROM with these numbers, each at its place."""
    rom = bytearray(LAYS_LENGTH)
    for i, w in enumerate(lays_code()[1]):
        rom[4 * i:4 * i + 4] = w.to_bytes(4, "little")
    assert 4 * len(lays_code()[1]) <= NUMBERS
    for at, v in numbers:
        assert at % 8 == 0 and at >= NUMBERS
        rom[at:at + 8] = v.to_bytes(8, "little")
    return bytes(rom)


def numbers_of(harts):
    """What to lay for registers: by hart, by number and by x."""
    out = []
    for h, (controls, xs) in harts.items():
        at = NUMBERS + 512 * h
        out += [(at + 8 * CONTROLS.index(n), v % M64) for n, v in controls.items() if v]
        out += [(at + 0xB8 + 8 * i, v % M64) for i, v in xs.items() if v]
    return sorted(out)


def rows_of(rows):
    """What to lay for devices."""
    assert ROWS_AT + 16 * len(rows) + 16 <= LAYS_LENGTH
    return [(kind << 32 | address, v % M64) for kind, address, v in rows]


def mixed(n):
    """A number of any size."""
    return (signed(n * 0x9E3779B97F4A7C15, 64) >> (n // 8 * 7 % 64)) % M64


# ---- the machines of the tests


def after_program():
    """One hart after ten steps, a turn each: under a page table that is empty, with loads and stores as user mode's."""
    m = Machine()
    for i, w in enumerate(assemble(PROGRAM)):
        m.ram[4 * i:4 * i + 4] = w.to_bytes(4, "little")
    for _ in range(10):
        m.step(0)
    board = Board(1)
    board.time = 10
    return m.harts, board


def after_reservations():
    """Two harts after three steps, a turn each, that each took a byte."""
    m = Machine(harts=2)
    for i, w in enumerate(assemble(RESERVES)):
        m.ram[4 * i:4 * i + 4] = w.to_bytes(4, "little")
    for k in range(6):
        m.step(k % 2)
    board = Board(2)
    board.time, board.queue = 3, [0x68, 0x69, 0]
    return m.harts, board


def after_filling():
    """Eight harts after a turn of 200 steps, in which hart 0 filled the queue under loop and claimed both sources."""
    harts, board = at_reset(8)
    board.served, board.queue, board.ctrl, board.time = 6, [0x41] * 16, 4, 1
    for hart in harts:
        hart.x[5], hart.pc = hart.number, BASE + 0x64
        hart.c[0xB00] = hart.c[0xB02] = 200
    harts[0].x[6], harts[0].x[8], harts[0].x[9], harts[0].x[18], harts[0].x[19] = 4, 0x10000000, 0xC000000, 0xC002000, 0xC200000
    return harts, board


RESERVES = ["auipc x11,0", "lr.d x12,(x11)", "jal x0,0"]
FILLS = ["csrrs x5,0xf14,x0", "bne x5,x0,96", "lui x8,0x10000", "lui x9,0xc000", "lui x18,0xc002", "lui x19,0xc200", "addi x6,x0,1", "sw x6,4(x9)",
         "sw x6,8(x9)", "addi x6,x0,6", "sw x6,0(x18)", "addi x6,x0,7", "sw x6,8(x8)", "addi x7,x0,16", "addi x6,x0,0x41", "sb x6,0(x8)",
         "addi x7,x7,-1", "bne x7,x0,-8", "lw x6,4(x19)", "lw x6,4(x19)", "sw x0,4(x9)", "sw x0,8(x9)", "sw x0,0(x18)", "addi x6,x0,4",
         "sw x6,8(x8)", "jal x0,0"]
PROGRAM = ["addi x5,x0,1", "slli x5,x5,63", "lui x6,0x80", "addi x6,x6,8", "add x5,x5,x6", "csrrw x0,0x180,x5", "lui x7,0x20",
           "csrrs x0,0x300,x7", "jal x0,0"]

# numbers about each border between two spellings, and large ones
BORDERS = [1, 31, 32, 2047, 2048, -1, -2047, -2048, -2049, -4096, 0xFFF, 0x1000, 0x17FF, 0x1800, 0x7FFFF7FF, 0x7FFFF800, 2**31 - 1, 2**31,
           2**31 + 2048, -(2**31), -(2**31) + 2047, -(2**31) + 2048, -(2**31) - 1, -0x80000801, 2**32 - 1, 2**32, 2**63 - 1, 2**63, 0x80000000800,
           0xFFFFFFFFFFFFF000, 0x12345678]
CLEAN = {0x300: 0, 0x7B0: 3, 0x7B1: BASE}
SERVED = [(WORD, 0xC000004, 1), (WORD, 0xC000008, 1), (WORD, 0xC002000, 6), (WORD, 0x10000008, 7), (BYTE, 0x10000000, 0x41), (CLAIM, 0xC200004, 0),
          (CLAIM, 0xC200004, 0)]


def devices(harts, priorities, enabled, thresholds, ctrl, txaddr, queue, msip, compare, time):
    """Rows that lay these, over whatever the first rows made; what waits is taken first."""
    rows = [(WORD, 0x10000008, 7), (TAKE, 0x10000000, 0)] + [(BYTE, 0x10000000, b) for b in queue]
    rows += [(WORD, 0xC000004 + 4 * i, p) for i, p in enumerate(priorities)]
    for c in range(2 * harts):
        rows += [(WORD, 0xC002000 + 0x80 * c, enabled(c)), (WORD, 0xC200000 + 0x1000 * c, thresholds(c))]
    rows += [(WORD, 0x10000008, ctrl), (DOUBLE, 0x10000010, txaddr)]
    for h in range(harts):
        rows += [(WORD, 0x2000000 + 4 * h, msip(h)), (DOUBLE, 0x2004000 + 8 * h, compare(h))]
    return rows + [(DOUBLE, 0x200BFF8, time)]


def in_loop():
    """Eight harts at reset, with both sources served, a full queue and loop alone set."""
    rows = SERVED + [(BYTE, 0x10000000, 0x41)] * 15 + [(WORD, at, 0) for at in (0xC000004, 0xC000008, 0xC002000)] + [(WORD, 0x10000008, 4)]
    return {h: (CLEAN, {}) for h in range(8)}, rows


# registers that keep all bits
KEEP = [0x340, 0x342, 0x343, 0x140, 0x142, 0x143, 0xB00, 0xB02]


def borders(shift, mode, status, satp, kept):
    """One hart with the borders in its registers, of which these are in those that keep all bits."""
    around = lambda k: BORDERS[(k + shift) % len(BORDERS)]
    controls = {n: around(i) for i, n in enumerate(CONTROLS)}
    controls.update({0x300: status, 0x180: satp, 0x7B0: mode, **dict(zip(KEEP, kept))})
    return {0: (controls, {i: around(i - 1) for i in range(1, 32)})}, []


def largest(harts):
    """All device registers with all bits set."""
    return {}, SERVED + devices(harts, [-1, -1], lambda c: -1, lambda c: -1, -1, -1, [0xFF] * 16, lambda h: -1, lambda h: -1, -1)


def different(harts):
    """Harts, contexts and bytes that differ; source 2 alone is served."""
    controls = lambda h: {0x180: 2**63 | 2**60 - 1 - h, 0x7B0: 4 + (h + 3) % 4}
    rows = [(WORD, 0xC000008, 1), (WORD, 0xC002000, 4), (WORD, 0x10000008, 2), (CLAIM, 0xC200004, 0)]
    rows += devices(harts, [3, 5], lambda c: c % 4 * 2, lambda c: c % 8, 5, 2**31 - 1, range(0, 250, 25), lambda h: h % 2,
                    lambda h: BORDERS[3 * h], 2**31)
    return {h: (controls(h), {}) for h in range(harts)}, rows


# name, harts, what fills the places of the registers, what is laid, and the words for it
STATES = [
    ("IN_LOOP", 8, None, in_loop(), "Harts at reset, with both sources served, a full queue, and loop alone set."),
    ("BORDERS", 1, None, borders(0, 1, 0x21888, 2047, [31, 2047, -1, -2049, 2**31 - 1, -(2**31), 0x7FFFF800, 2**63]), "A hart in supervisor mode with MPRV set."),
    ("SHIFTED", 1, None, borders(11, 0, 0x60000, 2**63 | 0x80008, [32, 2048, -2048, 0x12345800, 2**31, -(2**31) - 1, 0x7FFFF7FF, 2**32]),
     "A hart in user mode, with MPRV and SUM set, MPP for user mode, and satp on."),
    ("LARGEST", 8, M64 - 1, largest(8), "Eight harts and devices, every register of which is written with all bits set."),
    ("TWO", 2, 0, different(2), "Two harts and devices that differ, in all sizes of numbers."),
    ("EIGHT", 8, 0, different(8), "Eight harts and devices that differ."),
]


def filling(harts, ones):
    """Numbers for the registers of harts, of all sizes, with these bits set."""
    return [(NUMBERS + 8 * n, mixed(n + 1) | ones) for n in range(64 * harts)]


def checksum(data):
    h = 0
    for byte in data:
        h = (h ^ byte) * 0x100000001B3 % M64
    return h


def print_table(name, kind, rows, doc):
    print()
    for line in textwrap.wrap(doc, 100):
        print("/// " + line)
    print("pub(crate) static %s: [%s; %d] = [" % (name, kind, len(rows)))
    for text, note in rows:
        print("    %s,%s" % (text, " // " + note if note else ""))
    print("];")


def print_words(name, words, doc):
    print_table(name, "u32", [(full(w), named(note)) for w, note in words], doc)


def measures(words, steps):
    return "%d bytes, checksum %s; its boot makes %d steps." % (4 * len(words), number(checksum(data(words))), sum(steps))


def print_programs():
    for name, machine, length, steps, doc in (
            ("AT_RESET", at_reset(1), 424, [100], "The ROM of a hart at reset, of"),
            ("AFTER_PROGRAM", after_program(), 464, [104], "The ROM of a hart after ten steps of `PROGRAM`, of")):
        words, got = made(machine)
        assert (4 * len(words), got) == (length, steps)
        print_words(name, words, doc + " " + measures(words, got))
    print_words("DISPATCH", dispatch([ROM + 88 + 8 * h * h for h in range(8)]), "A dispatch to eight blocks.")
    print_words("PROGRAM", list(zip(assemble(PROGRAM), PROGRAM)), "Turns satp on over an empty page table, and lets loads and stores be those of user mode.")
    doc = "Reserves eight bytes. The ROM of two harts after three steps, with three input bytes, has "
    print_words("RESERVES", list(zip(assemble(RESERVES), RESERVES)), doc + measures(*made(after_reservations())))
    doc = "Hart 0 fills the queue under loop, claims both sources and leaves loop alone set. The ROM after 200 steps of eight harts has "
    print_words("FILLS", list(zip(assemble(FILLS), FILLS)), doc + measures(*made(after_filling())))


def print_state(name, harts, ones, values, rows, doc):
    numbers, rows = numbers_of(values), rows_of(rows)
    fill = filling(harts, ones) if ones is not None else []
    machine, steps = booted(laid(fill + numbers + [(ROWS_AT + 8 * i, v) for i, v in enumerate(sum(rows, ()))]), harts)
    words, got = made(machine)
    assert name != "IN_LOOP" or (4 * len(words), got) == (2664, [197] + [66] * 7)
    doc += " Laid in %d steps. The ROM has %s" % (sum(steps), measures(words, got))
    if numbers:
        print_table(name, "(u32, u64)", [("(%s, %s)" % (number(at), number(v)), "") for at, v in numbers], doc)
        doc = "The devices of that machine."
    if rows:
        print_table(name + "_ROWS", "(u64, u64)", [("(%s, %s)" % (number(at), number(v)), "") for at, v in rows], doc)


def print_states():
    print_words("LAYS", list(zip(lays_code()[1], lays_code()[0])), "The code of a ROM that lays numbers: those of the devices' rows, and those of each hart.")
    for name, harts, ones, (values, rows), doc in STATES:
        print_state(name, harts, ones, values, rows, doc)


if __name__ == "__main__":
    kind = sys.argv[1]
    print("//! What the tests compare with or begin with, as tools/boot_rom.py prints it.")
    {"words": print_programs, "numbers": print_states}[kind]()
