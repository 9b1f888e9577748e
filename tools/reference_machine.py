"""A machine of the manuals' own words, with unbounded integers, that shares nothing with the crates: harts of
RV64IMAC with traps, Sv39, a fixed answer for each device register, and reservations. step_rows.py runs it."""
from instruction_rows import ROWS as TABLE, decode, expand

M64 = 2**64
BASE = 0x80000000
RAM = 0x10000
DEVICE = 0x91827364D5C6B7A8  # what every device register answers, cut to the size
WORD = 0xF0E1D2C3B4A59687  # what every volatile register reads as, cut to its volatile bits
NAMES = [row[3] for row in TABLE]
U, S, M = 0, 1, 3

# numbers that read 0, masks of what is kept, and bits that are read from outside
FIXED_ZERO = {0xF11, 0xF12, 0xF13, 0xF15, 0x320, *range(0x323, 0x340), *range(0xB03, 0xB20), *range(0xC03, 0xC20)}
FIXED_ZERO |= set(range(0x3A0, 0x3B0, 2)) | set(range(0x3B0, 0x3F0))
MASKS = {0x302: 0xB3FF, 0x303: 0x222, 0x304: 0xAAA, 0x305: ~2, 0x306: 7, 0x30A: 1, 0x340: ~0, 0x341: ~1, 0x342: ~0,
         0x343: ~0, 0x344: 0x222, 0x105: ~2, 0x106: 7, 0x10A: 1, 0x140: ~0, 0x141: ~1, 0x142: ~0, 0x143: ~0,
         0x180: ~0, 0xB00: ~0, 0xB02: ~0, 0x300: 0x7E19AA}
DEBUG = {0x7B0, 0x7B1, 0x7B2, 0x7B3}
VOLATILE = {0xC00: M64 - 1, 0xC01: M64 - 1, 0xB00: M64 - 1, 0x344: 0xA88, 0x144: 0x200}
VIEWS = {0x100, 0x104, 0x144, 0x301, 0xC00, 0xC01, 0xC02, 0xF14}


class Trap(Exception):
    def __init__(self, cause, tval):
        self.cause, self.tval = cause, tval


def signed(v, n):
    v %= 1 << n
    return v - (1 << n) if v >> (n - 1) else v


class Hart:
    def __init__(self, number, entry):
        self.number, self.pc, self.x, self.mode, self.held = number, entry, [0] * 32, M, None
        self.c = {k: 0 for k in MASKS}
        self.c[0x300] = 0xA00000000

    def bit(self, n):
        return self.c[0x300] >> n & 1

    def mpp(self):
        return self.c[0x300] >> 11 & 3

    # ---- registers
    def may(self, num, write):
        known = num in MASKS or num in FIXED_ZERO or num in VIEWS
        if not known or num in DEBUG:
            return False
        if self.mode < (num >> 8 & 3) or write and num >> 10 == 3:
            return False
        if num == 0x180 and self.mode == S and self.bit(20):
            return False
        if 0xC00 <= num <= 0xC1F:
            k = num - 0xC00
            if self.mode == S and not self.c[0x306] >> k & 1:
                return False
            if self.mode == U and not (self.c[0x306] >> k & 1 and self.c[0x106] >> k & 1):
                return False
        return True

    def view(self, num, given):
        if num in FIXED_ZERO:
            return 0
        special = {
            0x100: lambda: self.c[0x300] & (0xC0122 | 0x300000000),
            0x104: lambda: self.c[0x304] & self.c[0x303],
            0x144: lambda: (self.c[0x344] | given) & self.c[0x303],
            0x344: lambda: self.c[0x344] | given,
            0x301: lambda: 0x8000000000141105,
            0xC00: lambda: given, 0xC01: lambda: given, 0xB00: lambda: given,
            0xC02: lambda: self.c[0xB02],
            0xF14: lambda: self.number,
        }
        return special[num]() if num in special else self.c[num]

    def base(self, num, given):
        if num == 0x344:
            return self.c[0x344]
        if num == 0x144:
            return self.c[0x344] & self.c[0x303]
        return self.view(num, given)

    def write(self, num, v):
        if num == 0x100:
            return self.write(0x300, self.c[0x300] & ~0xC0122 | v & 0xC0122)
        if num == 0x104:
            d = self.c[0x303]
            return self.write(0x304, self.c[0x304] & ~d | v & d)
        if num == 0x144:
            d = self.c[0x303] & 2
            return self.write(0x344, self.c[0x344] & ~d | v & d)
        if num not in MASKS:
            return
        if num == 0x180 and v >> 60 not in (0, 8):
            return
        v &= MASKS[num] % M64
        if num == 0x300:
            if v >> 11 & 3 == 2:
                v &= ~0x1800
            v |= 0xA00000000
        self.c[num] = v


class Machine:
    def __init__(self, harts=1, live=0, data=(), wins=True):
        self.harts = [Hart(h, BASE) for h in range(harts)]
        self.ram = bytearray(RAM)
        self.live, self.wins = live, wins
        for at, v in data:
            self.ram[at - BASE:at - BASE + 8] = v.to_bytes(8, "little")

    def holds(self, at, n):
        return BASE <= at and at + n <= BASE + RAM

    def read(self, at, n):
        return int.from_bytes(self.ram[at - BASE:at - BASE + n], "little")

    def store(self, h, at, n, v):
        self.ram[at - BASE:at - BASE + n] = (v % 2**(8 * n)).to_bytes(n, "little")
        for other in self.harts:
            if other.number != h and other.held is not None and other.held < at + n and at < other.held + 8:
                other.held = None

    def listed(self, at, n):
        count = len(self.harts)
        own = {(0x10000000, 1), (0x10000004, 4), (0x10000008, 4), (0x10000010, 8), (0x10000018, 4),
               (0x200BFF8, 8), (0xC000004, 4), (0xC000008, 4), (0xC001000, 4)}
        for h in range(count):
            own |= {(0x2000000 + 4 * h, 4), (0x2004000 + 8 * h, 8)}
        for c in range(2 * count):
            own |= {(0xC002000 + 0x80 * c, 4), (0xC200000 + 0x1000 * c, 4), (0xC200004 + 0x1000 * c, 4)}
        return (at, n) in own

    # ---- translation
    def translate(self, hart, mode, kind, va):
        page = {"fetch": 12, "load": 13, "store": 15}[kind]
        access = {"fetch": 1, "load": 5, "store": 7}[kind]
        satp = hart.c[0x180]
        if mode == M or satp >> 60 == 0:
            return va
        top = va >> 38
        if top not in (0, 2**26 - 1):
            raise Trap(page, va)
        table, level = (satp % 2**44) << 12, 2
        while True:
            at = table + 8 * (va >> (12 + 9 * level) & 511)
            if not self.holds(at, 8):
                raise Trap(access, va)
            e = self.read(at, 8)
            v, r, w, x, u, a, d = (e >> k & 1 for k in (0, 1, 2, 3, 4, 6, 7))
            if not v or w and not r or e >> 54:
                raise Trap(page, va)
            ppn = e >> 10
            if not r and not x:
                if a or d or u or level == 0:
                    raise Trap(page, va)
                table, level = ppn << 12, level - 1
                continue
            mxr, sum_ = hart.bit(19), hart.bit(18)
            bad = ppn % 2**(9 * level) or not a
            bad |= kind == "store" and not (d and w)
            bad |= kind == "load" and not (r or mxr and x)
            bad |= kind == "fetch" and not x
            bad |= mode == U and not u
            bad |= mode == S and u and (kind == "fetch" or not sum_)
            if bad:
                raise Trap(page, va)
            span = 12 + 9 * level
            return (ppn << 12) >> span << span | va % 2**span

    def data_address(self, hart, kind, n, va):
        if va % n:
            raise Trap({"load": 4, "store": 6}[kind], va)
        mode = hart.mpp() if hart.bit(17) else hart.mode
        return self.translate(hart, mode, kind, va)

    def ram_address(self, hart, kind, n, va):
        at = self.data_address(hart, kind, n, va)
        if not self.holds(at, n):
            raise Trap({"load": 5, "store": 7}[kind], va)
        return at

    def parcel(self, hart, va):
        at = self.translate(hart, hart.mode, "fetch", va)
        if not self.holds(at, 2):
            raise Trap(1, va)
        return self.read(at, 2)

    # ---- traps
    def pick(self, hart):
        waiting = (hart.c[0x344] | self.live) & hart.c[0x304]
        deleg = hart.c[0x303]
        to_m = waiting & ~deleg if hart.mode < M or hart.bit(3) else 0
        to_s = waiting & deleg if hart.mode == U or hart.mode == S and hart.bit(1) else 0
        for some in (to_m, to_s):
            for n in (11, 3, 7, 9, 1, 5):
                if some >> n & 1:
                    return n
        return None

    def enter(self, hart, cause, tval, interrupt=False):
        deleg = hart.c[0x303 if interrupt else 0x302] >> cause & 1
        status, number = hart.c[0x300], cause | (interrupt << 63)
        if deleg and hart.mode < M:
            sie = status >> 1 & 1
            status = status & ~0x122 | sie << 5 | (hart.mode & 1) << 8
            hart.c[0x141], hart.c[0x142], hart.c[0x143] = hart.pc, number, tval
            hart.mode, vector = S, hart.c[0x105]
        else:
            mie = status >> 3 & 1
            status = status & ~0x1888 | mie << 7 | hart.mode << 11
            hart.c[0x341], hart.c[0x342], hart.c[0x343] = hart.pc, number, tval
            hart.mode, vector = M, hart.c[0x305]
        hart.c[0x300] = status
        hart.pc = ((vector & ~3) + (4 * cause if interrupt and vector & 1 else 0)) % M64

    # ---- the step: (mode, pc, word, did)
    def step(self, h):
        hart = self.harts[h]
        mode, pc = hart.mode, hart.pc
        n = self.pick(hart)
        if n is not None:
            self.enter(hart, n, 0, True)
            hart.c[0xB00] = (hart.c[0xB00] + 1) % M64
            return mode, pc, 0, ("Interrupted", n)
        word = 0
        try:
            low = self.parcel(hart, pc)
            if low % 4 == 3:
                word, length = low | self.parcel(hart, (pc + 2) % M64) << 16, 4
                parts = decode(word)
            else:
                word, length = low, 2
                parts = expand(word)
            if parts[0] == len(NAMES):
                raise Trap(2, word)
            shown, wrote = self.carry(hart, NAMES[parts[0]], parts[1:], word, length)
        except Trap as t:
            self.enter(hart, t.cause, t.tval)
            hart.c[0xB00] = (hart.c[0xB00] + 1) % M64
            return mode, pc, word, ("Raised", t.cause, t.tval)
        for counter in (0xB00, 0xB02):
            if wrote != counter:
                hart.c[counter] = (hart.c[counter] + 1) % M64
        return mode, pc, word, shown

    def carry(self, hart, name, parts, word, length):
        """What is shown, and the register that was written."""
        following = (hart.pc + length) % M64
        x = hart.x

        def done(rd=None, next_pc=following, st=None, dv=None, vl=None, wrote=None):
            reg = None
            if rd is not None and rd[0]:
                x[rd[0]] = rd[1] % M64
                reg = (rd[0], rd[1] % M64)
            hart.pc = next_pc % M64
            number, value = reg or (0, 0)
            if dv is not None:
                return ("Loaded", number, value, dv), wrote
            if vl is not None:
                return ("Saw", number, value, vl), wrote
            if st and rd is not None:
                return ("Updated", number, value) + st, wrote
            if st:
                return ("Stored",) + st, wrote
            return (("Wrote", number, value) if reg else ("Passed",)), wrote

        if name == "lui":
            return done((parts[0], parts[1]))
        if name == "auipc":
            return done((parts[0], hart.pc + parts[1]))
        if name == "jal":
            return done((parts[0], following), hart.pc + parts[1])
        if name == "jalr":
            return done((parts[0], following), (x[parts[1]] + parts[2]) % M64 // 2 * 2)
        if name in ("beq", "bne"):
            return done(None, hart.pc + parts[2] if (x[parts[0]] == x[parts[1]]) == (name == "beq") else following)
        if name in ("addi", "addiw", "ori", "andi", "slli", "add", "sub"):
            a, b = x[parts[1]], parts[2]
            if name in ("add", "sub"):
                b = x[parts[2]]
            return done((parts[0], {"addi": lambda: a + b, "addiw": lambda: signed(a + b, 32), "ori": lambda: a | b % M64,
                                    "andi": lambda: a & b % M64, "slli": lambda: a << b, "add": lambda: a + b,
                                    "sub": lambda: a - b}[name]()))
        if name[0] == "l" and name[1:] in ("b", "h", "w", "d", "bu", "hu", "wu"):
            n = {"b": 1, "h": 2, "w": 4, "d": 8}[name[1]]
            rd, rs1, imm = parts
            va = (x[rs1] + imm) % M64
            at = self.data_address(hart, "load", n, va)
            extend = (lambda v: v) if name.endswith("u") else (lambda v: signed(v, 8 * n))
            if self.holds(at, n):
                return done((rd, extend(self.read(at, n))))
            if self.listed(at, n):
                v = DEVICE % 2**(8 * n)
                return done((rd, extend(v)), dv=v)
            raise Trap(5, va)
        if name in ("sb", "sh", "sw", "sd"):
            n = {"b": 1, "h": 2, "w": 4, "d": 8}[name[1]]
            rs1, rs2, imm = parts
            va = (x[rs1] + imm) % M64
            at = self.data_address(hart, "store", n, va)
            v = x[rs2] % 2**(8 * n)
            if self.holds(at, n):
                self.store(hart.number, at, n, v)
                return done(st=(at, n, v))
            if self.listed(at, n):
                return done(st=(at, n, v))
            raise Trap(7, va)
        if name in ("lr.w", "lr.d"):
            n = 4 if name == "lr.w" else 8
            at = self.ram_address(hart, "load", n, x[parts[1]])
            hart.held = at // 8 * 8
            return done((parts[0], signed(self.read(at, n), 8 * n)))
        if name in ("sc.w", "sc.d"):
            n = 4 if name == "sc.w" else 8
            rd, rs1, rs2 = parts
            at = self.ram_address(hart, "store", n, x[rs1])
            wins = hart.held == at // 8 * 8 and self.wins
            hart.held = None
            if not wins:
                return done((rd, 1))
            v = x[rs2] % 2**(8 * n)
            self.store(hart.number, at, n, v)
            return done((rd, 0), st=(at, n, v))
        if name.startswith("amo"):
            n = 4 if name.endswith(".w") else 8
            rd, rs1, rs2 = parts
            at = self.ram_address(hart, "store", n, x[rs1])
            old, b = self.read(at, n), x[rs2] % 2**(8 * n)
            so, sb = signed(old, 8 * n), signed(b, 8 * n)
            new = {"swap": lambda: b, "add": lambda: old + b, "xor": lambda: old ^ b, "and": lambda: old & b,
                   "or": lambda: old | b, "min": lambda: min(so, sb), "max": lambda: max(so, sb),
                   "minu": lambda: min(old, b), "maxu": lambda: max(old, b)}[name[3:-2]]() % 2**(8 * n)
            self.store(hart.number, at, n, new)
            return done((rd, so), st=(at, n, new))
        if name.startswith("csrr"):
            kind, (rd, source, csr) = name[4], parts
            a = source if name.endswith("i") else x[source]
            reads = kind != "w" or rd != 0
            writes = kind == "w" or source != 0
            if not hart.may(csr, writes):
                raise Trap(2, word)
            given = WORD & VOLATILE[csr] if csr in VOLATILE and reads else 0
            old, base = hart.view(csr, given), hart.base(csr, given)
            if writes:
                hart.write(csr, {"w": a, "s": base | a, "c": base & ~a}[kind] % M64)
            return done((rd, old) if reads else None, vl=given if csr in VOLATILE and reads else None,
                        wrote=csr if writes else None)
        if name == "ecall":
            raise Trap({U: 8, S: 9, M: 11}[hart.mode], 0)
        if name == "ebreak":
            raise Trap(3, hart.pc)
        status = hart.c[0x300]
        if name == "mret":
            if hart.mode < M:
                raise Trap(2, word)
            hart.mode = status >> 11 & 3
            status = status & ~0x1888 | (status >> 7 & 1) << 3 | 0x80
            hart.c[0x300] = status & ~0x20000 if hart.mode != M else status
            return done(next_pc=hart.c[0x341])
        if name == "sret":
            if hart.mode == U or hart.mode == S and hart.bit(22):
                raise Trap(2, word)
            hart.mode = status >> 8 & 1
            hart.c[0x300] = (status & ~0x122 | (status >> 5 & 1) << 1 | 0x20) & ~0x20000
            return done(next_pc=hart.c[0x141])
        if name == "wfi" and hart.mode < M and hart.bit(21):
            raise Trap(2, word)
        if name == "sfence.vma" and (hart.mode == U or hart.mode == S and hart.bit(20)):
            raise Trap(2, word)
        if name == "dret":
            raise Trap(2, word)
        if name in ("wfi", "sfence.vma", "fence", "fence.i"):
            return done()
        raise ValueError(name)
