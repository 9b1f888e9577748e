#!/usr/bin/env python3
"""Expected answers for the tests of crates/rv_decode, from a transcription of the manual's tables that
shares nothing with the crate: rows are scanned, and compressed forms are spelled by the manual's lists of
immediate bits. Run by hand: it prints the rows of src/tests.rt and the checksum of all halfwords."""
import random

# mask, format, "name match, ..": Unprivileged ISA, "RV32/64G Instruction Set Listings", and the Privileged ISA's.
TABLE = [
    ("0000007f", "U", "lui 37, auipc 17"),
    ("0000007f", "J", "jal 6f"),
    ("0000707f", "I", "jalr 67"),
    ("0000707f", "B", "beq 63, bne 1063, blt 4063, bge 5063, bltu 6063, bgeu 7063"),
    ("0000707f", "I", "lb 3, lh 1003, lw 2003, ld 3003, lbu 4003, lhu 5003, lwu 6003"),
    ("0000707f", "S", "sb 23, sh 1023, sw 2023, sd 3023"),
    ("0000707f", "I", "addi 13, slti 2013, sltiu 3013, xori 4013, ori 6013, andi 7013, addiw 1b"),
    ("fc00707f", "shamt6", "slli 1013, srli 5013, srai 40005013"),
    ("fe00707f", "shamt5", "slliw 101b, srliw 501b, sraiw 4000501b"),
    ("fe00707f", "R", "add 33, sub 40000033, sll 1033, slt 2033, sltu 3033, xor 4033, srl 5033, sra 40005033, or 6033, and 7033"),
    ("fe00707f", "R", "addw 3b, subw 4000003b, sllw 103b, srlw 503b, sraw 4000503b"),
    ("fe00707f", "R", "mul 2000033, mulh 2001033, mulhsu 2002033, mulhu 2003033, div 2004033, divu 2005033, rem 2006033, remu 2007033"),
    ("fe00707f", "R", "mulw 200003b, divw 200403b, divuw 200503b, remw 200603b, remuw 200703b"),
    ("0000707f", "none", "fence f, fence.i 100f"),
    ("0000707f", "csr", "csrrw 1073, csrrs 2073, csrrc 3073"),
    ("0000707f", "csr", "csrrwi 5073, csrrsi 6073, csrrci 7073"),
    ("ffffffff", "none", "ecall 73, ebreak 100073, sret 10200073, mret 30200073, wfi 10500073, dret 7b200073"),
    ("fe007fff", "rs1rs2", "sfence.vma 12000073"),
    ("f9f0707f", "rdrs1", "lr.w 1000202f, lr.d 1000302f"),
    ("f800707f", "R", "sc.w 1800202f, amoswap.w 800202f, amoadd.w 202f, amoxor.w 2000202f, amoand.w 6000202f, amoor.w 4000202f, amomin.w 8000202f, amomax.w a000202f, amominu.w c000202f, amomaxu.w e000202f"),
    ("f800707f", "R", "sc.d 1800302f, amoswap.d 800302f, amoadd.d 302f, amoxor.d 2000302f, amoand.d 6000302f, amoor.d 4000302f, amomin.d 8000302f, amomax.d a000302f, amominu.d c000302f, amomaxu.d e000302f"),
]
ROWS = [(int(m, 16), int(x.split()[1], 16), f, x.split()[0]) for m, f, xs in TABLE for x in xs.split(", ")]
NUMBER = {name: i for i, (_, _, _, name) in enumerate(ROWS)}
NONE = (len(ROWS), 0, 0, 0)


def sign(v, n):
    return v - (1 << n) if v >> (n - 1) else v


def bits(w, hi, lo):
    return (w >> lo) & ((1 << (hi - lo + 1)) - 1)


def place(w, pairs):
    """The sum of w's bits, each moved from its place to the immediate's: pairs 'from>to'."""
    return sum(((w >> int(a)) & 1) << int(b) for a, b in (p.split(">") for p in pairs.split()))


B = "31>12 7>11 30>10 29>9 28>8 27>7 26>6 25>5 11>4 10>3 9>2 8>1"
J = "31>20 19>19 18>18 17>17 16>16 15>15 14>14 13>13 12>12 20>11 30>10 29>9 28>8 27>7 26>6 25>5 24>4 23>3 22>2 21>1"


def fields(fmt, w):
    rd, rs1, rs2 = bits(w, 11, 7), bits(w, 19, 15), bits(w, 24, 20)
    return {
        "U": lambda: (rd, sign(w & 0xFFFFF000, 32), 0),
        "J": lambda: (rd, sign(place(w, J), 21), 0),
        "I": lambda: (rd, rs1, sign(w >> 20, 12)),
        "B": lambda: (rs1, rs2, sign(place(w, B), 13)),
        "S": lambda: (rs1, rs2, sign(bits(w, 31, 25) << 5 | rd, 12)),
        "shamt6": lambda: (rd, rs1, bits(w, 25, 20)),
        "shamt5": lambda: (rd, rs1, rs2),
        "R": lambda: (rd, rs1, rs2),
        "csr": lambda: (rd, rs1, w >> 20),
        "rs1rs2": lambda: (rs1, rs2, 0),
        "rdrs1": lambda: (rd, rs1, 0),
        "none": lambda: (0, 0, 0),
    }[fmt]()


def decode(w):
    found = [(i, f) for i, (m, v, f, _) in enumerate(ROWS) if w & m == v]
    assert len(found) <= 1, hex(w)
    return (found[0][0],) + fields(found[0][1], w) if found else NONE


def c_imm(c, top, places):
    """The immediate whose bit places, from bit `top` of the word down, the manual lists."""
    return sum(((c >> (top - k)) & 1) << p for k, p in enumerate(places))


def expand(c):
    """The number and fields of the form's instruction: Unprivileged ISA, "RVC Instruction Set Listings"."""
    q, f3 = c & 3, c >> 13
    rd, rs2 = bits(c, 11, 7), bits(c, 6, 2)
    near, near_low = 8 + bits(c, 9, 7), 8 + bits(c, 4, 2)
    six = bits(c, 12, 12) << 5 | rs2
    word = c_imm(c, 12, [5, 4, 3]) + c_imm(c, 6, [2, 6])
    double = c_imm(c, 12, [5, 4, 3]) + c_imm(c, 6, [7, 6])
    n = lambda name, a=0, b=0, x=0: (NUMBER[name], a, b, x)
    if q == 0:
        spn = c_imm(c, 12, [5, 4, 9, 8, 7, 6, 2, 3])
        if f3 == 0 and spn: return n("addi", near_low, 2, spn)
        if f3 == 2: return n("lw", near_low, near, word)
        if f3 == 3: return n("ld", near_low, near, double)
        if f3 == 6: return n("sw", near, near_low, word)
        if f3 == 7: return n("sd", near, near_low, double)
    if q == 1:
        if f3 == 0: return n("addi", rd, rd, sign(six, 6))
        if f3 == 1 and rd: return n("addiw", rd, rd, sign(six, 6))
        if f3 == 2: return n("addi", rd, 0, sign(six, 6))
        if f3 == 3 and rd == 2:
            step = sign((c >> 12 & 1) << 9 | c_imm(c, 6, [4, 6, 8, 7, 5]), 10)
            if step: return n("addi", 2, 2, step)
        elif f3 == 3 and six: return n("lui", rd, sign(six << 12, 18))
        if f3 == 4:
            kind = bits(c, 11, 10)
            if kind == 0: return n("srli", near, near, six)
            if kind == 1: return n("srai", near, near, six)
            if kind == 2: return n("andi", near, near, sign(six, 6))
            name = {0: "sub", 1: "xor", 2: "or", 3: "and", 4: "subw", 5: "addw"}.get(bits(c, 12, 12) << 2 | bits(c, 6, 5))
            if name: return n(name, near, near, near_low)
        if f3 == 5: return n("jal", 0, sign(c_imm(c, 12, [11, 4, 9, 8, 10, 6, 7, 3, 2, 1, 5]), 12))
        if f3 in (6, 7):
            offset = sign(c_imm(c, 12, [8, 4, 3]) + c_imm(c, 6, [7, 6, 2, 1, 5]), 9)
            return n("beq" if f3 == 6 else "bne", near, 0, offset)
    if q == 2:
        if f3 == 0: return n("slli", rd, rd, six)
        if f3 == 2 and rd: return n("lw", rd, 2, (c >> 12 & 1) << 5 | c_imm(c, 6, [4, 3, 2, 7, 6]))
        if f3 == 3 and rd: return n("ld", rd, 2, (c >> 12 & 1) << 5 | c_imm(c, 6, [4, 3, 8, 7, 6]))
        if f3 == 4 and not c >> 12 & 1:
            if rs2: return n("add", rd, 0, rs2)
            if rd: return n("jalr", 0, rd, 0)
        elif f3 == 4:
            if rs2: return n("add", rd, rd, rs2)
            return n("jalr", 1, rd, 0) if rd else n("ebreak")
        if f3 == 6: return n("sw", 2, rs2, c_imm(c, 12, [5, 4, 3, 2, 7, 6]))
        if f3 == 7: return n("sd", 2, rs2, c_imm(c, 12, [5, 4, 3, 8, 7, 6]))
    return NONE


def checksum():
    h = 0
    for c in range(65536):
        for v in expand(c):
            h = ((h ^ (v % 2**64)) * 0x100000001B3) % 2**64
    return h


if __name__ == "__main__":
    pick = random.Random(1)
    for mask, match, _, _ in ROWS:
        word = match | pick.getrandbits(32) & ~mask & 0xFFFFFFFF
        fixed = [k for k in range(32) if mask >> k & 1]
        for w in (word, word ^ 1 << pick.choice(fixed)):
            print("    (0x%08x, (%d, %d, %d, %d))," % ((w,) + decode(w)))
    print("checksum 0x%016x" % checksum())
