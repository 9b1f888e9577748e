#!/usr/bin/env python3
"""Expected steps for the tests of a step in crates/hart_turns, as reference_machine.py takes them. Run by hand, where llvm-mc
is, as `step_rows.py traps`: it prints the tables of src/tests/steps/traps.rt, each row with its instruction, and so for
registers, memory and atomic."""
import re
import subprocess
import sys
import textwrap
from reference_machine import BASE, M64, Machine, signed

NAMED = {0x300: "mstatus", 0x302: "medeleg", 0x303: "mideleg", 0x304: "mie", 0x305: "mtvec", 0x306: "mcounteren", 0x106: "scounteren",
         0x340: "mscratch", 0x341: "mepc", 0x342: "mcause", 0x343: "mtval", 0x344: "mip", 0x100: "sstatus", 0x104: "sie", 0x105: "stvec",
         0x140: "sscratch", 0x141: "sepc", 0x142: "scause", 0x143: "stval", 0x144: "sip", 0x180: "satp", 0xB00: "mcycle", 0xB02: "minstret",
         0xC00: "cycle", 0xC01: "time", 0xC02: "instret", 0xF14: "mhartid", 0x301: "misa", 0x7B0: "dcsr", 0x7B1: "dpc", 0x7B2: "dscratch0",
         0x7B3: "dscratch1", 0x3A2: "pmpcfg2", 0x3B0: "pmpaddr0", 0xC03: "hpmcounter3", 0xC1F: "hpmcounter31", 0xB03: "mhpmcounter3",
         0xB1F: "mhpmcounter31", 0xF11: "mvendorid"}


# ---- assembly

CACHE = {}


def assemble(lines):
    todo = [x for x in dict.fromkeys(lines) if x not in CACHE and not x.startswith(".word")]
    if todo:
        text = ".option norvc\n" + "".join(
            (".option rvc\n%s\n.option norvc\n" if x.startswith("c.") else "%s\n") % x for x in todo)
        run = subprocess.run(["llvm-mc", "-arch=riscv64", "-mattr=+m,+a,+c", "--show-encoding"], input=text,
                             capture_output=True, text=True)
        got = [l.split("encoding: [")[1].split("]")[0] for l in run.stdout.splitlines() if "encoding:" in l]
        assert not run.stderr and len(got) == len(todo), (run.stderr, todo)
        for x, g in zip(todo, got):
            CACHE[x] = int.from_bytes(bytes(int(b, 16) for b in g.split(",")), "little")
    for x in lines:
        if x.startswith(".word"):
            CACHE[x] = int(x.split()[1], 16)
    return [CACHE[x] for x in lines]


def number(v):
    if v <= 99:
        return str(v)
    text = "%x" % v
    parts = []
    while text:
        parts.insert(0, text[-4:])
        text = text[:-4]
    return "0x" + "_".join(parts)


def full(v):
    return "0x%04x_%04x" % (v >> 16, v & 0xFFFF)


def did_text(did):
    return did[0] if len(did) == 1 else "%s(%s)" % (did[0], ", ".join(number(v) for v in did[1:]))


def row_text(h, mode, pc, word, did):
    return "(%d, %s, %s, %s, %s)" % (h, "US?M"[mode], number(pc), full(word), did_text(did))


class Program:
    """Instructions at addresses, and a machine that is stepped through them."""

    def __init__(self, **kw):
        self.machine = Machine(**kw)
        self.data = kw.get("data", ())
        self.rows, self.source = [], {}

    def at(self, address, text):
        lines = [x.strip() for x in text.strip().splitlines() if x.strip()]
        for line, word in zip(lines, assemble(lines)):
            size = 4 if word % 4 == 3 or line.startswith(".word") else 2
            if line.startswith(".word") and word % 4 != 3:
                size = 2 if word < 65536 else 4
            self.machine.ram[address - BASE:address - BASE + size] = word.to_bytes(size, "little")
            self.source[address] = line
            address += size
        return self

    def steps(self, count, h=0):
        for _ in range(count):
            mode, pc, word, did = self.machine.step(h)
            note = self.source.get(pc, "")
            self.rows.append((row_text(h, mode, pc, word, did), note if did[0] != "Interrupted" else "an interrupt"))
        return self

    def looked(self, what, at):
        """What a walker remembers is told by hand, as the machine remembers nothing."""
        self.rows.append(("(0, M, 0, 0, %s(%s))" % (what, number(at)), ""))
        return self

    def held(self, h=0):
        held = self.machine.harts[h].held
        text = "Holds(%s)" % number(held) if held is not None else "HoldsNothing"
        self.rows.append(("(%d, M, 0, 0, %s)" % (h, text), ""))
        return self


def named(note):
    return re.sub(r",0x([0-9a-f]{3}),", lambda m: ",%s," % NAMED.get(int(m.group(1), 16), "0x" + m.group(1)), note) if note.startswith("csr") else note


def print_table(name, kind, rows, doc):
    for line in textwrap.wrap(doc, 100):
        print("/// " + line)
    print("static %s: [%s; %d] = [" % (name, kind, len(rows)))
    for text, note in rows:
        print("    %s,%s" % (text, " // " + named(note) if note else ""))
    print("];\n")


# ---- tables of one word in a mode

SET_UP = """auipc x31,0
ld x10,0x100(x31)
ld x5,0x108(x31)
ld x6,0x110(x31)
ld x7,0x118(x31)
csrrw x0,0x306,x7
csrrwi x0,0x106,5
addi x7,x31,0x30
csrrw x0,0x341,x7
csrrw x0,0x180,x6
csrrw x0,0x300,x5
"""
SATP = 0x8000000000080001
# the page tables: 0x40000000 and on by pages, 0x80000000 and on as they are, 0xc0000000 by a table outside RAM
PAGES = [
    (0x80001008, 0x20000801), (0x80001010, 0x200000CF), (0x80001018, 0x24000001), (0x80001000, 0x2000048F),
    (0x80002000, 0x20001001),
    (0x80004000, 0x20000CCF),  # to 0x80003000, all rights
    (0x80004010, 0x20000CDF),  # the same for U mode
    (0x80004018, 0x20000C49),  # the same, execute alone
    (0x80004020, 0x20000C43),  # the same, read alone
    (0x80004028, 0x040000CF),  # to the console
    (0x80004030, 0x240000CF),  # to nothing
    (0x80004038, 0x20000C4F),  # without D
    (0x80004040, 0x20000C8F),  # without A
    (0x80003008, 0x91223344F5667788), (0x80003000, 0x168504030201807F),
]


def tried(mode, status, counters, satp, a, text):
    """What the instruction does in the mode."""
    status |= {"U": 0, "S": 0x800, "M": 0x1800}[mode] if not (mode == "M" and status & 0x20000) else 0
    data = [(0x80000100, a), (0x80000108, status), (0x80000110, satp), (0x80000118, counters)] + PAGES
    p = Program(data=data).at(BASE, SET_UP + ("addi x0,x0,0" if mode == "M" else "mret") + "\n" + text)
    for _ in range(12):
        p.machine.step(0)
    assert p.machine.harts[0].pc == 0x80000030, text
    at, pc, word, did = p.machine.step(0)
    assert "US?M"[at] == mode and pc == 0x80000030
    return status, word, did


def in_modes(name, doc, rows):
    out = []
    for mode, status, counters, text in rows:
        got, word, did = tried(mode, status, counters, 0, 0, text)
        out.append(("(%s, %s, %s, %s, %s)" % (mode, number(got), number(counters), full(word), did_text(did)), text))
    print_table(name, "Legality", out, doc)


def translated(name, doc, rows):
    out = []
    for mode, status, a, text in rows:
        got, word, did = tried(mode, status, 0, SATP, a, text)
        out.append(("(%s, %s, %s, %s, %s)" % (mode, number(got), number(a), full(word), did_text(did)), text))
    print_table(name, "Translated", out, doc)


def plain_words(name, doc, rows):
    """Instructions in machine mode, with x10 = a and x11 = b."""
    out = []
    for a, b, text in rows:
        data = [(0x80000100, a), (0x80000108, b), (0x80000110, 0x91223344F5667788), (0x80000118, 0x168504030201807F)]
        p = Program(data=data).at(BASE, "auipc x31,0\nld x10,0x100(x31)\nld x11,0x108(x31)\naddi x2,x31,0x110\n" + text)
        for _ in range(4):
            p.machine.step(0)
        _, _, word, did = p.machine.step(0)
        out.append(("(%s, %s, %s, %s, %s)" % (full(word), number(a), number(b), did_text(did), number(p.machine.harts[0].pc)), text))
    print_table(name, "Word", out, doc)


TW, TVM, TSR, MPRV, SUM, MXR = (1 << k for k in (21, 20, 22, 17, 18, 19))


def legality():
    both = lambda text: [(m, 0, 0, text) for m in "USM"]
    in_modes("CALLS", "Calls, breakpoints and words without a row.", [
        *both("ecall"), *both("ebreak"), ("U", 0, 0, "c.ebreak"), *both("dret"),
        ("M", 0, 0, ".word 0x0000"), ("U", 0, 0, ".word 0x2000"), ("S", 0, 0, ".word 0x2007"), ("M", 0, 0, ".word 0xffffffff"),
        ("M", 0, 0, ".word 0x9ff1")])
    in_modes("PRIVILEGED", "Returns, waits and fences of translation.", [
        ("U", 0, 0, "mret"), ("S", 0, 0, "mret"), ("M", 0, 0, "mret"),
        ("U", 0, 0, "sret"), ("S", 0, 0, "sret"), ("S", TSR, 0, "sret"), ("S", TVM | TW, 0, "sret"), ("M", TSR, 0, "sret"),
        ("U", 0, 0, "wfi"), ("U", TW, 0, "wfi"), ("S", 0, 0, "wfi"), ("S", TW, 0, "wfi"), ("S", TVM | TSR, 0, "wfi"), ("M", TW, 0, "wfi"),
        ("U", 0, 0, "sfence.vma x0,x0"), ("S", 0, 0, "sfence.vma x10,x11"), ("S", TVM, 0, "sfence.vma x0,x0"),
        ("S", TSR | TW, 0, "sfence.vma x0,x0"), ("M", TVM, 0, "sfence.vma x0,x0")])
    in_modes("ACCESSES", "Accesses to registers.", [
        ("U", 0, 7, "csrrs x12,0x300,x0"), ("S", 0, 7, "csrrs x12,0x300,x0"), ("M", 0, 0, "csrrs x12,0x300,x0"),
        ("U", 0, 7, "csrrs x12,0x100,x0"), ("S", 0, 0, "csrrs x12,0x100,x0"), ("S", 0, 0, "csrrwi x0,0x140,3"),
        # satp under TVM
        ("S", 0, 0, "csrrs x12,0x180,x0"), ("S", TVM, 0, "csrrs x12,0x180,x0"), ("S", TVM, 0, "csrrw x0,0x180,x0"),
        ("S", TSR | TW, 0, "csrrw x0,0x180,x0"), ("M", TVM, 0, "csrrs x12,0x180,x0"), ("U", 0, 0, "csrrs x12,0x180,x0"),
        # counters
        ("S", 0, 6, "csrrs x12,0xc00,x0"), ("S", 0, 1, "csrrs x12,0xc00,x0"), ("U", 0, 1, "csrrs x12,0xc00,x0"), ("U", 0, 6, "csrrs x12,0xc00,x0"),
        ("S", 0, 2, "csrrs x12,0xc01,x0"), ("S", 0, 5, "csrrs x12,0xc01,x0"), ("U", 0, 7, "csrrs x12,0xc01,x0"),
        ("U", 0, 4, "csrrs x12,0xc02,x0"), ("S", 0, 3, "csrrs x12,0xc02,x0"), ("M", 0, 0, "csrrs x12,0xc02,x0"),
        ("M", 0, 0, "csrrs x12,0xc00,x0"), ("M", 0, 0, "csrrs x12,0xc03,x0"), ("S", 0, 7, "csrrs x12,0xc03,x0"), ("M", 0, 0, "csrrs x12,0xc1f,x0"),
        ("M", 0, 0, "csrrs x12,0xb1f,x0"), ("M", 0, 0, "csrrwi x12,0xb03,1"),
        # a number whose top two bits are 11 is read alone
        ("M", 0, 0, "csrrw x12,0xc00,x0"), ("M", 0, 0, "csrrwi x0,0xc00,0"), ("M", 0, 0, "csrrs x12,0xf14,x31"), ("M", 0, 0, "csrrsi x12,0xf14,1"),
        ("M", 0, 0, "csrrci x12,0xf14,0"), ("M", 0, 0, "csrrc x0,0xc00,x0"), ("M", 0, 0, "csrrs x12,0xf11,x0"), ("M", 0, 0, "csrrw x0,0x301,x31"),
        # no register
        ("M", 0, 0, "csrrs x12,0x003,x0"), ("M", 0, 0, "csrrs x12,0x321,x0"), ("M", 0, 0, "csrrs x12,0xb01,x0"), ("M", 0, 0, "csrrs x12,0x3a1,x0"),
        ("M", 0, 0, "csrrs x12,0x3a2,x0"), ("M", 0, 0, "csrrs x12,0x3f0,x0"), ("M", 0, 0, "csrrs x12,0x7a0,x0"), ("M", 0, 0, "csrrs x12,0xf16,x0"),
        # the registers of debug mode, out of it
        *[("M", 0, 0, "csrrs x12,0x%x,x0" % n) for n in (0x7B0, 0x7B1, 0x7B2, 0x7B3)]])


def registers():
    p = Program().at(BASE, """
    addi x5,x0,-1
    csrrw x6,0x340,x5
    csrrs x6,0x340,x0
    addi x7,x0,0x55
    csrrc x8,0x340,x7
    csrrs x8,0x340,x0
    csrrw x0,0x340,x7
    csrrs x8,0x340,x7
    csrrsi x9,0x340,10
    csrrci x9,0x340,15
    csrrwi x9,0x340,31
    csrrw x5,0x340,x5
    csrrs x5,0x340,x5
    csrrc x5,0x340,x5
    csrrs x0,0x340,x7
    csrrs x8,0x340,x0
    csrrci x8,0x340,0
    csrrsi x8,0x340,0
    addi x5,x0,-1
    csrrw x0,0x300,x5
    csrrs x6,0x300,x0
    csrrs x6,0x100,x0
    csrrwi x0,0x305,3
    csrrs x6,0x305,x0
    addi x8,x0,9
    slli x8,x8,60
    csrrw x0,0x180,x8
    csrrs x6,0x180,x0
    addi x9,x0,17
    slli x9,x9,59
    csrrw x0,0x180,x9
    csrrw x6,0x180,x8
    csrrs x6,0x180,x0
    csrrw x6,0x302,x5
    csrrs x6,0x302,x0
    csrrw x0,0x301,x0
    csrrs x6,0x301,x0
    csrrs x6,0xf14,x0
    csrrw x6,0x3b0,x5
    csrrs x6,0x3b0,x0
    """)
    p.steps(40)
    print_table("REGISTERS", "Row", p.rows, "Each form of access, with the registers and immediates that leave out the read or the write.")
    p = Program().at(BASE, """
    addi x5,x0,-1
    csrrs x6,0xb00,x0
    csrrs x0,0xb00,x0
    csrrw x0,0xb00,x5
    csrrw x6,0xb00,x0
    csrrwi x0,0xb00,7
    csrrs x6,0xc00,x0
    csrrs x6,0xc01,x0
    csrrs x6,0x344,x0
    csrrw x0,0x344,x5
    csrrs x6,0x344,x0
    csrrci x6,0x344,2
    csrrw x6,0x344,x0
    csrrsi x6,0x344,2
    csrrs x6,0x344,x0
    csrrs x6,0x144,x0
    csrrw x0,0x303,x5
    csrrs x6,0x303,x0
    csrrs x6,0x144,x0
    csrrw x6,0x144,x0
    csrrs x6,0x344,x0
    csrrwi x0,0x144,2
    csrrs x6,0x344,x0
    csrrw x0,0x304,x5
    csrrs x6,0x104,x0
    csrrw x6,0x104,x0
    csrrs x6,0x304,x0
    addi x7,x0,0x100
    csrrw x0,0xb02,x7
    csrrs x6,0xb02,x0
    csrrs x6,0xc02,x0
    csrrw x6,0xb02,x5
    csrrs x6,0xb02,x0
    addi x0,x0,0
    csrrs x6,0xb02,x0
    csrrwi x6,0xb00,9
    """)
    p.steps(36)
    h = p.machine.harts[0]
    print_table("VOLATILES", "Row", p.rows, "Volatile registers and counters; at the end mcycle is %d and minstret %d." % (h.c[0xB00], h.c[0xB02]))


def interleaved(name, doc, p):
    print_table(name, "Row", p.rows, doc)
    for h in p.machine.harts:
        print("// hart %d: mcycle %d minstret %d\n" % (h.number, h.c[0xB00], h.c[0xB02]))


def delegation():
    p = Program()
    p.at(BASE, """
    auipc x31,0
    addi x5,x31,0x200
    csrrw x0,0x305,x5
    addi x5,x31,0x400
    csrrw x0,0x105,x5
    addi x5,x0,0x108
    csrrw x0,0x302,x5
    addi x5,x0,0x82
    csrrw x0,0x300,x5
    addi x5,x31,0x100
    csrrw x0,0x341,x5
    mret
    """)
    p.at(BASE + 0x100, """
    ecall
    ebreak
    .word 0xffffffff
    ecall
    ebreak
    c.nop
    """)
    p.at(BASE + 0x200, """
    csrrs x10,0x342,x0
    csrrs x11,0x341,x0
    csrrs x12,0x343,x0
    csrrs x13,0x300,x0
    addi x11,x11,4
    csrrw x0,0x341,x11
    addi x14,x0,1
    slli x14,x14,11
    csrrs x0,0x300,x14
    mret
    """)
    p.at(BASE + 0x400, """
    csrrs x6,0x142,x0
    csrrs x7,0x141,x0
    csrrs x8,0x143,x0
    csrrs x9,0x100,x0
    addi x7,x7,4
    csrrw x0,0x141,x7
    sret
    """)
    p.steps(12)  # to U
    p.steps(8)  # a call, to S and back
    p.steps(8)  # a breakpoint, to S and back
    p.steps(11)  # an illegal word, to M and back to S
    p.steps(11)  # a call from S, to M and back to S
    p.steps(8)  # a breakpoint in S, to S and back
    p.steps(1)
    interleaved("DELEGATION", "User mode's calls and breakpoints are delegated: medeleg is 0x108. The rest goes to machine mode.", p)


def machine_causes():
    p = Program()
    p.at(BASE, """
    auipc x31,0
    addi x5,x31,0x40
    csrrw x0,0x305,x5
    csrrwi x0,0x302,8
    csrrwi x0,0x300,8
    ecall
    """)
    p.at(BASE + 0x40, """
    csrrs x10,0x342,x0
    csrrs x11,0x300,x0
    csrrs x12,0x341,x0
    c.ebreak
    """)
    p.steps(10)
    p.steps(4)
    p.steps(1)
    interleaved("MACHINE_CAUSES", "In machine mode a delegated cause is not delegated; its handler raises the same again.", p)


def software_interrupts():
    p = Program()
    p.at(BASE, """
    auipc x31,0
    addi x5,x31,0x201
    csrrw x0,0x305,x5
    addi x5,x31,0x401
    csrrw x0,0x105,x5
    addi x5,x0,0x222
    csrrw x0,0x304,x5
    csrrwi x0,0x344,2
    addi x5,x31,0x100
    csrrw x0,0x341,x5
    mret
    """)
    p.at(BASE + 0x100, "c.nop\nc.nop")
    p.at(BASE + 0x204, """
    csrrs x10,0x342,x0
    csrrs x11,0x341,x0
    csrrs x12,0x343,x0
    csrrs x13,0x300,x0
    csrrwi x0,0x303,2
    mret
    """)
    p.at(BASE + 0x404, """
    csrrs x6,0x142,x0
    csrrs x7,0x141,x0
    csrrs x8,0x143,x0
    csrrs x9,0x100,x0
    addi x5,x0,0x20
    csrrs x0,0x100,x5
    addi x5,x31,0x102
    csrrw x0,0x141,x5
    csrrwi x0,0x100,2
    """)
    p.steps(11)
    p.steps(7)  # 1 to M, which delegates it and goes back
    p.steps(10)  # 1 to S, which sets SIE
    p.steps(3)
    interleaved("SOFTWARE_INTERRUPTS", "Supervisor software interrupts: to machine mode first, then delegated, and in supervisor mode with SIE. The vectors are at bases of bit 0 set.", p)


def live_interrupts():
    p = Program(live=0x880)
    p.at(BASE, """
    auipc x31,0
    addi x5,x31,0x201
    csrrw x0,0x305,x5
    addi x5,x0,1
    slli x5,x5,11
    addi x5,x5,0x80
    csrrw x0,0x304,x5
    csrrwi x0,0x341,0x10
    addi x6,x0,0x80
    csrrs x0,0x300,x6
    addi x7,x0,3
    slli x7,x7,11
    csrrs x0,0x300,x7
    mret
    """)
    p.at(BASE + 0x22C, """
    csrrs x10,0x342,x0
    csrrs x11,0x341,x0
    csrrs x12,0x343,x0
    csrrc x0,0x304,x7
    csrrsi x0,0x300,8
    """)
    p.at(BASE + 0x21C, "jal x0,0x100")
    p.at(BASE + 0x31C, """
    csrrs x10,0x342,x0
    csrrs x11,0x341,x0
    csrrw x0,0xb02,x0
    csrrw x0,0xb00,x0
    csrrwi x0,0x305,0
    csrrsi x0,0x300,8
    """)
    p.steps(14)
    p.steps(6)  # 11
    p.steps(8)  # 7
    p.steps(1)  # 7 again, at a base that is not vectored
    p.steps(1)  # a fetch fault
    interleaved("LIVE_INTERRUPTS", "Two live signals, taken before a fetch that would fail: external first, then timer; then at a plain base.", p)


def fetches():
    p = Program().at(BASE, """
    auipc x31,0
    addi x5,x31,0x40
    csrrw x0,0x305,x5
    jalr x1,0(x0)
    """).at(BASE + 0x40, """
    csrrs x6,0x341,x0
    csrrs x7,0x343,x0
    jalr x1,-2(x0)
    """)
    p.steps(8)
    p.at(BASE + 0x40, """
    csrrs x6,0x341,x0
    csrrs x7,0x343,x0
    jalr x1,-2(x0)
    """)
    p.steps(3)
    interleaved("FETCHES", "Fetches outside RAM: of address 0, and of the last halfword of all.", p)
    for name, doc, at, text in [
            ("LAST_HALFWORD", "A compressed word in the last two bytes, and then the end of RAM.", 0xFFFE, "c.nop"),
            ("LAST_WORD", "A word in the last four bytes, and then the end of RAM.", 0xFFFC, "addi x5,x0,1"),
            ("SECOND_PARCEL", "The low half of a word in the last two bytes.", 0xFFFE, ".word 0x0013")]:
        p = Program().at(BASE + at, text).at(BASE, "lui x5,16\nauipc x6,0\nadd x5,x5,x6\njalr x0,%d(x5)" % (at - 0x10004))
        p.steps(6 if at != 0xFFFE or text == "c.nop" else 5)
        interleaved(name, doc, p)
    p = Program().at(BASE, "lui x5,16\nlw x6,0(x5)").steps(3)
    interleaved("ROM_ADDRESS", "A load from where the boot ROM stands in debug mode.", p)


def plain_memory():
    D = 0x80000110
    rows = []
    for name, off in (("lh", 1), ("lhu", 1), ("lw", 2), ("lwu", 1), ("ld", 4)):
        rows.append((D + off, 0, name + " x12,0(x10)"))
    for name, off in (("sh", 1), ("sw", 2), ("sd", 4)):
        rows.append((D + off, 0, name + " x11,0(x10)"))
    rows += [(D + 2, 0, "lr.w x12,(x10)"), (D + 4, 0, "lr.d x12,(x10)"), (D + 1, 0, "sc.w x12,x11,(x10)"), (D + 4, 0, "sc.d x12,x11,(x10)"),
             (D + 2, 0, "amoadd.w x12,x11,(x10)"), (D + 4, 0, "amoswap.d x12,x11,(x10)"), (1, 0, "lw x12,0(x10)"), (0x10000002, 0, "sw x11,0(x10)"),
             (3, 0, "amomax.w x12,x11,(x10)")]
    plain_words("MISALIGNED", "Accesses that are not aligned, some of them of nothing.", rows)
    rows = [(0x7FFFFFFF, 0, "lb x12,0(x10)"), (0x80010000, 0, "lbu x12,0(x10)"), (0x80010000, 0, "ld x12,0(x10)"), (2**64 - 8, 0, "ld x12,0(x10)"),
            (0x10000, 0, "lw x12,0(x10)"), (0x10000001, 0, "lb x12,0(x10)"), (0x10000000, 0, "lw x12,0(x10)"), (0x10000014, 0, "lw x12,0(x10)"),
            (0x2000004, 0, "lw x12,0(x10)"), (0x200C000, 0, "ld x12,0(x10)"), (0xC00000C, 0, "lw x12,0(x10)"),
            (0x7FFFFFF8, 0, "sd x11,0(x10)"), (0x80010000, 0, "sb x11,0(x10)"), (0x10000, 0, "sw x11,0(x10)"), (0x10000001, 0, "sb x11,0(x10)"),
            (0x10000000, 0, "sh x11,0(x10)"), (0x2000004, 0, "sw x11,0(x10)"), (0xC201008, 0, "sw x11,0(x10)"),
            (0x10000004, 0, "lr.w x12,(x10)"), (0x10000010, 0, "lr.d x12,(x10)"), (0x10000004, 0, "sc.w x12,x11,(x10)"), (0x2004000, 0, "sc.d x12,x11,(x10)"),
            (0x10000008, 0, "amoor.w x12,x11,(x10)"), (0x200BFF8, 0, "amoadd.d x12,x11,(x10)"), (0, 0, "amoswap.w x12,x11,(x10)")]
    plain_words("NOTHING_THERE", "Accesses of what is neither memory nor a device register of a board of one hart, and atomic ones of a device.", rows)
    rows = [(0x10000000, 0, "lb x12,0(x10)"), (0x10000000, 0, "lbu x12,0(x10)"), (0x10000004, 0, "lw x12,0(x10)"), (0x10000004, 0, "lwu x12,0(x10)"),
            (0x10000010, 0, "ld x12,0(x10)"), (0x200BFF8, 0, "ld x12,0(x10)"), (0xC200004, 0, "lw x0,0(x10)"), (0xC201004, 0, "c.lw x12,0(x10)"),
            (0x10000000, 0x1234, "sb x11,0(x10)"), (0x10000018, 0xF123456789ABCDEF, "sw x11,0(x10)"), (0x10000010, 0xF123456789ABCDEF, "sd x11,0(x10)"),
            (0x2000000, 1, "sw x11,0(x10)"), (0x2004000, 7, "c.sd x11,0(x10)"), (0xC002080, 6, "sw x11,0(x10)")]
    plain_words("DEVICES", "Loads and stores of device registers.", rows)


def virtual():
    V = 0x40000000
    low, user, code, read = V + 8, V + 0x2008, V + 0x3008, V + 0x4008
    console, nothing, clean, fresh, table = V + 0x5000, V + 0x6000, V + 0x7008, V + 0x8008, 0xC0000000
    L, D, St, Sb = "ld x12,0(x10)", "sd x31,0(x10)", "lb x12,0(x10)", "sb x31,0(x10)"
    rows = [("S", 0, low, L), ("S", 0, low + 3, St), ("S", 0, low, D), ("S", 0, V + 0xFFF, Sb), ("S", 0, low, "amoadd.w x12,x31,(x10)"),
            ("S", 0, V, "amoswap.d x12,x31,(x10)"), ("S", 0, low + 4, "lr.w x12,(x10)"), ("S", 0, low, "sc.w x12,x31,(x10)"),
            ("S", 0, 0x80003008, L), ("S", 0, 0x3008, L), ("S", 0, 0x8000000000003008, L), ("S", 0, 0x4000000008, L), ("S", 0, 0xFFFFFFC000000008, L),
            ("S", 0, V + 0x1000, L), ("S", 0, V + 0x1000, D), ("S", 0, V + 0x1004, L), ("S", 0, V + 0x1001, "amoand.w x12,x31,(x10)"),
            ("S", 0, V + 0x1000, "lr.d x12,(x10)"), ("S", 0, V + 0x1000, "sc.d x12,x31,(x10)"), ("S", 0, V + 0x1000, "amoand.w x12,x31,(x10)"),
            ("S", 0, user, L), ("S", SUM, user, L), ("S", 0, user, D), ("S", SUM, user, D),
            ("S", 0, code, L), ("S", MXR, code, L), ("S", MXR, code, D), ("S", 0, read, L), ("S", 0, read, D), ("S", 0, read, "amoor.d x12,x31,(x10)"),
            ("S", 0, clean, L), ("S", 0, clean, D), ("S", 0, fresh, L), ("S", 0, fresh, D),
            ("S", 0, console, Sb), ("S", 0, console, St), ("S", 0, console + 4, "lwu x12,0(x10)"), ("S", 0, console + 4, "amoadd.w x12,x31,(x10)"),
            ("S", 0, nothing, L), ("S", 0, nothing, D), ("S", 0, nothing, "lr.w x12,(x10)"), ("S", 0, table, L), ("S", 0, table, D),
            ("S", 0, table, "amoadd.w x12,x31,(x10)"),
            # MPRV in machine mode: the mode is MPP's
            ("M", 0, low, L), ("M", 0, 0x80003008, L), ("M", MPRV | 0x800, low, L), ("M", MPRV | 0x800, low, D), ("M", MPRV | 0x800, user, L),
            ("M", MPRV | 0x800 | SUM, user, L), ("M", MPRV, low, L), ("M", MPRV, user, L), ("M", MPRV, user, D), ("M", MPRV, user, "lr.d x12,(x10)"),
            ("M", MPRV | 0x800, V + 0x1000, D), ("M", MPRV | 0x800, V + 0x1000, L), ("M", MPRV | 0x1800, low, L), ("M", MPRV | 0x1800, 0x80003008, D),
            ("M", MPRV | 0x800, V + 0x1001, "lw x12,0(x10)"), ("M", 0, low, D),
            # a device through a page, and at its own address where no page has that
            ("M", MPRV | 0x800, console, Sb), ("M", MPRV | 0x800, console + 4, "lwu x12,0(x10)"),
            ("M", MPRV | 0x800, console + 4, "amoadd.w x12,x31,(x10)"), ("M", MPRV | 0x800, 0x10000000, Sb), ("M", 0, 0x10000000, Sb)]
    translated("TRANSLATED", "Loads and stores under the page tables. Root entry 3 names a table outside RAM.", rows)


def remapped():
    """A leaf is stored to between two loads through it."""
    p = Program(data=PAGES + [(0x80000110, SATP), (0x80000118, 0x200004CF)])
    p.at(BASE, """
    auipc x31,0
    ld x6,0x110(x31)
    ld x7,0x118(x31)
    csrrw x0,0x180,x6
    lui x10,0x40000
    lui x11,4
    add x11,x11,x31
    lui x14,0x20
    addi x15,x0,1
    slli x15,x15,11
    csrrs x0,0x300,x15
    csrrs x0,0x300,x14
    ld x12,8(x10)
    csrrc x0,0x300,x14
    sd x7,0(x11)
    csrrs x0,0x300,x14
    ld x12,8(x10)
    sd x31,8(x10)
    """)
    p.steps(18)
    interleaved("REMAPPED", "The leaf of 0x40000000 is changed, with no fence, between two loads through it under MPRV.", p)


def virtual_fetches():
    p = Program(data=PAGES + [(0x80000110, SATP), (0x80003FF8, 0x0013000000000000)])
    p.at(BASE, """
    auipc x31,0
    addi x5,x31,0x200
    csrrw x0,0x305,x5
    ld x6,0x110(x31)
    csrrw x0,0x180,x6
    lui x10,0x40001
    addi x11,x10,-2
    csrrw x0,0x341,x11
    lui x14,1
    addi x7,x0,1
    slli x7,x7,11
    csrrs x0,0x300,x7
    mret
    """)
    p.at(BASE + 0x200, """
    csrrs x8,0x342,x0
    csrrs x9,0x341,x0
    csrrs x12,0x343,x0
    add x10,x10,x14
    csrrw x0,0x341,x10
    csrrs x0,0x300,x7
    mret
    """)
    p.looked("Forgot", 0x40000FFE).steps(14).looked("Remembers", 0x40000FFE)
    p.looked("Forgot", 0x40001000)  # the second parcel is not mapped
    p.steps(8)  # a page of U mode
    p.steps(7)
    p.steps(1)
    p.steps(8)
    p.steps(8)
    interleaved("VIRTUAL_FETCHES", "The second parcel is not mapped; then a page of user mode; then pages that may be executed alone and read alone, and the console.", p)


AMOS = ["swap", "add", "xor", "and", "or", "min", "max", "minu", "maxu"]
PAIRS = [(0x800000007FFFFFFF, 0x7FFFFFFF80000000), (0xFFFFFFFFFFFFFFFF, 1)]


def amo_tables():
    for name, letter, size in (("AMO_WORDS", "w", 4), ("AMO_DOUBLES", "d", 8)):
        out = []
        for op in AMOS:
            text, values = "amo%s.%s x12,x11,(x10)" % (op, letter), []
            for old, b in PAIRS:
                p = Program(data=[(0x80000108, b), (0x80000110, old)])
                p.at(BASE, "auipc x31,0\naddi x10,x31,0x110\nld x11,0x108(x31)\n" + text)
                for _ in range(3):
                    p.machine.step(0)
                _, _, word, did = p.machine.step(0)
                extended = signed(old, 8 * size) % M64
                assert did[:5] == ("Updated", 12, extended, 0x80000110, size)
                values.append(did[5])
            out.append(("(%s, %s, %s)" % (full(word), number(values[0]), number(values[1])), text))
        print_table(name, "(u32, u64, u64)", out, "Atomic operations of %d bytes: the word, and what is stored for the first and the second pair of values." % size)


def one_register():
    # each operation is on the doubleword that stands 0x180 bytes from the start
    text = ["auipc x31,0"]
    for op in AMOS:
        for letter in "wd":
            text += ["addi x10,x31,0x180", "amo%s.%s x10,x10,(x10)" % (op, letter)]
    p = Program(data=[(0x80000180, 0x9122334475667788)]).at(BASE, "\n".join(text))
    p.steps(len(text))
    interleaved("ONE_REGISTER", "Atomic operations whose three registers are one, on the doubleword at 0x80000180.", p)


def two_harts(name, doc, other):
    p = Program(harts=2)
    p.at(BASE, """
    csrrs x10,0xf14,x0
    auipc x11,0
    addi x11,x11,252
    bne x10,x0,20
    lr.w x12,(x11)
    sc.w x13,x11,(x11)
    lw x14,0(x11)
    jal x0,0
    """ + other + """
    jal x0,0
    """)
    for _ in range(7):
        p.steps(1, 0).steps(1, 1)
    interleaved(name, doc, p)


def reserving_harts():
    two_harts("TWO_HARTS", "A reservation and its store, with another hart beside.", "addi x0,x0,0")
    two_harts("TAKEN_AWAY", "The same, where the other hart stores a byte into the last of the eight.", "sb x11,7(x11)")


def conditional():
    D = [(0x80000100, 0x1111111122222222), (0x80000108, 0x3333333344444444)]
    top = "auipc x31,0\naddi x10,x31,0x100\naddi x13,x31,0x104\naddi x14,x31,0x108\naddi x5,x31,0x80\ncsrrw x0,0x305,x5\n"
    p = Program(data=D).at(BASE, top + """
    sc.w x12,x31,(x10)
    lr.w x12,(x10)
    sc.w x12,x5,(x13)
    sc.w x12,x5,(x13)
    lr.w x12,(x13)
    sc.d x0,x5,(x10)
    lr.d x12,(x10)
    sd x31,0(x10)
    sc.d x12,x10,(x10)
    lr.w x12,(x10)
    sc.w x12,x5,(x14)
    sc.w x12,x5,(x10)
    lr.w x12,(x10)
    lr.w x12,(x14)
    sc.w x12,x5,(x10)
    ld x12,0(x10)
    """)
    p.steps(7).held().steps(1).held().steps(1).held().steps(1).steps(1).held().steps(1).held().steps(3).held().steps(1).steps(1).held()
    p.steps(1).steps(2).held().steps(1).held().steps(1)
    interleaved("CONDITIONAL", "No reservation; the other half of the eight bytes; twice; a wider store; after the hart's own store; elsewhere, and then in the place; a later reservation.", p)
    p = Program(data=D).at(BASE, top + """
    lr.w x12,(x10)
    ecall
    """).at(BASE + 0x80, """
    sc.w x12,x5,(x10)
    lr.d x12,(x10)
    addi x6,x31,0xa4
    csrrw x0,0x305,x6
    addi x15,x10,2
    sc.w x12,x5,(x15)
    """).at(BASE + 0xA4, """
    addi x6,x31,0xb4
    csrrw x0,0x305,x6
    addi x15,x0,0
    sc.w x12,x5,(x15)
    sc.d x12,x6,(x10)
    ld x12,0(x10)
    """)
    p.steps(8).held().steps(1).held().steps(5).held().steps(4).held().steps(1).held().steps(1)
    interleaved("AFTER_TRAPS", "A reservation outlives a trap, and a store-conditional that is not aligned or finds nothing.", p)


def reserving():
    p = Program(data=[(0x80000100, 0x1111111122222222)]).at(BASE, """
    auipc x10,0
    addi x10,x10,0x104
    lr.w x12,(x10)
    """).steps(3).held()
    interleaved("RESERVING", "A reservation of the bytes at 0x80000100.", p)


def loses():
    p = Program(wins=False).at(BASE, """
    auipc x10,0
    lr.w x12,(x10)
    sc.w x12,x10,(x10)
    ld x13,0(x10)
    """)
    p.steps(2).held().steps(1).held().steps(1)
    interleaved("LOSES", "Surroundings that let no store-conditional win.", p)


def harts_apart():
    D = [(0x80000100, 0x1111111122222222), (0x80000108, 0x3333333344444444)]
    p = Program(harts=2, data=D).at(BASE, """
    csrrs x5,0xf14,x0
    auipc x31,0
    addi x10,x31,0xfc
    bne x5,x0,0x50
    lr.d x12,(x10)
    sc.d x12,x31,(x10)
    lr.d x12,(x10)
    lr.w x12,(x10)
    lr.d x12,(x10)
    """).at(BASE + 0x5C, """
    lr.w x12,(x10)
    sb x0,-1(x10)
    ld x12,0(x10)
    sd x31,8(x10)
    sc.w x12,x31,(x10)
    sc.w x12,x31,(x10)
    sb x31,7(x10)
    amoadd.w x12,x31,(x10)
    sd x31,0(x10)
    """)
    for _ in range(4):
        p.steps(1, 0).steps(1, 1)
    p.steps(1, 0).steps(4, 1).held(0).held(1)
    p.steps(1, 1).held(0).held(1)  # the winner takes the other's
    p.steps(1, 0)  # which fails
    p.steps(1, 0).held(0).steps(1, 1).held(0)  # a failure stores nothing
    p.steps(1, 1).held(0)  # a byte in the last place
    p.steps(1, 0).held(0).steps(1, 1).held(0)  # an atomic operation
    p.steps(1, 0).held(0).steps(1, 1).held(0)
    interleaved("HARTS_APART", "What hart 1 does to hart 0's reservation: stores beside it, a load, a success, a failure, a byte, an atomic operation and a store.", p)


FILES = {
    "registers": [legality, registers],
    "traps": [delegation, machine_causes, software_interrupts, live_interrupts],
    "memory": [fetches, plain_memory, virtual, virtual_fetches, remapped],
    "atomic": [amo_tables, one_register, reserving_harts, conditional, reserving, loses, harts_apart],
}

if __name__ == "__main__":
    for table in FILES[sys.argv[1]]:
        table()
