#!/usr/bin/env python3
"""Expected steps of two harts where the leaf of a page is changed between the accesses of hart 0, as
reference_machine.py takes them. Run by hand, where llvm-mc is: it prints the tables of
crates/hart_turns/src/tests/steps/translations.rt.

What a walker remembers is told by hand: where an access has led is remembered until something is stored in a page of an
entry on the way. A device clears eight bytes as a store of zeros that is no hart's."""
from step_rows import BASE, SATP, Program, assemble, number, print_table

# hart 0 goes on in supervisor mode where x5 says, and hart 1 in machine mode at 0x50; x11 is the last table
APART = """auipc x31,0
csrrs x5,0xf14,x0
ld x7,0x118(x31)
ld x8,0x120(x31)
lui x11,4
add x11,x11,x31
addi x9,x0,0x400
bne x5,x0,0x34
lui x10,0x40001
%s
csrrw x0,0x341,x5
ld x6,0x110(x31)
csrrw x0,0x180,x6
addi x15,x0,1
slli x15,x15,11
csrrs x0,0x300,x15
mret
"""
PAGE, LEAF = 0x40001000, 0x80004008
PAGES = [(0x80001008, 0x20000801), (0x80001010, 0x200000CF), (0x80002000, 0x20001001), (LEAF, 0x20000CCF), (0x80000110, SATP)]


class Apart(Program):
    """The two harts over these pages and data; hart 0 sets x5 by an instruction."""

    def __init__(self, start, data):
        super().__init__(harts=2, data=PAGES + data)
        self.at(BASE, APART % start)

    def clears(self, at):
        self.machine.store(None, at, 8, 0)
        return self.looked("Clears", at)

    def remembers(self):
        return self.looked("Remembers", PAGE)

    def forgot(self):
        return self.looked("Forgot", PAGE)

    def show(self, pages, pages_doc, rows, rows_doc):
        print_table(pages, "(u64, u64)", [("(%s, %s)" % (number(at), number(v)), "") for at, v in self.data], pages_doc)
        print_table(rows, "Row", self.rows, rows_doc)


def changed_loads():
    p = Apart("addi x5,x31,0x80", [
        (0x80000118, 0x200018CF), (0x80000120, 0x1C), (0x80003008, 0x91223344F5667788), (0x80006008, 0x168504030201807F),
        (0x80007008, 0x7777), (0x80008008, 0x8888)])
    p.at(BASE + 0x50, """
    addi x13,x11,8
    sd x31,-8(x11)
    lui x14,1
    add x14,x14,x11
    sd x31,0(x14)
    sd x7,0(x13)
    amoadd.w x12,x9,(x13)
    """).at(BASE + 0x80, """
    ld x12,8(x10)
    ld x12,8(x10)
    ld x12,8(x10)
    sb x8,9(x11)
    ld x12,8(x10)
    ld x12,8(x10)
    sd x9,8(x10)
    ld x12,8(x10)
    """)
    p.forgot().steps(17, 0).steps(1, 0).remembers()
    p.steps(8, 1).steps(5, 1).remembers().steps(1, 0)  # stores right before and right after the last table
    p.steps(1, 1).forgot().steps(1, 0).remembers()  # the other hart stores the leaf
    p.steps(1, 0).forgot().steps(1, 0).remembers()  # the hart itself stores a byte of it
    p.steps(1, 1).forgot().steps(1, 0).remembers()  # the other hart adds to it
    p.steps(1, 0).remembers()  # a store through the page
    p.clears(LEAF).forgot().steps(1, 0).forgot()
    p.show("LOAD_PAGES", "Page tables from 0x80001000 on: the page at 0x40001000, and 0x80000000 and on as they are; what the harts load, and the data of four pages to which the first leads in turn.",
           "CHANGED_LOADS", "Between loads of 0x40001008: stores beside the last table; then the leaf is changed by another hart, by the hart itself, by an atomic operation, and by a device.")


def changed_fetches():
    texts = {0x80003000: ["addi x12,x0,1", "addi x12,x12,1"], 0x80006008: ["addi x12,x12,16", "sd x8,8(x11)"],
             0x80007010: ["addi x12,x12,256"]}
    words = [(at, int.from_bytes(b"".join(w.to_bytes(4, "little") for w in assemble(lines)), "little")) for at, lines in texts.items()]
    p = Apart("addi x5,x10,0", [(0x80000118, 0x200018CF), (0x80000120, 0x20001CCF)] + words)
    p.at(BASE + 0x50, """
    sd x7,8(x11)
    addi x8,x8,-8
    sd x8,8(x11)
    """)
    for at, lines in texts.items():
        for k, line in enumerate(lines):
            p.source[PAGE + at % 4096 + 4 * k] = line
    p.steps(17, 0).forgot().steps(2, 0).remembers()
    p.steps(8, 1).steps(1, 1).forgot().steps(1, 0).remembers()  # another hart stores the leaf
    p.steps(1, 0).forgot().steps(1, 0).remembers()  # the hart itself does
    p.steps(2, 1).forgot().steps(1, 0).forgot()  # another hart forbids to execute
    p.show("FETCH_PAGES", "The same tables, and words in three pages to which the first leads in turn.",
           "CHANGED_FETCHES", "Between fetches from 0x40001000 on, the leaf is changed by another hart, by the hart itself, and by another hart to one of no fetches.")


if __name__ == "__main__":
    changed_loads()
    changed_fetches()
