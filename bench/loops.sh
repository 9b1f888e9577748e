#!/usr/bin/env bash
# Steps per second of the built program on small loops, for a million turns of 16 steps, beside a run of 0 turns that
# takes the start-up away: one of lui, addi, sb and jal; one of add, addi, sd, ld, mul and bne, half of them
# compressed, in machine mode, and then in supervisor mode and in user mode under Sv39, with one page of 1 GiB; and one
# of loads, stores and branches over two pages of data, in machine mode, and in user mode under three levels of tables.
# Run it at the top of the checkout after `rt run` in crates/dromajo has built out/dromajo.
set -eu
program=$(realpath "${1:-crates/dromajo/out/dromajo}")
turns=${2:-1000000}
work=$(mktemp -d)
trap 'rm -rf "$work"' EXIT
cd "$work"
python3 - "$program" "$turns" <<'PY'
import subprocess, sys, time

program, turns = sys.argv[1], int(sys.argv[2])
SLICE = 16  # of an image's board


def words(*of):
    return b"".join(it.to_bytes(4, "little") for it in of)


FOUR = words(
    0x004000EF,  # jal x1, 4        x1 = 0x80000004
    0x123452B7,  # loop: lui x5, 0x12345
    0x00128293,  # addi x5, x5, 1
    0x40508023,  # sb x5, 1024(x1)
    0xFF5FF06F,  # jal x0, loop
)
MIXED = bytes.fromhex("1704000013040440854216958d0508e01060b306b6023387c60093074706e39687fee5b7")
# auipc s0,0; addi s0,s0,1024; c.li t0,1
# loop: c.add a0,t0; c.addi a1,3; c.sd a0,0(s0); c.ld a2,0(s0); mul a3,a2,a1; add a4,a3,a2;
#       addi a5,a4,100; bne a5,s0,loop; c.j loop


def entry(leaf, supervisor):
    """Lays the root table at 0x80001000, whose entry 2 is the leaf, and goes to what follows in the mode."""
    return words(
        0x00000417,                           # auipc s0, 0
        0x000012B7,                           # lui t0, 1
        0x00540333,                           # add t1, s0, t0
        0x200003B7,                           # lui t2, 0x20000
        0x0003839B | leaf << 20,              # addiw t2, t2, leaf
        0x00733823,                           # sd t2, 16(t1)
        0x00C35313,                           # srli t1, t1, 12
        0x00800393,                           # li t2, 8
        0x03C39393,                           # slli t2, t2, 60
        0x00736333,                           # or t1, t1, t2
        0x18031073,                           # csrw satp, t1
        0x000013B7 if supervisor else 0x3B7,  # lui t2, 1 (or 0)
        0x8003839B if supervisor else 0x39B,  # addiw t2, t2, -2048
        0x3003A073,                           # csrs mstatus, t2: MPP
        0x00000317,                           # auipc t1, 0
        0x01030313,                           # addi t1, t1, 16
        0x34131073,                           # csrw mepc, t1
        0x30200073,                           # mret
    )


PAGES = words(
    0x000042B7,  # lui t0, 4
    0x005404B3,  # add s1, s0, t0       s1 = 0x80004000
    0x000052B7,  # lui t0, 5
    0x00540933,  # add s2, s0, t0       s2 = 0x80005000
    0x0004B503,  # loop: ld a0, 0(s1)
    0x00150513,  # addi a0, a0, 1
    0x00A4B423,  # sd a0, 8(s1)
    0x00092583,  # lw a1, 0(s2)
    0x00A58633,  # add a2, a1, a0
    0x00C92223,  # sw a2, 4(s2)
    0xFE0504E3,  # beq a0, zero, loop
    0xFE0492E3,  # bne s1, zero, loop
)
IN_MACHINE_MODE = words(0x00000417)  # auipc s0, 0
UNDER_TABLES = words(
    0x00000417,  # auipc s0, 0          s0 = 0x80000000
    0x000012B7,  # lui t0, 1
    0x00540333,  # add t1, s0, t0       the root table at 0x80001000
    0x200013B7,  # lui t2, 0x20001
    0x8013839B,  # addiw t2, t2, -2047
    0x00733823,  # sd t2, 16(t1)        its entry 2 points to the table at 0x80002000
    0x00530E33,  # add t3, t1, t0
    0x4003839B,  # addiw t2, t2, 1024
    0x007E3023,  # sd t2, 0(t3)         and entry 0 there to the one at 0x80003000
    0x005E0E33,  # add t3, t3, t0
    0x200003B7,  # lui t2, 0x20000
    0x0DF3839B,  # addiw t2, t2, 223
    0x007E3023,  # sd t2, 0(t3)         the page at 0x80000000
    0x200013B7,  # lui t2, 0x20001
    0x0DF3839B,  # addiw t2, t2, 223
    0x027E3023,  # sd t2, 32(t3)        the page at 0x80004000
    0x4003839B,  # addiw t2, t2, 1024
    0x027E3423,  # sd t2, 40(t3)        the page at 0x80005000
    0x00C35313,  # srli t1, t1, 12
    0x00800393,  # li t2, 8
    0x03C39393,  # slli t2, t2, 60
    0x00736333,  # or t1, t1, t2
    0x18031073,  # csrw satp, t1
    0x00000317,  # auipc t1, 0
    0x01030313,  # addi t1, t1, 16
    0x34131073,  # csrw mepc, t1
    0x30200073,  # mret                 to user mode
)


def seconds(turns):
    began = time.monotonic()
    child = subprocess.run([program, "run", "--image", "loop.bin", "--turns", str(turns)],
                           stdin=subprocess.DEVNULL, stderr=subprocess.PIPE, text=True)
    assert child.stderr == f"done turns={turns} taken=0\n", child.stderr
    return time.monotonic() - began


for name, image in (("four instructions", FOUR), ("mixed, machine mode", MIXED),
                    ("mixed, supervisor mode", entry(0xCF, True) + MIXED), ("mixed, user mode", entry(0xDF, False) + MIXED),
                    ("pages, machine mode", IN_MACHINE_MODE + PAGES), ("pages, user mode", UNDER_TABLES + PAGES)):
    with open("loop.bin", "wb") as file:
        file.write(image)
    idle, busy = seconds(0), seconds(turns)
    print(f"{name}: {SLICE * turns} steps in {busy:.3f} s, start-up {idle:.3f} s: "
          f"{SLICE * turns / (busy - idle) / 1e6:.1f} million steps a second")
PY
