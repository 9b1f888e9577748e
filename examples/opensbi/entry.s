# What lies in memory when the harts begin: a firmware, what it goes on with in supervisor mode, and a device tree,
# each a file; and the entry, by which every hart goes on in the firmware as this wants to be entered, with its
# number in a0 and the tree's address in a1. board.ld says where they lie.
    .section .entry, "ax"
    .globl _start
_start:
    csrr a0, mhartid
    la a1, tree
    la t0, firmware
    jr t0

    .section .firmware, "awx"
    .incbin "fw_jump.bin"

    .section .payload, "awx"
    .incbin "payload.bin"

    .section .tree, "aw"
    .incbin "board.dtb"
