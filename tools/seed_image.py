#!/usr/bin/env python3
"""seed_image.py SEED [FILE]: the program that a seed stands for, as docs/REFERENCE.md says how its words are made.

Prints the machine's harts and its slice, and writes the program's 205 words to FILE as a flat image for address
0x80000000; without FILE it prints them, one a line. It shares nothing with the simulator, so that either may be held
against the other.
"""
import re
import sys


def register_form(funct7, rs2, rs1, funct3, rd, opcode):
    return funct7 << 25 | rs2 << 20 | rs1 << 15 | funct3 << 12 | rd << 7 | opcode


def immediate_form(immediate, rs1, funct3, rd, opcode):
    return (immediate & 0xFFF) << 20 | rs1 << 15 | funct3 << 12 | rd << 7 | opcode


def store_form(immediate, rs2, rs1, funct3):
    return immediate >> 5 << 25 | rs2 << 20 | rs1 << 15 | funct3 << 12 | (immediate & 31) << 7 | 0x23


def drawn(s):
    """The word that is drawn at a number of the generator."""
    a, b, c = (1 + (s >> place) % 15 for place in (8, 16, 24))
    kind, j = (s >> 32) % 8, (s >> 40) % 128
    return (
        register_form(0, b, a, 0, c, 0x33),        # add c, a, b
        register_form(0, b, a, 4, c, 0x33),        # xor c, a, b
        register_form(1, b, a, 0, c, 0x33),        # mul c, a, b
        immediate_form(j, a, 0, c, 0x13),          # addi c, a, j
        store_form(8 * j, a, 29, 3),               # sd a, 8j(x29)
        immediate_form(8 * j, 29, 3, c, 0x03),     # ld c, 8j(x29)
        register_form(0, b, 29, 3, c, 0x2F),       # amoadd.d c, b, (x29)
        store_form(0, a, 30, 0),                   # sb a, 0(x30)
    )[kind]


def program(seed):
    words = [
        0x00000E17,  # auipc x28, 0
        0x400E0E93,  # addi x29, x28, 1024
        0x10000F37,  # lui x30, 0x10000
        0xF14020F3,  # csrrs x1, mhartid, x0
    ]
    s = seed
    for _ in range(200):
        words.append(drawn(s))
        s = (s * 6364136223846793005 + 1442695040888963407) % 2**64
    return words + [0xCE1FF06F]  # jal x0, -800


def main():
    word = sys.argv[1] if len(sys.argv) > 1 else ""
    if not re.fullmatch("0|[1-9][0-9]*", word, re.ASCII) or int(word) >= 2**64:
        sys.exit("usage: seed_image.py SEED [FILE], where SEED is a number from 0 to 18446744073709551615, as --seed takes it")
    seed = int(word)
    print(f"harts={1 + seed % 8} slice={1 + seed // 8 % 16}")
    words = program(seed)
    if len(sys.argv) > 2:
        with open(sys.argv[2], "wb") as file:
            file.write(b"".join(word.to_bytes(4, "little") for word in words))
    else:
        print("\n".join(f"{word:08x}" for word in words))


main()
