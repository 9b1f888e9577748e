#!/usr/bin/env python3
"""The column of each refused line of the tests of crates/commit_log, reckoned without a reader.

Every shape of a record line is listed as a row of character classes. The column of a line is the most
characters, over all shapes, that agree with a shape from its front. Lines come on standard input, one
each; the column of each is printed before it.
"""
import itertools
import sys

HEX = set("0123456789abcdef")


def text(s):
    return [{c} for c in s]


def word(digits=16):
    return text(" ") + [HEX] * digits


def place(letter):
    return text(letter + " ") + [set("01234567")] + text(" ") + [set("USMD")] + word()


def shapes():
    registers = [[]] + [text(f" x{n}") + word() for n in range(1, 32)]
    stores = [[]] + [text(" st") + word() + text(f" {n}") + word(2 * n) for n in (1, 2, 4, 8)]
    answers = [[], text(" dv") + word()]
    volatiles = [[], text(" vl") + word()]
    for parts in itertools.product(registers, stores, answers, volatiles):
        yield place("C") + word(8) + sum(parts, [])
    for cause in range(16):
        yield place("X") + text(f" {cause}") + word()
        yield text("I ") + [set("01234567")] + text(f" {cause}")
    yield text("H") + word()


SHAPES = list(shapes())


def agrees(line, shape):
    count = 0
    while count < min(len(line), len(shape)) and line[count] in shape[count]:
        count += 1
    return count


for line in sys.stdin.read().split("\n")[:-1]:
    spelled = any(len(s) == len(line) and agrees(line, s) == len(s) for s in SHAPES)
    print("spelled" if spelled else max(agrees(line, s) for s in SHAPES), repr(line))
