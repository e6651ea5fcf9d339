#!/usr/bin/env python3
"""Writes two random programs for duo.v:  program.py SEED

hart0.hex and hart1.hex come into the current folder. Every value that is stored is another one, so that a value tells
its store. There are three words, at the addresses 0, 4 and 8; x16, x17 and x18 hold these.
"""

import random
import sys

STEPS = 170
WORDS = 3
CODE_SIZE = 1024
HALT = 0x00100073
FENCES = [0x0330000F, 0x0330000F, 0x8330000F, 0x0120000F]  # rw,rw (twice as often); TSO; w,r


def immediate(amount, rs1, funct3, rd, opcode):
    return (amount & 4095) << 20 | rs1 << 15 | funct3 << 12 | rd << 7 | opcode


def addi(rd, rs1, amount):
    return immediate(amount, rs1, 0, rd, 0x13)


def load(rd, rs1, offset):
    return immediate(offset, rs1, 2, rd, 0x03)


def store(rs2, offset):
    return (offset >> 5) << 25 | rs2 << 20 | 2 << 12 | (offset & 31) << 7 | 0x23


def add(rd, rs1, rs2):
    return rs2 << 20 | rs1 << 15 | rd << 7 | 0x33


def xor(rd, rs1, rs2):
    return rs2 << 20 | rs1 << 15 | 4 << 12 | rd << 7 | 0x33


def branch_to_next(rs1, rs2):
    return rs2 << 20 | rs1 << 15 | 0x263


def swap(rd, rs1, rs2, ordering):
    return 0x08000000 | ordering << 25 | rs2 << 20 | rs1 << 15 | 2 << 12 | rd << 7 | 0x2F


def program(chance, hart):
    """A random program of a hart, which ends with a word that halts it."""
    code = [addi(16 + word, 0, 4 * word) for word in range(WORDS)]
    stored = 0
    for _ in range(STEPS):
        kind, address = chance.random(), 4 * chance.randrange(WORDS)
        value = addi(5, 0, hart * 1000 + stored + 1)
        if kind < 0.36:
            stored += 1
            code += [value, store(5, address)]
        elif kind < 0.56:
            code += [load(6 + chance.randrange(3), 0, address)]
        elif kind < 0.68:  # an address that depends on a load
            code += [xor(9, 6, 6), addi(9, 9, address), load(7, 9, 0)]
        elif kind < 0.74:  # a store behind a branch, whose value depends on a load
            stored += 1
            code += [value, branch_to_next(7, 0), xor(9, 6, 6), add(5, 5, 9), store(5, address)]
        elif kind < 0.80:
            stored += 1
            code += [value, swap(chance.choice((0, 10)), 16 + address // 4, 5, chance.choice((0, 3)))]
        elif kind < 0.84:  # a sum that depends on more and more loads
            code += [add(10, 10, 7), add(10, 10, 8)]
        else:
            code += [chance.choice(FENCES)]
    return code + [HALT]


def main():
    chance = random.Random(int(sys.argv[1]))
    for hart in (0, 1):
        code = program(chance, hart)
        code += [0] * (CODE_SIZE - len(code))
        with open(f"hart{hart}.hex", "w", encoding="ascii") as file:
            file.writelines(f"{word:08x}\n" for word in code)


if __name__ == "__main__":
    main()
