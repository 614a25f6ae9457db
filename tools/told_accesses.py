#!/usr/bin/env python3
"""Checks what `rvtl explain` tells of accesses to memory, by decoding and registers written once more.

usage: rvtl explain [--raw] IMAGE SCRIPT | tools/told_accesses.py [ELF]

Reads a stream, follows each hart's registers through its R lines (what a load, an LR or an AMO read stands there), and works
out for each which address it accesses and what it reads or stores. With ELF addresses have that file's names. Prints how many
R lines were compared and how many of them access memory; the first that is told otherwise ends it with status 1."""
import struct
import sys

WORD = 0xFFFFFFFF


def signed(value, bits):
    return value - (1 << bits) if value >> (bits - 1) & 1 else value


def names_of(path):
    """The symbols of an ELF32 file, by rising address, those of one address in the table's order."""
    data = open(path, "rb").read()
    start, count = struct.unpack_from("<I", data, 32)[0], struct.unpack_from("<H", data, 48)[0]
    sections = [struct.unpack_from("<10I", data, start + 40 * n) for n in range(count)]
    found = []
    for section in sections:
        if section[1] != 2:
            continue
        strings = sections[section[6]][4]
        for at in range(section[4], section[4] + section[5], 16):
            name, value, _, info, _, index = struct.unpack_from("<IIIBBH", data, at)
            text = data[strings + name : data.index(b"\0", strings + name)].decode()
            if text and not text.startswith(("$", ".L")) and info % 16 <= 2 and 0 < index < 0xFF00:
                found.append((value, text))
    return sorted(found, key=lambda symbol: symbol[0])


def named(names, address):
    below = [symbol for symbol in names if symbol[0] <= address]
    if not below:
        return f"0x{address:08x}"
    value, text = below[-1]
    return text if value == address else f"{text}+0x{address - value:x}"


def divided(a, b):
    if b == 0:
        return -1, a
    if a == -(1 << 31) and b == -1:
        return a, 0
    quotient = abs(a) // abs(b) * (1 if (a < 0) == (b < 0) else -1)
    return quotient, a - quotient * b


def computed(funct3, funct7, a, b):
    """An operation on two registers, or on one and an immediate."""
    x, y = signed(a, 32), signed(b, 32)
    if funct7 == 1:
        unsigned = divmod(a, b) if b else (WORD, a)
        return [x * y, x * y >> 32, x * b >> 32, a * b >> 32, divided(x, y)[0], unsigned[0], divided(x, y)[1], unsigned[1]][funct3]
    shift = b % 32
    right = x >> shift if funct7 == 0x20 else a >> shift
    return [a - b if funct7 == 0x20 else a + b, a << shift, x < y, a < b, a ^ b, right, a | b, a & b][funct3]


def updated(funct5, old, operand):
    x, y = signed(old, 32), signed(operand, 32)
    return {0: old + operand, 1: operand, 4: old ^ operand, 8: old | operand, 12: old & operand, 16: min(x, y), 20: max(x, y),
            24: min(old, operand), 28: max(old, operand)}[funct5] & WORD


class Hart:
    def __init__(self, number, harts):
        self.x = [0] * 32
        self.x[10], self.x[11] = number, harts

    def write(self, rd, value):
        if rd:
            self.x[rd] = int(value) & WORD

    def retires(self, pc, word, loaded, succeeded):
        """What the instruction does to memory, as a function of how its address is told; None where it does nothing."""
        opcode, rd, funct3, rs1, rs2, funct7 = word % 128, word >> 7 & 31, word >> 12 & 7, word >> 15 & 31, word >> 20 & 31, word >> 25
        a, b, immediate = self.x[rs1], self.x[rs2], signed(word >> 20, 12)
        size = 1 << funct3 % 4
        if opcode == 0x03:
            self.write(rd, loaded if funct3 >= 4 else signed(loaded, 8 * size))
            return (a + immediate) & WORD, f" = 0x{loaded:0{2 * size}x}"
        if opcode == 0x23:
            address = a + signed(funct7 << 5 | rd, 12)
            return address & WORD, f" = 0x{b % (1 << 8 * size):0{2 * size}x}"
        if opcode == 0x2F and word >> 27 == 3:
            self.write(rd, not succeeded)
            return a, f" = 0x{b:08x}" if succeeded else " fails"
        if opcode == 0x2F:
            self.write(rd, loaded)
            stored = "" if word >> 27 == 2 else f" -> 0x{updated(word >> 27, loaded, b):08x}"
            return a, f" = 0x{loaded:08x}{stored}"
        if opcode == 0x37:
            self.write(rd, word & ~0xFFF)
        elif opcode == 0x17:
            self.write(rd, pc + (word & ~0xFFF))
        elif opcode in (0x6F, 0x67):
            self.write(rd, pc + 4)
        elif opcode == 0x13:
            self.write(rd, computed(funct3, funct7 if funct3 == 5 else 0, a, immediate & WORD))
        elif opcode == 0x33:
            self.write(rd, computed(funct3, funct7, a, b))
        return None


def number_of(field):
    return None if field == "-" else int(field, 16)


def main():
    names = names_of(sys.argv[1]) if len(sys.argv) > 1 else []
    harts, compared, accesses = [], 0, 0
    for line in sys.stdin:
        fields = line.split()
        if fields[0] == "T":
            harts = [Hart(number, int(fields[1])) for number in range(int(fields[1]))]
        if fields[0] != "R":
            continue
        compared += 1
        did = harts[int(fields[1])].retires(int(fields[2], 16), int(fields[3], 16), number_of(fields[4]), fields[5] == "ok")
        told = line.rstrip("\n").split(" ; ", 1)[1].partition(": ")[2]
        right = named(names, did[0]) + did[1] if did else ""
        accesses += did is not None
        if told != right:
            sys.exit(f"told otherwise: {line}should be `{right}`")
    print(f"{compared} instructions, {accesses} of them access memory")


main()
