#!/usr/bin/env python3
"""Writes traces on which a checker of memory orders is slow that looks at too much: `worst_traces.py FOLDER`.

Each is a file that `rvtl check` calls legal, with at most 4,096 memory operations. Beside each but `long` stands one
named NAME_illegal, of the same size, in which two operations at the end of the order break a rule: a load that comes
behind a store that must follow it (of one hart the store's number comes from the load, rule 10; of several they are
of one word, rule 1).

    reversed          4,095 loads of one hart, performed in reverse
    late_store        980,003 instructions with 4,000 loads, and a store before them performed last
    undrained         a store that is never performed, 200,000 instructions, and then 4,000 loads
    sparse_reversed   400 loads among 200,000 instructions, performed in reverse
    amos_reversed     4,095 AMOs of one hart, on words of their own, performed in reverse
    stores_between    2,047 pairs of a load and a store that depends on it, all loads first
    near_N            N harts, all kinds of operations, in nearly program order (N is 1, 2 and 8)
    in_order_8        8 harts, all kinds, performed as the harts stand in program order
    long              4 harts with 1,000,000 instructions each, and no memory operation
"""

import random
import sys
from pathlib import Path

BASE = 0x80000000
ZERO, COUNT, PLACE, FROM, TO, ID = 0, 5, 12, 14, 13, 10

# ---- words of instructions


def i_type(opcode, funct3, rd, rs1, value):
    return (value & 0xFFF) << 20 | rs1 << 15 | funct3 << 12 | rd << 7 | opcode


def lui(rd, value):
    return value << 12 | rd << 7 | 0x37


def addi(rd, rs1, value):
    return i_type(0x13, 0, rd, rs1, value)


def lw(rd, value, rs1):
    return i_type(0x03, 2, rd, rs1, value)


def sw(rs2, value, rs1):
    return (value >> 5 & 0x7F) << 25 | rs2 << 20 | rs1 << 15 | 2 << 12 | (value & 0x1F) << 7 | 0x23


def bne(rs1, rs2, offset):
    high = (offset >> 12 & 1) << 31 | (offset >> 5 & 0x3F) << 25
    low = (offset >> 1 & 0xF) << 8 | (offset >> 11 & 1) << 7
    return high | rs2 << 20 | rs1 << 15 | 1 << 12 | low | 0x63


def amo(funct5, rd, rs2, rs1, bits=0):
    return funct5 << 27 | bits << 25 | rs2 << 20 | rs1 << 15 | 2 << 12 | rd << 7 | 0x2F


AMOADD, AMOSWAP, LR, SC = 0, 1, 2, 3
FENCES = (0x0330000F, 0x0110000F, 0x0220000F, 0x8330000F)

# ---- a machine whose stores wait in no queue: the caller says when an operation is performed


class Hart:
    """What a hart does, with its lines of the trace. Its loads read `memory`, its stores write it at once."""

    def __init__(self, number, words, memory):
        self.number, self.words, self.memory = number, words, memory
        self.pc, self.registers, self.lines, self.reserved = BASE, [0] * 32, [], None
        self.loads, self.stores = [], []
        self.registers[ID] = number

    def register(self, number):
        return self.registers[number]

    def write(self, number, value):
        if number:
            self.registers[number] = value & 0xFFFFFFFF

    def address(self):
        """The address of the next instruction's access."""
        word = self.words[(self.pc - BASE) // 4]
        opcode = word & 0x7F
        value = 0 if opcode == 0x2F else word >> 20
        if opcode == 0x23:
            value = word >> 25 << 5 | word >> 7 & 0x1F
        value -= (value & 0x800) << 1
        return self.register(word >> 15 & 0x1F) + value & 0xFFFFFFFF

    def step(self, load=None, store=None):
        """Retires the next instruction. `load(address)` and `store(address, number)` stand for memory."""
        load = load or (lambda address: self.memory.get(address, 0))
        store = store or self.memory.__setitem__
        pc, word = self.pc, self.words[(self.pc - BASE) // 4]
        opcode, rd, rs1, rs2 = word & 0x7F, word >> 7 & 0x1F, word >> 15 & 0x1F, word >> 20 & 0x1F
        loaded = answer = "-"
        self.pc += 4
        if opcode == 0x37:
            self.write(rd, word & 0xFFFFF000)
        elif opcode == 0x13:
            value = (word >> 20) - ((word >> 20 & 0x800) << 1)
            self.write(rd, self.register(rs1) + value)
        elif opcode == 0x33:
            self.write(rd, self.register(rs1) + self.register(rs2))
        elif opcode == 0x63:
            if self.register(rs1) != self.register(rs2):
                offset = (word >> 31 & 1) << 12 | (word >> 7 & 1) << 11 | (word >> 25 & 0x3F) << 5 | (word >> 8 & 0xF) << 1
                self.pc = pc + offset - ((offset & 0x1000) << 1)
        elif opcode == 0x03:
            self.pc -= 4
            self.loads.append((len(self.lines), self.address()))
            number = load(self.address())
            self.pc += 4
            self.write(rd, number)
            loaded = f"0x{number:08x}"
        elif opcode == 0x23:
            self.pc -= 4
            self.stores.append((len(self.lines), self.address()))
            store(self.address(), self.register(rs2))
            self.pc += 4
        elif opcode == 0x2F:
            self.pc -= 4
            loaded, answer = self.atomic(word, rd, rs2, load, store)
            self.pc += 4
        self.lines.append(f"R {self.number} 0x{pc:08x} 0x{word:08x} {loaded} {answer}\n")
        return len(self.lines) - 1

    def atomic(self, word, rd, rs2, load, store):
        address, kind, number = self.address(), word >> 27, self.register(rs2)
        if kind == SC:
            succeeds = self.reserved == address
            self.reserved = None
            if succeeds:
                store(address, number)
            self.write(rd, 0 if succeeds else 1)
            return "-", "ok" if succeeds else "fail"
        before = load(address)
        if kind == LR:
            self.reserved = address
        elif kind == AMOSWAP:
            store(address, number)
        else:
            store(address, before + number & 0xFFFFFFFF)
        self.write(rd, before)
        return f"0x{before:08x}", "-"


# ---- texts


def image_lines(words):
    data = b"".join(word.to_bytes(4, "little") for word in words)
    data += bytes(-len(data) % 16)
    for start in range(0, len(data), 16):
        line = data[start : start + 16]
        if any(line):
            yield f"I 0x{BASE + start:08x} {line.hex()}\n"


def write_trace(path, kib, words, harts, performed):
    with open(path, "w", encoding="ascii") as out:
        version, line = (1, "") if len(harts) <= 4 else (2, " 16")
        out.write(f"rvtl-trace {version}\nT {len(harts)} {kib} 0x{BASE:08x}{line}\n")
        out.writelines(image_lines(words))
        for hart in harts:
            out.writelines(hart.lines)
        out.writelines(f"P {hart} {place}\n" for hart, place in performed)
        out.writelines(f"H {hart.number} run\n" for hart in harts)


def run_alone(words, count):
    """One hart that retires so many instructions, and the places of its operations."""
    memory = {BASE + 4 * index: word for index, word in enumerate(words)}
    hart = Hart(0, words, memory)
    places = []
    for _ in range(count):
        is_access = hart.words[(hart.pc - BASE) // 4] & 0x7F in (0x03, 0x23, 0x2F)
        place = hart.step()
        if is_access:
            places.append(place)
    return hart, places


def write_alone(path, kib, words, count, order):
    """The trace of one hart; `order` makes the performed places of those of its operations."""
    hart, places = run_alone(words, count)
    write_trace(path, kib, words, [hart], [(0, place) for place in order(places)])


def write_both(path, kib, words, count, order, room=0):
    """The trace, and its illegal twin: a load and a store of what it loaded, performed store first, stand behind the
    others. Of these the first `room` loads or AMOs are left out there."""
    write_alone(path, kib, words, count, order)
    words = words + [lw(FROM, 0x40, PLACE), sw(FROM, 0x44, PLACE)]
    for number in range(room):
        first = next(index for index, word in enumerate(words) if word & 0x7F in (0x03, 0x2F))
        words[first] = addi(6, 6, 1)
    write_alone(illegal(path), kib, words, count + 2, lambda places: order(places[:-2]) + places[:-3:-1])


def illegal(path):
    return path.with_name(path.name + "_illegal")


def counted(register, number):
    """Puts a number of at most 2,047 into a register."""
    return addi(register, ZERO, number)


# ---- one hart


def reversed_loads(folder):
    words = [lui(PLACE, BASE >> 12)] + [lw(FROM, 4 * (index % 500), PLACE) for index in range(4095)]
    write_both(folder / "reversed", 20, words, 4096, lambda places: places[::-1], 1)


def loop_of_loads(rounds, length, loads):
    """A loop of so many rounds and instructions, its loads spread over it; two instructions lead to it."""
    body = [addi(6, 6, 1) for _ in range(length - 2)] + [addi(COUNT, COUNT, -1), bne(COUNT, ZERO, 4 - 4 * length)]
    for number in range(loads):
        body[number * (length - 2) // loads] = lw(FROM, 4 * number, PLACE)
    return [lui(PLACE, (BASE >> 12) + 8), counted(COUNT, rounds)] + body


def late_store(folder):
    words = loop_of_loads(2000, 490, 2)
    words.insert(2, sw(TO, 0x100, PLACE))
    write_both(folder / "late_store", 64, words, 980_003, lambda places: places[1:] + places[:1])


def undrained(folder):
    words = [lui(PLACE, (BASE >> 12) + 8), sw(TO, 0x100, PLACE), counted(COUNT, 2000)]
    words += [addi(6, 6, 1)] * 98 + [addi(COUNT, COUNT, -1), bne(COUNT, ZERO, 4 - 400)]
    words += [lw(FROM, 4 * (index % 60), PLACE) for index in range(4000)]
    write_both(folder / "undrained", 64, words, 3 + 200_000 + 4000, lambda places: places[1:])


def sparse_reversed(folder):
    words = loop_of_loads(400, 500, 1)
    write_both(folder / "sparse_reversed", 64, words, 200_002, lambda places: places[::-1])


def amos_reversed(folder):
    words = [lui(PLACE, (BASE >> 12) + 16), counted(7, 3)]
    for _ in range(4095):
        words += [addi(PLACE, PLACE, 4), amo(AMOADD, ZERO, 7, PLACE)]
    # the word of each is read and written once, so that no order changes what it reads; but an address that
    # is counted on needs no earlier access
    write_both(folder / "amos_reversed", 128, words, len(words), lambda places: places[::-1], 1)


def stores_between(folder):
    words = [lui(PLACE, (BASE >> 12) + 16), lui(9, (BASE >> 12) + 20)]
    for _ in range(2047):
        words += [lw(FROM, 0, PLACE), addi(FROM, FROM, 1), sw(FROM, 0, 9), addi(PLACE, PLACE, 4), addi(9, 9, 4)]
    write_both(folder / "stores_between", 128, words, len(words), lambda places: places[::2] + places[1::2])


# ---- several harts


def mixed_program(kinds, rng):
    words = [lui(PLACE, (BASE >> 12) + 16), counted(7, 5)]
    for _ in range(120):
        offset, kind = 4 * rng.randrange(10), rng.choice(kinds)
        if kind == "load":
            words.append(lw(FROM, offset, PLACE))
        elif kind == "store":
            words += [addi(7, FROM, 3), sw(7, offset, PLACE)]
        elif kind == "fence":
            words.append(rng.choice(FENCES))
        elif kind == "amo":
            words += [addi(15, PLACE, offset), amo(rng.choice((AMOADD, AMOSWAP)), FROM, 7, 15, rng.randrange(4))]
        else:
            words += [addi(15, PLACE, offset), amo(LR, FROM, 0, 15, rng.choice((0, 2))), addi(7, FROM, 1), amo(SC, 8, 7, 15, rng.choice((0, 1)))]
        words += [addi(6, 6, 1)] * rng.randrange(3)
    return words + [addi(COUNT, COUNT, 1), bne(COUNT, ZERO, 4 - 4 * (len(words) - 2) - 8)]


class Waiting:
    """A hart with a queue of at most eight stores; the oldest of a word may leave it before others do."""

    def __init__(self, hart, rng, performed, queue):
        self.hart, self.rng, self.performed, self.room = hart, rng, performed, queue
        self.stores = []

    def drain(self, index):
        place, address, number = self.stores.pop(index)
        self.hart.memory[address] = number
        self.performed.append((self.hart.number, place))

    def drain_all(self):
        while self.stores:
            self.drain(0)

    def seen(self, address):
        own = [number for _, other, number in self.stores if other == address]
        return own[-1] if own else self.hart.memory.get(address, 0)

    def step(self):
        """One instruction; answers how many operations it gave."""
        hart = self.hart
        word = hart.words[(hart.pc - BASE) // 4]
        opcode = word & 0x7F
        if opcode in (0x0F, 0x2F):
            self.drain_all()
        if opcode == 0x23:
            if self.stores and len(self.stores) >= self.room:
                self.drain(0)
            held = []
            place = hart.step(store=lambda address, number: held.append((address, number)))
            self.stores.append((place, *held[0]))
            if self.room == 0:
                self.drain_all()
            return 1
        if opcode == 0x2F and word >> 27 == SC and hart.reserved is not None:
            before = len(hart.lines)
            hart.step()
            if hart.lines[before].endswith("ok\n"):
                self.performed.append((hart.number, before))
                return 1
            return 0
        place = hart.step(load=self.seen)
        if opcode in (0x03, 0x2F) and not (opcode == 0x2F and word >> 27 == SC):
            self.performed.append((hart.number, place))
            return 1
        return 0

    def drain_some(self):
        if self.stores and self.rng.random() < 0.3:
            addresses = [address for _, address, _ in self.stores]
            index = self.rng.randrange(len(addresses))
            self.drain(addresses.index(addresses[index]))


def write_mixed(path, count, operations, queue, kinds=("load", "load", "store", "store", "fence", "amo", "pair")):
    rng = random.Random(7 * count + queue)
    words = mixed_program(kinds, rng)
    memory = {BASE + 4 * index: word for index, word in enumerate(words)}
    performed = []
    harts = [Waiting(Hart(number, words, memory), rng, performed, queue) for number in range(count)]
    given = 0
    while given < operations:
        hart = rng.choice(harts)
        before = {number: other.hart.reserved for number, other in enumerate(harts)}
        start = len(performed)
        given += hart.step()
        hart.drain_some()
        # a store of another hart ends a reservation
        if len(performed) > start:
            for number, other in enumerate(harts):
                if other is not hart and before[number] is not None:
                    other.hart.reserved = None
    for hart in harts:
        hart.drain_all()
    harts = [hart.hart for hart in harts]
    write_trace(path, 128, words, harts, performed)
    write_trace(illegal(path), 128, words, harts, broken(harts, performed))


def broken(harts, performed):
    """The order with a load moved behind a store of its hart to its word: of such stores the last."""
    at = {name: index for index, name in enumerate(performed)}
    pairs = []
    for hart in harts:
        for store, address in hart.stores:
            loads = [load for load, other in hart.loads if other == address and load < store]
            if loads:
                pairs.append((at[hart.number, store], (hart.number, loads[-1])))
    end, load = max(pairs)
    return [name for name in performed[: end + 1] if name != load] + [load] + performed[end + 1 :]


def long(folder):
    words = [addi(6, 6, 1)] * 499 + [bne(PLACE, 6, 4 - 2000)]
    harts = []
    for number in range(4):
        hart = Hart(number, words, {})
        for _ in range(1_000_000):
            hart.step()
        harts.append(hart)
    write_trace(folder / "long", 4, words, harts, [])


def main():
    folder = Path(sys.argv[1])
    folder.mkdir(exist_ok=True)
    reversed_loads(folder)
    late_store(folder)
    undrained(folder)
    sparse_reversed(folder)
    amos_reversed(folder)
    stores_between(folder)
    for count in (1, 2, 8):
        write_mixed(folder / f"near_{count}", count, 4088, 8)
    write_mixed(folder / "in_order_8", 8, 4088, 0)
    long(folder)


if __name__ == "__main__":
    main()
