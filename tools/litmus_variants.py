#!/usr/bin/env python3
"""Judges the litmus shapes of crates/memory_model by the rules of RVWMO as they stand in chapter 14 of the
RISC-V Unprivileged ISA 20191213, written here once more and apart from the definitions, and then by wrong
variants of the rules, one at a time. Prints for each variant the verdicts that refute it.

usage: tools/litmus_variants.py    from the top of the repository; status 1 where a verdict differs from the
kept one, or a variant is refuted by none
"""
import re
import sys
from dataclasses import dataclass, field

SPECS = 'crates/memory_model/specs'
READS = {'load', 'lr', 'amo'}
WRITES = {'store', 'sc', 'amo'}


@dataclass
class Instruction:
    name: str                    # the mnemonic without its suffixes
    kind: str = ''               # load, store, lr, sc or amo
    written: str = ''            # the destination, but x0
    address: tuple = ()          # the registers by which it addresses memory
    stored: tuple = ()           # those whose number it stores
    other: tuple = ()            # its other sources
    sets: tuple = ()             # of a FENCE: before and after
    operation: object = None

    def sources(self):
        return self.address + self.stored + self.other


@dataclass
class Operation:
    hart: int
    place: int
    kind: str
    at: int
    size: int
    read: int = 0
    stored: int = 0
    aq: bool = False
    rl: bool = False

    def bytes(self):
        return range(self.at, self.at + self.size)

    def stores_to(self, x):
        return self.kind in WRITES and x in self.bytes()


def byte(number, address, x):
    return number >> 8 * (x - address) & 255


def registers(*names):
    return tuple(n for n in names if n != 'x0')


# ---- the programs, by the comments above them

class Hart:
    """Runs the instructions of a comment, to know addresses and values."""

    def __init__(self, number, harts, image):
        self.number, self.image = number, image
        self.regs = {f'x{i}': 0 for i in range(32)}
        self.regs['x10'], self.regs['x11'] = number, harts
        self.items = []
        self.pc = 0x80000000

    def write(self, register, value):
        if register != 'x0':
            self.regs[register] = value & 0xffffffff

    def step(self, text):
        said = re.search(r'\((reads (\w+)|succeeds|fails)\)', text)
        body = re.sub(r'\((reads|succeeds|fails|rd|mode)[^)]*\)', '', text).strip()
        mnemonic, _, rest = body.partition(' ')
        words = [w.strip() for w in rest.split(',')] if rest else []
        i = getattr(self, 'do_' + mnemonic.split('.')[0])(mnemonic, words, said)
        self.items.append(i)

    def operation(self, kind, at, size, said, stored=0, mnemonic=''):
        read = int(said.group(2), 0) if kind in READS else 0
        suffix = mnemonic.split('.')[2:]
        annotated = suffix[0] if suffix else ''
        return Operation(self.number, len(self.items), kind, at, size, read, stored, 'aq' in annotated, 'rl' in annotated)

    def do_lui(self, m, w, said):
        self.write(w[0], int(w[1], 0) << 12)
        return Instruction('lui', written=w[0])

    def do_addi(self, m, w, said):
        self.write(w[0], self.regs[w[1]] + int(w[2], 0))
        return Instruction('addi', written=w[0], other=registers(w[1]))

    def do_add(self, m, w, said):
        self.write(w[0], self.regs[w[1]] + self.regs[w[2]])
        return Instruction('add', written=w[0], other=registers(w[1], w[2]))

    def do_bne(self, m, w, said):
        return Instruction('branch', other=(w[0], w[1]))

    do_beq = do_bne

    def do_jalr(self, m, w, said):
        base = re.match(r'-?\w+\((\w+)\)', w[1]).group(1)
        self.write(w[0], 0x80000000)  # where it stands is of no matter to a rule
        return Instruction('jalr', written=w[0], other=registers(base))

    def do_fence(self, m, w, said):
        if m == 'fence.tso':
            return Instruction('fence.tso')
        return Instruction('fence', sets=(w[0], w[1]))

    def access(self, word):
        offset, base = re.match(r'(-?\w+)?\((\w+)\)', word).groups()
        return self.regs[base] + int(offset or '0', 0) & 0xffffffff, base

    def load(self, m, w, said, size):
        at, base = self.access(w[1])
        o = self.operation('load', at, size, said)
        self.write(w[0], o.read)
        return Instruction('load', 'load', w[0], registers(base), operation=o)

    def do_lw(self, m, w, said):
        return self.load(m, w, said, 4)

    def do_lbu(self, m, w, said):
        return self.load(m, w, said, 1)

    def store(self, m, w, said, size):
        at, base = self.access(w[1])
        o = self.operation('store', at, size, said, self.regs[w[0]])
        return Instruction('store', 'store', '', registers(base), registers(w[0]), operation=o)

    def do_sw(self, m, w, said):
        return self.store(m, w, said, 4)

    def do_sh(self, m, w, said):
        return self.store(m, w, said, 2)

    def do_sb(self, m, w, said):
        return self.store(m, w, said, 1)

    def do_lr(self, m, w, said):
        at, base = self.access(w[1])
        o = self.operation('lr', at, 4, said, 0, m)
        self.write(w[0], o.read)
        return Instruction('lr', 'lr', w[0], registers(base), operation=o)

    def do_sc(self, m, w, said):
        at, base = self.access(w[2])
        succeeded = said.group(1) == 'succeeds'
        o = self.operation('sc', at, 4, said, self.regs[w[1]], m) if succeeded else None
        self.write(w[0], 0 if succeeded else 1)
        return Instruction('sc', 'sc', w[0], registers(base), registers(w[1]), operation=o)

    def do_amoadd(self, m, w, said):
        at, base = self.access(w[2])
        o = self.operation('amo', at, 4, said, 0, m)
        o.stored = o.read + self.regs[w[1]] & 0xffffffff
        self.write(w[0], o.read)
        return Instruction('amo', 'amo', w[0], registers(base), registers(w[1]), operation=o)


@dataclass
class Shape:
    harts: list = field(default_factory=list)
    image: dict = field(default_factory=dict)


def under(heading, path):
    """The lines of a file, each with what the last heading above it names."""
    name = ''
    for line in open(path):
        found = re.match(heading, line)
        name = found.group(1) if found else name
        yield name, line


def shapes():
    found, lines = {}, []
    for line in open(f'{SPECS}/LitmusPrograms.antt'):
        if line.startswith('-- hart '):
            lines.append(line.split(': ', 1)[1].strip())
        elif line.startswith('abbrev pub '):
            shape = Shape()
            for number, text in enumerate(lines):
                hart = Hart(number, len(lines), shape.image)
                for instruction in text.split('; '):
                    hart.step(instruction)
                shape.harts.append(hart.items)
            found[line.split()[2]] = shape
            lines = []
    for name, line in under(r'abbrev pub (\w+)', f'{SPECS}/LitmusPrograms.antt'):
        words = re.search(r'image_with \((.*?) ∷ \[\]\)', line)
        if words:
            for i, word in enumerate(words.group(1).split(' ∷ ')):
                for k in range(4):
                    found[name].image[0x80000000 + 4 * i + k] = byte(int(word, 0), 0, k)
    return found


@dataclass
class Verdict:
    name: str
    model: str
    shape: str
    order: list
    fault: tuple


def verdicts():
    for record, line in under(r'pub record (\w+)', f'{SPECS}/Litmus.antt'):
        m = re.match(r'  pub (\w+) : (Passes|IsIllegal) (\w+) (\w+) \((.*?)\[\]\)(.*)', line)
        if m:
            names = [tuple(map(int, p)) for p in re.findall(r'op (\d+) (\d+)', m.group(5))]
            told = re.match(r' (\d+) \(op (\d+) (\d+)\) \(op (\d+) (\d+)\)', m.group(6))
            fault = tuple(map(int, told.groups())) if told else None
            yield Verdict(f'{record}.{m.group(1)}', m.group(3).lower(), m.group(4), names, fault)


# ---- the rules; `wrong` is the name of the variant, or empty

class Judge:
    def __init__(self, shape, model, order, wrong=''):
        self.shape, self.model, self.wrong = shape, model, wrong
        by_name = {(o.hart, o.place): o for items in shape.harts for i in items for o in [i.operation] if o}
        assert sorted(by_name) == sorted(order), 'the order has not each operation once'
        self.order = [by_name[n] for n in order]

    def position(self, a):
        return next(i for i, o in enumerate(self.order) if o is a)

    def between(self, a, b):
        return self.shape.harts[a.hart][a.place + 1:b.place]

    def instruction(self, a):
        return self.shape.harts[a.hart][a.place]

    # the last in the order of the stores to x that stand before the load in the order or precede it in the program
    def source(self, load, x):
        seen = [s for s in self.order if s is not load and s.stores_to(x)
                and (self.position(s) < self.position(load) or (s.hart == load.hart and s.place < load.place))]
        return seen[-1] if seen else None

    def returns_from(self, b, a):
        test = all if self.wrong == 'returns a value written by: all bytes' else any
        return test(self.source(b, x) is a for x in b.bytes())

    def acquires(self, a):
        return a.aq or (self.model == 'ztso' and a.kind in READS)

    def releases(self, a):
        return a.rl or (self.model == 'ztso' and a.kind in WRITES)

    def is_rcsc(self, a):
        return a.aq or a.rl or (self.model == 'ztso' and a.kind == 'amo')

    def in_set(self, letters, o, side):
        reads, writes = o.kind in READS, o.kind in WRITES
        if self.wrong == f'fence: {o.kind} never {side}':
            return False
        if o.kind == 'amo' and self.wrong == f'fence: amo {side} as a load alone':
            writes = False
        if o.kind == 'amo' and self.wrong == f'fence: amo {side} as a store alone':
            reads = False
        return (reads and 'r' in letters) or (writes and 'w' in letters)

    def fences(self, i, a, b):
        if i.name == 'fence.tso':
            first = a.kind in READS and self.wrong != f'fence.tso: {a.kind} no load'
            stores = a.kind in WRITES and b.kind in WRITES
            if self.wrong == f'fence.tso: {a.kind} no store before' or self.wrong == f'fence.tso: {b.kind} no store behind':
                stores = False
            return first or stores
        return i.name == 'fence' and self.in_set(i.sets[0], a, 'before') and self.in_set(i.sets[1], b, 'behind')

    # what an instruction passes on: registers that hold what came from a, behind it
    def passed(self, held, i):
        sources = i.sources()
        if i.name == 'load' and self.wrong == "dependency: not carried through a load's address":
            sources = ()
        if i.name == 'lr' and self.wrong == "dependency: not carried through an LR's address":
            sources = ()
        if i.name == 'sc' and self.wrong == 'dependency: not carried through an SC':
            sources = ()
        if i.name == 'amo' and self.wrong == "dependency: not carried through an AMO's address":
            sources = i.stored
        if i.name == 'amo' and self.wrong == "dependency: not carried through an AMO's operand":
            sources = i.address
        if not i.written or i.written == 'x0':
            return held
        return held | {i.written} if held & set(sources) else held - {i.written}

    def held_from(self, a):
        return {self.instruction(a).written} - {'', 'x0'}

    def held_at(self, a, b):
        held = self.held_from(a)
        for i in self.between(a, b):
            held = self.passed(held, i)
        return held

    def address_dependency(self, a, b):
        return bool(self.held_at(a, b) & set(self.instruction(b).address))

    def data_dependency(self, a, b):
        return bool(self.held_at(a, b) & set(self.instruction(b).stored))

    def rule_1(self, a, b):
        return b.kind in WRITES and set(a.bytes()) & set(b.bytes())

    def rule_2(self, a, b):
        if a.kind not in READS or b.kind not in READS:
            return False
        if self.wrong == f'rule 2: {a.kind} no load before' or self.wrong == f'rule 2: {b.kind} no load behind':
            return False

        def stored_between(x):
            return any(i.operation and i.operation.stores_to(x) and self.wrong != f'rule 2: {i.kind} no store between'
                       for i in self.between(a, b))
        return any(x in b.bytes() and not stored_between(x) and self.source(a, x) is not self.source(b, x) for x in a.bytes())

    def rule_3(self, a, b):
        return a.kind in {'amo', 'sc'} and b.kind in READS and self.returns_from(b, a) and self.wrong != f'rule 3: of no {a.kind}' \
            and self.wrong != f'rule 3: by no {b.kind}'

    def rule_4(self, a, b):
        return any(self.fences(i, a, b) for i in self.between(a, b))

    def rule_5(self, a, b):
        return self.acquires(a)

    def rule_6(self, a, b):
        return self.releases(b)

    def rule_7(self, a, b):
        return self.is_rcsc(a) and self.is_rcsc(b)

    def rule_8(self, a, b):
        return a.kind == 'lr' and b.kind == 'sc' and not any(i.name in {'lr', 'sc'} for i in self.between(a, b))

    def rule_9(self, a, b):
        return self.address_dependency(a, b) and self.wrong != f'rule 9: to no {b.kind}'

    def rule_10(self, a, b):
        return self.data_dependency(a, b) and self.wrong != f'rule 10: to no {b.kind}'

    def rule_11(self, a, b):
        if b.kind not in WRITES or self.wrong == f'rule 11: to no {b.kind}':
            return False
        held = self.held_from(a)
        for i in self.between(a, b):
            sources = i.other
            if i.name == 'branch' and self.wrong == 'rule 11: rs1 of a branch alone':
                sources = sources[:1]
            if i.name == 'branch' and self.wrong == 'rule 11: rs2 of a branch alone':
                sources = sources[1:]
            if i.name in {'branch', 'jalr'} and held & set(sources) and self.wrong != f'rule 11: by no {i.name}':
                return True
            held = self.passed(held, i)
        return False

    def rule_12(self, a, b):
        if b.kind not in READS or self.wrong == f'rule 12: to no {b.kind}':
            return False
        for i in self.between(a, b):
            m = i.operation
            if m and m.kind in WRITES and self.wrong != f'rule 12: through no {m.kind}' and self.returns_from(b, m):
                if self.address_dependency(a, m) and self.wrong != 'rule 12: by no address':
                    return True
                if self.data_dependency(a, m) and self.wrong != 'rule 12: by no data':
                    return True
        return False

    def rule_13(self, a, b):
        if b.kind not in WRITES or self.wrong == f'rule 13: to no {b.kind}':
            return False
        held = self.held_from(a)
        for i in self.between(a, b):
            kind = 'failed sc' if i.kind == 'sc' and not i.operation else i.kind
            if held & set(i.address) and self.wrong != f'rule 13: past no {kind}':
                return True
            held = self.passed(held, i)
        return False

    # the least broken code, and its first two operations
    def fault(self):
        for number in range(1, 14):
            rule = getattr(self, f'rule_{number}')
            for place, b in enumerate(self.order):
                for a in self.order[place + 1:]:
                    if a.hart == b.hart and a.place < b.place and rule(a, b):
                        return number, a.hart, a.place, b.hart, b.place
        return self.wrong_value() or self.broken_pair()

    def wrong_value(self):
        for load in self.order:
            if load.kind in READS:
                for x in load.bytes():
                    s = self.source(load, x)
                    right = byte(s.stored, s.at, x) if s else self.shape.image.get(x, 0)
                    if byte(load.read, load.at, x) != right:
                        return 14, load.hart, load.place, load.hart, load.place
        return None

    # of each pair: the store that the LR returns stands behind the SC, or one of another hart to that byte between them
    def broken_pair(self):
        for w in self.order:
            for r in self.order:
                if r.hart == w.hart and r.place < w.place and self.rule_8(r, w):
                    for x in r.bytes():
                        s = self.source(r, x)
                        first = self.position(s) if s else -1
                        if first > self.position(w) or any(o.hart != w.hart and o.stores_to(x) for o in self.order[first + 1:self.position(w)]):
                            return 15, r.hart, r.place, w.hart, w.place
        return None


KINDS = ('load', 'store', 'lr', 'sc', 'amo')
VARIANTS = (
    [f'fence: {k} never {side}' for side in ('before', 'behind') for k in KINDS]
    + [f'fence: amo {side} as a {k} alone' for side in ('before', 'behind') for k in ('load', 'store')]
    + [f'fence.tso: {k} no load' for k in ('load', 'lr', 'amo')]
    + [f'fence.tso: {k} no store {side}' for side in ('before', 'behind') for k in ('store', 'sc', 'amo')]
    + [f'rule 2: {k} no load {side}' for side in ('before', 'behind') for k in ('load', 'lr', 'amo')]
    + [f'rule 2: {k} no store between' for k in ('store', 'sc', 'amo')]
    + [f'rule 3: of no {k}' for k in ('sc', 'amo')] + [f'rule 3: by no {k}' for k in ('load', 'lr', 'amo')]
    + [f'rule 9: to no {k}' for k in KINDS] + [f'rule 10: to no {k}' for k in ('store', 'sc', 'amo')]
    + [f'rule 11: to no {k}' for k in ('store', 'sc', 'amo')]
    + ['rule 11: rs1 of a branch alone', 'rule 11: rs2 of a branch alone', 'rule 11: by no branch', 'rule 11: by no jalr']
    + [f'rule 12: through no {k}' for k in ('store', 'sc', 'amo')] + [f'rule 12: to no {k}' for k in ('load', 'lr', 'amo')]
    + ['rule 12: by no address', 'rule 12: by no data']
    + [f'rule 13: past no {k}' for k in KINDS + ('failed sc',)] + [f'rule 13: to no {k}' for k in ('store', 'sc', 'amo')]
    + ["dependency: not carried through a load's address", "dependency: not carried through an LR's address",
       'dependency: not carried through an SC', "dependency: not carried through an AMO's address",
       "dependency: not carried through an AMO's operand", 'returns a value written by: all bytes'])

# Variants that ask for the same orders: a lower rule asks for it already, of these operations or of two on the way
ALIKE = {
    'fence.tso: amo no store before': 'an AMO is a load, which FENCE.TSO orders before all',
    'rule 3: of no amo': 'rule 2 does, since an AMO never returns what it writes',
    'rule 2: amo no load behind': 'rule 1 puts an AMO behind what it overlaps',
    'rule 3: by no amo': 'rule 1 does',
    'rule 12: through no sc': 'rules 9 and 10, and then rule 3',
    'rule 12: through no amo': 'rules 9 and 10, and then rule 3',
    'rule 12: to no amo': 'rules 9 and 10, and then rule 1',
}


def main():
    all_shapes, kept = shapes(), list(verdicts())
    failed = False
    for v in kept:
        told = Judge(all_shapes[v.shape], v.model, v.order).fault()
        if told != v.fault:
            failed = True
            print(f'{v.name}: kept {v.fault}, judged {told}')
    print(f'{len(kept)} verdicts on {len(all_shapes)} shapes')
    for wrong in VARIANTS:
        refuting = [v.name for v in kept if Judge(all_shapes[v.shape], v.model, v.order, wrong).fault() != v.fault]
        if refuting:
            print(f'{wrong}: {", ".join(refuting)}')
        elif wrong in ALIKE:
            print(f'{wrong}: asks the same, {ALIKE[wrong]}')
        else:
            failed = True
            print(f'{wrong}: REFUTED BY NONE')
    sys.exit(1 if failed else 0)


if __name__ == '__main__':
    main()
