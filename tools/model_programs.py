#!/usr/bin/env python3
"""Writes the programs of which `gate_machine_comparisons` asks what the memory models allow, and those that it walks through.

usage: tools/model_programs.py litmus > crates/gate_comparisons/data/machine/litmus
       tools/model_programs.py straight > crates/gate_comparisons/data/machine/straight
       tools/model_programs.py walked > crates/gate_comparisons/data/machine/programs

A line of `litmus` has a name, the number of harts, whether RVWMO and Ztso allow the outcome that is asked for, and the
program's words from 0x80000000 on. The outcome asked for is that all harts exit with 0: each exits with 1 where a number
that it loads isn't the one that is asked for, or an SC doesn't succeed.

The answers are published ones. Of cycles: the outcome is allowed unless on each hart the first operation is ordered
before the second (Shasha and Snir 1988; Alglave, Maranget and Tautschnig, "Herding Cats", 2014; all harts see a store
at once under both models), and which annotations, FENCEs and dependencies order two operations, the table `ordered` has
from RISC-V Unprivileged ISA 20191213, 14.1 and 23. Of single programs, at the end: its appendix A, and the same names
of the litmus tests for RISC-V of Flur, Maranget and others; a few with LR, SC or accesses of several sizes are worked out by hand.

A line of `straight` has a name and the words of a program of 2 harts without loops, drawn by a fixed seed, whose stores
don't depend on what it loads. It puts out each number that it loads, and each SC's result.

A line of `walked` has a name, a memory model, a number of ways and the words of a program of 2 harts. Each exits with the
numbers that it loads, two bits each.
"""
import random
import sys
from itertools import count, product
from math import factorial, prod

ZERO, HARTS_ID, HARTS, CALL = 0, 10, 11, 17
BASE, WRONG, TEMPORARY, ADDRESS = 12, 13, 30, 29
STRAIGHT, MOST_JUDGEMENTS = 60, 25_000
PLACES = {'x': 0x600, 'y': 0x680, 'z': 0x700, 'w': 0x780}


# ---- instructions

def immediate(f3, rd, rs1, number):
    return (number & 0xfff) << 20 | rs1 << 15 | f3 << 12 | rd << 7 | 0x13


def addi(rd, rs1, number):
    return immediate(0, rd, rs1, number)


def register(f3, rd, rs1, rs2):
    return rs2 << 20 | rs1 << 15 | f3 << 12 | rd << 7 | 0x33


def add(rd, rs1, rs2):
    return register(0, rd, rs1, rs2)


def xor(rd, rs1, rs2):
    return register(4, rd, rs1, rs2)


def load(width, rd, rs1, offset):
    return offset << 20 | rs1 << 15 | {'w': 2, 'hu': 5, 'bu': 4}[width] << 12 | rd << 7 | 0x03


def store(width, rs2, rs1, offset):
    return offset >> 5 << 25 | rs2 << 20 | rs1 << 15 | {'w': 2, 'h': 1, 'b': 0}[width] << 12 | (offset & 31) << 7 | 0x23


def atomic(name, suffix, rd, rs2, rs1):
    bits = ('aq' in suffix) << 26 | ('rl' in suffix) << 25
    return {'lr': 2, 'sc': 3, 'amoswap': 1, 'amoor': 8}[name] << 27 | bits | rs2 << 20 | rs1 << 15 | 2 << 12 | rd << 7 | 0x2f


def branch(f3, rs1, rs2, offset):
    return (offset >> 12 & 1) << 31 | (offset >> 5 & 63) << 25 | rs2 << 20 | rs1 << 15 | f3 << 12 \
        | (offset >> 1 & 15) << 8 | (offset >> 11 & 1) << 7 | 0x63


def letters(text):
    return sum({'i': 8, 'o': 4, 'r': 2, 'w': 1}[c] for c in text)


def fence(text):
    if text == 'tso':
        return 0x8330000f
    mode = 1 if text.startswith('fm1.') else 0
    before, behind = text.removeprefix('fm1.').split('.')
    return mode << 28 | letters(before) << 24 | letters(behind) << 20 | 0x0f


ECALL = 0x73
LUI_BASE = 0x80000 << 12 | BASE << 7 | 0x37


# ---- what orders two operations of a hart to different words

def reads(op):
    return op[0] == 'R' or op[3].startswith('amo')


def writes(op):
    return op[0] == 'W' or op[3].startswith('amo')


def annotation(op, which):
    return which in op[3].partition('.')[2]


def ordered(first, link, second, model):
    """Whether a link between two operations keeps them in program order."""
    ztso = model == 'ztso'
    acquires = annotation(first, 'aq') or (ztso and reads(first))
    releases = annotation(second, 'rl') or (ztso and writes(second))

    def rcsc(op):
        return annotation(op, 'aq') or annotation(op, 'rl') or (ztso and op[3].startswith('amo'))

    if acquires or releases or (rcsc(first) and rcsc(second)):
        return True
    if second[3].startswith('sc') and ordered(first, link, ('R', second[1], 0, 'lr'), model):
        return True  # by the LR, which precedes its SC
    if link.startswith('fence.'):
        name = link.removeprefix('fence.').removeprefix('fm1.')
        if name == 'tso':
            return reads(first) or (writes(first) and writes(second))
        before, behind = name.split('.')
        return (reads(first) and 'r' in before or writes(first) and 'w' in before) and \
            (reads(second) and 'r' in behind or writes(second) and 'w' in behind)
    if link in {'addr', 'data'}:
        return True
    if link in {'ctrl', 'jalr', 'addr-po', 'addr-w-po', 'addr-sc-po'}:
        return writes(second)
    assert link == 'po', link
    return False


# ---- programs

class Hart:
    """Its code, from the items of a list: operations, and between them links."""

    def __init__(self):
        self.words, self.free, self.read = [LUI_BASE], 18, None
        self.depends = ''

    def emit(self, *words):
        self.words.extend(words)

    def expect(self, reg, number):
        if number < 0x800:
            self.emit(immediate(4, TEMPORARY, reg, number))
        else:
            self.four_times(number & 255)
            self.emit(xor(TEMPORARY, TEMPORARY, reg))
        self.emit(register(6, WRONG, WRONG, TEMPORARY))

    def four_times(self, byte):
        """Numbers beyond an immediate are a byte four times."""
        self.emit(addi(TEMPORARY, ZERO, byte), immediate(1, 31, TEMPORARY, 8), register(6, TEMPORARY, TEMPORARY, 31),
                  immediate(1, 31, TEMPORARY, 16), register(6, TEMPORARY, TEMPORARY, 31))

    def value(self, number):
        reg = 28
        if number > 0x7ff:
            self.four_times(number & 255)
            self.emit(addi(reg, TEMPORARY, 0))
        else:
            self.emit(addi(reg, ZERO, number))
        if self.depends == 'data':
            self.emit(xor(TEMPORARY, self.read, self.read), add(reg, reg, TEMPORARY))
        return reg

    def base(self):
        if self.depends == 'addr':
            self.emit(xor(ADDRESS, self.read, self.read), add(ADDRESS, ADDRESS, BASE))
            return ADDRESS
        return BASE

    def pointer(self, place):
        base = self.base()
        self.emit(addi(ADDRESS, base, PLACES[place]))
        return ADDRESS

    def operation(self, kind, place, number, flavour):
        at, name, suffix = PLACES[place[0]], *(flavour.partition('.')[::2])
        at += int(place[1:] or 0)
        if kind == 'R':
            reg = self.free
            self.free += 1
            if name == 'amo':
                self.emit(atomic('amoor', suffix, reg, ZERO, self.pointer(place)))
            elif name == 'lr':
                self.emit(atomic('lr', suffix, reg, ZERO, self.pointer(place)))
            else:
                self.emit(load(name.removeprefix('l'), reg, self.base(), at))
            self.read = reg
            if number is not None:
                self.checks.append((reg, number))
        elif name == 'amo':
            reg = self.value(number)
            self.emit(atomic('amoswap', suffix, ZERO, reg, self.pointer(place)))
        elif name in {'sc', 'lone_sc', 'failed_sc'}:
            reg = self.value(number)
            pointer = self.pointer(place)
            if name == 'sc':
                self.emit(atomic('lr', '', 31, ZERO, pointer))
            result = self.free
            self.free += 1
            self.emit(atomic('sc', suffix, result, reg, pointer))
            self.checks.append((result, 1 if name == 'failed_sc' else 0))
            if name == 'lone_sc':
                self.read = result
        else:
            reg = self.value(number)
            self.emit(store(name.removeprefix('s'), reg, self.base(), at))
        self.depends = ''

    def link(self, name):
        if name.startswith('fence.'):
            self.emit(fence(name.removeprefix('fence.')))
        elif name == 'ctrl':
            self.emit(branch(1, self.read, ZERO, 4))
        elif name == 'jalr':
            self.emit(31 << 7 | 0x17, xor(TEMPORARY, self.read, self.read), add(31, 31, TEMPORARY), 16 << 20 | 31 << 15 | 0x67)
        elif name in {'addr', 'data'}:
            self.depends = name
        elif name in {'addr-po', 'addr-w-po', 'addr-sc-po'}:
            kept = self.read
            self.depends = 'addr'
            if name == 'addr-po':
                self.operation('R', 'w', None, 'lw')
            else:
                self.operation('W', 'w', 1, 'sw' if name == 'addr-w-po' else 'failed_sc')
            self.read = kept
        else:
            assert name == 'po', name

    def code(self, items):
        self.checks = []
        for item in items:
            if isinstance(item, str):
                self.link(item)
            else:
                self.operation(*item)
        for reg, number in self.checks:
            self.expect(reg, number)
        self.emit(register(3, HARTS_ID, ZERO, WRONG), ECALL)
        return self.words


def image(codes):
    """Hart 0's code stands first, behind branches to the others'."""
    words = []
    place = 2 * (len(codes) - 1)
    starts = []
    for code in codes:
        starts.append(place)
        place += len(code)
    assert 4 * place <= PLACES['x']
    for number in range(1, len(codes)):
        words.append(addi(31, ZERO, number))
        words.append(branch(0, HARTS_ID, 31, 4 * (starts[number] - len(words))))
    for code in codes:
        words.extend(code)
    return words


def line(name, harts, rvwmo, ztso):
    words = image([Hart().code(items) for items in harts])
    told = ['allowed' if allowed else 'forbidden' for allowed in (rvwmo, ztso)]
    return f'{name} {len(harts)} {" ".join(told)} {" ".join(f"{w:08x}" for w in words)}'


# ---- cycles: of each hart its operations, and what is loaded at the end to know which store was the last

CYCLES = {
    'MP': [['W x 1', 'W y 1'], ['R y 1', 'R x 0']],
    'SB': [['W x 1', 'R y 0'], ['W y 1', 'R x 0']],
    'LB': [['R x 1', 'W y 1'], ['R y 1', 'W x 1']],
    'S': [['W x 2', 'W y 1'], ['R y 1', 'W x 1', 'x 2']],
    'R': [['W x 1', 'W y 1', 'y 2'], ['W y 2', 'R x 0']],
    '2+2W': [['W x 2', 'W y 1', 'y 2'], ['W y 2', 'W x 1', 'x 2']],
    'WRC': [['W x 1'], ['R x 1', 'W y 1'], ['R y 1', 'R x 0']],
    'RWC': [['W x 1'], ['R x 1', 'R y 0'], ['W y 1', 'R x 0']],
    'WWC': [['W x 2'], ['R x 2', 'W y 1'], ['R y 1', 'W x 1', 'x 2']],
    'ISA2': [['W x 1', 'W y 1'], ['R y 1', 'W z 1'], ['R z 1', 'R x 0']],
    'W+RWC': [['W x 1', 'W y 1'], ['R y 1', 'R z 0'], ['W z 1', 'R x 0']],
    '3.SB': [['W x 1', 'R y 0'], ['W y 1', 'R z 0'], ['W z 1', 'R x 0']],
    '3.LB': [['R x 1', 'W y 1'], ['R y 1', 'W z 1'], ['R z 1', 'W x 1']],
    'IRIW': [['W x 1'], ['R x 1', 'R y 0'], ['W y 1'], ['R y 1', 'R x 0']],
}
PLAIN = {'R': 'lw', 'W': 'sw', 'A': 'amo'}
STRONG = 'fence.rw.rw'
FENCES = ['fence.' + f for f in ('r.r', 'r.w', 'w.r', 'w.w', 'r.rw', 'w.rw', 'rw.r', 'rw.w', 'rw.rw', 'iorw.iorw', 'io.io', 'fm1.w.w', 'tso')]


def operation(text, flavour=''):
    kind, place, number = text.split()
    return kind, place, int(number), flavour or PLAIN[kind]


def is_stored_before(shape, store):
    """Whether another hart stores to the word with a lower number, which the outcome asked for has first."""
    stores = [operation(text) for ops in CYCLES[shape] for text in ops if text[0] == 'W']
    return any(place == store[1] and number < store[2] for _, place, number, _ in stores)


def cycle(shape, parts):
    """The program of a cycle: for each hart of two operations their flavours and the link between them."""
    harts, names = [], []
    allowed = {'rvwmo': False, 'ztso': False}
    left = iter(parts)
    for ops in CYCLES[shape]:
        if len(ops) == 1:
            harts.append([operation(ops[0])])
            continue
        first, link, second = next(left)
        one, two = operation(ops[0], first), operation(ops[1], second)
        items = [one, link, two]
        for last in ops[2:]:
            place, number = last.split()
            items.append(('R', place, int(number), 'lw'))
        harts.append(items)
        for model in allowed:
            # Behind another hart's store the LR of an SC stands too
            pair = first.startswith('sc') and is_stored_before(shape, one) and ordered(('R', one[1], 0, 'lr'), link, two, model)
            allowed[model] |= not (pair or ordered(one, link, two, model))
        names.append('-'.join(([first] if first else []) + [link] + ([second] if second else [])))
    return '+'.join([shape] + names), harts, allowed['rvwmo'], allowed['ztso']


def links(*names):
    return [('', n, '') for n in names]


def flavoured(kinds):
    """Pairs of operations that are LR, SC or AMOs."""
    plain = ''
    for one, two in (('amo', plain), ('amo.aq', plain), ('amo.rl', plain), (plain, 'amo.aq'), (plain, 'amo.rl'), ('amo.rl', 'amo.aq'), ('amo.aq', 'amo.rl')):
        yield one, 'po', two
    exclusive = {'R': 'lr', 'W': 'sc'}
    first, second = (exclusive[k] for k in kinds)
    for one, two in ((first, plain), (first + '.aqrl', plain), (plain, second + '.aqrl'), (first + '.rl', second + '.aq')):
        yield one, 'po', two
    yield first, STRONG, second
    yield 'amo', 'fence.w.r', 'amo'
    if kinds[0] == 'R':
        yield 'amo', 'addr', 'amo'
        yield 'lr', 'addr', second


def cycles():
    both = [('', 'po', ''), ('', STRONG, '')]
    for shape in ('MP', 'SB', 'LB', 'S', 'R', '2+2W'):
        strong = ('', STRONG, '')
        kinds = [[op[0] for op in ops[:2]] for ops in CYCLES[shape]]
        yield shape, [both[0], both[0]]
        for hart in range(2):
            if hart == 1 and kinds[0] == kinds[1]:
                continue
            tried = links('po', *FENCES)
            if kinds[hart][0] == 'R':
                tried += links('addr', 'ctrl', 'jalr', 'addr-po', 'addr-w-po', 'addr-sc-po')
            if kinds[hart] == ['R', 'W']:
                tried += links('data')
            for part in tried + list(flavoured(kinds[hart])):
                yield shape, [part, strong] if hart == 0 else [strong, part]
    yield from several()


def several():
    """Those of three and four harts, and of two some that are known by name."""
    table = {
        'MP': [['fence.w.w', 'po'], ['addr', 'ctrl', 'fence.r.r', 'po']],
        'LB': [['data', 'addr', 'ctrl', 'addr-po', 'po'], ['data', 'addr']],
        'S': [['fence.w.w'], ['data', 'addr', 'ctrl', 'addr-po', 'fence.r.w', 'po']],
        '2+2W': [['fence.w.w', 'po'], ['fence.w.w']],
        'SB': [['fence.w.r', 'fence.tso'], ['fence.w.r']],
        'WRC': [['data', 'ctrl', 'po', STRONG], ['addr', 'ctrl', 'fence.r.r', 'po']],
        'RWC': [['addr', 'fence.r.r', 'po'], [STRONG, 'fence.tso', 'po']],
        'WWC': [['data', 'po'], ['data', 'addr-po', 'po']],
        'ISA2': [['fence.w.w', 'po'], ['data', 'ctrl', 'po'], ['addr', 'po']],
        'W+RWC': [['fence.w.w', 'po'], ['addr', 'po'], [STRONG, 'po']],
        '3.SB': [[STRONG, 'po'], ['fence.w.r'], [STRONG, 'fence.tso']],
        '3.LB': [['data', 'po'], ['ctrl'], ['addr', 'fence.r.w']],
        'IRIW': [['addr', 'ctrl', STRONG], ['addr', 'fence.r.r', 'po']],
    }
    for shape, choices in table.items():
        for names in product(*choices):
            yield shape, links(*names)
    amo = ('amo.aq', 'po', '')
    for shape, parts in (
            ('MP', [('', 'po', 'amo.rl'), amo]), ('MP', [('amo', 'po', 'amo.rl'), ('amo', 'addr', '')]),
            ('MP', [('', 'po', 'sc.aq'), ('', 'addr', '')]), ('MP', [('', 'po', 'sc.rl'), ('lr.aq', 'po', '')]),
            ('SB', [('amo.rl', 'po', 'lr.aq'), ('amo.rl', 'po', 'lr.aq')]), ('SB', [('sc', 'po', ''), ('', STRONG, '')]),
            ('SB', [('amo.aqrl', 'po', 'amo.aqrl'), ('amo.aqrl', 'po', 'amo.aqrl')]), ('SB', [('amo', 'po', ''), ('amo', 'po', '')]),
            ('LB', [('lr.rl', 'po', 'amo.aq'), ('lr.rl', 'po', 'amo.aq')]), ('LB', [('lr.aq', 'po', ''), ('', 'po', 'sc.rl')]),
            ('WRC', [('', 'po', 'amo.rl'), amo]), ('IRIW', [amo, amo]), ('ISA2', [('', 'po', 'amo.rl'), ('amo.aq', 'po', 'amo.rl'), amo])):
        yield shape, parts


# ---- single programs

# A name, what RVWMO and Ztso say, and the harts
SINGLE = '''
SB+rfi-addrs allowed allowed | W x 1 ; R x 1 ; addr ; R y 0 | W y 1 ; R y 1 ; addr ; R x 0
SB+rfi-fence.r.rs allowed allowed | W x 1 ; R x 1 ; fence.r.r ; R y 0 | W y 1 ; R y 1 ; fence.r.r ; R x 0
SB+amo-rfi-fence.r.rs forbidden forbidden | W x 1 amo ; R x 1 ; fence.r.r ; R y 0 | W y 1 amo ; R y 1 ; fence.r.r ; R x 0
SB+sc-rfi-fence.r.rs forbidden forbidden | W x 1 sc ; R x 1 ; fence.r.r ; R y 0 | W y 1 sc ; R y 1 ; fence.r.r ; R x 0
SB+amo-rfi.b-fence.r.r+fence.rw.rw forbidden forbidden | W x 1 amo ; R x 1 lbu ; fence.r.r ; R y 0 | W y 1 ; fence.rw.rw ; R x 0
SB+amo-rfi.b1-fence.r.r+fence.rw.rw forbidden forbidden | W x 1 amo ; R x1 0 lbu ; fence.r.r ; R y 0 | W y 1 ; fence.rw.rw ; R x 0
SB+rfi.b-fence.r.r+fence.rw.rw allowed allowed | W x 1 ; R x 1 lbu ; fence.r.r ; R y 0 | W y 1 ; fence.rw.rw ; R x 0
PPOCA allowed forbidden | W x 1 ; fence.rw.rw ; W y 1 | R y 1 ; ctrl ; W z 1 ; R z 1 ; addr ; R x 0
PPODA forbidden forbidden | W x 1 ; fence.rw.rw ; W y 1 | R y 1 ; data ; W z 1 ; R z 1 ; addr ; R x 0
PPOAA forbidden forbidden | W x 1 ; fence.rw.rw ; W y 1 | R y 1 ; addr ; W z 1 ; R z 1 ; addr ; R x 0
PPODA.b forbidden forbidden | W x 1 ; fence.rw.rw ; W y 1 | R y 1 ; data ; W z1 1 sb ; R z1 1 lbu ; addr ; R x 0
MP+fence.w.w+fri-rfi-addr allowed forbidden | W x 1 ; fence.w.w ; W y 1 | R y 1 ; W y 2 ; R y 2 ; addr ; R x 0
S+fence.w.w+fri-rfi-ctrl allowed forbidden | W x 2 ; fence.w.w ; W y 1 | R y 1 ; W y 2 ; R y 2 ; ctrl ; W x 1 ; R x 2
RSW allowed forbidden | W x 1 ; fence.w.w ; W y 1 | R y 1 ; addr ; R z 0 ; R z 0 ; addr ; R x 0
RDW forbidden forbidden | W x 1 ; fence.w.w ; W y 1 | R y 1 ; addr ; R z 0 ; R z 1 ; addr ; R x 0 | W z 1
CoRR forbidden forbidden | W x 1 | R x 1 ; R x 0
CoRR2 forbidden forbidden | W x 1 | W x 2 | R x 1 ; R x 2 | R x 2 ; R x 1
CoRW1 forbidden forbidden | R x 1 ; W x 1
CoRW2 forbidden forbidden | W x 1 | R x 1 ; W x 2 ; R x 1
CoWR forbidden forbidden | W x 1 ; R x 2 ; R x 1 | W x 2
CoWR0 forbidden forbidden | W x 1 ; R x 0
CoWW forbidden forbidden | W x 1 ; W x 2 ; R x 1
CoWW.h forbidden forbidden | W x 1 sh ; W x 2 ; R x 1
LB+addr-rfi-data+data forbidden forbidden | R x 1 ; data ; W z 1 ; R z 1 ; data ; W y 1 | R y 1 ; data ; W x 1
LB+ctrl-rfi-data+data forbidden forbidden | R x 1 ; ctrl ; W z 1 ; R z 1 ; data ; W y 1 | R y 1 ; data ; W x 1
LB+data-sc-data+data forbidden forbidden | R z 0 lr ; R x 1 ; data ; W z 1 lone_sc ; data ; W y 1 | R y 1 ; data ; W x 1
MP+sc-ctrl+addr forbidden forbidden | R x 0 lr ; W x 1 lone_sc ; ctrl ; W y 1 | R y 1 ; addr ; R x 0
LRSC+LRSC forbidden forbidden | R x 0 lr ; W x 1 lone_sc | R x 0 lr ; W x 2 lone_sc
LRSC+W forbidden forbidden | R x 0 lr ; W x 1 lone_sc ; R x 1 | W x 2 ; R x 1
LRSC+W.first allowed allowed | R x 2 lr ; W x 1 lone_sc ; R x 1 | W x 2 ; R x 1
LRSC.own allowed allowed | R x 0 lr ; W x 2 ; W x 1 lone_sc | R x 2 ; R x 1
LRSC.own+W forbidden forbidden | R x 0 lr ; W x 2 ; W x 1 lone_sc | W x 3 ; R x 1
LR+LR+SC allowed allowed | R x 0 lr ; R x 0 lr ; W x 2 lone_sc | W x 1 ; R x 1
AMO+AMO forbidden forbidden | W z 0 ; R x 0 amo ; W x 1 amo ; R x 2 | W x 2 amo ; R x 1
W.w+R.b-R.w forbidden forbidden | W x 16843009 | R x 1 lbu ; R x 0
W.w+R.w-R.b forbidden forbidden | W x 16843009 | R x 16843009 ; R x 0 lbu
W.w+R.h-R.h allowed forbidden | W x 16843009 | R x 257 lhu ; R x2 0 lhu
W.w+R.h-fence.r.r-R.h forbidden forbidden | W x 16843009 | R x 257 lhu ; fence.r.r ; R x2 0 lhu
W.w+R.w-W.b-R.w forbidden forbidden | W x 16843009 | R x 16843009 ; W x 2 sb ; R x 2
W.w+R.b-W.w-R.w forbidden forbidden | W x 16843009 | R x 1 lbu ; W x 2 ; R x 16843009
'''


def items_of(text):
    """The items of a hart."""
    for item in text.split(' ; '):
        words = item.split()
        yield item if len(words) == 1 else operation(' '.join(words[:3]), ''.join(words[3:]))


def singles():
    for text in SINGLE.strip().splitlines():
        head, *harts = text.split(' | ')
        name, rvwmo, ztso = head.split()
        programs = [list(items_of(hart)) for hart in harts]
        yield name, programs, rvwmo == 'allowed', ztso == 'allowed'


def litmus():
    seen = set()
    for name, harts, rvwmo, ztso in [cycle(*c) for c in cycles()] + list(singles()):
        if name not in seen:
            seen.add(name)
            print(line(name, harts, rvwmo, ztso))


# ---- straight programs

class Straight(Hart):
    """A hart's code, drawn."""

    def __init__(self, draw, number):
        super().__init__()
        self.draw, self.number = draw, number
        self.operations = 0
        self.loaded, self.stored, self.pairs = [], [], 0  # the places, an AMO's in both, and how many are an LR and an SC

    def annotated(self):
        return self.draw.choice(['', '', 'aq', 'rl', 'aqrl'])

    def drawn_link(self):
        sets = ['r', 'w', 'rw']
        names = ['po', 'po', 'po', f'fence.{self.draw.choice(sets)}.{self.draw.choice(sets)}', 'fence.tso']
        if self.read is not None:
            names += ['addr', 'data', 'ctrl', 'addr', 'data', 'ctrl']
        return self.draw.choice(names)

    def drawn_operation(self, place):
        draw = self.draw
        kind = draw.choice(['load', 'load', 'load', 'store', 'store', 'store', 'amo', 'pair'])
        self.operations += 2 if kind == 'pair' else 1
        number = self.number()
        reg = self.free
        if kind != 'store':
            self.loaded.append(place)
        if kind != 'load':
            self.stored.append(place)
        if kind == 'pair':
            self.pairs += 1
        if kind == 'load':
            self.operation('R', place, 0, draw.choice(['lw', 'lw', 'lhu', 'lbu']))
        elif kind == 'store':
            self.operation('W', place, number, draw.choice(['sw', 'sw', 'sh', 'sb']))
        elif kind == 'amo':
            stored = self.value(number)
            self.emit(atomic('amoswap', self.annotated(), reg, stored, self.pointer(place)))
            self.free += 1
            self.read, self.depends = reg, ''
            self.checks.append((reg, 0))
        else:
            self.operation('R', place, 0, 'lr.' + self.annotated())
            self.operation('W', place, number, 'lone_sc.' + self.annotated())

    def drawn(self, most):
        self.checks = []
        self.emit(addi(CALL, ZERO, 1))
        while self.operations < most:
            if self.operations:
                self.link(self.drawn_link())
            self.drawn_operation(self.draw.choice('xy'))
        for reg, _ in self.checks:
            self.emit(addi(HARTS_ID, reg, 0), ECALL)
        self.emit(addi(CALL, ZERO, 0), addi(HARTS_ID, ZERO, 0), ECALL)
        return self.words


def judgements(harts):
    """How many orders of runs there are: of each load what the stores to its word leave it to load."""
    stored = [place for hart in harts for place in hart.stored]
    runs = prod(1 + stored.count(place) for hart in harts for place in hart.loaded) * 2 ** sum(h.pairs for h in harts)
    return factorial(sum(hart.operations for hart in harts)) * runs


def straight():
    kept = 0
    for seed in count(1):
        draw = random.Random(seed)
        numbers = iter(range(1, 100))
        harts = [Straight(draw, lambda: next(numbers)) for _ in range(2)]
        codes = [hart.drawn(draw.choice([1, 2, 3])) for hart in harts]
        if 4 <= sum(hart.operations for hart in harts) <= 6 and judgements(harts) <= MOST_JUDGEMENTS:
            kept += 1
            print(f'seed-{seed} {" ".join(f"{w:08x}" for w in image(codes))}')
        if kept == STRAIGHT:
            return


# ---- programs to walk through

# `A` is an AMOSWAP, `out` puts out the number that was loaded first, and `again` goes back to the LR if the SC failed.
# Most numbers that are stored are 2, which x11 has from reset on, so that there are few instructions.
WALKED = '''
store_buffering rvwmo 1 | W x 2 ; R x4 0 | W x4 2 ; R x 0
store_buffering_fenced rvwmo 1 | W x 2 ; fence.w.r ; R x4 0 | W x4 2 ; fence.w.r ; R x 0
message_passing rvwmo 1 | W x 2 ; W x4 2 | R x4 0 ; R x 0
message_passing ztso 1 | W x 2 ; W x4 2 | R x4 0 ; R x 0
message_passing_fenced rvwmo 1 | W x 2 ; fence.w.w ; W x4 2 | R x4 0 ; R x 0
reserved rvwmo 1 | R x 0 lr ; out ; W x 2 lone_sc | W x 1
reserved_across rvwmo 1 | R x 0 lr ; R y 0 ; W x 2 lone_sc ; again | W x 1
swapped rvwmo 1 | W x4 2 ; A x 2 | A x 1 ; R x4 0
'''


class Walked(Hart):
    """A hart's code, that exits with what it loads."""

    def __init__(self):
        super().__init__()
        self.free, self.checks = HARTS_ID, []

    def value(self, number):
        return HARTS if number == 2 else super().value(number)

    def operation(self, kind, place, number, flavour):
        if flavour.startswith('lr'):
            self.start = len(self.words)
        if kind == 'A':
            self.checks.append((self.free, 0))
            self.emit(atomic('amoswap', '', self.free, self.value(number), self.pointer(place)))
        else:
            super().operation(kind, place, number, flavour)
        if self.checks:
            self.free = 18 + len(self.checks)

    def link(self, name):
        if name == 'out':
            self.emit(addi(CALL, ZERO, 1), ECALL, addi(CALL, ZERO, 0))
        elif name == 'again':
            self.emit(branch(1, self.read, ZERO, 4 * (self.start - len(self.words))))
        else:
            super().link(name)

    def walked(self, items):
        for item in items:
            if isinstance(item, str):
                self.link(item)
            else:
                self.operation(*item)
        for reg, _ in self.checks[1:]:
            self.emit(immediate(1, HARTS_ID, HARTS_ID, 2), register(6, HARTS_ID, HARTS_ID, reg))
        self.emit(ECALL)
        return self.words


def walked():
    for text in WALKED.strip().splitlines():
        head, *harts = text.split(' | ')
        first, second = [Walked().walked(list(items_of(hart))) for hart in harts]
        words = [branch(1, HARTS_ID, ZERO, 4 + 4 * len(first)), *first, *second]
        print(f'{head} {" ".join(f"{w:08x}" for w in words)}')


def main():
    if sys.argv[1:] == ['litmus']:
        litmus()
    elif sys.argv[1:] == ['straight']:
        straight()
    elif sys.argv[1:] == ['walked']:
        walked()
    else:
        sys.exit(__doc__)


if __name__ == '__main__':
    main()
