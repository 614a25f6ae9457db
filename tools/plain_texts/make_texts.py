#!/usr/bin/env python3
"""Writes texts for the comparison with plain Rust: python3 make_texts.py FOLDER.

trace_small and trace_large are version 1 traces of 4 harts with 10,000 and 50,000 lines of R, P and M in
equal parts, script_small and script_large scripts of 10,000 and 50,000 events. The seed is fixed.
"""
import random
import sys

NAMES = [
    ("A", "AcquireBlock", ["NtoB", "NtoT", "BtoT"], False),
    ("B", "ProbeBlock", ["toT", "toB", "toN"], False),
    ("C", "ProbeAck", ["TtoB", "TtoN", "BtoN", "TtoT", "BtoB", "NtoN"], False),
    ("C", "ProbeAckData", ["TtoB", "TtoN"], True),
    ("C", "Release", ["TtoN", "BtoN"], False),
    ("C", "ReleaseData", ["TtoB", "TtoN"], True),
    ("D", "Grant", ["toT"], False),
    ("D", "GrantData", ["toT", "toB"], True),
    ("D", "ReleaseAck", [], False),
    ("E", "GrantAck", [], False),
]
BASE, KIB = 0x8000_0000, 64


def word(n):
    return f"0x{n:08x}"


def trace(lines):
    out = ["rvtl-trace 1", f"T 4 {KIB} {word(BASE)}"]
    for i in range(46):
        data = random.randbytes(15) + b"\x01"
        out.append(f"I {word(BASE + 16 * i)} {data.hex()}")
    each = lines // 3
    for hart in range(4):
        for _ in range(each // 4):
            loaded = word(random.getrandbits(32)) if random.random() < 0.4 else "-"
            answer = random.choice(["ok", "fail"]) if random.random() < 0.05 else "-"
            pc = BASE + 4 * random.randrange(4096)
            out.append(f"R {hart} {word(pc)} {word(random.getrandbits(32))} {loaded} {answer}")
    for _ in range(each):
        out.append(f"P {random.randrange(4)} {random.randrange(each // 4)}")
    while len(out) < lines + 48:
        channel, name, permissions, has_data = random.choice(NAMES)
        line = BASE + 16 * random.randrange(KIB * 64)
        fields = ["M", random.choice("st"), channel, str(random.randrange(4)), name, word(line)]
        if permissions:
            fields.append(random.choice(permissions))
        if has_data:
            fields.append(random.randbytes(16).hex())
        out.append(" ".join(fields))
    out += ["H 0 run", "H 1 stop 3", "H 2 exit 42", "H 3 run"]
    return "\n".join(out) + "\n"


def event():
    hart = random.randrange(4)
    kind = random.random()
    if kind < 0.5:
        return f"step {hart}"
    if kind < 0.65:
        return f"drain {hart} {word(BASE + 4 * random.randrange(KIB * 256))}"
    if kind < 0.7:
        return f"evict {hart} {word(BASE + 16 * random.randrange(KIB * 64))}"
    if kind < 0.95:
        return f"deliver {random.choice('ABCDE')} {hart}"
    return f"local {hart} {random.randrange(1, 200)}"


def script(events):
    return "\n".join([f"rvtl-script 1 4 {KIB} 2 2"] + [event() for _ in range(events)]) + "\n"


def main():
    folder = sys.argv[1]
    random.seed(1)
    for name, text in [
        ("trace_small", trace(10_000)),
        ("trace_large", trace(50_000)),
        ("script_small", script(10_000)),
        ("script_large", script(50_000)),
    ]:
        with open(f"{folder}/{name}", "w") as file:
            file.write(text)


main()
