#!/usr/bin/env python3
"""Writes traces whose message logs cost a judge the most: `worst_logs.py FOLDER [MESSAGES]`.

Each is a file that `rvtl check --messages` calls lawful, with about so many messages (1,000,000), in the
shortest lines that the rules allow.

    one_line        8 harts ask in turn for one line, and each is granted it
    probed_line     one line, and Probes of 8 harts that are answered
    many_lines      1 hart asks for a line after the other, and is granted each
    many_harts      8 harts ask for a line after the other, and are granted each
    sent            each hart releases each line, and is sent a Probe of each, and nothing is taken
    shuffled        the same, in a random order
    all_asked       all lines are asked for, then all granted, then all acknowledged, and again
    handed_over     a line goes from hart to hart: Probe, ProbeAckData, GrantData of 16 bytes
"""

import random
import sys
from pathlib import Path

BASE = 0x80000000
LINE = 16
KIB = 1024
LINES = KIB * 1024 // LINE


def address(number):
    return f"0x{BASE + LINE * (number % LINES):08x}"


def both(channel, hart, words):
    return [f"M s {channel} {hart} {words}", f"M t {channel} {hart} {words}"]


def granted(hart, line):
    """A hart asks to write a line that it reads, and may, without data: 6 messages."""
    return both("A", hart, f"AcquireBlock {line} BtoT") + both("D", hart, f"Grant {line} toT") + both("E", hart, f"GrantAck {line}")


def probed(hart, line):
    return both("B", hart, f"ProbeBlock {line} toN") + both("C", hart, f"ProbeAck {line} NtoN")


def one_line(messages):
    return [m for k in range(messages // 6) for m in granted(k % 8, address(0))]


def probed_line(messages):
    return [m for k in range(messages // 4) for m in probed(k % 8, address(0))]


def many_lines(messages):
    return [m for k in range(messages // 6) for m in granted(0, address(k))]


def many_harts(messages):
    return [m for k in range(messages // 6) for m in granted(k % 8, address(k // 8))]


def sent(messages):
    pairs = [(k // LINES % 8, address(k)) for k in range(messages // 2)]
    return [f"M s C {hart} Release {line} TtoN" for hart, line in pairs] + [f"M s B {hart} ProbeBlock {line} toN" for hart, line in pairs]


def shuffled(messages):
    log = sent(messages)
    random.Random(1).shuffle(log)
    return log


def all_asked(messages):
    log = []
    for _ in range(max(messages // (6 * LINES), 1)):
        parts = [granted(k % 8, address(k)) for k in range(min(LINES, messages // 6))]
        log += [part[place] for place in range(6) for part in parts]
    return log


def handed_over(messages):
    log = []
    data = "00112233445566778899aabbccddeeff"
    for k in range(messages // 10):
        line, hart = address(k % 5000), k % 8
        log += both("B", (hart + 7) % 8, f"ProbeBlock {line} toN") + both("C", (hart + 7) % 8, f"ProbeAckData {line} TtoN {data}")
        log += both("A", hart, f"AcquireBlock {line} NtoT") + both("D", hart, f"GrantData {line} toT {data}") + both("E", hart, f"GrantAck {line}")
    return log


def main():
    folder = Path(sys.argv[1])
    messages = int(sys.argv[2]) if len(sys.argv) > 2 else 1_000_000
    for log in (one_line, probed_line, many_lines, many_harts, sent, shuffled, all_asked, handed_over):
        lines = ["rvtl-trace 2", f"T 8 {KIB} 0x{BASE:08x} {LINE}"] + log(messages) + [f"H {hart} run" for hart in range(8)]
        (folder / log.__name__).write_text("\n".join(lines) + "\n")


main()
