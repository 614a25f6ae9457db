#!/usr/bin/env python3
"""Writes the trace that `rvtl check --messages` judges from the beats of a run in a simulator.

usage: tools/beats_to_log.py [--clients N] [--line 16|64] [--kib KIB] [--base ADDRESS] [--memory FILE] [BEATS]
       tools/beats_to_log.py --log [--clients N] [--line 16|32|64|128] [BEATS]

BEATS (or standard input) has a line for each beat that a port accepted (ready and valid), in the order of time, as a monitor
in Chisel or Verilog prints it, numbers decimal or behind 0x:

    PORT CHANNEL CLIENT OPCODE PARAM SIZE SOURCE ADDRESS DATA     PORT client or manager; CHANNEL A, B or C
    PORT D       CLIENT OPCODE PARAM SIZE SOURCE SINK    DATA     D has no address
    PORT E       CLIENT SINK

SIZE is the logarithm of the bytes, DATA the beat's bytes as a number, the lowest address lowest, or -; SOURCE is by client, a
Release's as an Acquire's. At the client's port A, C and E are sent, B and D taken; at the manager's the other way round. A
message stands in the trace where its last beat was accepted, and is written then: `.. | tools/beats_to_log.py | rvtl check
--messages -` judges a run as it goes on. An address becomes 0x80000000 and what it is behind ADDRESS (0);
FILE has `ADDRESS DATA` for each line of memory that isn't all zero at the start, DATA as bytes. With --log a log of 1 to 64
clients is written in place of a trace, with all addresses as they are, which tells nothing of memory at the start.

Opcodes and params are those of TileLink 1.8.1. Opcodes that are none of TL-C's transfers are left out, and counted on standard
error; so is AcquirePerm, which the trace has no word for."""
import argparse
import collections
import os
import sys

GROW = ["NtoB", "NtoT", "BtoT"]
CAP = ["toT", "toB", "toN"]
CHANGE = ["TtoB", "TtoN", "BtoN", "TtoT", "BtoB", "NtoN"]
# by channel and opcode: the name, the words of its param, and whether its beats have the line's bytes
MESSAGES = {
    ("A", 6): ("AcquireBlock", GROW, False),
    ("B", 6): ("ProbeBlock", CAP, False),
    ("C", 4): ("ProbeAck", CHANGE, False),
    ("C", 5): ("ProbeAckData", CHANGE, True),
    ("C", 6): ("Release", CHANGE, False),
    ("C", 7): ("ReleaseData", CHANGE, True),
    ("D", 4): ("Grant", CAP, False),
    ("D", 5): ("GrantData", CAP, True),
    ("D", 6): ("ReleaseAck", None, False),
}


class Converter:
    def __init__(self, shift, line):
        self.shift, self.line = shift, line
        self.open = {}  # by port, channel, client and source: the address and the bytes of a message some of whose beats came
        self.asked = {}  # by client and source: the line of its Acquire
        self.released = {}
        self.granted = {}  # by client and sink: the line of a Grant
        self.left_out = collections.Counter()

    def message(self, port, channel, client, name, param, line, data=None):
        way = "s" if (port == "client") == (channel in "ACE") else "t"
        words = ["M", way, channel, str(client), name, f"0x{line + self.shift:08x}"]
        return " ".join(words + ([param] if param else []) + ([data.hex()] if data is not None else []))

    def beat(self, port, channel, client, *fields):
        """Returns the message that the beat ends, or None."""
        if channel == "E":
            line = self.granted[client, fields[0]]
            if port == "manager":
                del self.granted[client, fields[0]]
            return self.message(port, channel, client, "GrantAck", None, line)
        opcode, param, size, source, place, data = fields
        if (channel, opcode) not in MESSAGES:
            self.left_out[channel, opcode] += 1
            return None
        name, params, has_data = MESSAGES[channel, opcode]
        line = self.line_of(name, client, source, place)
        if name.startswith("Grant"):
            self.granted[client, place] = line
        text = params[param] if params else None
        if not has_data:
            return self.message(port, channel, client, name, text, line)
        bytes_so_far = self.open.setdefault((port, channel, client, source), bytearray())
        value, width = data
        bytes_so_far += value.to_bytes(width, "little")
        if len(bytes_so_far) < self.line:
            return None
        del self.open[port, channel, client, source]
        return self.message(port, channel, client, name, text, line, bytes_so_far)

    def line_of(self, name, client, source, place):
        """D has no address: a Grant's is its Acquire's, a ReleaseAck's its Release's, by the source."""
        if name == "AcquireBlock":
            self.asked[client, source] = place
        elif name.startswith("Release") and name != "ReleaseAck":
            self.released[client, source] = place
        if name.startswith("Grant"):
            return self.asked[client, source]
        return self.released[client, source] if name == "ReleaseAck" else place


def number(word):
    return int(word, 0)


def fields_of(words):
    """The last field of a beat with data is the number, with its bytes by how many digits it has."""
    if len(words) == 1:
        return [number(words[0])]
    *plain, data = words
    digits = data.removeprefix("0x")
    return [number(w) for w in plain] + [None if data == "-" else (int(digits, 16), len(digits) // 2)]


def head(given, shift):
    if given.log:
        print(f"rvtl-log 1 {given.clients} {given.line}")
        return
    second = given.clients > 4 or given.line == 64
    print(f"rvtl-trace {2 if second else 1}")
    print(f"T {given.clients} {given.kib} 0x80000000" + (f" {given.line}" if second else ""))
    for words in sorted(line.split() for line in given.memory or []):
        print(f"I 0x{number(words[0]) + shift:08x} {words[1]}")


def main():
    parser = argparse.ArgumentParser(description=__doc__, formatter_class=argparse.RawDescriptionHelpFormatter)
    parser.add_argument("--clients", type=int, default=2)
    parser.add_argument("--log", action="store_true")
    parser.add_argument("--line", type=int, default=16, choices=[16, 32, 64, 128])
    parser.add_argument("--kib", type=int, default=1024)
    parser.add_argument("--base", type=number, default=0)
    parser.add_argument("--memory", type=argparse.FileType(), default=None)
    parser.add_argument("beats", nargs="?", type=argparse.FileType(), default=sys.stdin)
    given = parser.parse_args()
    if given.line in (32, 128) and not given.log:
        parser.error("lines of 32 and of 128 bytes take --log")
    shift = 0 if given.log else 0x80000000 - given.base
    head(given, shift)
    converter = Converter(shift, given.line)
    for place, text in enumerate(given.beats, 1):
        port, channel, client, *words = text.split()
        try:
            message = converter.beat(port, channel, number(client), *fields_of(words))
        except KeyError:
            sys.exit(f"line {place}: no message before it has this source or sink: {text.rstrip()}")
        if message:
            print(message, flush=True)
    for (channel, opcode), count in sorted(converter.left_out.items()):
        print(f"{count} beats with opcode {opcode} on {channel} were left out", file=sys.stderr)


try:
    main()
except BrokenPipeError:  # who reads has found a fault
    os.dup2(os.open(os.devnull, os.O_WRONLY), sys.stdout.fileno())
