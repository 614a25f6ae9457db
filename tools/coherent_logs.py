#!/usr/bin/env python3
"""Judges the messages of a trace by the permissions and bytes that they gave and took: `coherent_logs.py [TRACE]`.

These are five of the rules that `rvtl check --messages` asks (docs/FORMATS.md), written without proofs; it asks eight others
too, and a log is to be lawful by those first. What a client has of a line is what its last Grant gave, or its last ProbeAck or
Release left: by the client a Grant counts once it is taken, the others once they are sent; by the manager the other way round.
At the start no client has anything, and memory is what the I lines say; where there is none, it isn't known.

    permission-held   a Grow, and the first half of a Release's Change, are what the client has
    probe-obeyed      a ProbeAck's Change is what the Probe that its client took last leaves of what the client has
    one-writer        a Grant toT goes out where no other client has anything, toB where none has T, by the manager
    data-asked        ProbeAckData and ReleaseData come of T
    data-kept         GrantData has the bytes that were brought to the manager or granted last; where none were, memory's at the
                      start, if they are known

It prints `coherent`, or `incoherent RULE NUMBER` (the message counted from 0, the first that breaks a rule, and the first rule
that it breaks) and the lines of the messages that it doesn't fit; the status then is 3."""
import sys

ORDER = "NBT"
NOTHING = ("N", None)


class Judge:
    def __init__(self):
        self.held = {}  # by client and line: the permission, and the line of the text since which it is held
        self.noted = {}  # the same by the manager
        self.probed = {}  # the permission that a Probe leaves at most, and the line of the text on which it was taken
        self.bytes = {}  # by line: the manager's bytes, and the line of the text on which they came
        self.is_known = False  # what memory has at the start, by I lines

    def fault(self, client, name, line, change, data):
        """Returns the first rule that a message breaks as it is sent, and why; None where it breaks none."""
        has, since = self.held.get((client, line), NOTHING)
        own = f"client {client} has {has}" + (f" since line {since}" if since else "")
        if name in ("AcquireBlock", "Release", "ReleaseData") and change[0] != has:
            return "permission-held", own
        if name.startswith("ProbeAck") and (client, line) in self.probed:
            most, place = self.probed[client, line]
            if change != f"{has}to{min(has, most, key=ORDER.index)}":
                return "probe-obeyed", f"{own}, and its Probe to{most} is on line {place}"
        if name.startswith("Grant") and name != "GrantAck":
            most = {"T": "N", "B": "B", "N": "T"}[change[-1]]
            for (other, of), (perm, place) in sorted(self.noted.items()):
                if of == line and other != client and ORDER.index(perm) > ORDER.index(most):
                    return "one-writer", f"client {other} has {perm} since line {place}"
        if name in ("ProbeAckData", "ReleaseData") and has != "T":
            return "data-asked", own
        if name == "GrantData":
            known, place = self.bytes.get(line, ("0" * len(data) if self.is_known else data, None))
            if data != known:
                return "data-kept", f"line {place} carried other bytes" if place else "memory has other bytes at the start"
        return None

    def note(self, way, client, name, line, change, data, place):
        if name == "ProbeBlock" and way == "t":
            self.probed[client, line] = (change[-1], place)
        elif name.startswith("Grant") and name != "GrantAck":
            (self.held if way == "t" else self.noted)[client, line] = (change[-1], place)
            if data and way == "s":
                self.bytes[line] = (data, place)
        elif change and name not in ("AcquireBlock", "ProbeBlock"):
            (self.held if way == "s" else self.noted)[client, line] = (change[-1], place)
            if data and way == "t":
                self.bytes[line] = (data, place)


def judge(lines):
    """Returns the message's number, its line, the rule and why; None of a coherent log."""
    judged, number = Judge(), 0
    for place, text in enumerate(lines, 1):
        words = text.split()
        if words[:1] == ["I"]:
            judged.bytes[words[1]] = (words[2], None)
            judged.is_known = True
        if words[:1] != ["M"]:
            continue
        way, client, name, line = words[1], int(words[3]), words[4], words[5]
        change = words[6] if len(words) > 6 else None
        data = words[7] if len(words) > 7 else None
        fault = judged.fault(client, name, line, change, data) if way == "s" else None
        if fault:
            return number, place, *fault
        judged.note(way, client, name, line, change, data, place)
        number += 1
    return None


def main():
    with open(sys.argv[1], encoding="ascii") if len(sys.argv) > 1 else sys.stdin as file:
        fault = judge(file)
    if fault is None:
        print("coherent")
        return
    number, place, rule, why = fault
    print(f"incoherent {rule} {number}")
    print(f"line {place}: {why}", file=sys.stderr)
    sys.exit(3)


main()
