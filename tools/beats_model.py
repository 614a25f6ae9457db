#!/usr/bin/env python3
"""Prints the beats of a small system of caches, as beats_to_log.py reads them: `beats_model.py [SEED [FAULT]]`.

Two clients with caches of all lines, a manager with a directory, 16-byte lines in beats of 8 bytes; 4 lines, 400 steps. Each
step is one of what could happen, by the seed. FAULT is one of

    second-trunk     a Grant toT goes out without a Probe       lost-data      a dirty line's ProbeAck has no data
    stale-grant      a Grant has what memory had at the start   kept-copy      a Probe toN leaves Branch
    wrong-grow       an Acquire says NtoT where Branch is held  wrong-release  a Release says BtoN where Trunk is held
"""
import random
import sys

GROW, CAP = ["NtoB", "NtoT", "BtoT"], ["toT", "toB", "toN"]
CHANGE = ["TtoB", "TtoN", "BtoN", "TtoT", "BtoB", "NtoN"]
LEFT = {"toT": "T", "toB": "B", "toN": "N"}
ORDER = "NBT"


class System:
    def __init__(self, seed, fault):
        self.random, self.fault = random.Random(seed), fault
        self.lines = [0x1000 + 16 * k for k in range(4)]
        self.memory = {line: bytes(16) for line in self.lines}
        self.queues = {(c, h): [] for c in "ABCDE" for h in range(2)}
        self.held = [{line: "N" for line in self.lines} for _ in range(2)]
        self.data = [dict(self.memory) for _ in range(2)]
        self.dirty = [set(), set()]
        self.busy = [set(), set()]  # lines with an Acquire or a Release open
        self.noted = [dict(h) for h in self.held]
        self.serving = {}  # by line: the client, its grow, and whose ProbeAcks are awaited; None once the Grant is out

    def beats(self, port, channel, client, message):
        opcode, param, line, data = message
        source = self.lines.index(line)
        if channel == "E":
            return print(port, "E", client, source)
        place = source if channel == "D" else hex(line)
        for k in range(2 if data else 1):
            part = "-" if data is None else "0x" + data[8 * k : 8 * k + 8][::-1].hex()
            print(port, channel, client, opcode, param, 4, source, place, part)

    def send(self, channel, client, opcode, param, line, data=None):
        self.queues[channel, client].append((opcode, param, line, data))
        self.beats("client" if channel in "ACE" else "manager", channel, client, self.queues[channel, client][-1])

    def change(self, client, line, left, opcode):
        """A client gives up a copy, with data where it is dirty: a ProbeAck (4) or a Release (6)."""
        was = self.held[client][line]
        data = self.data[client][line] if line in self.dirty[client] else None
        if self.fault == "lost-data" and opcode == 4:
            data = None
        if self.fault == "kept-copy" and opcode == 4 and was != "N" and left == "N":
            left = "B"
        if self.fault == "wrong-release" and opcode == 6 and was == "T" and data is None:
            was = "B"
        self.held[client][line] = left
        self.dirty[client].discard(line)
        self.send("C", client, opcode + (data is not None), CHANGE.index(f"{was}to{left}"), line, data)

    def act(self, client):
        """The client reads or writes a line, or gives it up."""
        line = self.random.choice(self.lines)
        has, write = self.held[client][line], self.random.random() < 0.5
        if line in self.busy[client]:
            return
        if has != "N" and self.random.random() < 0.2:
            self.busy[client].add(line)
            self.change(client, line, "N", 6)
        elif has == "T" and write:
            self.data[client][line] = self.random.randbytes(16)
            self.dirty[client].add(line)
        elif has == "N" or (has == "B" and write):
            self.busy[client].add(line)
            grow = f"{has}to{'T' if write else 'B'}"
            if self.fault == "wrong-grow" and grow == "BtoT":
                grow = "NtoT"
            self.send("A", client, 6, GROW.index(grow), line)

    def grant(self, line):
        client, grow, _ = self.serving[line]
        cap = "toB" if grow == "NtoB" else "toT"
        data = None if grow == "BtoT" and self.noted[client][line] == "B" else self.memory[line]
        if self.fault == "stale-grant" and data is not None:
            data = bytes(16)
        self.noted[client][line] = LEFT[cap]
        self.serving[line] = (client, grow, None)
        self.send("D", client, 4 if data is None else 5, CAP.index(cap), line, data)

    def deliver(self, channel, client):
        """The oldest message of the queue arrives, if its receiver can take it now."""
        opcode, param, line, data = message = self.queues[channel, client][0]
        if channel == "A" and line in self.serving or channel == "B" and line in self.busy[client] and self.held[client][line] == "N" and self.releases(client, line):
            return
        self.queues[channel, client].pop(0)
        self.beats("manager" if channel in "ACE" else "client", channel, client, message)
        if channel == "A":
            grow, other = GROW[param], 1 - client
            cap = "toB" if grow == "NtoB" else "toN"
            asked = {other} if ORDER.index(self.noted[other][line]) > ORDER.index(LEFT[cap]) and self.fault != "second-trunk" else set()
            self.serving[line] = (client, grow, asked)
            for h in asked:
                self.send("B", h, 6, CAP.index(cap), line)
            if not asked:
                self.grant(line)
        elif channel == "B":
            has, most = self.held[client][line], LEFT[CAP[param]]
            self.change(client, line, min(has, most, key=ORDER.index), 4)
        elif channel == "C":
            if data is not None:
                self.memory[line] = data
            self.noted[client][line] = CHANGE[param][-1]
            if opcode >= 6:
                self.send("D", client, 6, 0, line)
            else:
                self.serving[line][2].discard(client)
                if not self.serving[line][2]:
                    self.grant(line)
        elif channel == "D" and opcode == 6:
            self.busy[client].discard(line)
        elif channel == "D":
            self.held[client][line] = LEFT[CAP[param]]
            self.data[client][line] = self.data[client][line] if data is None else data
            self.busy[client].discard(line)
            self.send("E", client, None, None, line)
        else:
            del self.serving[line]

    def releases(self, client, line):
        """A Release of the line is unanswered: its Probe waits for the ReleaseAck."""
        waits = [("C", client), ("D", client)]
        return any(m[2] == line and m[0] in (6, 7) for q in waits for m in self.queues[q])

    def step(self):
        waiting = [q for q, messages in self.queues.items() if messages]
        if waiting and self.random.random() < 0.7:
            self.deliver(*self.random.choice(waiting))
        else:
            self.act(self.random.randrange(2))


system = System(int(sys.argv[1]) if len(sys.argv) > 1 else 0, sys.argv[2] if len(sys.argv) > 2 else None)
for _ in range(400):
    system.step()
