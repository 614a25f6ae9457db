#!/usr/bin/env python3
"""Counts by which rules of messages the changes of the gate's logs break: `tools/changed_logs.py`, from the top of the repository.

The rules are those of `rvtl check --messages` (docs/FORMATS.md) by the profile `machine`, written without proofs: eight by
counts, five by permissions and bytes. Each log of `crates/gate_comparisons/data/logs/machine` is changed as that program changes it: an
entry is left out, doubled, exchanged with the next, or gets another hart, kind, permission, other bytes, or bytes where it had
none; and a message is left out at both ends, or gets another permission, other bytes or bytes at both. It prints what the
program prints of them: how many of the changes are lawful, and of each rule how often it is the first that is broken, and how
many messages break it."""
import collections

DATA = "crates/gate_comparisons/data/"
WRONG = ["logs/grant_before_all_acks", "logs/data_with_each_grant", "logs/grant_without_data_after_a_probe"]
RULES = ["in-order", "question", "permission", "data", "acquire-once", "probe-once", "grant-alone", "release-alone",
         "permission-held", "probe-obeyed", "one-writer", "data-asked", "data-kept"]
CHANNEL = {"AcquireBlock": "A", "ProbeBlock": "B", "ProbeAck": "C", "ProbeAckData": "C", "Release": "C", "ReleaseData": "C",
           "Grant": "D", "GrantData": "D", "ReleaseAck": "D", "GrantAck": "E"}
QUESTION = {"ProbeAck": "ProbeBlock", "ReleaseAck": "Release", "GrantAck": "Grant"}
PERMISSIONS = "NBT"
Entry = collections.namedtuple("Entry", "way hart name line change data")


def kind(name):
    return name.removesuffix("Data")


def read_logs(name):
    """Returns the log of each trace of a file."""
    logs = []
    with open(DATA + name, encoding="ascii") as file:
        for words in map(str.split, file):
            if words[0] == "T":
                logs.append([])
            if words[0] == "M":
                change, data = (words[6:] + [None, None])[:2]
                logs[-1].append(Entry(words[1], int(words[3]), words[4], words[5], change, data))
    return logs


class Judge:
    def __init__(self):
        self.waits = collections.defaultdict(list)  # by hart and channel
        self.count = collections.Counter()  # by way, kind, line and hart
        self.grows = collections.defaultdict(list)  # by hart and line, what was taken of Acquires
        self.lost = {}
        self.held, self.noted, self.probed, self.bytes = {}, {}, {}, {}

    def is_open(self, entry, question, answer, own=True):
        def number(way, name):
            return sum(n for (w, k, line, hart), n in self.count.items()
                       if (w, k, line) == (way, name, entry.line) and (hart == entry.hart or not own))
        return number("s", question) != number("t", answer)

    def is_owed(self, entry, question, answer):
        of = (entry.line, entry.hart)
        return self.count["s", answer, *of] < self.count["t", question, *of]

    def by_grant(self, e):
        granted, asked = self.count["s", "Grant", e.line, e.hart], self.grows[e.hart, e.line]
        if granted >= len(asked):
            return {"question"}
        grow, broken = asked[granted], set()
        if e.change != ("toB" if grow == "NtoB" else "toT"):
            broken.add("permission")
        if (e.data is None) != (grow == "BtoT" and not self.lost.get((e.hart, e.line))):
            broken.add("data")
        return broken

    def by_counts(self, e):
        if e.way == "t":
            queue = e.hart, CHANNEL[e.name]
            return set() if self.waits[queue][:1] == [e._replace(way="s")] else {"in-order"}
        of, broken = kind(e.name), set()
        grants = self.is_open(e, "Grant", "GrantAck", own=False)
        acquire = self.is_open(e, "AcquireBlock", "Grant")
        release = self.is_open(e, "Release", "ReleaseAck")
        if of in QUESTION and not self.is_owed(e, QUESTION[of], of):
            broken.add("question")
        if of == "Grant":
            broken |= self.by_grant(e)
        if of == "AcquireBlock" and acquire:
            broken.add("acquire-once")
        if of == "ProbeBlock" and self.is_open(e, "ProbeBlock", "ProbeAck"):
            broken.add("probe-once")
        if of in ("ProbeBlock", "Grant") and (grants or of == "Grant" and self.is_open(e, "ProbeBlock", "ProbeAck", own=False)):
            broken.add("grant-alone")
        if of in ("AcquireBlock", "ProbeAck", "Release") and (release or of == "Release" and acquire):
            broken.add("release-alone")
        return broken

    def by_copies(self, e):
        if e.way == "t":
            return set()
        has, broken = self.held.get((e.hart, e.line), "N"), set()
        if kind(e.name) in ("AcquireBlock", "Release") and e.change[0] != has:
            broken.add("permission-held")
        if kind(e.name) == "ProbeAck" and (e.hart, e.line) in self.probed:
            if e.change != has + "to" + min(has, self.probed[e.hart, e.line], key=PERMISSIONS.index):
                broken.add("probe-obeyed")
        if kind(e.name) == "Grant":
            beside = {"T": "N", "B": "NB", "N": "NBT"}[e.change[-1]]
            if any(line == e.line and hart != e.hart and perm not in beside for (hart, line), perm in self.noted.items()):
                broken.add("one-writer")
        if e.name in ("ProbeAckData", "ReleaseData") and has != "T":
            broken.add("data-asked")
        if e.name == "GrantData" and self.bytes.get(e.line, e.data) != e.data:
            broken.add("data-kept")
        return broken

    def note(self, e):
        of, here, queue = kind(e.name), (e.hart, e.line), (e.hart, CHANNEL[e.name])
        self.count[e.way, of, e.line, e.hart] += 1
        if e.way == "s":
            self.waits[queue].append(e)
        else:
            self.waits[queue][:1] = []
        if of == "AcquireBlock":
            if e.way == "t":
                self.grows[here].append(e.change)
            else:
                self.lost[here] = False
        if e.way == "t" and of == "ProbeAck" and e.change == "BtoN":
            self.lost[here] = True
        if e.way == "t" and of == "ProbeBlock":
            self.probed[here] = e.change[-1]
        if of in ("Grant", "ProbeAck", "Release"):
            at_manager = (of == "Grant") == (e.way == "s")
            (self.noted if at_manager else self.held)[here] = e.change[-1]
            if e.data is not None and at_manager:
                self.bytes[e.line] = e.data


def breaches(log):
    """Returns the first rule that each message breaks, with its number, of those that break one."""
    judge, found = Judge(), []
    for number, entry in enumerate(log):
        broken = judge.by_counts(entry) or judge.by_copies(entry)
        if broken:
            found.append((min(broken, key=RULES.index), number))
        judge.note(entry)
    return found


GROW = {"NtoB": "NtoT", "NtoT": "BtoT", "BtoT": "NtoB"}
CAP = {"toT": "toB", "toB": "toT", "toN": "toT"}
CHANGE = {"TtoB": "TtoN", "TtoN": "BtoN", "BtoN": "TtoN", "TtoT": "NtoN", "BtoB": "NtoN", "NtoN": "BtoN"}
KIND = {"AcquireBlock": ("Release", "BtoN"), "ProbeBlock": ("Grant", "toT"), "Grant": ("ReleaseAck", None),
        "ReleaseAck": ("GrantAck", None), "GrantAck": ("AcquireBlock", "NtoB"), "ProbeAck": ("Release", ...),
        "ProbeAckData": ("ProbeAck", ...), "Release": ("ProbeAck", ...), "ReleaseData": ("Release", ...), "GrantData": ("Grant", ...)}


def with_other_kind(e):
    name, change = KIND[e.name]
    return e._replace(name=name, change=e.change if change is ... else change, data=None)


def at_each_end(e):
    """Yields the entry with another permission, with other bytes and with bytes, where there is such."""
    if e.change:
        yield e._replace(change={**GROW, **CAP, **CHANGE}[e.change] if e.name != "AcquireBlock" else GROW[e.change])
    if e.data:
        yield e._replace(data=e.data[:-2] + f"{int(e.data[-2:], 16) ^ 1:02x}")
    if e.name in ("ProbeAck", "Release", "Grant"):
        yield e._replace(name=e.name + "Data", data="0" * 32)


def changes(log):
    for at, entry in enumerate(log):
        before, behind = log[:at], log[at + 1:]
        yield before + behind
        yield before + [entry, entry] + behind
        if behind:
            yield before + [behind[0], entry] + behind[1:]
        for other in [with_other_kind(entry), entry._replace(hart=int(entry.hart == 0)), *at_each_end(entry)]:
            yield before + [other] + behind
        taken = entry._replace(way="t")
        if entry.way == "s" and taken in behind:
            end = behind.index(taken)
            between, rest = behind[:end], behind[end + 1:]
            yield before + between + rest
            for other in at_each_end(entry):
                yield before + [other] + between + [other._replace(way="t")] + rest


def main():
    logs = read_logs("logs/machine")
    assert not any(map(breaches, logs))
    found = [breaches(changed) for log in logs for changed in changes(log)]
    first = collections.Counter(broken[0][0] for broken in found if broken)
    listed = collections.Counter(rule for broken in found for rule, _ in broken[:100])
    print(f"{len(logs)} logs are lawful; of their {len(found)} changes, judged alike, so many are")
    print(f"lawful {sum(not broken for broken in found)}")
    print("unlawful first by each rule, and so many messages of all by it")
    for rule in RULES:
        print(f"{rule} {first[rule]}, {listed[rule]}")
    for name in WRONG:
        rule, number = breaches(read_logs(name)[0])[0]
        print(f"{name}: {rule} {number}")


main()
