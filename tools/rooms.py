#!/usr/bin/env python3
"""Says whether each crate stands on its own room and on rooms above it alone, whether docs/ARCHITECTURE.md lists the crates in
the same rooms and order, and whether the crates' ways are few.

usage: tools/rooms.py     (from the top of the repository)

crates.txt lists the crates by room: a line `# Room NAME: what it has`, and below it the room's crates. A crate may stand on
crates of its own room and of rooms above it in that list. ARCHITECTURE has `**NAME**: what it has` and lines ``- `crate`, ..: ``
below. The status is 1 where a crate stands elsewhere, twice, or in another order, and each is told.

A way is a crate, one that it names in its line, one that this names, and so on. `rt ci` walks each way that leads to a
crate, and earlier ones read its files each time, for each library twice: 3,800,000 ways took it more than 4
hours. So a crate that wants little of another takes it by one that it stands on anyway, which passes it on (`pub use`), and
the status is 1 where the libraries have more ways than WAYS."""
import collections
import itertools
import os
import re
import sys

WAYS = 200_000


def read_rooms(lines):
    """Returns the rooms' names; each crate's room, by its number, with the crates that it stands on; and who is listed twice."""
    rooms, crates, twice = [], {}, []
    for line in lines:
        if line.startswith("# Room "):
            rooms.append(line.removeprefix("# Room ").partition(":")[0])
        elif line.startswith("#"):
            continue
        elif line.strip():
            head, _, below = line.partition(":")
            name = head.split()[0]
            twice += [name] * (name in crates)
            crates[name] = (len(rooms) - 1, below.split())
    return rooms, crates, twice


def read_page(lines):
    """Returns the rooms and their crates, one after the other, of the page's first section."""
    listed = []
    for line in lines:
        if line.startswith("## ") and listed:
            break
        if line.startswith("**"):
            listed.append(line.removeprefix("**").partition("**")[0])
        elif line.startswith("- `") and listed:
            listed += re.findall(r"`(\w+)`", line.partition(": ")[0])
    return listed


def first_apart(listed, rooms, crates):
    """Returns what the page has in another place than crates.txt, or nothing."""
    wanted = []
    for number, room in enumerate(rooms):
        wanted += [room] + [name for name, (other, _) in crates.items() if other == number]
    for ours, theirs in itertools.zip_longest(wanted, listed, fillvalue="nothing"):
        if ours != theirs:
            return [f"docs/ARCHITECTURE.md has {theirs} where crates.txt has {ours}"]
    return []


def count_ways(name, crates, ways):
    """Counts the ways that begin at a crate, into ways."""
    if name not in ways:
        ways[name] = 1 + sum(count_ways(other, crates, ways) for other in crates[name][1] if other in crates)
    return ways[name]


def main():
    with open("crates.txt", encoding="utf-8") as file:
        rooms, crates, twice = read_rooms(file.read().splitlines())
    faults = [f"{name} is on two lines" for name in twice]
    faults += [f"{name} has no room" for name, (room, _) in crates.items() if room < 0]
    faults += [f"{name} is listed, and isn't there" for name in crates if not os.path.isdir(f"crates/{name}/src")]
    for name, (room, below) in crates.items():
        for other in below:
            if other in crates and crates[other][0] > room:
                faults.append(f"{name} ({rooms[room]}) stands on {other} ({rooms[crates[other][0]]})")
    with open("docs/ARCHITECTURE.md", encoding="utf-8") as file:
        faults += first_apart(read_page(file.read().splitlines()), rooms, crates)
    ways = {}
    for name in crates:
        count_ways(name, crates, ways)
    ways = sum(number for name, number in ways.items() if not os.path.isfile(f"crates/{name}/src/main.rt"))
    if ways > WAYS:
        faults.append(f"the libraries have {ways} ways, more than {WAYS}: name fewer crates in a line of crates.txt")
    for fault in faults:
        print(fault)
    counts = collections.Counter(room for room, _ in crates.values())
    print(f"{len(crates)} crates in {len(rooms)} rooms: " + ", ".join(f"{name} {counts[number]}" for number, name in enumerate(rooms)) + f"; {ways} ways")
    sys.exit(bool(faults))


main()
