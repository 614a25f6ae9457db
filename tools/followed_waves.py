#!/usr/bin/env python3
"""Holds the waves of `rvtl explain --vcd` against what the machine holds.

usage: tools/followed_waves.py [COUNT]     (from the top of the repository; the built program, and vcd2fst and fst2vcd where GTKWave is)

Prints the waves of each script of `examples/` and of `gate_comparisons`, and compares each signal at the end and behind COUNT
events (6 without one) with what `explain --state` tells of a script that ends there. Where vcd2fst is, it reads each dump too: it may
warn of nothing, and each value has to come back from it. Prints how many values were compared, and the first ones that differ; the
status is 1 where one does.
"""
import pathlib
import random
import shutil
import subprocess
import sys
import tempfile

sys.dont_write_bytecode = True
from followed_pages import scripts  # noqa: E402

TOP = pathlib.Path(__file__).resolve().parent.parent
RVTL = TOP / "crates/rvtl/out/rvtl"
MESSAGES = "AcquireBlock ProbeBlock ProbeAck ProbeAckData Release ReleaseData Grant GrantData ReleaseAck GrantAck".split()
PERMISSIONS = ("Nothing", "Branch", "Trunk")
STATUSES = ("run", "stop", "exit")


def read_dump(text):
    """Returns a value change dump's signals by name, and their values by time."""
    head, changes = text.split("$enddefinitions $end\n", 1)
    scope, names, words = [], {}, head.split()
    for place, word in enumerate(words):
        if word == "$scope":
            scope.append(words[place + 2])
        elif word == "$upscope":
            scope.pop()
        elif word == "$var":
            names[words[place + 3]] = ".".join([*scope, words[place + 4]])
    held, times, time = {}, {}, None
    for line in changes.splitlines():
        if line.startswith("#"):
            time = int(line[1:])
        elif line.startswith("b"):
            value, name = line[1:].split()
            held[names[name]] = int(value, 2)
        elif line and not line.startswith("$"):
            held[names[line[1:]]] = int(line[0])
        if time is not None:
            times[time] = dict(held)
    if len(set(names.values())) != len(names):
        raise ValueError("two signals have one name")
    return set(names.values()), times


def put_store(held, hart, word, data):
    """Counts a store that waits, and keeps the first one's word, bytes and mask."""
    held[f"{hart}.stores"] += 1
    if held[f"{hart}.stores"] > 1:
        return
    written = [data[place : place + 2] for place in range(0, 8, 2)]
    held[f"{hart}.oldest_word"] = int(word, 16)
    held[f"{hart}.oldest_bytes"] = sum(int(byte, 16) << 8 * place for place, byte in enumerate(written) if byte != "--")
    held[f"{hart}.oldest_mask"] = sum(1 << place for place, byte in enumerate(written) if byte != "--")


def put_message(held, queue, message, line):
    held[f"{queue}.length"] += 1
    if held[f"{queue}.length"] == 1:
        held[f"{queue}.front"] = MESSAGES.index(message) + 1
        held[f"{queue}.front_line"] = int(line, 16)


def put_copy(held, part, words):
    held[f"{part}.permission"] = PERMISSIONS.index(words[-2])
    if words[3] == "dirty":
        held[f"{part}.dirty"] = 1


def put_record(held, part, words):
    held[f"{part}.record"] = PERMISSIONS.index(words[3])
    if words[-1] == "awaited":
        held[f"{part}.awaited"] = 1


def told_by(signals, stream):
    """The signals' values by the lines of `explain --state`."""
    held = dict.fromkeys(signals, 0)
    for line in stream.splitlines():
        words = line.split(" ; ")[0].split()
        match words:
            case ["R", hart, _, word, *_]:
                held[f"hart{hart}.instruction"] = int(word, 16)
            case ["H", hart, status, *code]:
                held[f"hart{hart}.status"] = STATUSES.index(status)
                held[f"hart{hart}.code"] = int(code[0]) if code else 0
            case ["X", hart, "pc", value]:
                held[f"hart{hart}.pc"] = int(value, 16)
            case ["B", hart, _, word, data]:
                put_store(held, f"hart{hart}", word, data)
            case ["L", hart, word]:
                held[f"hart{hart}.reserved"], held[f"hart{hart}.reserved_word"] = 1, int(word, 16)
            case ["C", hart, line, *_]:
                put_copy(held, f"line_{line}.hart{hart}", words)
            case ["A", hart, line]:
                held[f"line_{line}.hart{hart}.acquiring"] = 1
            case ["U", hart, line]:
                held[f"line_{line}.hart{hart}.releasing"] = 1
            case ["Q", channel, hart, message, line, *_]:
                put_message(held, f"hart{hart}.{channel}", message, line)
            case ["N", hart, line, *_]:
                put_record(held, f"line_{line}.hart{hart}", words)
            case ["G", hart, line, *kind]:
                held[f"line_{line}.transaction"] = 1 if kind[0] == "Probing" else 2
                held[f"line_{line}.requester"] = int(hart)
    return held


def explained(option, image, script, *more):
    return subprocess.run([RVTL, "explain", *option, image, script, *more], capture_output=True, text=True)


def read_back(dump, room):
    """What vcd2fst makes of a dump and fst2vcd tells of that, and what it warns of."""
    fst = room / "run.fst"
    ran = subprocess.run(["vcd2fst", dump, fst], capture_output=True, text=True)
    back = subprocess.run(["fst2vcd", fst], capture_output=True, text=True)
    return back.stdout, ran.stdout + ran.stderr + back.stderr


def read_otherwise(name, dump, room, signals, times):
    """Tells where vcd2fst reads a dump otherwise, or warns."""
    back, warned = read_back(dump, room)
    again, found = read_dump(back)
    wrong = [f"{name}: vcd2fst says {warned}"] * bool(warned) + [f"{name}: other signals are read back"] * (again != signals)
    last = {}
    for time in times:
        # (a time at which nothing changes doesn't come back)
        last = found.get(time, last)
        wrong += [f"{name}, time {time}: read back otherwise"] * (last != times[time])
    return wrong


def differences(name, room, script, image, option, chance, count):
    """Returns how many values were compared, and how each differs that does; or None where there are no waves."""
    dump, shorter, wrong, compared = room / "run.vcd", room / "script", [], 0
    ran = explained(option, image, script, "--vcd")
    if ran.returncode:
        return None
    dump.write_text(ran.stdout)
    signals, times = read_dump(ran.stdout)
    lines = script.read_text().splitlines()
    if sorted(times) != list(range(1, len(lines) + 1)):
        wrong.append(f"{name}: {len(times)} times for {len(lines)} lines")
    for time in [len(lines), *(chance.randint(1, len(lines)) for _ in range(count))]:
        shorter.write_text("\n".join(lines[:time]) + "\n")
        held = told_by(signals, explained(option, image, shorter, "--state").stdout)
        compared += len(held)
        wrong += [f"{name}, time {time}: {it} is {held[it]}, in the waves {times[time].get(it)}" for it in held if held[it] != times[time].get(it)]
    if shutil.which("vcd2fst"):
        wrong += read_otherwise(name, dump, room, signals, times)
    return compared, wrong


def main():
    count = int(sys.argv[1]) if len(sys.argv) > 1 else 6
    chance, told, values, wrong = random.Random(1), 0, 0, []
    with tempfile.TemporaryDirectory() as folder:
        for script, image, option in scripts():
            found = differences(script.name, pathlib.Path(folder), script, image, option, chance, count)
            if found:
                told, values, wrong = told + 1, values + found[0], wrong + found[1]
    print(*wrong[:20], sep="\n", end="\n" * bool(wrong))
    read = "read back by vcd2fst" if shutil.which("vcd2fst") else "not read back, as vcd2fst is not here"
    print(f"{told} scripts' waves, {read}: {values} values compared, {len(wrong)} faults")
    return 1 if wrong or not values else 0


if __name__ == "__main__":
    sys.exit(main())
