#!/usr/bin/env python3
"""Runs the gate, and tells how many processor seconds each crate's proof, tests and edits took, and how much memory.

usage: tools/gate_shares.py [COMMAND..]     (from the top of the repository; COMMAND is `.ci/run` where none is given)

It looks twice a second at the processes of the toolchain that run below the command, by Linux's /proc, and
adds up the processor time that each had taken when it was last seen. So a process's last half second isn't
in the shares (the total is the system's own and has it), and what runs beside the toolchain's own program (`rt`
itself, the linker, the programs and tests that were built) stands under `other`, each by its own name.
The command's output goes to standard output; the shares follow it, with the most memory that one process of
each crate held, and the slowest edits. Of a crate with several edits the first check proves the whole crate,
for the others to begin with: by some kits as it stands, by others with the first edit, which is left out then.
The last check is of the crate as it stands.
"""
import collections
import os
import resource
import subprocess
import sys
import time

TICK = os.sysconf("SC_CLK_TCK")
SLOWEST = 20


def processes():
    """Returns each process's parent and its seconds so far, by /proc."""
    found = {}
    for name in filter(str.isdigit, os.listdir("/proc")):
        try:
            with open(f"/proc/{name}/stat") as file:
                fields = file.read().rpartition(")")[2].split()
        except OSError:
            continue
        found[int(name)] = (int(fields[1]), (int(fields[11]) + int(fields[12])) / TICK)
    return found


def below(top, every):
    """Returns those of these processes that the one at the top started, directly or not, with their seconds."""
    found, grown = {top}, True
    while grown:
        more = {pid for pid, (parent, _) in every.items() if parent in found and pid not in found}
        found, grown = found | more, bool(more)
    return {pid: every[pid][1] for pid in found if pid in every}


def name_of(words):
    """Returns a program's name: of a script its own, and not that of what reads it."""
    is_text = any(it[:1] == "-" and it[-1:] == "c" for it in words)
    is_read = not is_text and os.path.basename(words[0]) in ("python3", "bash", "sh")
    return os.path.basename(next((it for it in words[is_read:] if it and it[0] != "-"), words[0]))


def share_of(pid):
    """Returns the crate, the kind of work that a process is at, and, of an edit, the folder where it is tried."""
    try:
        with open(f"/proc/{pid}/cmdline", "rb") as file:
            words = file.read().decode(errors="replace").split("\0")
        folder = os.readlink(f"/proc/{pid}/cwd").partition(" (deleted)")[0]
    except OSError:
        return None
    if not words[0]:
        # (it has ended, and was counted as what it was)
        return None
    if not words[0].endswith("/rattle"):
        return (name_of(words), "other", "")
    crate = words[words.index("--crate-name") + 1] if "--crate-name" in words else "other"
    if "/rt-edit-" in folder:
        return (crate, "edits", folder)
    return (crate, "tests" if "--test" in words else "proof", "")


def memory_of(pid):
    """Returns the most memory that a process has held so far, in MB."""
    try:
        with open(f"/proc/{pid}/status") as file:
            found = [line for line in file if line.startswith("VmHWM:")]
    except OSError:
        return 0
    return int(found[0].split()[1]) * 1024 // 1_000_000 if found else 0


def slowest(seen):
    """Returns each edit's seconds and name, the slowest first: the gate tries a crate's edits by their names."""
    by_crate = collections.defaultdict(collections.Counter)
    for (_, (crate, kind, folder)), seconds in seen.items():
        if kind == "edits":
            by_crate[crate][folder] += seconds
    found = []
    for crate, checks in by_crate.items():
        checks = [*checks.values()]
        folder = f"crates/{crate}/must-fail"
        names = sorted(it for it in os.listdir(folder) if it.endswith(".edit"))
        if len(checks) == len(names) + 1:
            names = names[1:]
        if len(checks) == len(names) + 2:
            found += [(seconds, f"{crate}/{name}") for seconds, name in zip(checks[1:-1], names)]
    return sorted(found, reverse=True)


def main():
    started = time.time()
    run = subprocess.Popen(sys.argv[1:] or [".ci/run"])
    seen, held = {}, collections.Counter()
    while run.poll() is None:
        for pid, seconds in below(run.pid, processes()).items():
            share = share_of(pid)
            if share:
                seen[pid, share] = max(seconds, seen.get((pid, share), 0))
                held[share[0]] = max(held[share[0]], memory_of(pid))
        time.sleep(0.5)
    shares = collections.defaultdict(lambda: collections.Counter())
    for (_, (crate, kind, _)), seconds in seen.items():
        shares[crate][kind] += seconds
    total = sum(sum(kinds.values()) for kinds in shares.values())
    used = resource.getrusage(resource.RUSAGE_CHILDREN)
    whole = (used.ru_utime + used.ru_stime) / 60
    minutes = (time.time() - started) / 60
    print(f"\nprocessor minutes {whole:.1f}, of which below {total / 60:.1f}, wall minutes {minutes:.1f}")
    print(f"{'crate':24}{'proof':>8}{'tests':>8}{'edits':>8}{'other':>8}   processor seconds{'MB':>8}")
    for crate, kinds in sorted(shares.items(), key=lambda it: -sum(it[1].values())):
        taken = "".join(f"{kinds[kind]:8.0f}" for kind in ("proof", "tests", "edits", "other"))
        print(f"{crate:24}{taken}{held[crate]:28}")
    print("the slowest edits")
    for seconds, name in slowest(seen)[:SLOWEST]:
        print(f"{seconds:8.0f}   {name}")
    return run.returncode


if __name__ == "__main__":
    sys.exit(main())
