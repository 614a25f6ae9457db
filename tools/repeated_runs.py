#!/usr/bin/env python3
"""Runs programs by threads again and again, replays each journal, and compares what was printed, byte for byte.

repeated_runs.py RVTL [--times N] [--harts 1,2,4,8] [--limit N] [--one-core] [PROGRAM ..]

RVTL is the built program. Each PROGRAM, all of examples/ where none is named, runs N times on each number of
harts: `run`, then `replay` of its journal, whose standard output and standard error must be the run's. A line
tells of each program and number of harts how many runs were alike with their replays, how many ended because all
harts had, and the longest one's seconds. The status is 1 where any run differs or hangs."""
import argparse
import glob
import os
import subprocess
import sys
import tempfile
import time

HERE = os.path.dirname(os.path.realpath(__file__))
LONGEST = 120


def ran(words):
    return subprocess.run(words, capture_output=True, timeout=LONGEST)


def one_run(rvtl, core, program, harts, limit, journal):
    """Whether the replay says what the run said, whether all harts ended, and the run's seconds."""
    raw = ["--raw"] * program.endswith(".bin")
    began = time.monotonic()
    run = ran([*core, rvtl, "run", *raw, "--harts", str(harts), "--limit", str(limit), "--journal", journal, program])
    seconds = time.monotonic() - began
    again = ran([rvtl, "replay", *raw, program, journal])
    is_same = (run.returncode, run.stdout, run.stderr) == (again.returncode, again.stdout, again.stderr)
    if run.returncode or not is_same:
        print(f"{program} {harts}: {run.returncode} {run.stderr.decode(errors='replace').strip()}", file=sys.stderr)
    has_ended = all(b": run" not in line for line in run.stderr.splitlines())
    return run.returncode == 0 and is_same, has_ended, seconds


def main():
    parser = argparse.ArgumentParser(usage=__doc__)
    parser.add_argument("rvtl")
    parser.add_argument("programs", nargs="*")
    parser.add_argument("--times", type=int, default=100)
    parser.add_argument("--harts", default="1,2,4,8")
    parser.add_argument("--limit", type=int, default=1000000)
    parser.add_argument("--one-core", action="store_true")
    wanted = parser.parse_intermixed_args()
    examples = f"{os.path.dirname(HERE)}/examples"
    programs = wanted.programs or sorted(glob.glob(f"{examples}/*.elf") + glob.glob(f"{examples}/*.bin"))
    core = ["taskset", "-c", "0"] if wanted.one_core else []
    rvtl, has_failed = os.path.realpath(wanted.rvtl), False
    with tempfile.TemporaryDirectory() as room:
        for program in programs:
            for harts in map(int, wanted.harts.split(",")):
                try:
                    runs = [one_run(rvtl, core, program, harts, wanted.limit, f"{room}/journal") for _ in range(wanted.times)]
                except subprocess.TimeoutExpired:
                    print(f"{os.path.basename(program)} {harts} harts: no end after {LONGEST} seconds", flush=True)
                    has_failed = True
                    continue
                same, ended = sum(it[0] for it in runs), sum(it[1] for it in runs)
                longest = max(it[2] for it in runs)
                print(f"{os.path.basename(program)} {harts} harts: {same} of {len(runs)} alike, {ended} ended, longest {longest:.2f} s", flush=True)
                has_failed |= same < len(runs)
    return has_failed


sys.exit(main())
