#!/usr/bin/env python3
"""Measures runs by threads against plain Rust.

measure.py PROVED PLAIN [--runs N] [--harts 1,2,4] [--asleep]

PROVED and PLAIN are the two programs (README.md). Builds private.c, amo.c and spin.c in a folder of its own, runs both
programs on each of them in turn, N times (15), and prints for each number of harts the medians of the wall times
in milliseconds, and how many times plain Rust's the proved one's is; with --asleep also the median of plain Rust
whose threads sleep where the lock is held. The machine is to be quiet: with other
work beside it, medians of one program differ by a third. It takes about a minute."""
import argparse
import os
import statistics
import subprocess
import tempfile
import time

HERE = os.path.dirname(os.path.realpath(__file__))
EXAMPLES = f"{os.path.dirname(os.path.dirname(HERE))}/examples"
PROGRAMS = [("private", 120000), ("amo", 24576), ("spin", 4096)]
BUILD = "riscv64-unknown-elf-gcc -march=rv32ima -mabi=ilp32 -O2 -ffreestanding -nostdlib -static -Wl,-n,-s".split()
LIMIT = "1000000000"


def built(folder, name, rounds):
    words = [f"-DROUNDS={rounds}", "-I", EXAMPLES, "-T", f"{EXAMPLES}/rvtl.ld", f"{EXAMPLES}/start.s", f"{HERE}/{name}.c"]
    subprocess.run([*BUILD, *words, "-o", f"{folder}/{name}.elf"], check=True, stderr=subprocess.DEVNULL)
    return f"{folder}/{name}.elf"


def seconds(program, harts, elf, *words):
    began = time.perf_counter()
    run = subprocess.run([program, str(harts), "rvwmo", LIMIT, elf, *words], stdout=subprocess.PIPE, check=True, text=True)
    took = time.perf_counter() - began
    if run.stdout.count("Exited(0)") != harts:
        raise SystemExit(f"{program} {harts} {elf}: not all harts have ended")
    return took


def main():
    parser = argparse.ArgumentParser(usage=__doc__)
    parser.add_argument("proved")
    parser.add_argument("plain")
    parser.add_argument("--runs", type=int, default=15)
    parser.add_argument("--harts", default="1,2,4")
    parser.add_argument("--asleep", action="store_true")
    wanted = parser.parse_args()
    proved, plain = (os.path.realpath(it) for it in (wanted.proved, wanted.plain))
    runs = [(proved,), (plain,)] + [(plain, "asleep")] * wanted.asleep
    print(f"{'':10}{'harts':>6}{'proved':>9}{'plain':>9}{'ratio':>7}" + f"{'asleep':>9}" * wanted.asleep)
    with tempfile.TemporaryDirectory() as folder:
        for name, rounds in PROGRAMS:
            elf = built(folder, name, rounds)
            for harts in map(int, wanted.harts.split(",")):
                took = [[seconds(program, harts, elf, *words) for program, *words in runs] for _ in range(wanted.runs)]
                medians = [statistics.median(it) * 1000 for it in zip(*took)]
                told = f"{name:10}{harts:6}{medians[0]:9.1f}{medians[1]:9.1f}{medians[0] / medians[1]:7.2f}"
                print(told + "".join(f"{it:9.1f}" for it in medians[2:]), flush=True)


main()
