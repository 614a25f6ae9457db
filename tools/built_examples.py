#!/usr/bin/env python3
"""Builds the programs of examples/ anew, as the tables and commands of examples/README.md tell, and compares each with
the ELF file kept there and with the copy that `gate_comparisons` keeps.

usage: tools/built_examples.py    from the top of the repository, where those commands are (GCC 12.2 with binutils
2.40, clang and ld.lld 14). A line tells of each ELF file that isn't the same and of each file that stands in no table,
the last one how many are the same. The status is 1 where any isn't.
"""
import re
import shutil
import subprocess
import sys
import tempfile
from pathlib import Path

EXAMPLES = Path("examples")
COPIES = Path("crates/gate_comparisons/data")
ROW = re.compile(r"\| `(\w+)` \| `(\w+\.[sc])`( by clang)?(?: with (.*?))? \|")
BUILDERS = {"s": ("-as", "-ld"), "c": ("-gcc",), "clang": ("clang", "ld.lld")}


def commands(row, lines):
    """The commands that build this row's program, each a list of words."""
    name, source, by_clang, told = row
    options = re.findall(r"`([^`]+)`", told)
    for line in lines:
        words = line.split()
        if words[0].endswith(BUILDERS["clang" if by_clang else source[-1]]):
            each = [[word.replace("OPTION", o) for o in options] if "OPTION" in word else [word] for word in words]
            yield [word.replace("NAME", name).replace("SOURCE", source) for group in each for word in group]


def others(row, lines, room):
    """The kept ELF files that aren't what this row's program is built to."""
    for command in commands(row, lines):
        subprocess.run(command, cwd=room, check=True, stderr=subprocess.DEVNULL)
    elf = f"{row[0]}.elf"
    built = Path(room, elf).read_bytes()
    kept = [EXAMPLES / elf] + [path for path in [COPIES / elf] if path.exists()]
    return [path for path in kept if not path.exists() or path.read_bytes() != built]


def main():
    text = (EXAMPLES / "README.md").read_text()
    lines = [line for line in text.splitlines() if line.startswith("    ")]
    rows = ROW.findall(text)
    named = {"start.s", *(row[1] for row in rows), *(f"{row[0]}.elf" for row in rows)}
    unnamed = sorted(path for path in EXAMPLES.glob("*.*") if path.suffix in (".s", ".c", ".elf") and path.name not in named)
    for path in unnamed:
        print(f"{path} stands in no table")
    same = 0
    with tempfile.TemporaryDirectory() as room:
        shutil.copytree(EXAMPLES, room, dirs_exist_ok=True, ignore=shutil.ignore_patterns("*.elf"))
        for row in rows:
            wrong = others(row, lines, room)
            for path in wrong:
                print(f"{path} isn't what {row[1]} is built to")
            same += not wrong
    print(f"{same} of {len(rows)} are the same")
    return same < len(rows) or bool(unnamed)


sys.exit(main())
