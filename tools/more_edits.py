#!/usr/bin/env python3
"""Tries the edits that the gate leaves out, crates/NAME/must-fail/*.md: of functions that a crate keeps to itself, and
of crates whose proof would be tried once more for them.

usage: tools/more_edits.py [NAME..]     (from the top of the repository; of each crate where none is named)

It copies the repository with what was built there (by links, below .git), has the copy's edits be these alone,
and runs `rt must-fail`: some 20 to 100 seconds an edit. Its status is 0 where each is refused.
"""
import glob
import os
import shutil
import subprocess
import sys
import tempfile


def main(names):
    texts = sorted(glob.glob("crates/*/must-fail/*.md"))
    if not texts:
        sys.exit("more_edits: no crates/NAME/must-fail/*.md here: run it from the top of the repository")
    names = names or sorted({text.split("/")[1] for text in texts})
    unknown = [name for name in names if not glob.glob(f"crates/{name}/must-fail/*.md")]
    if unknown:
        sys.exit(f"more_edits: no such edits in: {' '.join(unknown)}")
    with tempfile.TemporaryDirectory(prefix="more-edits-", dir=".git") as room:
        copy = f"{room}/copy"
        shutil.copytree(".", copy, copy_function=os.link, ignore=shutil.ignore_patterns(".git"))
        for name in names:
            for edit in glob.glob(f"{copy}/crates/{name}/must-fail/*.edit"):
                os.remove(edit)
            for text in glob.glob(f"{copy}/crates/{name}/must-fail/*.md"):
                os.rename(text, f"{text[:-len('.md')]}.edit")
        return subprocess.run(["rt", "must-fail", *names], cwd=copy).returncode


if __name__ == "__main__":
    sys.exit(main(sys.argv[1:]))
