#!/usr/bin/env python3
"""Holds what the pages of `rvtl page` make of runs against what the machine holds.

usage: tools/followed_pages.py [COUNT]     (from the top of the repository; the built program, and node on PATH)

Plays the scripts of `examples/` and of `gate_comparisons`, whole and cut off behind COUNT places each (6 without one), so that
stores and messages are on their way. Of each it prints a page, has node run the page's own script, which follows the stream
behind it, and compares registers, reservations, copies, requests, queues, notes, transactions and memory with the lines of
`explain --state` there. Prints how many pages were followed, and each that isn't as the machine is; the status is 1 where there is one.
"""
import pathlib
import random
import subprocess
import sys
import tempfile

TOP = pathlib.Path(__file__).resolve().parent.parent
RVTL = TOP / "crates/rvtl/out/rvtl"
FOLDERS = (TOP / "examples", *(TOP / "crates/gate_comparisons/data" / it for it in (".", "replayed", "refuted")))

# Runs the first script of a page in a function, and asks it for the differences that the page itself would tell.
FOLLOW = """
const text = require('fs').readFileSync(process.argv[1], 'utf8'), tag = '<plaintext id=' + String.fromCharCode(39) + 'stream' + String.fromCharCode(39) + ' hidden>';
const script = text.split('<script>')[1].split('</script>')[0];
const page = new Function('document', script + ';return {parse, prepare, differences};')(undefined);
const run = page.parse(text.slice(text.indexOf(tag) + tag.length));
page.prepare(run);
if (!run.held.length) throw new Error('no state stands behind the stream');
for (const line of page.differences(run)) console.log(line);
"""


def scripts():
    """Yields each script with its image and the option that the image wants."""
    for folder in FOLDERS:
        for script in sorted(folder.glob("*.script")):
            for ending, option in ((".elf", []), (".bin", ["--raw"])):
                if script.with_suffix(ending).is_file():
                    yield script, script.with_suffix(ending), option


def followed(image, option, lines, room):
    """Returns how a page of these lines differs from the machine, or None where the script is refused."""
    script, page = room / "script", room / "page.html"
    script.write_text("\n".join(lines) + "\n")
    with page.open("wb") as out:
        told = subprocess.run([RVTL, "page", *option, image, script], stdout=out, stderr=subprocess.DEVNULL)
    if told.returncode:
        return None
    ran = subprocess.run(["node", "-e", FOLLOW, page], capture_output=True, text=True)
    return ran.stdout + ran.stderr


def main():
    count = int(sys.argv[1]) if len(sys.argv) > 1 else 6
    chance, pages, wrong = random.Random(1), 0, 0
    with tempfile.TemporaryDirectory() as folder:
        for script, image, option in scripts():
            lines = script.read_text().splitlines()
            for places in [len(lines), *(chance.randint(1, len(lines)) for _ in range(count))]:
                differs = followed(image, option, lines[:places], pathlib.Path(folder))
                if differs is None:
                    continue
                pages += 1
                if differs:
                    wrong += 1
                    print(f"{script.name}, its first {places} lines: {differs[:300]}")
    print(f"{pages} pages followed, {wrong} otherwise than the machine")
    return 1 if wrong or not pages else 0


if __name__ == "__main__":
    sys.exit(main())
