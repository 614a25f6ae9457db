#!/usr/bin/env python3
"""Opens the pictures of `rvtl chart` in a browser without a window, and holds where their texts stand against each other.

usage: tools/seen_charts.py [FOLDER]     (from the top of the repository; the built program, and Debian's `chromium` on PATH)

Where Chromium isn't on PATH the status is 2. Pictures are of 1, 2, 4 and 8 harts, of programs with names and of bare words, in
light and in dark, in a window of 1,600 pixels. No two texts may overlap, none stand outside the picture, one that is cut has
a title, and a picture of one or two lines of memory is at most 1,600 pixels wide. Screenshots are left in FOLDER, where one is
named: look at them. Prints each picture that isn't so, and how many were opened; the status is 1 where one isn't.
"""
import subprocess
import sys

from seen_pages import KEPT, RVTL, TOP, Tab, opened

WIDE, HIGH = 1600, 1000

# How wide the picture is and how many lines of memory it has, and what is wrong with its texts.
LOOK = """(() => {
  const found = [], all = [...document.querySelectorAll('text')], wide = document.documentElement.getBoundingClientRect().width;
  const boxes = all.filter(t => t.firstChild.data.trim()).map(t => [t.getBoundingClientRect(), t.firstChild.data]);
  for (const [box, text] of boxes) if (box.left < 0 || box.right > wide) found.push('outside: ' + text);
  boxes.sort((a, b) => a[0].top - b[0].top);
  for (let i = 0; i < boxes.length; i++) for (let j = i + 1; j < boxes.length && boxes[j][0].top < boxes[i][0].bottom - 4; j++) {
    const [a, b] = [boxes[i], boxes[j]];
    if (a[0].left < b[0].right - 0.3 && b[0].left < a[0].right - 0.3) found.push('overlap: ' + a[1] + ' / ' + b[1]);
  }
  for (const t of all) if (t.firstChild.data.endsWith('...') && !t.querySelector('title')) found.push('no title: ' + t.firstChild.data);
  const harts = all.filter(t => t.textContent.startsWith('cache ')).length;
  return [wide, all.filter(t => t.getAttribute('class') === 'address').length / harts, found];
})()"""


def begun(script, file):
    """Returns a file with the script's first events, as many as a picture surely has rows for."""
    file.write_bytes(b"".join(script.read_bytes().splitlines(True)[:300]))
    return file


def pictures(room):
    """Yields a name, and the words of a picture."""
    yield "1-bare", ["--raw", TOP / "examples/load.bin", TOP / "examples/load.script"]
    yield "2-named", [TOP / "examples/dekker.elf", TOP / "examples/dekker.script"]
    yield "2-crossing", ["--raw", TOP / "examples/release_crosses_probe.bin", TOP / "examples/release_crosses_probe.script"]
    for name, harts in (("lost_update", 2), ("lost_update", 4), ("lost_update", 8), ("mcs_lock", 4), ("mcs_lock", 8)):
        image, journal = TOP / f"examples/{name}.elf", room / f"{name}-{harts}.script"
        subprocess.run([RVTL, "run", "--harts", str(harts), "--limit", "600", "--journal", journal, image], capture_output=True)
        yield f"{harts}-{name}", [image, begun(journal, journal)]
    for name in ("057-4-harts-64-by-1", "052-8-harts-1-by-4-line-16"):
        yield f"{name[4]}-random", ["--raw", KEPT / f"random-{name}.bin", begun(KEPT / f"random-{name}.script", room / f"{name}.script")]


def looked_at(browser, room, shots):
    """Yields each picture's name, and what is wrong with it."""
    for name, words in pictures(room):
        drawn = subprocess.run([RVTL, "chart", *words], capture_output=True)
        file = room / f"{name}.svg"
        file.write_bytes(drawn.stdout)
        if drawn.returncode:
            yield name, [drawn.stderr.decode(errors="replace").strip()]
            continue
        for scheme in ("light", "dark"):
            tab = Tab(browser, scheme)
            tab.call("Emulation.setDeviceMetricsOverride", width=WIDE, height=HIGH, deviceScaleFactor=1, mobile=False)
            tab.open(file)
            wide, lines, found = tab.value(LOOK)
            if lines <= 2 and wide > WIDE:
                found.append(f"{wide} pixels wide")
            tab.shot(shots / f"{name}-{scheme}.png")
            browser.call("Target.closeTarget", targetId=tab.target)
            yield f"{name}-{scheme}", found


if __name__ == "__main__":
    sys.exit(opened(looked_at, "picture"))
