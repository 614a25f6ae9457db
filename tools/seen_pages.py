#!/usr/bin/env python3
"""Opens the pages of `rvtl page` in a browser without a window, and holds what they show against what `rvtl explain` tells.

usage: tools/seen_pages.py [FOLDER]     (from the top of the repository; the built program, and Debian's `chromium` on PATH)

Chromium is told what to do through a pipe, by its DevTools protocol, so nothing else is wanted; where it isn't on PATH the
status is 2. Pages are of 2, 4 and 8 harts, short and long: of scripts, and of the traces that `replay` prints of them; each in
light and in dark, in a window of 1,920 to 1,000 pixels. At three events (by the arrow keys, by the page's search, and the last one)
the panel has to tell what `explain --state` tells of the script cut off there, or of a trace's operation the lines of `explain`. No
error may be logged, each hart has its lane, drawings are at most 1,600 pixels wide, no two texts of a run's drawing overlap, each
store that waits at the end and each message that is never taken has its mark, and bars tell their bytes. Screenshots are left in
FOLDER, where one is named: look at them. Prints each page that isn't so, and how many were opened; the status is 1 where one isn't.
"""
import base64
import json
import os
import pathlib
import shutil
import subprocess
import sys
import tempfile
import time

TOP = pathlib.Path(__file__).resolve().parent.parent
RVTL = TOP / "crates/rvtl/out/rvtl"
KEPT = TOP / "crates/gate_comparisons/data/replayed"
WIDE, HIGH, DRAWN = 1920, 1000, 1600

# The panel's headings, each with the cells of the rows below it, or the lines of its text.
PANEL = """[...document.querySelectorAll('#held h2')].map(h => {
  const it = h.nextElementSibling, cells = it && it.tagName === 'TABLE' ? [...it.rows].map(r => [...r.cells].map(c => c.textContent)) : [];
  return [h.textContent, cells, it && it.tagName === 'PRE' ? it.textContent.split(String.fromCharCode(10)) : []]; })"""
# Pairs of texts in the drawing, or above it, of which one lies on the other by more than a pixel.
OVERLAPS = """(() => { const found = [], all = [...document.querySelectorAll('#rows > text, #heads text')].filter(t => t.textContent).map(t => [t.getBoundingClientRect(), t.textContent, t.parentNode.id]);
  all.sort((a, b) => a[0].top - b[0].top);
  for (let i = 0; i < all.length; i++) for (let j = i + 1; j < all.length && all[j][0].top < all[i][0].bottom - 4; j++) {
    const [a, b] = [all[i], all[j]];
    if (a[2] === b[2] && a[0].left < b[0].right - 1 && b[0].left < a[0].right - 1) found.push(a[1] + ' / ' + b[1]);
  }
  return found; })()"""


class Browser:
    """Chromium, and the messages that it and this program have passed through two pipes."""

    def __init__(self, folder):
        theirs, ours = os.pipe()
        answers, told = os.pipe()
        words = f"--headless --no-sandbox --disable-gpu --no-first-run --remote-debugging-pipe --user-data-dir={folder}"
        self.process = subprocess.Popen(["sh", "-c", f"exec chromium {words} about:blank 3<&{theirs} 4>&{told}"], pass_fds=(theirs, told),
                                        stdout=subprocess.DEVNULL, stderr=subprocess.DEVNULL)
        os.close(theirs)
        os.close(told)
        self.ours, self.answers, self.rest, self.count, self.events = ours, answers, b"", 0, []

    def message(self):
        while b"\0" not in self.rest:
            more = os.read(self.answers, 1 << 16)
            if not more:
                sys.exit("chromium ended")
            self.rest += more
        text, self.rest = self.rest.split(b"\0", 1)
        return json.loads(text)

    def call(self, method, session=None, **words):
        self.count += 1
        asked = {"id": self.count, "method": method, "params": words, **({"sessionId": session} if session else {})}
        sent = json.dumps(asked).encode() + b"\0"
        while sent:
            sent = sent[os.write(self.ours, sent):]
        while True:
            got = self.message()
            if got.get("id") == self.count:
                if "error" in got:
                    raise RuntimeError(f"{method}: {got['error']}")
                return got["result"]
            self.events.append(got)


class Tab:
    """A page that is open."""

    def __init__(self, browser, scheme):
        self.browser = browser
        self.target = browser.call("Target.createTarget", url="about:blank")["targetId"]
        self.session = browser.call("Target.attachToTarget", targetId=self.target, flatten=True)["sessionId"]
        for domain in ("Page", "Runtime", "Log"):
            self.call(f"{domain}.enable")
        self.call("Emulation.setDeviceMetricsOverride", width=WIDE, height=HIGH, deviceScaleFactor=1, mobile=False)
        self.call("Emulation.setEmulatedMedia", features=[{"name": "prefers-color-scheme", "value": scheme}])

    def call(self, method, **words):
        return self.browser.call(method, self.session, **words)

    def open(self, page):
        self.call("Page.navigate", url=page.as_uri())
        for _ in range(600):
            if self.value("location.protocol === 'file:' && document.readyState === 'complete'"):
                return
            time.sleep(0.05)
        raise RuntimeError(f"{page} isn't loaded")

    def value(self, script):
        got = self.call("Runtime.evaluate", expression=script, returnByValue=True)
        if "exceptionDetails" in got:
            raise RuntimeError(got["exceptionDetails"]["exception"].get("description"))
        return got["result"].get("value")

    def press(self, *keys):
        for key in keys:
            for kind in ("keyDown", "keyUp"):
                self.call("Input.dispatchKeyEvent", type=kind, key=key, **({"text": "\r", "windowsVirtualKeyCode": 13} if key == "Enter" else {}))

    def search(self, text):
        self.press("/")
        self.value("document.getElementById('find').select()")
        self.call("Input.insertText", text=text)
        self.press("Enter", "Escape")

    def shot(self, file):
        file.write_bytes(base64.b64decode(self.call("Page.captureScreenshot", format="png")["data"]))

    def errors(self):
        wrong = ("Runtime.exceptionThrown", "Log.entryAdded", "Runtime.consoleAPICalled")
        return [str(it["params"])[:300] for it in self.browser.events if it.get("sessionId") == self.session and it.get("method") in wrong]


def rvtl(*words):
    return subprocess.run([RVTL, *words], capture_output=True, text=True).stdout


def overlaid(stores):
    """Returns what bytes of which words wait, of stores that come in their order: an address and bytes each, None where one is left out."""
    held = {}
    for address, data in stores:
        for place, byte in enumerate(data):
            if byte is not None:
                held[address + place] = byte
    return held


def told_state(lines):
    """Returns the lines of `explain --state` on what the machine holds, and what each hart's stores that wait come to."""
    stores, other = {}, set()
    for line in lines:
        w = line.split()
        if w[0] == "B":
            data = [None if w[4][i:i + 2] == "--" else int(w[4][i:i + 2], 16) for i in range(0, 8, 2)]
            stores.setdefault(int(w[1]), []).append((int(w[2]), int(w[3], 16), data))
        elif w[0] in "XLCAUQNGD":
            other.add(line)
    return other, {h: overlaid((a, d) for _, a, d in sorted(it, key=lambda b: b[0])) for h, it in stores.items()}


def manager_line(line, hart, state):
    if state.startswith("granted"):
        return f"G {hart} {line} Granted"
    if state.startswith("probing"):
        return f"G {hart} {line} Probing {state.split()[-1]}"
    return f"N {hart} {line} {state}"


def shown_state(panel):
    """Returns the same of what the panel shows."""
    lines, stores, hart = set(), {}, "0"
    for heading, rows, _ in panel:
        if heading.startswith("hart "):
            hart = heading.split()[1]
            lines |= {f"X {hart} {name} {value}" for name, value, _ in rows if name not in ("reserved", "put out") and (name == "pc" or int(value, 16))}
            lines |= {f"L {hart} {value}" for name, value, _ in rows if name == "reserved"}
        elif heading == "its stores that wait":
            stores[int(hart)] = overlaid((int(at, 16), bytes.fromhex(value[4:])[::-1]) for at, value, *_ in rows)
        elif heading == "its cache":
            for line, state, data, *_ in rows:
                kind = {"asked": "A", "gives": "U"}.get(state.split()[0])
                lines.add(f"{kind} {hart} {line}" if kind else f"C {hart} {line} {state} {data.replace(' ', '')}")
        elif heading == "messages on their way":
            lines |= {f"Q {queue} {message}".strip() for queue, message, _ in rows}
        elif heading == "the manager":
            lines |= {manager_line(line, whose.split()[1], state) for line, whose, state in rows}
        elif heading == "memory that changed":
            lines |= {f"D {line} {data.replace(' ', '')}" for line, data, _ in rows}
    return lines, stores


def state_differs(tab, image, script, cut):
    """Tells how the panel differs from the machine behind the event that it shows."""
    panel = tab.value(PANEL)
    place = panel[0][0].split("line ")[-1]
    if not place.isdigit():
        return [f"no event is shown: {panel[0][0]}"]
    cut.write_text("\n".join(script.read_text().splitlines()[:int(place)]) + "\n")
    told, waiting = told_state(rvtl("explain", *image, cut, "--state").splitlines()[1:])
    shown, waits = shown_state(panel)
    differs = [f"line {place}: not shown: {it}" for it in sorted(told - shown)] + [f"line {place}: shown, and not so: {it}" for it in sorted(shown - told)]
    return differs + ([] if waiting == waits else [f"line {place}: stores that wait: {waiting} told, {waits} shown"])


def order_differs(tab, text):
    """Tells how the panel differs from the lines of `explain` on the operation that it shows, and whether a cycle isn't one of arrows told."""
    panel, differs = tab.value(PANEL), []
    for heading, _, lines in panel:
        if heading.startswith("operation "):
            name = heading.split()[1]
            told = [it for it in text if name in it.split()[1:3] and it.split()[0] in ("R", "A", "rf", "co", "fr", "ppo")]
            if set(lines) != set(told):
                differs.append(f"{name}: {sorted(set(told) ^ set(lines))}")
        if "would close this cycle" in heading:
            steps = [it.split() for it in lines]
            closed = all(a[2] == b[0] for a, b in zip(steps, steps[1:] + steps[:1]))
            arrows = all(any(it.split()[:3] == [w[3].rstrip(","), w[0], w[2]] for it in text) for w in steps if w[3].rstrip(",") in ("rf", "co", "fr", "ppo"))
            if not closed or not arrows:
                differs.append(f"no cycle: {lines}")
    return differs


def drawing_differs(tab, harts):
    heads = tab.value("[...document.querySelectorAll('#heads text')].map(t => t.textContent)")
    differs = [f"hart {h} has no lane" for h in harts if f"hart {h}" not in heads and str(h) not in heads]
    wide = tab.value("document.getElementById('rows').getBoundingClientRect().width")
    return differs + ([] if 0 < wide <= DRAWN else [f"{wide} pixels wide"]) + [f"overlap: {it}" for it in tab.value(OVERLAPS)[:3]]


def marks_differ(tab):
    """Tells which store or message that is left at the end has no mark, and which copy of a line that is drawn tells no bytes."""
    panel, differs = tab.value(PANEL), []
    titles = tab.value("[...document.querySelectorAll('#rows .mark title, #rows rect title')].map(t => t.textContent)")
    shown, _ = shown_state(panel)
    drawn = tab.value("[...run.touched].slice(0, 4).map(word)")
    for heading, rows, _ in panel:
        for row in rows if heading == "its stores that wait" else []:
            if sum(it.startswith(row[2] + " ") and "never drained" in it for it in titles) != 2:
                differs.append(f"store {row[2]} has no bar and mark to the end")
    for line in shown:
        w = line.split()
        if w[0] == "Q" and not any(it.startswith(f"{w[1]} {w[2]} {w[3]} ") and w[4] in it and "never taken" in it for it in titles):
            differs.append(f"no mark of {line}")
        if w[0] == "C" and w[2] in drawn and not any(it.startswith(w[2]) and it.replace(" ", "").endswith(w[-1]) for it in titles):
            differs.append(f"no bar tells the bytes of {line}")
    return differs


def seen_run(tab, name, harts, image, script, shots, room):
    """Looks at a script's page that is open, at three events and of one line alone."""
    differs = []
    tab.press("Home", *["ArrowDown"] * 12, "ArrowUp")
    for kind in ("keys", "search", "end"):
        if kind == "search":
            text = tab.value("run.events.slice(run.events.length >> 1).find(e => e.lines.some(l => l[0] === 'R')).lines.find(l => l[0] === 'R')")
            tab.search(text.split(" ; ")[-1])
            differs += [] if text.split(" ; ")[-1] in tab.value("document.querySelector('#held pre').textContent") else [f"nothing found of {text}"]
        if kind == "end":
            tab.press("End")
            differs += marks_differ(tab)
        differs += state_differs(tab, image, script, room / "cut") + drawing_differs(tab, range(harts))
        tab.shot(shots / f"{name}-{kind}.png")
    tab.value("(() => { const list = document.getElementById('line'); list.selectedIndex = list.options.length > 1 ? 1 : 0; list.dispatchEvent(new Event('change')); })()")
    tab.shot(shots / f"{name}-line.png")
    options = tab.value("[...document.getElementById('line').options].map(o => o.textContent)")
    if len(options) > 1:
        heads = tab.value("document.getElementById('heads').textContent")
        differs += [] if f"manager of {options[1].split()[0]}" in heads else [f"{heads}: the manager of {options[1]} has no lane"]
    if image[-1].suffix == ".elf" and not any(len(it.split()) > 1 for it in options[1:]):
        differs.append(f"no line has a name: {options}")
    return differs + drawing_differs(tab, range(harts))


def seen_order(tab, name, text, shots):
    """Looks at a trace's page that is open, as it opens and at three operations."""
    differs = order_differs(tab, text)
    tab.shot(shots / f"{name}-opened.png")
    overtaken = any(it.startswith("overtakes ") for it in text)
    # (of an order there is a lane for each hart that has retired something)
    retired = sorted({int(it.split()[1].split(":")[0]) for it in text if it.startswith("R ")})
    for kind in ("keys", "search", "end"):
        if kind == "keys":
            tab.press("Home", "ArrowDown", "ArrowDown", "ArrowUp", "ArrowDown")
        elif kind == "search":
            wanted = next((it.split()[1] for it in text if it.startswith("overtakes ")), None) or next(it.split()[1] for it in text if it.startswith("A "))
            tab.search(f"A {wanted} ")
            differs += [] if f"operation {wanted}" in tab.value("document.getElementById('held').textContent") else [f"{wanted} isn't found"]
            if overtaken and not tab.value("document.querySelectorAll('#rows rect.early').length"):
                differs.append("nothing is marked as performed out of program order")
        else:
            tab.press("End")
        differs += order_differs(tab, text) + drawing_differs(tab, retired)
        tab.shot(shots / f"{name}-{kind}.png")
    return differs


def runs(room):
    """Yields harts, length, image with its option, and script."""
    yield 2, "short", [TOP / "examples/store_buffering.elf"], TOP / "examples/store_buffering.script"
    yield 4, "short", ["--raw", KEPT / "random-057-4-harts-64-by-1.bin"], KEPT / "random-057-4-harts-64-by-1.script"
    yield 8, "short", ["--raw", KEPT / "random-052-8-harts-1-by-4-line-16.bin"], KEPT / "random-052-8-harts-1-by-4-line-16.script"
    yield 2, "long", [TOP / "examples/dekker_fenced.elf"], TOP / "examples/dekker_fenced.script"
    for harts in (4, 8):
        image, journal = TOP / "examples/mcs_lock.elf", room / f"{harts}.script"
        rvtl("run", "--harts", str(harts), "--limit", "6000", "--journal", journal, image)
        yield harts, "long", [image], journal


def seen(browser, room, shots):
    """Opens each page in light and in dark, and yields its name with how it differs."""
    for harts, length, image, script in runs(room):
        trace = room / "trace"
        trace.write_text(rvtl("replay", *image, script))
        for kind, file in (("script", script), ("trace", trace)):
            page, text = room / "page.html", rvtl("explain", *image, file).splitlines()[1:]
            page.write_text(rvtl("page", *image, file))
            for scheme in ("light", "dark"):
                name, tab = f"{kind}-{harts}-{length}-{scheme}", Tab(browser, scheme)
                tab.open(page)
                differs = seen_run(tab, name, harts, image, script, shots, room) if kind == "script" else seen_order(tab, name, text, shots)
                differs += [f"it warns: {it}" for it in [tab.value("document.getElementById('warn').textContent")] if it] + tab.errors()
                ground = tab.value("getComputedStyle(document.body).backgroundColor")
                yield name, differs + ([] if (ground == "rgb(255, 255, 255)") == (scheme == "light") else [f"the ground is {ground}"])
                browser.call("Target.closeTarget", targetId=tab.target)


def opened(looked_at, what):
    """Opens what is to be looked at, prints what is otherwise than it should be and how many were opened, and returns the status."""
    if not shutil.which("chromium"):
        print(f"chromium isn't on PATH: no {what} was opened", file=sys.stderr)
        return 2
    count = wrong = 0
    with tempfile.TemporaryDirectory(ignore_cleanup_errors=True) as folder:
        room = pathlib.Path(folder)
        shots = pathlib.Path(sys.argv[1]) if len(sys.argv) > 1 else room / "shots"
        shots.mkdir(parents=True, exist_ok=True)
        browser = Browser(room / "chromium")
        try:
            for name, differs in looked_at(browser, room, shots):
                count += 1
                wrong += bool(differs)
                for it in differs[:8]:
                    print(f"{name}: {it}")
        finally:
            browser.process.terminate()
            browser.process.wait()
    print(f"{count} {what}s opened, {wrong} otherwise than they should be")
    return 1 if wrong or not count else 0


if __name__ == "__main__":
    sys.exit(opened(seen, "page"))
