#!/usr/bin/env python3
"""The page of `kerbcanopy explain --html` in a real browser, at a narrow and a wide width, and on paper.

Run from the repository's root, with the command built; needs Debian's chromium. Prints a line for each thing seen and ends with
'N passed, M failed'.
"""

import base64
import json
import math
import os
import re
import shutil
import subprocess
import sys
import tempfile

COMMAND = os.path.join("host", "target", "release", "kerbcanopy")
WIDTHS = (360, 1280)
HEIGHT = 900
# A sheet without its margins, in inches as the browser takes them, and how many pixels an inch has.
PAPER = (7.5, 10)
INCH = 96

# Descriptors and data in hexadecimal; the page must mark the place that the command's own answer has.
RIG = "0014 0050 0002 0006 0002 0174 0008 0007 0269 6400"
STRINGS = "0012 0040 0001 FFFF FFFF 0008 0030 FFFF FFFF"
STAMP = "001C 0054 0006 0016 0050 0004 0004 0003 0004 0003 0004 0007 0004 0007"
CASES = [
    ("accepted", RIG, "0019 0000 0009"),
    ("cut in the second member", RIG, "0019 0000 00"),
    ("ends before a piece", RIG, "0019"),
    ("bytes left over", RIG, "0019 0000 0009 0102"),
    ("no data", RIG, ""),
    ("a long array, refused far down", "0012 0040 0001 FFFF FFFF 0008 0015 0002 0000", "0000 07D0" + " 01" * 1500 + " 02" + " 00" * 499),
    ("a Boolean of FF", "0016 0050 0002 0008 0007 0269 6400 0008 0021 036C 6974", "0000 0009 FF"),
    ("many strings, the last cut", STRINGS, "0000 0040" + " 00000002 6162" * 63 + " 00000009 61"),
    ("array in array", "0018 0040 0001 FFFF FFFF 000E 0040 0001 FFFF FFFF 0004 000A", None),
    ("no room for a length word, at the end", "000A 0050 0001 0004 0030", None),
    ("no room for a length word, before another", "000E 0050 0002 0004 0030 0004 0003", None),
    ("no bytes at all", "", None),
    ("a name that is none", "0050 0050 0009" + " 0008 0003 0361 6263" * 9 + " 0961", None),
    ("foreign text in a name", "0026 0003 213C 7363 7269 7074 3E64 6F63 756D 656E 742E 7469 746C 653D 313C 2F73 6372 6970 743E", None),
    ("a time stamp", STAMP, "7FFF FFFF FFFF FFFF FFFF FFFF FFFF FFFF"),
    ("a time stamp, cut", STAMP, "7FFF FFFF FFFF"),
    ("a time stamp of another subtype", STAMP.replace("0054 0006", "0054 0007"), None),
    ("a time stamp of other integers", STAMP.replace("0004 0007", "0004 0008"), None),
    ("too long", "00 04" * 2100, None),
]

# What the page shows, asked of the browser's own layout: which bytes are marked, whether the mark can be seen, where the panes stand.
LOOK = """(() => {
  const box = (e) => { const r = e.getBoundingClientRect(); return [r.left, r.top, r.right, r.bottom]; };
  const seen = (e) => { const r = e.getBoundingClientRect();
    return document.elementFromPoint((r.left + r.right) / 2, (r.top + r.bottom) / 2) === e; };
  const style = (e) => getComputedStyle(e).backgroundColor;
  const first = document.querySelector("section");
  return {
    marked: [...document.querySelectorAll(".bytes .place")].map((e) => ({
      at: Number(e.dataset.at), text: e.textContent, seen: seen(e), ground: style(e), file: e.closest("section").querySelector("h1").firstChild.data.trim() })),
    fields: [...document.querySelectorAll(".fields .place")].map((e) => e.textContent),
    faults: [...document.querySelectorAll(".fields .fault")].map((e) => e.textContent),
    plain: style(document.body),
    bytes: [...first.querySelectorAll(".bytes b[data-f]")].map((e) => e.textContent).join(""),
    alert: document.querySelector(".refusal")?.textContent ?? null,
    panes: [box(first.querySelector(".bytes")), box(first.querySelector(".fields"))],
    overflow: document.documentElement.scrollWidth - innerWidth,
    outside: performance.getEntriesByType("resource").length,
    title: document.title,
  };
})()"""

# What is on paper, asked of the same layout: what a pane doesn't show of what is in it, what sticks out of it, and the marks.
PRINTED = """(() => {
  const panes = [...document.querySelectorAll(".bytes, .fields")];
  const ends = (pane) => { const last = pane.lastElementChild; return last ? last.getBoundingClientRect().bottom : 0; };
  const style = (e) => { const s = getComputedStyle(e); return [s.color, s.backgroundColor, s.outlineStyle]; };
  return {
    hidden: panes.map((e) => [e.scrollHeight - e.clientHeight, e.scrollWidth - e.clientWidth]),
    below: panes.map((e) => ends(e) - e.getBoundingClientRect().bottom),
    rows: document.querySelectorAll(".bytes div").length,
    height: document.documentElement.scrollHeight,
    overflow: document.documentElement.scrollWidth - innerWidth,
    marks: [...document.querySelectorAll(".place")].map(style),
  };
})()"""

# Where an element's middle is, once it is scrolled into view.
MIDDLE = """((e) => { e.scrollIntoView({block: "center"}); const r = e.getBoundingClientRect();
  return [(r.left + r.right) / 2, (r.top + r.bottom) / 2]; })(%s)"""

# What the pointer marks: the fields' texts and the bytes, by their places.
MARKED = """({ fields: [...document.querySelectorAll(".fields .on .says")].map((e) => e.textContent),
  bytes: [...document.querySelectorAll(".bytes .on")].map((e) => Number(e.dataset.at)),
  ground: [...document.querySelectorAll(".on")].map((e) => getComputedStyle(e).backgroundColor) })"""


class Browser:
    """Chromium without a window, spoken to through a pair of pipes."""

    def __init__(self, profile):
        to_child, self.send = os.pipe()
        self.receive, from_child = os.pipe()
        words = [shutil.which("chromium") or "chromium", "--headless=new", "--no-sandbox", "--disable-gpu", "--hide-scrollbars",
                 "--disable-dev-shm-usage", "--no-first-run", f"--user-data-dir={profile}", "--remote-debugging-pipe", "about:blank"]
        shell = f'exec "$@" 3<&{to_child} 4>&{from_child}'
        self.process = subprocess.Popen(["sh", "-c", shell, "sh", *words], pass_fds=(to_child, from_child),
                                        stdin=subprocess.DEVNULL, stdout=subprocess.DEVNULL, stderr=subprocess.DEVNULL)
        os.close(to_child)
        os.close(from_child)
        self.rest = b""
        self.number = 0
        self.session = None
        target = self.call("Target.createTarget", url="about:blank")["targetId"]
        self.session = self.call("Target.attachToTarget", targetId=target, flatten=True)["sessionId"]
        self.call("Page.enable")

    def message(self):
        while b"\0" not in self.rest:
            more = os.read(self.receive, 65536)
            if not more:
                raise RuntimeError("the browser has gone")
            self.rest += more
        text, self.rest = self.rest.split(b"\0", 1)
        return json.loads(text)

    def call(self, method, **parameters):
        self.number += 1
        words = {"id": self.number, "method": method, "params": parameters}
        if self.session:
            words["sessionId"] = self.session
        os.write(self.send, json.dumps(words).encode() + b"\0")
        while True:
            message = self.message()
            if message.get("id") == self.number:
                if "error" in message:
                    raise RuntimeError(message["error"])
                return message["result"]

    def open(self, path, width):
        self.call("Emulation.setDeviceMetricsOverride", width=width, height=HEIGHT, deviceScaleFactor=1, mobile=False)
        self.call("Page.navigate", url="file://" + path)
        while self.message().get("method") != "Page.loadEventFired":
            pass

    def media(self, name):
        self.call("Emulation.setEmulatedMedia", media=name)

    def sheets(self):
        """Prints, and gives the number of sheets."""
        width, height = PAPER
        printed = self.call("Page.printToPDF", paperWidth=width, paperHeight=height, marginTop=0, marginBottom=0, marginLeft=0, marginRight=0)
        return len(re.findall(rb"/Type\s*/Page\b", base64.b64decode(printed["data"])))

    def ask(self, script):
        result = self.call("Runtime.evaluate", expression=script, returnByValue=True)
        if "exceptionDetails" in result:
            raise RuntimeError(result["exceptionDetails"])
        return result["result"].get("value")

    def point_at(self, element):
        x, y = self.ask(MIDDLE % element)
        self.call("Input.dispatchMouseEvent", type="mouseMoved", x=x, y=y)
        return self.ask(MARKED)

    def close(self):
        self.call("Browser.close")
        self.process.wait()


class Count:
    def __init__(self):
        self.passed = self.failed = 0

    def see(self, what, holds, seen=""):
        if holds:
            self.passed += 1
        else:
            self.failed += 1
            print(f"not so: {what}: {seen}")


def explained(folder, descriptor, data):
    """Writes the files, and gives the page and what the command says of it for scripts."""
    files = []
    for name, text in (("descriptor.hex", descriptor), ("data.hex", data)):
        if text is not None:
            files.append(os.path.join(folder, name))
            with open(files[-1], "w", encoding="ascii") as file:
                file.write(text)
    page = os.path.join(folder, "page.html")
    html = subprocess.run([COMMAND, "explain", "--html", "-o", page, *files], capture_output=True, check=False)
    told = subprocess.run([COMMAND, "explain", "--json", *files], capture_output=True, check=False)
    assert html.returncode == told.returncode in (0, 1), html
    return page, json.loads(told.stdout)["sections"]


def look(count, browser, name, sections, width):
    """Holds the page against the command's own answer."""
    here = f"{name}, {width} wide"
    seen = browser.ask(LOOK)
    answer = sections[-1]["answer"]
    refused = answer["number"] != 0
    count.see(f"{here}: nothing sticks out", seen["overflow"] <= 0, seen["overflow"])
    count.see(f"{here}: nothing is fetched", seen["outside"] == 0, seen["outside"])
    count.see(f"{here}: the title is a file's name", seen["title"].endswith(".hex"), seen["title"])
    left, right = seen["panes"]
    beside = left[2] <= right[0] + 1 if width > 704 else left[3] <= right[1] + 1
    count.see(f"{here}: bytes left of their meaning, or above it", beside, seen["panes"])
    count.see(f"{here}: a refusal is told", (seen["alert"] is not None) == refused, seen["alert"])
    marks = seen["marked"]
    if not refused:
        count.see(f"{here}: nothing is marked", marks == [] and seen["fields"] == [], marks)
        return
    mark = marks[0] if len(marks) == 1 else None
    count.see(f"{here}: one byte is marked", mark is not None, marks)
    if mark is None:
        return
    length = len(seen["bytes"]) // 2
    place = answer["place"]
    byte = seen["bytes"][2 * place:2 * place + 2] if place < length else "end"
    count.see(f"{here}: the marked byte is the refusal's place", (mark["at"], mark["text"]) == (place, byte), (mark, place, byte))
    count.see(f"{here}: it stands in the file at fault", answer["file"].endswith(mark["file"]), mark)
    count.see(f"{here}: the mark can be seen", mark["seen"] and mark["ground"] != seen["plain"], mark)
    # Behind the last byte there is no field, but what is missing there may be one.
    marked = 1 if place < length else len(seen["faults"])
    count.see(f"{here}: its meaning is marked too", len(seen["fields"]) == marked, seen["fields"])


def point(count, browser, name, sections, width):
    """Points at bytes and at fields: each marks the other and nothing else."""
    number = len(sections) - 1
    fields = sections[number]["fields"]
    for index, field in enumerate(fields):
        if 6 <= index < len(fields) - 2 or field["length"] == 0:
            continue
        expected = list(range(field["start"], field["start"] + field["length"]))
        mark = f'[data-f="{number}-{index}"]'
        here = f"{name}, {width} wide, field {index}"
        for pane in (".bytes", ".fields"):
            seen = browser.point_at(f"document.querySelector('{pane} {mark}')")
            count.see(f"{here}: pointing in {pane} marks its bytes", seen["bytes"] == expected, seen["bytes"][:9])
            count.see(f"{here}: and its meaning", seen["fields"] == [field["text"]], seen["fields"])
            count.see(f"{here}: so that it can be seen", len(set(seen["ground"])) == 1 and seen["ground"][0] != "rgba(0, 0, 0, 0)", seen["ground"][:2])


def on_paper(count, browser, name, page):
    """Lays the page out for paper: everything is there, and the marks can be seen without a ground."""
    width, height = (INCH * inches for inches in PAPER)
    browser.open(page, round(width))
    shown = browser.ask(PRINTED)
    browser.media("print")
    seen = browser.ask(PRINTED)
    browser.media("")
    here = f"{name}, on paper"
    count.see(f"{here}: no pane hides anything", all(hidden <= 0 for pane in seen["hidden"] for hidden in pane), seen["hidden"])
    count.see(f"{here}: every pane goes on to its last line", all(below <= 0 for below in seen["below"]), seen["below"])
    count.see(f"{here}: nothing sticks out", seen["overflow"] <= 0, seen["overflow"])
    marks = [color != "rgb(255, 255, 255)" and ground == "rgba(0, 0, 0, 0)" and outline == "solid" for color, ground, outline in seen["marks"]]
    count.see(f"{here}: marks are drawn, not filled", all(marks), seen["marks"])
    # A line more or less stands on the sheet after where it would be cut.
    sheets = browser.sheets()
    count.see(f"{here}: as many sheets as it is long", math.floor(0.9 * seen["height"] / height) <= sheets, (sheets, seen["height"]))
    return seen["height"] - shown["height"], sheets


def main():
    count = Count()
    longest = (0, 0)
    with tempfile.TemporaryDirectory() as folder:
        browser = Browser(os.path.join(folder, "profile"))
        for name, descriptor, data in CASES:
            page, sections = explained(folder, descriptor, data)
            for width in WIDTHS:
                browser.open(page, width)
                look(count, browser, name, sections, width)
                point(count, browser, name, sections, width)
            longest = max(longest, on_paper(count, browser, name, page))
        browser.close()
    count.see("what scrolls on a screen takes sheets of its own", longest[0] > HEIGHT and longest[1] > 2, longest)
    print(f"{count.passed} passed, {count.failed} failed")
    return count.failed != 0


if __name__ == "__main__":
    sys.exit(main())
