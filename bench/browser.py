#!/usr/bin/env python3
"""Opens report pages in headless Chromium, and tries what they show and do.

    bench/browser.py PAGE.html ..                   a line for each page; the exit status is 1 if something is wrong
    bench/browser.py --shots FOLDER PAGE.html ..    also writes pictures: light and 1,240 pixels wide, dark and 500 wide
    bench/browser.py --chromium PATH PAGE.html ..   with another Chromium

    places     at three ticks, set through the slider, each train is drawn where its rows of the timetable have it, and the list says so
    player     play moves the slider on, pause stops it; the buttons of events, the space bar and the arrow keys work
    graph      a click in the graph sets the tick, and the cursor stands at it; so does #t=.. in the address
    calm       where motion is to be reduced, the trains go by whole ticks; the address sets the first one
    print      on paper there is no player; the trains stand at their start, and the graph fits on a page
    plain      without scripts the pictures and the tables can be seen
    narrow     at 500 pixels the page doesn't scroll sideways, with scripts and without
    console    the browser reports no message and no exception

Of a page without a run, of a document that gets no certificates, the last three are tried.
"""
import argparse
import base64
import contextlib
import fcntl
import json
import math
import os
import pathlib
import select
import subprocess
import sys
import tempfile
import time

PATIENCE = 20
FURTHER = 30
NEAR = 0.01
PAPER = (1039, 700)
SCRIPTED = """(() => {
  const shadow = (id) => document.querySelector(`[id=${id}] .picture`).shadowRoot;
  window.trial = {
    player: document.querySelectorAll("#run button"),
    slider: document.querySelector("#run input"),
    rows: [...document.querySelectorAll("#timetable tbody tr")].map((row) => [...row.cells].map((cell) => cell.textContent)),
    names: [...shadow("layout").querySelectorAll(".names text")].map((text) => text.textContent),
    circles: [...shadow("layout").querySelectorAll(".points circle")].map((circle) => [circle.cx.baseVal.value, circle.cy.baseVal.value]),
    ticks: [...shadow("graph").querySelectorAll(".ticks text")].map((text) => [text.textContent, text.x.baseVal[0].value]),
    slide(tick) {
      this.slider.value = tick;
      this.slider.dispatchEvent(new Event("input", { bubbles: true }));
    },
    // Where the origin of an element of a cover lies in the picture below it.
    place(element) {
      const { e, f } = element.ownerSVGElement.getScreenCTM().inverse().multiply(element.getScreenCTM());
      return [e, f];
    },
    drawn() {
      const groups = [...document.querySelectorAll("#layout .cover g")];
      return groups.map((group) => [group.textContent, ...this.place(group), getComputedStyle(group.querySelector("path")).fill]);
    },
    live: () => document.querySelector("#run ul").getAttribute("aria-live"),
    said: () => [...document.querySelectorAll("#run li")].map((item) => [item.children[0].textContent, item.children[1].textContent]),
    seen: (element) => getComputedStyle(element).display !== "none" && getComputedStyle(element).visibility === "visible",
    printed() {
      const shown = [...document.querySelectorAll("#run button, .cover")].filter((element) => element.getClientRects().length);
      const hidden = [...shadow("layout").querySelectorAll(".arrows, .trains")].filter((group) => !this.seen(group));
      const { width, height } = shadow("graph").querySelector("svg").getBoundingClientRect();
      return [shown.length, hidden.length, width, height];
    },
    // Where a tick lies on the screen, halfway down the graph.
    spot(x) {
      const { left, top, width, height } = shadow("graph").querySelector("svg").getBoundingClientRect();
      return [left + x / shadow("graph").querySelector("svg").viewBox.baseVal.width * width, top + height / 2];
    },
    cursor() {
      const group = document.querySelector("#graph .cover g");
      return this.place(group)[0] + group.querySelector("line").x1.baseVal.value;
    },
  };
})()"""


class Wrong(Exception):
    """What a page does isn't what it should do."""


def require(holds, words):
    if not holds:
        raise Wrong(words)


# The browser

def arguments(chromium, folder):
    told = [chromium, "--headless", "--remote-debugging-pipe", f"--user-data-dir={folder}", "--no-first-run", "--disable-gpu"]
    told += ["--hide-scrollbars", "--disable-extensions", "--disable-background-networking"]
    return told + ["--no-sandbox"] * (os.geteuid() == 0) + ["about:blank"]


def raised(descriptor):
    """The same file under a number from 10 on, so that 3 and 4 are free."""
    number = fcntl.fcntl(descriptor, fcntl.F_DUPFD_CLOEXEC, 10)
    os.close(descriptor)
    return number


class Browser:
    """A Chromium that reads messages from its file 3 and writes to its file 4; each message is JSON and ends with a zero byte."""

    def __init__(self, chromium, folder):
        (theirs_in, self.into), (self.out, theirs_out) = ([raised(end) for end in os.pipe()] for _ in range(2))

        def connect():
            os.dup2(theirs_in, 3)
            os.dup2(theirs_out, 4)

        self.process = subprocess.Popen(
            arguments(chromium, folder), stdin=subprocess.DEVNULL, stdout=subprocess.DEVNULL, stderr=subprocess.DEVNULL,
            preexec_fn=connect, close_fds=False,
        )
        os.close(theirs_in)
        os.close(theirs_out)
        self.rest, self.count, self.session, self.events = b"", 0, None, []

    def message(self):
        while b"\0" not in self.rest:
            ready, _, _ = select.select([self.out], [], [], PATIENCE)
            require(ready, "the browser doesn't answer")
            read = os.read(self.out, 1 << 16)
            require(read, "the browser has ended")
            self.rest += read
        line, self.rest = self.rest.split(b"\0", 1)
        return json.loads(line)

    def call(self, method, **values):
        """The answer to a message. Events that come before it are kept."""
        self.count += 1
        asked = {"id": self.count, "method": method, "params": values} | ({"sessionId": self.session} if self.session else {})
        data = json.dumps(asked).encode() + b"\0"
        while data:
            data = data[os.write(self.into, data):]
        while True:
            got = self.message()
            if got.get("id") == self.count:
                require("error" not in got, f"{method}: {got.get('error')}")
                return got["result"]
            self.events.append(got)

    def wait(self, event):
        while not any(got.get("method") == event for got in self.events):
            self.events.append(self.message())

    def open_tab(self):
        target = self.call("Target.createTarget", url="about:blank")["targetId"]
        self.session = self.call("Target.attachToTarget", targetId=target, flatten=True)["sessionId"]
        for domain in ["Page", "DOM", "Runtime", "Log"]:
            self.call(f"{domain}.enable")

    def visit(self, address):
        self.events = [got for got in self.events if got.get("method") != "Page.loadEventFired"]
        self.call("Page.navigate", url="about:blank")
        self.wait("Page.loadEventFired")
        self.events = [got for got in self.events if got.get("method") != "Page.loadEventFired"]
        self.call("Page.navigate", url=address)
        self.wait("Page.loadEventFired")

    def value(self, script):
        got = self.call("Runtime.evaluate", expression=script, returnByValue=True)
        require("exceptionDetails" not in got, f"{script[:60]}: {got['result'].get('description')}")
        return got["result"].get("value")

    def look(self, width, scheme="light", motion="no-preference", media="screen"):
        features = {"prefers-color-scheme": scheme, "prefers-reduced-motion": motion}
        self.call("Emulation.setDeviceMetricsOverride", width=width, height=900, deviceScaleFactor=1, mobile=False)
        self.call("Emulation.setEmulatedMedia", media=media, features=[{"name": name, "value": features[name]} for name in features])

    def close(self):
        with contextlib.suppress(Wrong, OSError):
            self.session = None
            self.call("Browser.close")
        try:
            self.process.wait(10)
        except subprocess.TimeoutExpired:
            self.process.kill()
            self.process.wait()


@contextlib.contextmanager
def browsing(chromium):
    with tempfile.TemporaryDirectory(ignore_cleanup_errors=True) as folder:
        browser = Browser(chromium, folder)
        try:
            browser.open_tab()
            yield browser
        finally:
            browser.close()


# What the timetable says

def trains_of(rows):
    """The rows of each train, which begin with one without an arrival: its point, and its ticks or None."""
    trains = []
    for name, point, *ticks, _ in rows:
        arrives, leaves = (int(tick) if tick else None for tick in ticks)
        if arrives is None:
            trains.append((name, []))
        trains[-1][1].append((point, arrives, leaves))
    return trains


def between(start, end, share):
    return tuple(a + (b - a) * share for a, b in zip(start, end))


def way_out(stops, index, circles):
    """The place where a train ends that leaves the layout from its stop of this index."""
    at = circles[stops[index][0]]
    before = circles[stops[index - 1][0]] if index else (at[0] - 1, at[1])
    return between(before, at, 1 + FURTHER / math.dist(before, at))


def expected(stops, tick, circles):
    """Where a train is at a tick, or None if it has left, and what the list says of it."""
    index = max(at for at, (_, arrives, _) in enumerate(stops) if (arrives or 0) <= tick)
    point, _, leaves = stops[index]
    if point == "-":
        return None, "has left"
    if leaves is None:
        return circles[point], f"has arrived at {point}"
    if tick < leaves:
        return circles[point], f"waits at {point} until {leaves}"
    following, arrives, _ = stops[index + 1]
    to = way_out(stops, index, circles) if following == "-" else circles[following]
    words = f"leaves the layout from {point}" if following == "-" else f"from {point} to {following} until {arrives}"
    return between(circles[point], to, (tick - leaves) / (arrives - leaves)), words


def end_of(trains):
    return max(stops[-1][1] or 0 for _, stops in trains)


def ticks_of(trains):
    """Three ticks, if there are so many: in the middle of the longest wait, of the longest way out of the layout, and of the run."""
    stands = [(leaves - (arrives or 0), arrives or 0) for _, stops in trains for _, arrives, leaves in stops[:-1]]
    ways_out = [(stops[-1][1] - stops[-2][2], stops[-2][2]) for _, stops in trains if stops[-1][0] == "-"]
    middles = [start + length // 2 for length, start in [max(stands, default=(0, 0)), max(ways_out, default=(0, end_of(trains)))]]
    return sorted({*middles, end_of(trains) // 2})


# The trials of a page

def try_tick(browser, trains, circles, tick):
    browser.value(f"trial.slide({tick})")
    drawn, said = browser.value("trial.drawn()"), browser.value("trial.said()")
    require(len(drawn) == len(said) == len(trains), f"{len(drawn)} trains are drawn, {len(said)} are listed, {len(trains)} run")
    for (name, stops), (label, x, y, fill), listed in zip(trains, drawn, said):
        place, words = expected(stops, tick, circles)
        require(label == name, f"{label} is drawn for {name}")
        require(listed == [name, words], f"at {tick} the list says {listed}, and the timetable {words}")
        is_hollow = fill == "rgb(255, 255, 255)"
        require(is_hollow == words.startswith("waits"), f"at {tick} {name} {words}, and is drawn with {fill}")
        if place is None:
            require(x < -20 and y < -20, f"at {tick} {name} has left, and is drawn at {x}, {y}")
        else:
            require(math.dist(place, (x, y)) < NEAR, f"at {tick} {name} is drawn at {x}, {y}, not at {place}")


def slider(browser):
    return int(browser.value("trial.slider.value"))


def until(browser, holds, words):
    limit = time.monotonic() + PATIENCE
    while not holds(slider(browser)):
        require(time.monotonic() < limit, words)
        time.sleep(0.05)


def stands(browser):
    before = browser.value("trial.drawn()")
    time.sleep(0.3)
    return browser.value("trial.drawn()") == before


def press(browser, key, code, number):
    for kind in ["rawKeyDown", "keyUp"]:
        browser.call("Input.dispatchKeyEvent", type=kind, key=key, code=code, windowsVirtualKeyCode=number)


def try_player(browser, trains):
    end = end_of(trains)
    events = sorted({tick or 0 for _, stops in trains for _, *ticks in stops for tick in ticks})
    browser.value("trial.slide(0); trial.player[0].click()")
    until(browser, lambda tick: tick > 0, "play doesn't move the slider")
    require(browser.value("trial.live()") == "off", "the list is live while the trains move")
    browser.value("trial.player[0].click()")
    require(stands(browser), "pause doesn't stop the trains")
    require(browser.value("trial.live()") == "polite", "the list isn't live while the trains stand")
    browser.value("trial.slide(0); document.activeElement.blur()")
    press(browser, " ", "Space", 32)
    until(browser, lambda tick: tick > 0, "the space bar doesn't play")
    press(browser, " ", "Space", 32)
    require(stands(browser), "the space bar doesn't pause")
    browser.value("trial.slide(0); trial.player[2].click()")
    require(slider(browser) == next(tick for tick in [*events, end] if tick), "the next event isn't shown")
    browser.value(f"trial.slide({end}); trial.player[1].click()")
    require(slider(browser) == max(tick for tick in events if tick < end), "the event before isn't shown")
    browser.value("trial.slide(0); trial.slider.focus()")
    press(browser, "ArrowRight", "ArrowRight", 39)
    require(slider(browser) == 1, "an arrow key doesn't go on by a tick")


def try_graph(browser, trains):
    marks = [(int(words), x) for words, x in browser.value("trial.ticks") if words.isdigit()]
    tick, x = marks[len(marks) // 2]
    browser.value("trial.slide(0); document.getElementById('graph').scrollIntoView()")
    across, down = browser.value(f"trial.spot({x})")
    for kind in ["mousePressed", "mouseReleased"]:
        browser.call("Input.dispatchMouseEvent", type=kind, x=across, y=down, button="left", clickCount=1)
    require(slider(browser) == tick, f"a click in the graph at {tick} sets {slider(browser)}")
    require(abs(browser.value("trial.cursor()") - x) < 1, f"the cursor isn't at tick {tick}")
    browser.value(f"location.hash = 't={end_of(trains)}'")
    until(browser, lambda shown: shown == end_of(trains), "the address doesn't set the tick")


def are_expected(trains, circles, tick, drawn):
    places = [expected(stops, tick, circles)[0] for _, stops in trains]
    return all(place is None or math.dist(place, (x, y)) < NEAR for place, (_, x, y, _) in zip(places, drawn))


def try_calm(browser, page, trains, circles):
    browser.look(1240, motion="reduce")
    first = end_of(trains) // 3
    browser.visit(f"{page.as_uri()}#t={first}")
    browser.value(SCRIPTED)
    require(slider(browser) == first, f"the address sets {slider(browser)}, not {first}")
    browser.value("trial.player[0].click()")
    limit = time.monotonic() + PATIENCE
    while slider(browser) < min(first + 3, end_of(trains)):
        tick, drawn = browser.value("[Number(trial.slider.value), trial.drawn()]")
        require(are_expected(trains, circles, tick, drawn), f"with reduced motion the trains stand elsewhere than at {tick}")
        require(time.monotonic() < limit, "with reduced motion play doesn't move the slider")


def try_print(browser):
    browser.look(PAPER[0], media="print")
    shown, hidden, width, height = browser.value("trial.printed()")
    require(shown == 0, "the player is printed")
    require(hidden == 0, "the trains at their start aren't printed")
    require(width <= PAPER[0] and height <= PAPER[1], f"the graph is printed {width} by {height} large")


def boxes(browser):
    """The sizes of the pictures in shadow roots, and of the tables."""
    def walk(node, is_hidden):
        if node["nodeName"].lower() in ("svg", "table") and (is_hidden or node["nodeName"] == "TABLE"):
            model = browser.call("DOM.getBoxModel", backendNodeId=node["backendNodeId"])["model"]
            sizes.append((model["width"], model["height"]))
            return
        for child in node.get("children", []):
            walk(child, is_hidden)
        for root in node.get("shadowRoots", []):
            walk(root, True)

    sizes = []
    walk(browser.call("DOM.getDocument", depth=-1, pierce=True)["root"], False)
    return sizes


def try_plain(browser, page):
    browser.call("Emulation.setScriptExecutionDisabled", value=True)
    browser.look(1240)
    browser.visit(page.as_uri())
    sizes = boxes(browser)
    text = page.read_text()
    count = text.count("<template ") + text.count("<table>")
    require(len(sizes) == count and all(width > 300 and height > 50 for width, height in sizes), f"without scripts, the sizes are {sizes}")
    try_narrow(browser)
    browser.call("Emulation.setScriptExecutionDisabled", value=False)


def try_narrow(browser):
    browser.look(500)
    width = browser.call("Page.getLayoutMetrics")["cssContentSize"]["width"]
    require(width <= 500, f"at 500 pixels the page is {width} wide")


def complaints(browser):
    kinds = ["Runtime.consoleAPICalled", "Runtime.exceptionThrown", "Log.entryAdded"]
    return [json.dumps(got["params"])[:300] for got in browser.events if got.get("method") in kinds]


def try_still(browser, page):
    """Tries a page of a document without a run."""
    require(browser.value("document.querySelector('#run').children.length === 0"), "there is a player, and nothing to play")
    require(browser.value("document.querySelector('#verdict pre').textContent.length > 0"), "the verdict says nothing")
    try_narrow(browser)
    try_plain(browser, page)
    require(not complaints(browser), f"the console says {complaints(browser)}")
    return "no run"


def try_page(browser, page):
    browser.events = []
    browser.look(1240)
    browser.visit(page.as_uri())
    if browser.value("document.querySelector('#graph') === null"):
        return try_still(browser, page)
    require(browser.value("document.querySelector('#run input') !== null"), "there is no player")
    browser.value(SCRIPTED)
    require(stands(browser), "it plays by itself")
    trains = trains_of(browser.value("trial.rows"))
    circles = {name: tuple(place) for name, place in zip(browser.value("trial.names"), browser.value("trial.circles"))}
    ticks = ticks_of(trains)
    for tick in ticks:
        try_tick(browser, trains, circles, tick)
    try_player(browser, trains)
    try_graph(browser, trains)
    try_narrow(browser)
    try_calm(browser, page, trains, circles)
    try_print(browser)
    try_plain(browser, page)
    require(not complaints(browser), f"the console says {complaints(browser)}")
    return f"{len(trains)} trains, right at ticks {', '.join(map(str, ticks))} of {end_of(trains)}"


def shoot(browser, page, folder):
    for scheme, width in [("light", 1240), ("dark", 500)]:
        browser.look(width, scheme)
        browser.visit(page.as_uri())
        middle = browser.value("Math.round((document.querySelector('#run input')?.max ?? 0) * 0.42)")
        browser.visit(f"{page.as_uri()}#t={middle}")
        size = browser.call("Page.getLayoutMetrics")["cssContentSize"]
        clip = {"x": 0, "y": 0, "width": width, "height": min(size["height"], 4000), "scale": 1}
        data = browser.call("Page.captureScreenshot", format="png", captureBeyondViewport=True, clip=clip)["data"]
        (folder / f"{page.stem}-{scheme}-{width}.png").write_bytes(base64.b64decode(data))


def asked():
    parser = argparse.ArgumentParser(description=__doc__, formatter_class=argparse.RawDescriptionHelpFormatter)
    parser.add_argument("pages", metavar="PAGE.html", nargs="+", type=pathlib.Path)
    parser.add_argument("--shots", metavar="FOLDER", type=pathlib.Path)
    parser.add_argument("--chromium", default="chromium")
    return parser.parse_args()


def main():
    given = asked()
    is_right = True
    with browsing(given.chromium) as browser:
        for page in (page.resolve() for page in given.pages):
            try:
                print(f"{page.name}: {try_page(browser, page)}", flush=True)
            except Wrong as wrong:
                is_right = False
                print(f"{page.name}: WRONG: {wrong}", flush=True)
            if given.shots:
                given.shots.mkdir(parents=True, exist_ok=True)
                browser.call("Emulation.setScriptExecutionDisabled", value=False)
                shoot(browser, page, given.shots)
    sys.exit(0 if is_right else 1)


if __name__ == "__main__":
    main()
