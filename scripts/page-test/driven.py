"""Uses the page in Chromium as a reader does, by pointer, finger and keys, over the protocol of WebDriver (W3C)."""
import contextlib
import json
import subprocess
import time
import urllib.request

KEYS = {"Tab": "\ue004", "Right": "\ue014", "Enter": "\ue007", "Home": "\ue011"}
ASKS_A_NAME = {"button", "combobox", "textbox", "slider", "listbox", "option", "heading", "figure"}
# The least contrast of text that WCAG 2.2 asks for (1.4.3).
LEAST_CONTRAST = 4.5
# The least size of what can be pointed at (2.5.8), in pixels, and the most that rounding takes from it.
LEAST_TARGET = 24
ROUNDING = 0.02
# The most seconds that the page's scripts may take for a key in a text of a million characters, at best of some.
MOST_SECONDS_OF_KEY = 0.1
SCREENS = ((1280, 800), (320, 640))
LONG_TEXT = "'A line of some words, numbers (1,234.50) and more.\\n'.repeat(20000).slice(0, 1000000)"
CONTRASTS = """
const parse = (it) => (it.match(/[\\d.]+/g) ?? []).map(Number);
const light = ([r, g, b]) => [r, g, b].map((it) => it / 255).map((it) => (it <= 0.04045 ? it / 12.92 : ((it + 0.055) / 1.055) ** 2.4))
  .reduce((sum, it, k) => sum + it * [0.2126, 0.7152, 0.0722][k], 0);
const paper = (it) => {
  for (; it; it = it.parentElement) {
    const [r, g, b, a = 1] = parse(getComputedStyle(it).backgroundColor);
    if (a === 1) return [r, g, b];
  }
  return [255, 255, 255];
};
const found = {};
for (const it of document.querySelectorAll("body *")) {
  if (!it.checkVisibility() || ![...it.childNodes].some((node) => node.nodeType === 3 && node.data.trim())) continue;
  const [one, other] = [light(parse(getComputedStyle(it).color)), light(paper(it))].sort((a, b) => b - a);
  const name = it.tagName + "." + it.className + "#" + it.id.replace(/[0-9]+/, "N");
  found[name] = Math.min(found[name] ?? 99, (one + 0.05) / (other + 0.05));
}
return found;
"""

# What can be pointed at and is narrower or lower than so many pixels, or is covered in part by another.
TARGETS = """
const least = LEAST;
const all = document.querySelectorAll(".position, .letter, button, select, input, textarea");
const view = document.getElementById("positions");
const room = view.getBoundingClientRect();
const isShown = ([it, box]) => !view.contains(it) || (box.top >= room.top && box.bottom <= room.bottom);
const seen = [...all].map((it) => [it, it.getBoundingClientRect()]).filter(isShown);
const small = seen.filter(([, box]) => box.width < least || box.height < least);
const meet = (one, other) => Math.min(one.right, other.right) - Math.max(one.left, other.left) > 0.5
  && Math.min(one.bottom, other.bottom) - Math.max(one.top, other.top) > 0.5;
const covered = seen.filter(([, box], k) => seen.some(([, other], n) => n < k && meet(box, other)));
const name = ([it, box]) => `${it.className}#${it.id} ${it.textContent.slice(0, 5)} ${box.width} x ${box.height}`;
return [seen.length > 30, small.map(name).slice(0, 5), covered.map(name).slice(0, 5)];
"""
# Whether the signs of each kind have a background, except the chosen one, which always has.
GROUNDS = """
const found = {};
for (const it of document.querySelectorAll(".position:not([aria-selected=true])")) {
  const kind = ["may", "must"].find((name) => it.classList.contains(name)) ?? "no";
  const [, , , a = 1] = (getComputedStyle(it).backgroundColor.match(/[\\d.]+/g) ?? []).map(Number);
  found[kind] = a > 0;
}
return found;
"""
# Whether the chosen sign and all of the answer are on the screen, with nothing over them, and nothing goes beyond its
# width.
OPENING = """
const isIn = (box) => box.top >= 0 && box.left >= 0 && box.bottom <= innerHeight && box.right <= innerWidth;
const sign = document.querySelector("[aria-selected=true]");
const [one, other] = [sign, document.getElementById("detail")].map((it) => it.getBoundingClientRect());
const top = document.elementFromPoint((one.left + one.right) / 2, (one.top + one.bottom) / 2);
return [isIn(one), isIn(other), top === sign, document.documentElement.scrollWidth <= document.documentElement.clientWidth];
"""
# Takes down how long it is from each key to the frame that shows what it did, and how much of it is the page's own.
WATCH_KEYS = """
window.keyTimes = [];
window.ownTimes = [];
let began;
const field = document.getElementById("text");
field.addEventListener("keydown", () => (began = performance.now()), true);
window.addEventListener("input", () => (window.ownBegan = performance.now()), true);
window.addEventListener("input", () => {
  ownTimes.push(performance.now() - ownBegan);
  requestAnimationFrame(() => setTimeout(() => keyTimes.push(performance.now() - began)));
});
"""


class Driver:
    """A session of Chromium, driven by chromedriver."""

    def __init__(self, port):
        self.root = f"http://127.0.0.1:{port}"
        args = ["--headless=new", "--no-sandbox", "--disable-gpu", "--disable-dev-shm-usage", "--window-size=900,900"]
        wanted = {"browserName": "chrome", "goog:chromeOptions": {"args": args},
            "goog:loggingPrefs": {"browser": "ALL", "performance": "ALL"}}
        self.session = ""
        made = self.ask("POST", "", {"capabilities": {"alwaysMatch": wanted}})
        self.session = f"/{made['sessionId']}"

    def ask(self, method, path, given=None):
        data = None if given is None else json.dumps(given).encode()
        asked = urllib.request.Request(f"{self.root}/session{self.session}{path}", data,
            {"Content-Type": "application/json"}, method=method)
        with urllib.request.urlopen(asked, timeout=60) as found:
            return json.load(found)["value"]

    def open(self, address):
        self.ask("POST", "/url", {"url": "about:blank"})
        self.ask("POST", "/url", {"url": address})
        until(lambda: self.run("return document.documentElement.dataset.ready") == "yes")

    def run(self, script):
        return self.ask("POST", "/execute/sync", {"script": script, "args": []})

    def tools(self, command, **given):
        return self.ask("POST", "/goog/cdp/execute", {"cmd": command, "params": given})

    def find(self, selector):
        return self.ask("POST", "/element", {"using": "css selector", "value": selector})

    def text(self, selector):
        return self.run(f"return document.querySelector({json.dumps(selector)}).textContent")

    def point(self, kind, *steps):
        """Has a pointer go through steps: `down`, `up`, or a place `x, y` from an element's middle."""
        actions = []
        for step in steps:
            if isinstance(step, str):
                actions.append({"type": {"down": "pointerDown", "up": "pointerUp"}[step], "button": 0})
            else:
                actions.append({"type": "pointerMove", "duration": 50, "origin": step[0], "x": step[1], "y": step[2]})
        self.ask("POST", "/actions", {"actions": [{"type": "pointer", "id": kind, "parameters": {"pointerType": kind},
            "actions": actions}]})
        self.ask("DELETE", "/actions")

    def press(self, *keys):
        actions = [{"type": it, "value": KEYS.get(key, key)} for key in keys for it in ("keyDown", "keyUp")]
        self.ask("POST", "/actions", {"actions": [{"type": "key", "id": "keys", "actions": actions}]})
        self.ask("DELETE", "/actions")


def until(holds, seconds=10):
    end = time.monotonic() + seconds
    while not holds():
        if time.monotonic() > end:
            raise TimeoutError("the page did not come that far")
        time.sleep(0.05)


@contextlib.contextmanager
def driver():
    """chromedriver, at a port that it chooses and writes, and a session of it."""
    child = subprocess.Popen(["chromedriver", "--port=0"], stdout=subprocess.PIPE, stderr=subprocess.DEVNULL, text=True)
    try:
        port = next(line.rsplit(" ", 1)[1].strip(" .\n") for line in child.stdout
            if "started successfully on port" in line)
        made = Driver(port)
        try:
            yield made
        finally:
            made.ask("DELETE", "")
    finally:
        child.terminate()
        child.wait()


def position(page, at):
    return page.find(f'.position[data-at="{at}"]')


def try_pointers(count, page):
    page.point("mouse", (position(page, 3), 0, 0))
    said = page.text("#detail").partition(".")[0]
    count.equal("chromedriver: hovering shows a position", said,
        "÷ A line may break between a space (U+0020) and “c” (U+0063)")
    page.point("mouse", (page.find('.letter[data-at="3"]'), 0, 0))
    rules = page.run("return [...document.querySelectorAll('#detail .rule')].map((it) => it.textContent)")
    count.equal("chromedriver: hovering over a letter shows the positions on both sides", rules,
        ["Rule LB18", "Rule LB28"])
    page.point("touch", (position(page, 1), 0, 0), "down", "up")
    count.equal("chromedriver: a finger shows a position", page.text("#detail .rule"), "Rule LB28")
    page.run("document.getElementById('ours').scrollIntoView()")
    before = page.run("return document.getElementById('theirs').offsetWidth")
    ours = page.find("#ours")
    right, bottom = page.run("const it = document.getElementById('ours'); return [it.offsetWidth / 2 - 5, it.offsetHeight / 2 - 5]")
    page.point("mouse", (ours, int(right), int(bottom)), "down", ("pointer", -60, 0), "up")
    after = page.run("return document.getElementById('theirs').offsetWidth")
    count.equal("chromedriver: one column follows where the other is dragged", before - after, 60)


def try_keys(count, page):
    """Goes over the page from its start by keys alone."""
    page.run("document.activeElement.blur(); window.scrollTo(0, 0)")
    page.run("getSelection().removeAllRanges()")
    reached = []
    while "link" not in reached and len(reached) < 20:
        page.press("Tab")
        reached.append(page.run("return document.activeElement.id"))
        if reached[-1] == "positions":
            page.press("Home", "Right", "Right", "Right")
            count.equal("chromedriver: keys choose a position", page.text("#detail .rule"), "Rule LB18")
        if reached[-1] == "copy":
            page.press("Enter")
            until(lambda: page.text("#done") != "")
    wanted = ["example", "profile", "text", "positions", "copy", "link"]
    count.equal("chromedriver: keys reach each control in order", [it for it in reached if it in wanted], wanted)
    said = page.text("#done")
    count.say("chromedriver: the page says whether it copied",
        "" if said.startswith(("The line copied", "This browser")) else said)


def try_names(count, page):
    """The tree that Chromium gives to a screen reader."""
    nodes = [it for it in page.tools("Accessibility.getFullAXTree")["nodes"] if not it.get("ignored")]
    rows = [(it["role"]["value"], it.get("name", {}).get("value", "")) for it in nodes]
    roles = [role for role, _ in rows]
    unnamed = [role for role, name in rows if role in ASKS_A_NAME and not name.strip()]
    count.equal("chromedriver: what a screen reader reads has names", unnamed, [])
    seen = {it: roles.count(it) for it in ("main", "textbox", "listbox", "slider", "button")}
    count.equal("chromedriver: a screen reader finds each control", seen,
        {"main": 1, "textbox": 1, "listbox": 1, "slider": 1, "button": 2})
    options = [name for role, name in rows if role == "option" and "rule" in name]
    count.equal("chromedriver: each position is an option with its rule", options[:2],
        ["No break, rule 2", "No break, rule 28"])


def try_schemes(count, page):
    papers = set()
    page.run("const it = document.getElementById('text'); it.value = 'ab cd\\nef gh'; it.dispatchEvent(new Event('input'))")
    page.point("mouse", (page.find("h1"), 0, 0))
    for scheme in ("light", "dark"):
        page.tools("Emulation.setEmulatedMedia", features=[{"name": "prefers-color-scheme", "value": scheme}])
        papers.add(page.run("return getComputedStyle(document.body).backgroundColor"))
        least = page.run(CONTRASTS)
        what = f"chromedriver: signs of breaks have a ground in {scheme}, and others none"
        count.equal(what, page.run(GROUNDS), {"no": False, "may": True, "must": True})
        count.equal(f"chromedriver: text can be read in {scheme}",
            {name: round(it, 2) for name, it in least.items() if it < LEAST_CONTRAST}, {})
    count.equal("chromedriver: light and dark differ", len(papers), 2)


def show_screen(page, width, height, scheme="light"):
    page.tools("Emulation.setDeviceMetricsOverride", width=width, height=height, deviceScaleFactor=1,
        mobile=width < 600)
    page.tools("Emulation.setEmulatedMedia", features=[{"name": "prefers-color-scheme", "value": scheme}])


def try_opening(count, page, address):
    """The page as it opens, on a wide and a narrow screen."""
    for width, height in SCREENS:
        show_screen(page, width, height)
        page.open(address)
        count.equal(f"chromedriver: at {width} x {height} the first screen has the answer", page.run(OPENING),
            [True] * 4)
        for fragment in ("", "#text=%D8%A7%D9%84%D8%B3%D8%B9%D8%B1%20123%20abc%0Ax" + "%20iil" * 30):
            page.open(address + fragment)
            found = page.run(TARGETS.replace("LEAST", str(LEAST_TARGET - ROUNDING)))
            what = f"chromedriver: at {width} what can be pointed at has {LEAST_TARGET} pixels, and nothing covers it"
            count.equal(what, found, [True, [], []])


def try_long_text(count, page, address):
    """Types into the middle of a text of a million characters."""
    show_screen(page, *SCREENS[0])
    page.open(address)
    page.run(f"const it = document.getElementById('text'); it.value = {LONG_TEXT}; it.dispatchEvent(new Event('input')); "
             "it.focus(); it.setSelectionRange(500000, 500000)")
    page.run(WATCH_KEYS)
    for key in "abcdefgh":
        page.press(key)
        page.run("return new Promise((done) => requestAnimationFrame(() => setTimeout(done, 50)))")
    times, own = ([it / 1000 for it in page.run(f"return {name}")] for name in ("keyTimes", "ownTimes"))
    best = min(own, default=MOST_SECONDS_OF_KEY)
    frame = f"{min(times, default=0):.3f} s to the next frame"
    what = f"chromedriver: a key in a million characters takes the page's scripts {best:.3f} s at best of {len(own)}, and {frame}"
    count.say(what, "" if best < MOST_SECONDS_OF_KEY else f"{MOST_SECONDS_OF_KEY} s or more")


def drive(count, address):
    with driver() as page:
        page.open(f"{address}#text=ab%20cd")
        try_pointers(count, page)
        try_keys(count, page)
        try_names(count, page)
        try_schemes(count, page)
        show_screen(page, 320, 640)
        count.equal("chromedriver: nothing is wider than 320 pixels",
            page.run("return document.documentElement.scrollWidth"), 320)
        try_opening(count, page, address)
        try_long_text(count, page, address)
        count.equal("chromedriver: nothing stands on the console", page.ask("POST", "/se/log", {"type": "browser"}), [])
        events = [json.loads(it["message"])["message"] for it in page.ask("POST", "/se/log", {"type": "performance"})]
        asked = [it["params"]["request"]["url"] for it in events if it["method"] == "Network.requestWillBeSent"]
        origin = address.rsplit("/", 2)[0] + "/"
        others = [it for it in asked if not it.startswith((origin, "data:"))]
        count.equal("chromedriver: no request goes to another server", [len(asked) > 5, others], [True, []])
