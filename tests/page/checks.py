"""Opens the pages of samples, clicks, types, and looks at what is shown.

usage: checks.py CHROMIUM PAGES [PICTURES]

PAGES is the folder of the pages, NAME.html; pictures are written where their folder is named.
"""

import json
import pathlib
import sys
import tempfile

from chromium import Chromium

# The rows of the steps that have the colour of a marked cell, whatever gave it to them.
LIT = """(() => {
    const hot = getComputedStyle(document.querySelector('.map td.hot:not(.self), .legend .hot')).backgroundColor;
    return [...document.querySelectorAll('.step')]
        .filter((step) => getComputedStyle(step.firstElementChild).backgroundColor === hot)
        .map((step) => step.id);
})()"""

# Whether the middle of an element can be seen: in the window, and not covered or scrolled away.
SEEN = """((selector) => {
    const element = document.querySelector(selector);
    const r = element.getBoundingClientRect();
    const top = document.elementFromPoint(r.x + r.width / 2, r.y + r.height / 2);
    return top !== null && (element.contains(top) || top.contains(element) && top.closest('a') !== null);
})"""

PRESSED = """[...document.querySelectorAll('[aria-pressed="true"]')].map((link) => link.getAttribute('href'))"""

TOO_WIDE = "document.documentElement.scrollWidth > innerWidth"


class Checks:
    def __init__(self, browser, pages):
        self.browser = browser
        self.pages = pages
        self.page = ""
        self.passed = 0
        self.failed = 0

    def open(self, page, fragment=""):
        self.page = page
        self.browser.open((self.pages / f"{page}.html").as_uri() + fragment)

    def same(self, what, found, expected):
        if found == expected:
            self.passed += 1
        else:
            self.failed += 1
            print(f"page: {self.page}: {what}: {found!r}, not {expected!r}", file=sys.stderr)

    def shows(self, what, rows, fragment, lines=None):
        """Exactly these rows are lit, the first is seen, the address and the buttons say so."""
        ids = [f"row-{row}" for row in rows]
        self.same(f"{what}, lit", sorted(self.browser.value(LIT)), sorted(ids))
        self.same(f"{what}, address", self.browser.value("location.hash"), fragment)
        pressed = set(self.browser.value(PRESSED))
        self.same(f"{what}, pressed", pressed, {fragment} if fragment else set())
        self.same(f"{what}, the button to clear", self.browser.value("document.getElementById('clear').hidden"), not fragment)
        for row in ids[:lines]:
            self.same(f"{what}, {row} is seen", self.seen(f"#{row} > span"), True)

    def seen(self, selector):
        return self.browser.value(f"{SEEN}({json.dumps(selector)})")

    def quiet(self):
        """Nothing was fetched but the page, and nothing was complained of."""
        self.browser.value("0")
        own = (self.pages / f"{self.page}.html").as_uri()
        for event in self.browser.events:
            method, params = event.get("method"), event.get("params", {})
            if method == "Network.requestWillBeSent":
                url = params["request"]["url"]
                self.same("a request", url.split("#")[0] in (own, "data:,"), True)
            elif method == "Runtime.exceptionThrown":
                self.same("an exception", params["exceptionDetails"].get("text"), None)
            elif method == "Runtime.consoleAPICalled":
                self.same("a word on the console", params["args"], None)
            elif method == "Log.entryAdded":
                self.same("a complaint", params["entry"]["text"], None)


def clicks(checks):
    browser = checks.browser
    checks.open("burnt-batch")
    checks.shows("opened", [], "")
    browser.click('.map a[href="#pair-0-1"]')
    checks.shows("a cell clicked", [1, 3], "#pair-0-1")
    browser.click('.map a[href="#pair-0-1"]')
    checks.shows("the cell clicked again", [], "")
    browser.click('.map tbody tr:nth-child(4) a')
    checks.shows("a cell of the lower half", [1, 4], "#pair-0-3")
    browser.press("Escape", 27)
    checks.shows("Escape", [], "")
    browser.click('.list a[href="#pair-0-3"]')
    checks.shows("a line clicked", [1, 4], "#pair-0-3")
    browser.click('.list a[href="#pair-0-1"]')
    checks.shows("another line clicked", [1, 3], "#pair-0-1")
    sentence = browser.value("document.getElementById('shown').textContent")
    checks.same("the sentence", sentence, "Label 0 (row 1) and label 1 (row 3) may run at the same time.")
    browser.click("#clear")
    checks.shows("the button to clear", [], "")
    checks.quiet()


def keys(checks):
    browser = checks.browser
    focused = "[document.activeElement.getAttribute('href'), document.activeElement.closest('td, li')?.tagName]"
    checks.open("burnt-batch")
    browser.press("Tab", 9)
    checks.same("Tab", browser.value(focused), ["#pair-0-1", "TD"])
    browser.press("Enter", 13, "\r")
    checks.shows("Enter on a cell", [1, 3], "#pair-0-1")
    browser.press("ArrowRight", 39)
    checks.same("an arrow", browser.value(focused), ["#pair-0-3", "TD"])
    browser.press(" ", 32, " ")
    checks.shows("Space on a cell", [1, 4], "#pair-0-3")
    browser.press(" ", 32, " ")
    checks.shows("Space again", [], "")
    browser.press("Tab", 9)
    checks.same("Tab to the list", browser.value(focused), ["#pair-0-1", "LI"])
    browser.press("ArrowDown", 40)
    browser.press("Enter", 13, "\r")
    checks.shows("Enter on a line", [1, 4], "#pair-0-3")
    checks.quiet()


def addresses(checks):
    browser = checks.browser
    checks.open("burnt-batch", "#pair-0-3")
    checks.shows("an address with a pair", [1, 4], "#pair-0-3")
    checks.same("the head of the page is seen", checks.seen("h1"), True)
    browser.value("location.hash = '#pair-0-1'")
    browser.value("new Promise((done) => setTimeout(done, 100))", wait=True)
    checks.shows("the address changed", [1, 3], "#pair-0-1")
    checks.open("burnt-batch", "#pair-5-6")
    checks.same("a pair that is not listed", browser.value(LIT), [])
    checks.quiet()


def procedures(checks):
    browser = checks.browser
    checks.open("figure-1-third-3")
    browser.click("#procedure-1 > summary")
    browser.click("#procedure-3 > summary")
    checks.same("folded", browser.value("document.querySelectorAll('details[open]').length"), 3)
    browser.click('.map a[href="#pair-0-2"]')
    checks.shows("a pair in folded procedures", [3, 9], "#pair-0-2")
    browser.click('#row-13 a')
    checks.same("a call leads to its procedure", checks.seen("#procedure-1 > summary"), True)
    checks.same("the address stays", browser.value("location.hash"), "#pair-0-2")
    browser.click('.map a[href="#pair-1-1"]')
    checks.shows("a label with itself", [6], "#pair-1-1")
    checks.quiet()


def many_labels(checks):
    browser = checks.browser
    for width, height in [(1600, 1000), (1100, 800), (400, 800)]:
        browser.window(width, height)
        checks.open("figure-1-third-62")
        checks.same(f"too wide at {width}", browser.value(TOO_WIDE), False)
        browser.click('.map a[href="#pair-3-60"]')
        checks.shows(f"a cell at {width}", [12, 183], "#pair-3-60", 1)
        browser.click('#shown a[href="#row-183"]')
        checks.same(f"a row of the sentence at {width}", checks.seen("#row-183 > span"), True)
        browser.press("Escape", 27)
        browser.click('.list a[href="#pair-40-41"]')
        checks.shows(f"a line at {width}", [123, 126], "#pair-40-41", 1)
        checks.quiet()
    sides = browser.value("""[...new Set([...document.querySelectorAll('.map tbody td a')]
        .map((cell) => cell.getBoundingClientRect()).map((r) => `${r.width} by ${r.height}`))]""")
    checks.same("the cells are squares of one size", sides, ["14 by 14"])


def deep(checks):
    browser = checks.browser
    browser.window(1200, 900)
    checks.open("13c-rows-1024")
    checks.same("too wide", browser.value(TOO_WIDE), False)
    inset = browser.value("""[...document.querySelectorAll('.blocks > li')]
        .map((block) => block.getBoundingClientRect().x)
        .every((x, at, all) => at === 0 || x >= all[at - 1] + 4)""")
    checks.same("each block stands further in", inset, True)
    browser.value("document.getElementById('row-0').scrollIntoView()")
    checks.same("the innermost block is seen", checks.seen("#row-0 > span"), True)
    checks.quiet()


def without_scripts(checks):
    browser = checks.browser
    browser.window(1200, 900)
    browser.scripts(False)
    checks.open("burnt-batch")
    checks.same("scripts are off", browser.value("document.documentElement.className"), "")
    sizes = browser.value("""[...document.querySelectorAll('.map tbody td')]
        .map((cell) => cell.getBoundingClientRect()).filter((r) => r.width > 20 && r.width === r.height).length""")
    checks.same("cells that are shown", sizes, 16)
    checks.same("marked cells", browser.value("document.querySelectorAll('.map .hot').length"), 4)
    checks.same("a step is seen", checks.seen("#row-1 > span"), True)
    checks.same("lit", browser.value(LIT), [])
    browser.click('.map a[href="#pair-0-1"]')
    checks.same("lit by a cell", sorted(browser.value(LIT)), ["row-1", "row-3"])
    browser.click('.list a[href="#pair-0-3"]')
    checks.same("lit by a line", sorted(browser.value(LIT)), ["row-1", "row-4"])
    checks.quiet()
    checks.open("figure-1-third-3")
    browser.click("#procedure-1 > summary")
    visible = "document.querySelector('#row-3').checkVisibility()"
    checks.same("a folded step", browser.value(visible), False)
    browser.window(1200, 900, medium="print")
    checks.same("a folded step in print", browser.value(visible), True)
    checks.quiet()
    browser.window(1200, 900)
    browser.scripts(True)


def pictures(checks, folder):
    browser = checks.browser
    for name, page, fragment, size, scheme in [
        ("burnt-batch", "burnt-batch", "#pair-0-1", (1200, 754), "light"),
        ("burnt-batch-dark", "burnt-batch", "#pair-0-1", (1200, 754), "dark"),
        ("many-labels", "figure-1-third-62", "#pair-3-60", (1600, 1000), "light"),
        ("deep", "13c-rows-1024", "", (1200, 900), "light"),
    ]:
        browser.window(*size, scheme)
        checks.open(page, fragment)
        browser.picture(folder / f"{name}.png")
    for name, landscape in [("print-portrait", False), ("print-landscape", True)]:
        checks.open("figure-1-third-62")
        browser.pdf(folder / f"{name}.pdf", landscape)


def main():
    program, pages = sys.argv[1], pathlib.Path(sys.argv[2]).resolve()
    with tempfile.TemporaryDirectory(ignore_cleanup_errors=True) as profile:
        browser = Chromium(program, profile)
        try:
            checks = Checks(browser, pages)
            browser.window(1200, 900)
            for part in [clicks, keys, addresses, procedures, many_labels, deep, without_scripts]:
                part(checks)
            if len(sys.argv) > 3:
                pictures(checks, pathlib.Path(sys.argv[3]))
        finally:
            browser.close()
    if checks.failed:
        print(f"page: {checks.failed} of {checks.passed + checks.failed} checks failed", file=sys.stderr)
        sys.exit(1)
    print(f"page: {checks.passed} checks passed")


main()
