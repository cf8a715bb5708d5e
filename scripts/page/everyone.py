"""Keys alone, a screen reader, large texts, a phone, a dark screen, and the pictures."""
import base64
import re

from place import wait_for

LANDMARKS = ("banner", "main", "navigation", "heading")
NAMED = ("button", "link", "textbox", "searchbox", "checkbox", "heading")
# A phone, and texts of twice the size.
WINDOWS = (("a phone", 320, "100%"), ("200 % text", 1280, "200%"), ("a phone with 200 % text", 360, "200%"))
VIEWS = ("sign-in", "#/", "#/acme-net", "#/odd-long", "#/ordered", "#start")
PICTURES = (
    ("light", 1280, 1090, "light", "#/"),
    ("dark", 1280, 1290, "dark", "#/acme-net"),
    ("phone", 390, 844, "light", "#/acme-net"),
)
# Texts whose contrast is below 4.5 (WCAG 2.2, 1.4.3, and its definition of relative luminance).
CONTRAST = """
    const numbers = (color) => color.match(/[0-9.]+/g).map(Number);
    const linear = (part) => (part <= 0.04045 ? part / 12.92 : ((part + 0.055) / 1.055) ** 2.4);
    const luminance = (color) => {
        const [red, green, blue] = numbers(color).map((part) => linear(part / 255));
        return 0.2126 * red + 0.7152 * green + 0.0722 * blue;
    };
    const ground = (it) => {
        const color = getComputedStyle(it).backgroundColor;
        return (numbers(color)[3] ?? 1) > 0 ? color : ground(it.parentElement);
    };
    const contrast = (it) => {
        const [less, more] = [getComputedStyle(it).color, ground(it)].map(luminance).sort((a, b) => a - b);
        return (more + 0.05) / (less + 0.05);
    };
    const walk = document.createTreeWalker(document.body, NodeFilter.SHOW_TEXT);
    const low = [];
    while (walk.nextNode()) {
        const it = walk.currentNode.parentElement;
        const isSeen = walk.currentNode.data.trim() && it.checkVisibility() && !it.closest(':disabled');
        if (isSeen && contrast(it) < 4.5) low.push([it.textContent, contrast(it)]);
    }
    return low;"""
TAB, ENTER = "\ue004", "\ue007"


def keyboard(day):
    """From loading the page to an archive, by keys alone."""
    browser = day.browser
    browser.open()
    browser.press(day.ada, TAB, " ", TAB, ENTER)
    browser.settle()
    day.equal("by keys: signed in", browser.focus, "query")
    browser.press("acme-t")
    browser.settle()
    tab_to(browser, "acme-tls")
    browser.press(ENTER)
    browser.settle()
    day.equal("by keys: a crate", browser.text("#crate-title"), "acme-tls 1.0.3")
    tab_to(browser, "Download")
    browser.press(ENTER)
    wait_for("by keys: an archive", (browser.downloads / "acme-tls-1.0.3.crate").exists)
    day.holds("by keys: an archive", True)
    tab_to(browser, "1.0.3")
    outline = browser.script("return getComputedStyle(document.activeElement).outlineStyle")
    day.equal("the focus is seen", outline, "solid")
    browser.click("#sign-out")


def tab_to(browser, text):
    for _ in range(40):
        if browser.script("return document.activeElement.textContent.trim()") == text:
            return
        browser.press(TAB)
    raise LookupError(f"no Tab leads to {text!r}")


def screen_reader(day):
    browser = day.browser
    browser.open()
    look_at_tree(day, "signing in", "textbox checkbox button")
    day.equal("the token's label", browser.one("#token").accessible_name, "Token")
    browser.sign_in(day.ada)
    browser.write("#query", "part")
    look_at_tree(day, "the list", "search searchbox list listitem link status")
    day.equal("the search's label", browser.one("#query").accessible_name, "Search crates by name")
    browser.go("#/acme-net")
    look_at_tree(day, "a crate", "search list listitem link button term definition")
    copy = browser.all(".copyable button")[0]
    day.equal("a button says what it copies", copy.accessible_name, "Copy the line for cargo add")
    day.equal("one title of the first rank", len(browser.all("h1")), 1)
    browser.go("#/acme-nothing")
    day.equal("a failure is an alert", browser.one("#failure").aria_role, "alert")
    day.refusals("a crate that is not there", 3, "404")


def look_at_tree(day, name, wanted):
    """What a screen reader gets: the roles are there, and whatever can be used has a name."""
    nodes = [it for it in day.browser.order("Accessibility.getFullAXTree")["nodes"] if not it["ignored"]]
    lacks = {*LANDMARKS, *wanted.split()} - {it["role"]["value"] for it in nodes}
    day.equal(f"{name}: the roles are there", lacks, set())
    nameless = [it for it in nodes if it["role"]["value"] in NAMED and not it["name"]["value"].strip()]
    day.equal(f"{name}: whatever can be used has a name", nameless, [])


def sizes(day):
    """No view is wider than its window."""
    browser = day.browser
    browser.open()
    for name, width, size in WINDOWS:
        browser.resize(width, 800)
        for view in VIEWS:
            show(day, view)
            browser.script("document.documentElement.style.fontSize = arguments[0]", size)
            day.holds(f"{name}: {view} is not wider", browser.fits)
    browser.order("Emulation.clearDeviceMetricsOverride")


def show(day, view):
    """A view as it is after loading the page anew."""
    browser = day.browser
    if view == "sign-in":
        browser.open()
    else:
        if browser.all("#token"):
            browser.sign_in(day.ada)
        browser.go(view)


def colors(day):
    browser = day.browser
    for scheme in ("light", "dark"):
        browser.prefer(scheme)
        for view in ("sign-in", "#/", "#/acme-base/1.1.0", "#/acme-base/9.9.9"):
            show(day, view)
            day.equal(f"{scheme}: the texts of {view} stand out", browser.script(CONTRAST), [])
        ground = browser.script("return getComputedStyle(document.documentElement).backgroundColor")
        is_dark = all(int(part) < 64 for part in re.findall("[0-9]+", ground))
        day.equal(f"{scheme}: the ground", is_dark, scheme == "dark")
    browser.order("Emulation.setEmulatedMedia", features=[])


def pictures(day, folder):
    browser = day.browser
    browser.open()
    browser.sign_in(day.ada)
    # In place of this day's host and port.
    browser.script("document.getElementById('host').textContent = 'crates.example.com'")
    folder.mkdir(exist_ok=True)
    for name, width, height, scheme, view in PICTURES:
        browser.resize(width, height)
        browser.prefer(scheme)
        browser.go("#/")
        browser.write("#query", "acme")
        browser.go(view)
        picture = base64.b64decode(browser.order("Page.captureScreenshot", format="png")["data"])
        (folder / f"page-{name}.png").write_bytes(picture)
        day.holds(f"a picture: page-{name}.png", len(picture) > 10_000, len(picture))
    browser.order("Emulation.clearDeviceMetricsOverride")
    browser.order("Emulation.setEmulatedMedia", features=[])
