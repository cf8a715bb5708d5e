"""Texts of a publisher who means harm."""
from crates import HEBREW, LONG, MARKUP, QUOTES, TURNED_SHOWN

# In each row the name stands left of the version, and the letters behind a mark in their order.
RUNS_TO_THE_RIGHT = """
    const left = (it) => it.getBoundingClientRect().x;
    const letter = (text, at) => {
        const range = document.createRange();
        range.setStart(text, at);
        range.setEnd(text, at + 1);
        return range;
    };
    const rows = [...document.querySelectorAll('#found li')];
    const text = rows.find((it) => it.textContent.includes('gnp')).querySelector('.told').firstChild;
    const at = text.data.indexOf('gnp.exe');
    return left(letter(text, at)) < left(letter(text, at + 6))
        && rows.every((it) => left(it.querySelector('a')) < left(it.querySelector('.version')));"""
ELEMENTS = """
    const count = (path) => document.querySelectorAll(path).length;
    return [count('main :is(img, script, b, iframe)'), document.scripts.length, document.title === '1'];"""


def hostile(day):
    browser = day.browser
    browser.open()
    browser.sign_in(day.ada)
    browser.write("#query", "odd-")
    shown = dict(zip(browser.texts("#found h2 a"), browser.texts_within("#found p")))
    day.equal("a description with markup is text", shown["odd-markup"], MARKUP)
    day.equal("a description with quotes", shown["odd-quotes"], QUOTES)
    day.equal("a description with directional marks", shown["odd-turned"], TURNED_SHOWN)
    day.equal("a description from right to left", shown["odd-hebrew"], HEBREW)
    day.holds("none turns what stands beside it", browser.script(RUNS_TO_THE_RIGHT))
    has_no_elements(day, "the list")
    long_texts(day)
    for name in ("odd-markup", "odd-turned"):
        browser.go(f"#/{name}")
        has_no_elements(day, f"the page of {name}")
    hostile_index(day)


def has_no_elements(day, name):
    day.equal(f"{name}: no element of a publisher's", day.browser.script(ELEMENTS), [0, 1, False])


def long_texts(day):
    browser = day.browser
    row = next(it for it in browser.all("#found li") if it.text.startswith("odd-long"))
    told, more = (row.find_element("css selector", path) for path in (".told", ".more"))
    length = lambda: len(told.get_property("textContent"))  # noqa: E731
    day.equal("a description of 100 kB is cut", length(), 241)
    day.equal("with a way to see all", more.text, "Show all 100,000 characters")
    more.click()
    day.equal("all of it", length(), LONG)
    day.holds("within the width", browser.fits)
    more.click()
    day.equal("and less again", length(), 241)


def hostile_index(day):
    browser = day.browser
    browser.go("#/odd-markup")
    shown = browser.texts_within("#view-crate")[0]
    day.has("the index line's texts are there as they are", shown, MARKUP, QUOTES, "__proto__", "constructor", TURNED_SHOWN)
    day.has("a dependency of another registry is named", shown, "from javascript:document.title=1")
    day.has("so is one of crates.io", browser.text(".dependencies"), "from crates.io", "renamed to codec")
    links = browser.script("return [...document.querySelectorAll('#view-crate a')].map((it) => it.getAttribute('href'))")
    day.equal("no link but to the crate itself", {*links}, {"#/odd-markup/1.0.0"})
    day.equal("an owner's name is text", browser.texts(".owners li")[1], 'eve Eve <b title="x">Mallory</b>')
