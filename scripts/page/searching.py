"""Searching, and answers that come late."""
import time

from crates import FILLERS
from place import wait_for

NAMES = "acme-base acme-cache acme-cli acme_config Acme-Log acme-metrics acme-net acme-queue acme-secret acme-store acme-tls"
LATE = 2
MORE = "To find another, type more of its name."


def search(day):
    browser, place = day.browser, day.place
    browser.open()
    browser.sign_in(day.ada)
    day.has("all crates, and how to find others", browser.text("#count"), "crates, of which these are the first 100", MORE)
    browser.write("#query", "acme")
    day.equal("the crates, by canonical text", browser.texts("#found h2 a"), NAMES.split())
    day.equal("how many they are", browser.text("#count"), "11 crates")
    versions = ["1.0.0", "0.7.1", "1.3.0", "0.4.2", "2.0.0+build.7"]
    day.equal("the highest versions", browser.texts("#found h2 .version")[:5], versions)
    day.equal("the description", browser.texts("#found p")[1], "A cache with limits in bytes and in time")
    day.equal("no pages of the screen", browser.all("#pages"), [])
    browser.write("#query", "zzz")
    day.has("a search without a hit", browser.text("#count"), "No crate that you may read has this in its name")
    turn_pages(day)
    ask_after_a_pause(day)


def turn_pages(day):
    browser = day.browser
    browser.write("#query", "part-")
    day.equal("a search with many hits", browser.text("#count"), f"{FILLERS} crates, of which these are the first 100. {MORE}")
    day.equal("the first 20", browser.texts("#found h2 a"), [f"part-{number:03}" for number in range(20)])
    asked = len(day.place.way.asked)
    browser.click("#next")
    day.equal("the next 20", browser.texts("#found h2 a"), [f"part-{number:03}" for number in range(20, 40)])
    day.equal("which of them", browser.text("#range"), "21 to 40 of 100")
    day.equal("the first of them has the focus", browser.script("return document.activeElement.textContent"), "part-020")
    for _ in range(3):
        browser.click("#next")
    day.holds("the last page has no next", not browser.one("#next").is_enabled())
    browser.click("#previous")
    day.equal("back by one", browser.text("#range"), "61 to 80 of 100")
    day.equal("all of that from one answer", len(day.place.way.asked), asked)
    browser.click("#found li:nth-child(3) a")
    browser.driver.back()
    browser.settle()
    day.equal("back from a crate, the same page is there", browser.texts("#found h2 a")[0], "part-060")


def ask_after_a_pause(day):
    browser, place = day.browser, day.place
    browser.write("#query", "")
    asked = len(place.way.asked)
    browser.one("#query").send_keys("acme-net")
    browser.settle()
    targets = [it.target for it in place.way.asked[asked:]]
    day.equal("a word that is typed is asked for", targets[-1], "/api/v1/crates?q=acme-net&per_page=100")
    day.holds("its letters are not", len(targets) < 4, targets)


def late(answer):
    time.sleep(LATE)
    return answer


def late_answers(day):
    """An answer is held up until a later one is there."""
    browser, place = day.browser, day.place
    with place.way.altered("q=acme-n&", late):
        browser.write("#query", "part-01")
        browser.clear("#query")
        browser.one("#query").send_keys("acme-n")
        wait_for("the question that is answered late", lambda: place.way.targets("q=acme-n&"))
        browser.one("#query").send_keys("et")
        browser.settle()
        day.equal("the later answer is there first", browser.texts("#found h2 a"), ["acme-net"])
        browser.write("#query", "acme-c")
        time.sleep(LATE + 0.5)
    day.equal("a late answer replaces nothing", browser.texts("#found h2 a"), ["acme-cache", "acme-cli", "acme_config"])
    late_crate(day)


def late_crate(day):
    browser, place = day.browser, day.place
    target = r"^/api/v1/crates/acme-net/owners"
    with place.way.altered(target, late):
        browser.script("location.hash = '#/acme-net'")
        wait_for("the crate that is answered late", lambda: place.way.targets(target))
        browser.script("location.hash = '#/acme-cli'")
        browser.settle()
        time.sleep(LATE + 0.5)
    day.equal("nor does a late crate", browser.text("#crate-title"), "acme-cli 1.3.0")
