"""A crate: its versions, spellings and archives, and who may see it."""
import hashlib
import time

from crates import ORDERED
from place import Answer, wait_for

MANY = 9_700
DEPENDENCIES = {
    "Normal": [
        "Acme-Log ^2 optional",
        "acme-base ^1",
        "acme_config ^0.4 renamed to settings without default features features: toml",
    ],
    "On cfg(windows)": ["acme-base ^0.10 renamed to acme-base-win"],
    "Build": ["acme_config ^0.4"],
    "Development": ["acme-base =0.9.0 renamed to acme-base-dev"],
}
TO_COPY = [
    "cargo add acme-net@1.2.0 --registry team",
    '[dependencies]\nacme-net = { version = "1.2.0", registry = "team" }',
]


def crate(day):
    browser = day.browser
    browser.go("#/acme-net")
    day.equal("a crate: name and highest version", browser.text("#crate-title"), "acme-net 1.2.0")
    day.equal("its title has the focus", browser.focus, "crate-title")
    day.equal("its description", browser.text(".about"), "Connections, retries and timeouts for our services")
    day.equal("its dependencies by kind and target", dependencies_shown(browser), DEPENDENCIES)
    features = browser.text(".features")
    day.has("its features, the newer ones too", features, "default", "std", "logs", "dep:Acme-Log")
    day.equal("its owners", browser.texts(".owners li"), ["ada Ada Lovelace", "bob"])
    day.has("its Rust version", browser.text("#version dl"), "1.74 or later")
    lines_to_copy(day)
    browser.all(".dependencies a[href='#/acme_config']")[0].click()
    browser.settle()
    day.equal("a dependency is a link", browser.text("#crate-title"), "acme_config 0.4.2")
    versions(day)
    spellings(day)


def dependencies_shown(browser):
    """The dependencies under each title, sorted."""
    rows = browser.script("""
        const sections = [...document.querySelectorAll('#version section')];
        const section = sections.find((it) => it.firstChild.textContent.startsWith('Dependencies'));
        const items = (it) => [...it.querySelectorAll('li')].map((li) => li.innerText);
        return [...section.children].map((it) => [it.localName, items(it), it.innerText]);""")
    shown, title = {}, None
    for tag, items, text in rows:
        if tag == "ul":
            shown[title] = sorted(items)
        else:
            title = text
    return shown


def lines_to_copy(day):
    browser = day.browser
    lines = browser.all("#version .copyable")
    day.equal("the lines to copy", [it.find_element("css selector", "code").text for it in lines], TO_COPY)
    for line, text in zip(lines, TO_COPY):
        copy(day, line.find_element("css selector", "button"), text)
    browser.order("Browser.resetPermissions")
    browser.one("#version summary").click()
    day.has("the registry's lines", browser.text("#version details"), f"sparse+{day.place.address}/index/")


def copy(day, button, text):
    """With the browser's permission, and without it."""
    browser = day.browser
    may = {"origin": day.place.address, "permissions": ["clipboardReadWrite", "clipboardSanitizedWrite"]}
    browser.order("Browser.grantPermissions", **may)
    button.click()
    wait_for("a line is copied", lambda: button.text == "Copied")
    copied = browser.driver.execute_async_script("navigator.clipboard.readText().then(arguments[0])")
    day.equal("a line is copied", copied, text)
    browser.order("Browser.grantPermissions", **{**may, "permissions": []})
    button.click()
    wait_for("a line is selected", lambda: button.text == "Selected")
    selected = browser.script("return getSelection().toString()").strip()
    day.equal("where the browser does not let it, it is selected", selected, text)


def versions(day):
    browser = day.browser
    browser.go("#/acme-base")
    day.equal("the highest version that is not yanked", browser.text("#crate-title"), "acme-base 1.0.0")
    day.equal("all versions by precedence", browser.texts(".versions a"), ["1.1.0", "1.0.0", "1.0.0-rc.1", "0.10.0", "0.9.0"])
    marked = [it.text.split("\n")[0] for it in browser.all(".versions li") if "yanked" in it.text]
    day.equal("the yanked one is marked", marked, ["1.1.0"])
    browser.click(".versions li:first-child a")
    day.has("another version", browser.text("#version .title"), "acme-base 1.1.0", "yanked", "The highest version is 1.0.0")
    day.equal("it has an address of its own", browser.script("return location.hash"), "#/acme-base/1.1.0")
    day.equal("its row is the current one", browser.texts(".versions [aria-current]"), ["1.1.0"])
    browser.go("#/acme-base/9.9.9")
    day.has("a version that is not there", browser.text("#failure"), "acme-base has no version 9.9.9")
    browser.go("#/Acme-Log")
    line = browser.texts("#version .copyable code")[0]
    day.equal("no build metadata in a requirement", line, "cargo add Acme-Log@2.0.0 --registry team")
    browser.go("#/ordered")
    day.equal("the order of SemVer 2.0.0, section 11", browser.texts(".versions a"), [*reversed(ORDERED)])


def spellings(day):
    browser, place = day.browser, day.place
    for name in ("ACME_NET", "acme_net", "acme-NET"):
        browser.go("#/")
        browser.go(f"#/{name}")
        day.equal(f"{name} is acme-net", browser.text("#crate-title"), "acme-net 1.2.0")
        day.equal("the address has the published spelling", browser.script("return location.hash"), "#/acme-net")
    nothing = Answer(200, "application/json", b'{"crates":[],"meta":{"total":0}}')
    with place.way.altered("q=acme-config", lambda _: nothing):
        browser.go("#/acme-config")
    day.equal("where a search does not show it, - and _ are exchanged", browser.text("#crate-title"), "acme_config 0.4.2")
    browser.go("#/acme-nothing")
    shown = browser.text("#failure")
    day.has("a crate that is not there", shown, "A8 no such crate", "A crate that you may not read seems not to exist")
    browser.go("#/no%20name%3F")
    day.has("what is no name", browser.text("#failure"), "This is no name of a crate")
    day.refusals("other spellings", 6, "404")


def with_another_bit(answer):
    return answer._replace(body=answer.body[:-1] + bytes([answer.body[-1] ^ 1]))


def archives(day):
    browser, place = day.browser, day.place
    _, wanted = place.get("/api/v1/crates/acme-net/1.2.0/download", day.ada)
    file = browser.downloads / "acme-net-1.2.0.crate"
    browser.go("#/acme-net")
    shown = browser.text("#version dl code")
    day.equal("the checksum", shown, hashlib.sha256(wanted).hexdigest())
    with place.way.altered("/download", with_another_bit):
        browser.click("#version section > button")
        time.sleep(1)
        day.equal("an archive that was changed on the way is not handed over", [*browser.downloads.glob("*")], [])
        day.has("the page says so", browser.text("#failure"), "The archive was changed on its way", "It is not saved")
    browser.click("#failure button")
    wait_for("the archive is saved", file.exists)
    day.equal("the archive, tried again", file.read_bytes(), wanted)
    told = browser.text("#version [role=status]")
    day.has("the page tells it", told, "acme-net-1.2.0.crate is the archive that the index names")
    browser.go("#/Acme-Log")
    browser.click("#version section > button")
    file = browser.downloads / "Acme-Log-2.0.0+build.7.crate"
    wait_for("the archive of a version with build metadata", file.exists)
    day.holds("the archive of a version with build metadata", True)


def two_readers(day):
    """What a token may not read is on no page of its reader."""
    browser = day.browser
    found = {}
    for login in ("ada", "bob"):
        browser.open("#/acme-secret")
        browser.sign_in(getattr(day, login))
        found[login] = browser.text("#crate-title"), browser.text("#failure")
        browser.write("#query", "acme-s")
        found[login] += (browser.texts("#found h2 a"), browser.text("#count"))
    seen = ("acme-secret 0.1.0", "", ["acme-secret", "acme-store"], "2 crates")
    day.equal("a reader of a restricted crate", found["ada"], seen)
    title, failure, names, count = found["bob"]
    day.equal("for who may not read it, a search is without it", (title, names, count), ("", ["acme-store"], "1 crate"))
    day.has("and its address has no such crate", failure, "A8 no such crate")
    day.refusals("a crate that may not be read", 3, "404")


def many_versions(day):
    browser, place = day.browser, day.place
    _, line = place.get("/index/ac/me/acme-cli", day.ada)
    lines = b"".join(line.replace(b'"1.3.0"', b'"0.%d.%d"' % divmod(number, 100)) for number in range(MANY))
    with place.way.altered("^/index/ac/me/acme-cli", lambda answer: answer._replace(body=lines)):
        browser.go("#/")
        browser.go("#/acme-cli")
    shown = browser.texts_within(".versions a")
    day.equal("9,700 versions are shown at once", len(shown), MANY)
    day.equal("from the highest to the lowest", (shown[0], shown[-1]), ("0.96.99", "0.0.0"))
    seconds = browser.driver.execute_async_script("""
        const began = performance.now();
        scrollTo(0, document.documentElement.scrollHeight);
        requestAnimationFrame(() => setTimeout(() => arguments[0]((performance.now() - began) / 1000)));""")
    day.holds(f"scrolled to the last in {seconds:.3f} s", seconds < 5)
    last = ".versions:last-child li:last-child"
    bottom = browser.script("return document.querySelector(arguments[0]).getBoundingClientRect().bottom - innerHeight", last)
    day.holds("the last is in sight", bottom <= 0, bottom)
    browser.click(f"{last} a")
    day.equal("and is chosen by a click", browser.text("#crate-title"), "acme-cli 0.0.0")
