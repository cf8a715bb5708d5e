"""What the page says of a failure, and what it keeps."""
import json

from place import Answer


HTML = b"<html><body>Log in to the network</body></html>"
S1 = json.dumps({"errors": [{"detail": "S1 storage or memory"}]}).encode()
FOREIGN = "The answer is not the registry\u2019s"
# What comes in place of the registry's answer, and what the page says of it: what happened, and what to do.
ANSWERS = {
    "401 of a proxy": (Answer(401, "text/html", HTML), "status 401", "tell the administrator"),
    "403 of a proxy": (Answer(403, "text/html", HTML), "status 403", "does not let you in"),
    "429": (Answer(429, "text/plain", b"slow down"), "status 429", "Wait a moment"),
    "502": (Answer(502, "text/html", HTML), "status 502", "The registry is stopped"),
    "503 of a proxy": (Answer(503, "text/html", HTML), "status 503", "Wait a moment"),
    "503 of the registry": (Answer(503, "application/json", S1), "S1 storage or memory", "disk or memory failed"),
    "no JSON": (Answer(200, "text/html", HTML), FOREIGN, "wants you to log in"),
    "JSON of another kind": (Answer(200, "application/json", b'{"crates":7}'), FOREIGN, "Try again"),
}


def failures(day):
    browser, place = day.browser, day.place
    for name, (answer, *words) in ANSWERS.items():
        browser.write("#query", "zz")
        with place.way.altered("q=acme-c&", lambda _: answer):
            browser.write("#query", "acme-c")
            day.has(f"{name}: what happened, and what to do", browser.text("#failure"), *words)
        day.equal("what was typed is kept", browser.one("#query").get_attribute("value"), "acme-c")
        day.equal("what was found before is gone", browser.texts("#found li"), [])
        browser.click("#failure button")
        day.equal("tried again, it is there", (browser.texts("#found h2 a")[0], browser.text("#failure")), ("acme-cache", ""))
    day.refusals("failures", 6)
    no_network(day)
    broken_crates(day)
    revoked_meanwhile(day)


def no_network(day):
    browser = day.browser
    browser.write("#query", "zz")
    browser.driver.set_network_conditions(offline=True, latency=0, throughput=-1)
    browser.write("#query", "acme-c")
    shown = browser.text("#failure")
    day.has("no network: what happened, and what to do", shown, "No answer came from the registry", "Check your network")
    browser.driver.delete_network_conditions()
    browser.click("#failure button")
    day.equal("with a network again", browser.texts("#found h2 a")[0], "acme-cache")
    day.refusals("no network", 1, "ERR_INTERNET_DISCONNECTED")


def broken_crates(day):
    browser, place = day.browser, day.place
    answer = ANSWERS["no JSON"][0]
    for name, body in (("HTML", HTML), ("nothing", b""), ("another kind of JSON", b'{"vers":1}')):
        browser.go("#/")
        with place.way.altered("^/index/", lambda _: Answer(200, "text/plain", body)):
            browser.go("#/acme-cli")
            day.has(f"an index file of {name}", browser.text("#failure"), FOREIGN)
    with place.way.altered("/owners|q=acme-cli", lambda _: answer):
        browser.click("#failure button")
        day.equal("without owners and description the crate is there", browser.text("#crate-title"), "acme-cli 1.3.0")
        shown = browser.text("#version")
        day.has("what failed is told in their place", shown, f"No description: {FOREIGN}", f"Owners\n{FOREIGN}")
    browser.open()
    with place.way.altered("/index/", lambda _: answer):
        browser.sign_in(day.ada)
        day.has("signing in to what is no registry", browser.text("#failure"), FOREIGN)
    browser.click("#sign-in button")


def revoked_meanwhile(day):
    browser, place = day.browser, day.place
    with place.stopped():
        place.admin_all("token-revoke 1")
    browser.write("#query", "acme-b")
    day.has("a token that is revoked meanwhile", browser.text("#failure"), "A3 token revoked")
    day.holds("the page asks for another", browser.all("#token"))
    day.ada = day.next
    browser.write("#token", day.ada)
    browser.click("#sign-in button")
    day.equal("and goes on with what was typed", browser.texts("#found h2 a"), ["acme-base"])
    day.refusals("a token that is revoked meanwhile", 1, "403")
