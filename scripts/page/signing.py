"""Without a token, signing in, and where the token is kept."""


def get_started(day):
    browser, place = day.browser, day.place
    asked = len(place.way.asked)
    browser.open()
    shown = browser.text("#view-start")
    lines = f'[registries.team]\nindex = "sparse+{place.address}/index/"\ncredential-provider = "cargo:token"'
    day.equal("getting started: the lines for config.toml", browser.text("#config-lines code"), lines)
    day.has("getting started: cargo login", shown, "cargo login --registry team")
    day.has("getting started: whom to ask", shown, "Tokens come from the administrator")
    day.equal("nothing was asked of the registry", place.way.asked[asked:], [])
    day.equal("the token's field has the focus", browser.focus, "token")
    day.equal("no search without a token", browser.all("#search"), [])


def sign_in(day):
    browser, place = day.browser, day.place
    refused = {
        "A2 unknown token": ("abc", "without a word such as"),
        "A3 token revoked": (day.revoked, "ask the administrator"),
        "A4 user disabled": (day.carol, "enable your account"),
    }
    for words, (token, advice) in refused.items():
        browser.open()
        browser.sign_in(token)
        day.has(f"signing in: {words}", browser.text("#failure"), words, advice)
        day.equal("what was typed is kept", browser.one("#token").get_attribute("value"), token)
    browser.open()
    browser.sign_in(f"Bearer {day.ada}")
    day.has("signing in with a word in front", browser.text("#failure"), "A2 unknown token")
    asked = len(place.way.asked)
    browser.write("#token", "pass\u00a7")
    browser.click("#sign-in button")
    day.has("signing in with what is no token", browser.text("#failure"), "This is no token")
    day.equal("that is not sent", len(place.way.asked), asked)
    day.refusals("signing in", 4, "403")
    browser.write("#token", f"  {day.ada} ")
    browser.click("#sign-in button")
    day.equal("signed in, the search has the focus", browser.focus, "query")
    day.equal("the token is sent as it is", place.way.asked[-1].headers["authorization"], day.ada)


def keep_the_token(day):
    browser = day.browser
    kept = "return [sessionStorage.length, localStorage.length, document.cookie, location.href]"
    day.equal("the token is in the page's memory alone", browser.script(kept), [0, 0, "", f"{day.place.address}/"])
    browser.open()
    day.holds("loaded anew, the page asks for it again", browser.all("#token"))
    browser.sign_in(day.ada, keep=True)
    browser.driver.refresh()
    browser.settle()
    day.equal("kept, it is there after a reload", browser.all("#token"), [])
    day.equal("it is in sessionStorage", browser.script("return Object.values(sessionStorage)"), [day.ada])
    day.equal("and nowhere else", browser.script(kept)[1:], [0, "", f"{day.place.address}/"])
    browser.write("#query", "acme")
    browser.click("#sign-out")
    day.equal("signed out, it is gone", browser.script(kept)[0], 0)
    day.holds("the page asks for a token", browser.all("#token"))
    day.holds("all that was shown is gone", "acme-net" not in browser.texts_within("body")[0])
