"""What the proxies serve, and what they and the registry were asked for."""
import json

SIZE = 60_000
FILES = {
    "/": ("index.html", "text/html"),
    "/page/": ("index.html", "text/html"),
    "/page/page.css": ("page.css", "text/css"),
    "/page/page.js": ("page.js", "text/javascript"),
    "/page/icon.svg": ("icon.svg", "image/svg+xml"),
}
HEADERS = {
    "content-security-policy": (
        "default-src 'none'; script-src 'self'; style-src 'self'; connect-src 'self'; img-src 'self'; "
        "base-uri 'none'; form-action 'none'; frame-ancestors 'none'"
    ),
    "x-content-type-options": "nosniff",
    "referrer-policy": "no-referrer",
}


def look_at_proxies(day):
    place = day.place
    day.holds("the page has at most 60 kB", sum(file.stat().st_size for file in place.page.iterdir()) <= SIZE)
    caddy = place.start_caddy()
    for name, port in (("nginx", place.https), ("caddy", caddy)):
        look_at_files(day, name, port)
        look_at_registry(day, name, port)


def look_at_files(day, name, port):
    place = day.place
    for target, (file, kind) in FILES.items():
        reply, body = place.get(target, port=port)
        day.equal(f"{name}: {target} is {file}", body, (place.page / file).read_bytes())
        day.equal(f"{name}: {target} is {kind}", reply.headers["content-type"].split(";")[0], kind)
        day.equal(f"{name}: {target} is asked for anew each time", reply.headers["cache-control"], "no-cache")
        has_headers(day, f"{name}: {target}", reply)


def look_at_registry(day, name, port):
    place = day.place
    reply, body = place.get("/index/config.json", day.ada, port)
    day.equal(f"{name}: the index is the registry's", json.loads(body)["api"], place.address)
    has_headers(day, f"{name}: the index", reply)
    reply, body = place.get("/index/config.json", None, port)
    refusal = (401, b'{"errors":[{"detail":"A1 no token"}]}')
    day.equal(f"{name}: without a token it is refused", (reply.status, body), refusal)
    has_headers(day, f"{name}: a refusal", reply)
    reply, body = place.get("/api/v1/crates", day.ada, port)
    day.equal(f"{name}: the web API is the registry's", json.loads(body), {"crates": [], "meta": {"total": 0}})
    reply, body = place.get("/page/../nginx.conf", None, port)
    day.holds(f"{name}: nothing beside the page", reply.status in (400, 401, 404), reply.status)


def has_headers(day, name, reply):
    found = {key: reply.headers.get_all(key) for key in HEADERS}
    day.equal(f"{name}: its headers", found, {key: [text] for key, text in HEADERS.items()})


def nothing_leaks(day):
    way = day.place.way
    log = (day.place.folder / "nginx/access.log").read_text()
    day.holds("no token was in an address", not any(token in text for text in (log, *way.targets("")) for token in day.tokens))
    asked = [it for it in way.asked if "Chrome" in it.headers.get("user-agent", "")]
    day.holds("the page asked often", len(asked) > 100, len(asked))
    day.equal("it sent no cookie and no address of its own", [it for it in asked if {"cookie", "referer"} & set(it.headers)], [])
    day.equal("it changed nothing", {it.method for it in asked}, {"GET"})
    others = [it.target for it in asked if not it.target.startswith(("/index/", "/api/v1/crates"))]
    day.equal("it asked for what it needs alone", others, [])
