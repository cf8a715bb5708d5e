"""What is published: crates of a firm by cargo, others without it, and hostile ones."""
FILLERS = 130
LONG = 100_000
MARKUP = '<img src="/page/x.png" onerror="document.title=1"><script>document.title = 1</script>'
QUOTES = "\"quoted\" & 'quoted' &amp; \\ ` ${1}"
TURNED = "safe \u202egnp.exe\u202c \u2067right\u2069 \u200fend"
TURNED_SHOWN = "safe [U+202E]gnp.exe[U+202C] [U+2067]right[U+2069] [U+200F]end"
HEBREW = "\u05d7\u05d1\u05d9\u05dc\u05d4 \u05e7\u05d8\u05e0\u05d4"
HOSTILE = {
    "odd-markup": MARKUP,
    "odd-quotes": QUOTES,
    "odd-turned": TURNED,
    "odd-hebrew": HEBREW,
    "odd-long": "<b>" + "x" * (LONG - 3),
}
MORE = {
    "acme-cache": ("0.7.1", "A cache with limits in bytes and in time"),
    "acme-cli": ("1.3.0", "Arguments, help and colours of our commands"),
    "acme-metrics": ("3.1.4", "Counters and histograms, and where they are sent"),
    "acme-queue": ("0.2.0-beta.3", "A queue on disk that survives a crash"),
    "acme-store": ("5.0.0", "Keys and values with snapshots, behind one interface"),
    "acme-tls": ("1.0.3", "Certificates of our own authority, and how they are renewed"),
}
# The example of SemVer 2.0.0, section 11, with numbers beyond 64 bits in pre-releases; from low to high.
ORDERED = (
    "1.0.0-99999999999999999999",
    "1.0.0-100000000000000000000",
    "1.0.0-alpha",
    "1.0.0-alpha.1",
    "1.0.0-alpha.beta",
    "1.0.0-beta",
    "1.0.0-beta.2",
    "1.0.0-beta.11",
    "1.0.0-rc.1",
    "1.0.0",
    "18446744073709551615.0.0",
)
NET = "Connections, retries and timeouts for our services"
NET_MANIFEST = """rust-version = "1.74"
[dependencies]
acme-base = { version = "1", registry = "team" }
settings = { package = "acme_config", version = "0.4", default-features = false, features = ["toml"], registry = "team" }
Acme-Log = { version = "2", optional = true, registry = "team" }
[target.'cfg(windows)'.dependencies]
acme-base-win = { package = "acme-base", version = "0.10", registry = "team" }
[build-dependencies]
acme_config = { version = "0.4", registry = "team" }
[dev-dependencies]
acme-base-dev = { package = "acme-base", version = "=0.9.0", registry = "team" }
[features]
default = ["std"]
std = []
logs = ["dep:Acme-Log"]
"""


def publish(place, token):
    publish_by_cargo(place, token)
    publish_more(place, token)
    for name, description in HOSTILE.items():
        place.publish(token, name, "1.0.0", description=description, **hostile_metadata())
    with place.stopped():
        place.admin_all("owner-add acme-net bob", "owner-add odd-markup eve", "crate-restrict acme-secret")


def publish_by_cargo(place, token):
    for vers in ("0.9.0", "0.10.0", "1.0.0-rc.1", "1.0.0", "1.1.0"):
        place.cargo_publish(token, "acme-base", vers, "Types and errors that all of our crates share")
    features = '[features]\ndefault = ["toml"]\ntoml = []\n'
    place.cargo_publish(token, "acme_config", "0.4.2", "Reads settings from files and the environment", features)
    place.cargo_publish(token, "Acme-Log", "2.0.0+build.7", "Structured logs with one line for each event")
    place.cargo_publish(token, "acme-net", "1.2.0", NET, NET_MANIFEST)
    place.cargo_publish(token, "acme-secret", "0.1.0", "Only for its owners and readers")
    place.cargo(token, place.folder, "yank", "acme-base@1.1.0", "--registry", "team")


def publish_more(place, token):
    for name, (vers, description) in MORE.items():
        place.publish(token, name, vers, description=description)
    for vers in ("0.9.0", "1.0.0", "1.1.0-rc.1", "1.1.0"):
        features = {"default": ["std"], "std": []}
        place.publish(token, "acme-net", vers, description=NET, rust_version="1.70", features=features)
    for number in range(FILLERS):
        place.publish(token, f"part-{number:03}", "1.0.0", description=f"Part {number}")
    for vers in (*ORDERED[::2], *ORDERED[1::2]):
        place.publish(token, "ordered", vers)


def hostile_metadata():
    common = {"version_req": "^1.0", "features": [MARKUP], "optional": True, "default_features": False, "kind": "normal"}
    crates_io = "https://github.com/rust-lang/crates.io-index"
    return {
        "deps": [
            {**common, "name": MARKUP, "target": MARKUP},
            {**common, "name": "serde", "registry": crates_io, "explicit_name_in_toml": "codec"},
            {**common, "name": "evil", "registry": "javascript:document.title=1", "explicit_name_in_toml": TURNED},
        ],
        "features": {MARKUP: [QUOTES], "__proto__": [], "constructor": ["dep:codec"], TURNED: []},
        "rust_version": MARKUP,
        "links": TURNED,
    }
