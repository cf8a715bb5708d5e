"""What the parts of the day share: its checks, its place, its browser and its tokens."""
import secrets

from browser import Browser
from place import Place, digest_of

ALL = "publish-new,publish-update,yank,change-owners"
# Whose each token is, and what it may do besides reading. The fourth is revoked, and carol disabled.
TOKENS = (("ada", ALL), ("ada", ALL), ("bob", "yank"), ("bob", ALL), ("carol", ALL))


class Day:
    def __init__(self):
        self.checks = 0
        self.place = Place()
        self.browser = None
        self.tokens = [secrets.token_hex(32) for _ in TOKENS]
        self.ada, self.next, self.bob, self.revoked, self.carol = self.tokens

    def close(self):
        if self.browser:
            self.browser.close()
        self.place.close()

    def set_up(self):
        """A registry without a crate, behind nginx."""
        place = self.place
        place.install()
        place.admin("init", "--base", place.address)
        place.admin("user-add", "ada", "--name", "Ada Lovelace")
        place.admin("user-add", "eve", "--name", 'Eve <b title="x">Mallory</b>')
        pairs = zip(TOKENS, self.tokens)
        tokens = [f"token-add {login} --endpoints {words} --digest {digest_of(text)}" for (login, words), text in pairs]
        place.admin_all("user-add bob", "user-add carol", *tokens, "token-revoke 4", "user-disable carol")
        place.serve()
        place.start_nginx()

    def open_browser(self):
        self.browser = Browser(self.place)

    # Checks.

    def holds(self, name, it, said=None):
        if not it:
            raise AssertionError(name if said is None else f"{name}: {str(said)[:600]}")
        self.checks += 1
        print(f"ok  {name}", flush=True)

    def equal(self, name, found, wanted):
        self.holds(name, found == wanted, f"{found!r} is not {wanted!r}")

    def has(self, name, text, *parts):
        lacks = [part for part in parts if part not in text]
        self.holds(name, not lacks, f"{text!r} has not {lacks!r}")

    def refusals(self, name, count, text="Failed to load resource"):
        """Since the last time, the browser's log told so often, or more, of a request that was refused, and of nothing else."""
        said = self.browser.log()
        others = [it for it in said if "Failed to load resource" not in it or text not in it]
        self.equal(f"{name}: the browser's log has no other error", others, [])
        self.holds(f"{name}: it tells of {count} refusals", len(said) >= count, said)

    def silence(self, name):
        self.equal(f"{name}: the browser's log has no error", self.browser.log(), [])
