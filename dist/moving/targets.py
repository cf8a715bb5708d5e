"""The registries that crates are brought into: one that is stopped, and one that serves."""
import json
import secrets

from . import web
from .faults import Fault, Left
from .indexes import FolderIndex, publications_in
from .names import index_path
from .program import Session, token_command

API = "/api/v1/crates"


def ignore(_where, _reason):
    """A registry of ours has no line that is broken."""


class Target:
    """What is asked of either; `login` is whose token asks, where there is a choice."""

    def versions(self, name):
        """What is there of a crate: its publications by their versions."""
        return {publication.version: publication for publication in publications_in(self, name, ignore)}

    def ask(self, method, path, login, body=b"", is_done=lambda: False):
        raise NotImplementedError

    def publish(self, publication, body, login):
        def is_done():
            there = self.versions(publication.name).get(publication.version)
            return there is not None and there.checksum == publication.checksum

        return self.ask("PUT", f"{API}/new", login, body, is_done)

    def yank(self, publication, login):
        return self.ask("DELETE", f"{API}/{publication.name}/{publication.version}/yank", login)

    def owners(self, name, login):
        """The logins of a crate's owners; none where it is not seen."""
        reply = self.ask("GET", f"{API}/{name}/owners", login)
        if reply.status != 200:
            return []
        return [user["login"] for user in json.loads(reply.body)["users"]]

    def change_owner(self, method, name, owner, login):
        body = json.dumps({"users": [owner]}).encode()
        return self.ask(method, f"{API}/{name}/owners", login, body)


class StoppedRegistry(Target):
    """A registry's file that no server has open. Each owner of a crate that comes in has a token for
    this run, which is revoked at its end."""

    keeps_all = True

    def __init__(self, program):
        self.program = program
        program.run("export", str(program.folder / "index"))
        self.index = FolderIndex(program.folder / "index")
        self.enabled = {login: enabled for login, _, enabled in program.accounts()}
        self.tokens = {}
        self.token_ids = []
        self.session = None

    def text(self, name):
        return self.index.text(name) or b""

    def begin(self, accounts, logins):
        """Adds the accounts that are not there, each a login and a name, and a token for each login."""
        missing = [(login, name) for login, name in accounts if login not in self.enabled]
        self.program.add_accounts(missing)
        self.enabled.update((login, True) for login, _ in missing)
        self.tokens = {login: secrets.token_hex(32) for login in logins if self.enabled[login]}
        before = len(self.program.lines("tokens"))
        self.token_ids = range(before + 1, before + 1 + len(self.tokens))
        self.session = Session(self.program, [token_command(*token) for token in self.tokens.items()])
        return [login for login, _ in missing]

    def ask(self, method, path, login, body=b"", is_done=lambda: False):
        reply = self.session.ask(method, path, self.tokens[login], body)
        if reply.status == 503:
            raise Fault(f"the registry says: {reply.words()}")
        return reply

    def publisher(self, name, owners, is_new):
        """Which of the owners publishes a crate: one that owns it, if it is there."""
        able = [login for login in owners if login in self.tokens]
        if not able:
            raise Left(f"none of its owners is enabled: {', '.join(owners)}")
        if is_new:
            return able[0]
        # Of a restricted crate the owners are told to its owners and readers alone.
        there = next(filter(None, (self.owners(name, login) for login in able)), ())
        return next((login for login in able if login in there), able[0])

    def can_own(self, login):
        """Whether a request can make the account an owner: one that is disabled takes a command."""
        return self.enabled[login]

    def end(self, commands):
        """Revokes the tokens, and does what takes commands."""
        session, self.session = self.session, None
        if session is not None:
            session.close()
            self.program.do([*(f"token-revoke {number}" for number in self.token_ids), *commands])


class ServingRegistry(Target):
    """A registry that serves, at its base. One token asks for all, and its account publishes."""

    keeps_all = False

    def __init__(self, base, token):
        self.base = base.rstrip("/")
        self.token = token
        try:
            reply = web.ask_once(f"{self.base}/index/config.json", token)
        except web.NoAnswer as fault:
            raise Fault(str(fault)) from None
        if reply.status != 200:
            raise Fault(f"{self.base} says: {reply.words()}")

    def text(self, name):
        reply = self.ask("GET", f"/index/{index_path(name)}", None)
        if reply.status == 200:
            return reply.body
        if reply.status == 404:
            return b""
        raise Fault(f"{self.base} says: {reply.words()}")

    def begin(self, _accounts, _logins):
        return []

    def ask(self, method, path, login, body=b"", is_done=lambda: False):
        try:
            reply = web.persist(method, self.base + path, self.token, body or None, is_done)
        except web.NoAnswer as fault:
            raise Fault(str(fault)) from None
        if reply.status in web.PASSING:
            raise Fault(f"{self.base} says: {reply.words()}")
        return reply

    def publisher(self, _name, _owners, _is_new):
        return None

    def can_own(self, _login):
        return True

    def end(self, _commands):
        pass
