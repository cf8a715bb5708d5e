"""Writes a registry out: index and archives as files, and its records, which no index line has."""
import hashlib
import json
import os
import secrets

from .faults import Fault, Left
from .names import canonical, index_path
from .program import Session, token_command
from .publications import publication_of
from .records import Account, CrateRecord, Records
from .report import Progress

API = "/api/v1/crates"
TEMPLATE = "crates/{crate}/{crate}-{version}.crate"
# The most logins of an owner request, and the most crates that a search shows.
MOST_LOGINS = 32
MOST_SHOWN = 100
LONGEST_FILE = 255


class Copy:
    """A copy of a registry, on which all is allowed: accounts are added to it that see each crate, and
    each account gets a token."""

    def __init__(self, program):
        self.program = program
        self.accounts = [Account(*account) for account in program.accounts()]
        self.crates = program.crates()
        self.logins = {account.login for account in self.accounts}
        self.tokens = {}
        self.session = None

    def new_login(self, word):
        """A login that no account has."""
        numbered = (f"{word}{number}" for number in range(len(self.logins) + 1))
        login = next(login for login in numbered if login not in self.logins)
        self.logins.add(login)
        return login

    def open(self, helpers, logins=(), commands=()):
        """Begins a stream of requests: new accounts, tokens for them and for others, then commands."""
        self.tokens = {login: secrets.token_hex(32) for login in (*helpers, *logins)}
        setup = [f"user-add {login}" for login in helpers]
        setup += [token_command(*token) for token in self.tokens.items()]
        self.session = Session(self.program, [*setup, *commands])

    def ask(self, method, target, login, logins=None):
        """A reply, to whose account the registry may have refused it."""
        body = b"" if logins is None else json.dumps({"users": logins}).encode()
        return self.session.ask(method, target, self.tokens[login], body)

    def do(self, method, target, login, logins=None):
        """The body of a reply, which has to be a good one."""
        reply = self.ask(method, target, login, logins)
        if reply.status != 200:
            raise Fault(f"the copy of the registry says to {method} {target}: {reply.words()}")
        return reply.body

    def sees(self, login, name):
        return self.ask("GET", f"{API}/{name}/owners", login).status == 200

    def close(self):
        self.session.close()


class Export:
    """The files of a registry in a folder: `public` is for a web server, `registry.json` is not."""

    def __init__(self, copy, folder, base, has_restricted, report):
        self.copy = copy
        self.folder = folder
        self.public = folder / "public"
        self.base = base.rstrip("/")
        self.has_restricted = has_restricted
        self.report = report
        self.records = Records(accounts=copy.accounts)
        self.versions = {}
        self.left_out = set()

    def run(self):
        self.read_crates()
        RecordReader(self.copy, self.records, self.versions).run()
        self.tell_lacking()
        self.write_config()
        self.write_records()

    # What is served.

    def read_crates(self):
        """All crates, as an account that may read each, and as a stranger, who sees those alone that
        are not restricted."""
        copy = self.copy
        reader, stranger = copy.new_login("reader"), copy.new_login("stranger")
        copy.open((reader, stranger), commands=[f"reader-add {name} {reader}" for name in copy.crates])
        base = json.loads(copy.do("GET", "/index/config.json", reader))["api"]
        self.records.index = f"sparse+{base}/index/"
        progress = Progress("registry-export", sum(copy.crates.values()))
        try:
            for name, number in copy.crates.items():
                is_restricted = not copy.sees(stranger, name)
                if is_restricted and not self.has_restricted:
                    self.left_out.add(canonical(name))
                    self.report.add("left out, as it is restricted", name)
                else:
                    self.read_crate(name, is_restricted, reader)
                    if is_restricted:
                        self.report.add("restricted, but exported for everyone to read", name)
                progress.show(name, number)
        finally:
            progress.end()
        copy.close()

    def read_crate(self, name, is_restricted, reader):
        users = json.loads(self.copy.do("GET", f"{API}/{name}/owners", reader))["users"]
        owners = [user["login"] for user in users]
        self.records.crates[name] = CrateRecord(owners=owners, restricted=is_restricted)
        lines = self.copy.do("GET", f"/index/{index_path(name)}", reader).splitlines(keepends=True)
        self.versions[name] = [publication_of(line) for line in lines]
        kept = []
        for line, publication in zip(lines, self.versions[name]):
            try:
                self.write_archive(publication, reader)
            except Left as reason:
                self.report.leave(publication, reason)
                continue
            kept.append(line)
            self.report.add("exported", name, publication.version)
        self.write(f"index/{index_path(name)}", b"".join(kept))

    def write_archive(self, publication, reader):
        path = TEMPLATE.replace("{crate}", publication.name).replace("{version}", publication.version)
        if len(path.rpartition("/")[2]) > LONGEST_FILE:
            raise Left("its version is too long for the name of a file")
        reply = self.copy.ask("GET", f"{API}/{publication.name}/{publication.version}/download", reader)
        if reply.status != 200:
            raise Left(reply.words())
        if hashlib.sha256(reply.body).hexdigest() != publication.checksum:
            raise Fault(f"the archive of {publication} is not that of its line")
        self.write(path, reply.body)

    def write(self, place, content):
        path = self.public / place
        path.parent.mkdir(parents=True, exist_ok=True)
        path.write_bytes(content)

    def write_config(self):
        config = {"dl": f"{self.base}/{TEMPLATE}"}
        self.write("index/config.json", f"{json.dumps(config)}\n".encode())

    def write_records(self):
        path = self.folder / "registry.json"
        with open(os.open(path, os.O_WRONLY | os.O_CREAT | os.O_EXCL, 0o600), "w", encoding="utf-8") as file:
            file.write(self.records.to_json())

    def tell_lacking(self):
        """What is exported, but can't be built without what is left out."""
        for publications in self.versions.values():
            for publication in publications:
                lacking = {
                    dependency.name
                    for dependency in publication.dependencies
                    if dependency.registry is None and canonical(dependency.name) in self.left_out
                }
                if lacking:
                    self.report.add("depends on what is left out", str(publication), ", ".join(sorted(lacking)))


class RecordReader:
    """Reads what no account may ask: who reads a crate, and the descriptions of all of its versions.
    So on the copy each crate is restricted, and one account of ours, the keeper, becomes its only
    owner: whoever else sees it is a reader. A search shows the description of the highest version
    alone, so each highest one is yanked in its turn."""

    def __init__(self, copy, records, versions):
        self.copy = copy
        self.records = records
        self.versions = versions
        self.keeper = copy.new_login("keeper")
        self.viewer = copy.new_login("viewer")

    def run(self):
        logins = [account.login for account in self.records.accounts]
        disabled = [account.login for account in self.records.accounts if not account.enabled]
        self.copy.open(
            (self.keeper, self.viewer),
            logins,
            [
                *(f"user-enable {login}" for login in disabled),
                *(f"crate-restrict {name}" for name in self.copy.crates),
                *(f"owner-add {name} {self.keeper}" for name in self.records.crates),
            ],
        )
        for name, record in self.records.crates.items():
            self.remove_owners(name, record.owners)
        for login in logins:
            self.read_reader(login)
        names = sorted(self.versions, key=lambda name: len(self.versions[name]))
        for first in range(0, len(names), MOST_SHOWN):
            self.read_descriptions(names[first : first + MOST_SHOWN])
        self.copy.close()

    def remove_owners(self, name, owners):
        for first in range(0, len(owners), MOST_LOGINS):
            logins = owners[first : first + MOST_LOGINS]
            self.copy.do("DELETE", f"{API}/{name}/owners", self.keeper, logins)

    def found_by(self, login):
        """What a search for all crates shows to an account: their number, and the first of them."""
        found = json.loads(self.copy.do("GET", f"{API}?per_page={MOST_SHOWN}", login))
        return found["meta"]["total"], found["crates"]

    def read_reader(self, login):
        """The crates that the account reads."""
        total, shown = self.found_by(login)
        names = [crate["name"] for crate in shown]
        if total > len(shown):
            names = [name for name in self.records.crates if self.copy.sees(login, name)]
        for name in names:
            if name in self.records.crates:
                self.records.crates[name].readers.append(login)

    def read_descriptions(self, names):
        """The descriptions of some crates, which the viewer alone sees meanwhile."""
        for name in names:
            self.copy.do("PUT", f"{API}/{name}/owners", self.keeper, [self.viewer])
            for publication in self.versions[name]:
                if publication.yanked:
                    self.copy.ask("PUT", f"{API}/{name}/{publication.version}/unyank", self.keeper)
        waiting = {name: len(self.versions[name]) for name in names}
        while any(waiting.values()):
            for crate in self.found_by(self.viewer)[1]:
                if waiting[crate["name"]]:
                    waiting[crate["name"]] -= 1
                    self.take_description(crate["name"], crate["max_version"], crate["description"])
        for name in names:
            self.remove_owners(name, [self.viewer])

    def take_description(self, name, version, description):
        if description is not None:
            self.records.crates[name].descriptions[version] = description
        self.copy.ask("DELETE", f"{API}/{name}/{version}/yank", self.keeper)
