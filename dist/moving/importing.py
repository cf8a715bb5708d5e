"""Brings the versions of a source into a registry: publishes, then yanks, owners, and the rest."""
from .addresses import is_same_index
from .faults import BadUse, Fault, Left
from .names import canonical
from .order import in_order
from .program import Refused
from .publications import publish_body
from .report import Progress


class Import:
    """One run. A crate is one of `ours` once a version of it was brought, or is there with the same
    checksum: nothing is done to a crate there that only has the same name."""

    def __init__(self, source, target, owners, report, is_dry=False, hands_over=False):
        self.source = source
        self.target = target
        self.owners = owners
        self.report = report
        self.is_dry = is_dry
        self.hands_over = hands_over
        self.was_stopped = False
        self.there = {}
        self.wanted = {}
        self.publishers = {}
        self.ours = {}
        self.come = set()
        self.late_owners = []
        self.waiting = {crate: len(found) for crate, found in source.by_crate.items()}

    def stop(self, *_):
        """A signal: what is begun is ended, and another run does the rest."""
        self.was_stopped = True

    def run(self):
        self.find_owners()
        self.tell_lacking()
        publications = in_order(self.source.by_crate)
        if self.is_dry:
            self.each(publications, self.bring)
            return
        for login in self.target.begin(self.accounts(), self.logins()):
            self.report.add("account added", login)
        fault = None
        try:
            self.each(publications, self.bring)
            self.each_ours(publications, self.yank)
            self.each_ours(self.ours, self.add_owners)
        except (Fault, Refused) as found:
            fault = found
        try:
            self.target.end(self.commands())
        except Refused as found:
            fault = fault or found
        if fault is not None:
            raise fault

    def each(self, publications, do):
        """Does it for each; what concerns one alone is reported, and the rest goes on."""
        progress = Progress("registry-import", len(publications))
        try:
            for publication in publications:
                self.check_stop()
                self.try_one(publication, do)
                progress.show(publication)
        finally:
            progress.end()

    def each_ours(self, things, do):
        for thing in things:
            self.check_stop()
            self.try_one(thing, do)

    def try_one(self, thing, do):
        try:
            do(thing)
        except Left as reason:
            self.report.leave(thing, reason)

    def check_stop(self):
        if self.was_stopped:
            raise Fault("a signal ended it: run it again for the rest")

    def tell_lacking(self):
        """What of an export takes commands, which a registry that serves does not take."""
        records = self.source.records
        has_readers = any(record.readers for record in records.crates.values())
        is_lacking = has_readers or records.reserved or not all(account.enabled for account in records.accounts)
        if is_lacking and not self.target.keeps_all:
            self.report.leave("readers, reserved names and disabled accounts", "an import with --db brings them")

    # Who owns what.

    def find_owners(self):
        """Who is to own each crate. A stopped registry takes none without an owner."""
        lacking = []
        for crate, publications in self.source.by_crate.items():
            name = publications[0].name
            try:
                self.wanted[crate], unknown = self.owners.of(name)
            except Left as reason:
                self.report.leave(name, reason)
                continue
            for login in unknown:
                self.report.leave(f"owner {login} of {name}", "it is no login here: give it one by --logins")
            if not self.wanted[crate] and self.target.keeps_all:
                lacking.append(name)
        if lacking:
            raise BadUse(f"no owner is named for {len(lacking):,} crates, such as {lacking[0]}: name one by --owner")

    def logins(self):
        """The owners of all crates."""
        return list(dict.fromkeys(login for logins in self.wanted.values() for login in logins))

    def readers(self, crate):
        readers = (self.owners.here(login) for login in self.source.records.of(crate).readers)
        return [login for login in readers if login is not None]

    def accounts(self):
        """The accounts that have to be there, each a login and a name or None: those of the records
        first, in their order."""
        found = {}
        for account in self.source.records.accounts:
            login = self.owners.here(account.login)
            if login is not None:
                found.setdefault(login, account.name)
        for login in [*self.logins(), *(login for crate in self.wanted for login in self.readers(crate))]:
            found.setdefault(login, None)
        return list(found.items())

    def publisher(self, publication):
        """Whose token publishes; None where there is no choice."""
        crate = publication.crate
        if crate not in self.wanted:
            raise Left("its crate is not brought")
        if crate not in self.publishers:
            is_new = not self.versions_there(publication.name)
            self.publishers[crate] = self.target.publisher(publication.name, self.wanted[crate], is_new)
        return self.publishers[crate]

    # Versions.

    def versions_there(self, name):
        """What the registry has at the name's path, which is that of no other spelling with - and _."""
        if name.lower() not in self.there:
            self.there[name.lower()] = self.target.versions(name)
        return self.there[name.lower()]

    def bring(self, publication):
        """Publishes a version, unless it is there already."""
        self.waiting[publication.crate] -= 1
        there = self.versions_there(publication.name).get(publication.version)
        if there is None:
            word = self.publish(publication)
        elif there.checksum == publication.checksum:
            word = "there already"
        else:
            raise Left(f"it is there with the checksum {there.checksum}, and comes with {publication.checksum}")
        self.ours.setdefault(publication.crate, publication.name)
        self.come.add((publication.crate, publication.version))
        self.report.add(word, publication.name, publication.version)

    def publish(self, publication):
        record = self.source.records.of(publication.crate)
        if record.restricted and not self.target.keeps_all:
            raise Left("its crate is restricted: an import with --db brings it")
        metadata = publication.to_metadata(self.registry_of)
        if publication.version in record.descriptions:
            metadata["description"] = record.descriptions[publication.version]
        if self.is_dry:
            if self.source.archives.is_local:
                self.source.archives.get(publication)
        else:
            login = self.publisher(publication)
            body = publish_body(metadata, self.source.archives.get(publication))
            reply = self.target.publish(publication, body, login)
            if reply.status != 200:
                raise Left(reply.words())
        self.tell_changes(publication, metadata)
        return "would be brought" if self.is_dry else "brought"

    def tell_changes(self, publication, metadata):
        """What its line will have that is not that of the source."""
        for key in publication.lost:
            self.report.note("not carried over", key)
        for dependency, written in zip(publication.dependencies, metadata["deps"]):
            if written["registry"] != dependency.registry:
                registry = written["registry"] or "the registry itself"
                self.report.note(f"dependencies now of {registry}", dependency.name)

    def registry_of(self, dependency):
        """The registry that a dependency names there: none where its crate is brought too."""
        url = self.source.url
        if dependency.registry is not None and not is_same_index(dependency.registry, url):
            return dependency.registry
        if self.is_brought(dependency.name):
            return None
        if url is None:
            raise Left(f"its dependency {dependency.name} is not brought: name its index by --index-url")
        return url

    def is_brought(self, name):
        """Whether a crate is brought too: before, later in this run, or by a run before."""
        crate = canonical(name)
        if crate in self.ours or self.waiting.get(crate):
            return True
        if crate in self.source.by_crate:
            return False
        there = self.versions_there(name)
        same = (
            each for each in self.source.versions(name)
            if each.version in there and there[each.version].checksum == each.checksum
        )
        return bool(there) and any(same)

    # What comes behind the versions.

    def yank(self, publication):
        if not publication.yanked or (publication.crate, publication.version) not in self.come:
            return
        there = self.versions_there(publication.name).get(publication.version)
        if there is not None and there.yanked:
            return
        reply = self.target.yank(publication, self.publisher(publication))
        if reply.status != 200:
            raise Left(f"its yank: {reply.words()}")
        self.report.add("yanked", publication.name, publication.version)

    def add_owners(self, crate):
        name, wanted = self.ours[crate], self.wanted.get(crate)
        if not wanted:
            return
        login = self.publisher(self.source.by_crate[crate][0])
        there = self.target.owners(name, login)
        for owner in wanted:
            if owner in there:
                continue
            if not self.target.can_own(owner):
                self.late_owners.append((name, owner))
                continue
            self.change_owner("PUT", "owner added", name, owner, login)
        for owner in there:
            if self.hands_over and owner not in wanted and not self.versions_there(name):
                self.change_owner("DELETE", "owner removed", name, owner, login)

    def change_owner(self, method, word, name, owner, login):
        reply = self.target.change_owner(method, name, owner, login)
        if reply.status == 200:
            self.report.add(word, name, owner)
        else:
            self.report.leave(f"owner {owner} of {name}", reply.words())

    def commands(self):
        """What only the administrator does, of the crates that are ours."""
        if not self.target.keeps_all:
            return []
        found = [("owner added", f"owner-add {name} {login}", name, login) for name, login in self.late_owners]
        records = self.source.records
        for crate, name in self.ours.items():
            if records.of(crate).restricted:
                found.append(("restricted", f"crate-restrict {name}", name, ""))
            for login in self.readers(crate):
                found.append(("reader added", f"reader-add {name} {login}", name, login))
        for account in records.accounts:
            login = self.owners.here(account.login)
            if login is not None and not account.enabled:
                found.append(("account disabled", f"user-disable {login}", login, ""))
        for name in records.reserved:
            found.append(("reserved", f"reserve {name}", name, ""))
        for word, _, name, what in found:
            self.report.add(word, name, what)
        return [command for _, command, _, _ in found]
