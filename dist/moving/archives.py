"""Where the archives of crates are: in a folder, or behind the `dl` of an index's config."""
import hashlib
import os
from pathlib import Path

from . import web
from .faults import BadUse, Fault, Left
from .manifests import ask_for_tomllib, publication_in
from .names import prefix_of
from .publications import LARGEST_ARCHIVE

MARKERS = ("{crate}", "{version}", "{prefix}", "{lowerprefix}", "{sha256-checksum}")
# So many archives that can't be had one after another concern no crate alone.
MOST_FAILURES = 5


def read_archive(path):
    try:
        if path.stat().st_size > LARGEST_ARCHIVE:
            raise Left(f"{path} has more than {LARGEST_ARCHIVE:,} bytes")
        return path.read_bytes()
    except OSError as fault:
        raise Left(f"can't read {path}: {fault.strerror}") from None


def check(archive, publication):
    """The checksum of an archive is that of its line."""
    checksum = hashlib.sha256(archive).hexdigest()
    if checksum != publication.checksum:
        raise Left(f"its archive has the checksum {checksum}, and its line {publication.checksum}")
    return archive


class FolderArchives:
    """Archives in a folder, at one of the three places at which registries keep them."""

    is_local = True

    def __init__(self, folder):
        self.folder = Path(folder)
        if not self.folder.is_dir():
            raise BadUse(f"there is no folder {folder}")

    def get(self, publication):
        name, version = publication.name, publication.version
        file = f"{name}-{version}.crate"
        for place in (file, f"{name}/{version}/download", f"{name}/{file}"):
            path = self.folder / place
            if path.is_file():
                return check(read_archive(path), publication)
        raise Left(f"there is no archive {file} in {self.folder}")


class WebArchives:
    """Archives that a server gives, by the `dl` of its config (the Cargo Book, Index Configuration)."""

    is_local = False

    def __init__(self, template, token):
        self.template = template
        if not any(marker in template for marker in MARKERS):
            self.template += "/{crate}/{version}/download"
        self.token = token
        self.failures = 0

    def url(self, publication):
        url = self.template
        values = (
            publication.name,
            publication.version,
            prefix_of(publication.name),
            prefix_of(publication.name.lower()),
            publication.checksum,
        )
        for marker, value in zip(MARKERS, values):
            url = url.replace(marker, value)
        return url

    def get(self, publication):
        url = self.url(publication)
        try:
            reply = web.get(url, self.token)
            said = f"{url} is answered with status {reply.status}"
            has_failed = reply.status in web.PASSING
        except web.NoAnswer as fault:
            reply, said, has_failed = None, str(fault), True
        self.failures = self.failures + 1 if has_failed else 0
        if self.failures == MOST_FAILURES:
            raise Fault(f"{MOST_FAILURES} archives in a row can't be had; the last one: {said}")
        if reply is None or reply.status != 200:
            raise Left(said)
        return check(reply.body, publication)


class CrateFiles:
    """A folder of archives without an index: each tells by its Cargo.toml what it is."""

    is_local = True

    def __init__(self, folder, index_url):
        ask_for_tomllib()
        self.folder = Path(folder)
        self.index_url = index_url
        self.paths = {}

    def files(self):
        for parent, folders, files in os.walk(self.folder):
            folders.sort()
            for file in sorted(files):
                if file.endswith(".crate") or file == "download":
                    yield Path(parent, file)

    def publications(self, leave):
        """What the archives hold; `leave` is told of each that is not taken."""
        for path in self.files():
            where = path.relative_to(self.folder).as_posix()
            try:
                publication = publication_in(read_archive(path), self.index_url)
            except Left as reason:
                leave(where, str(reason))
                continue
            key = (publication.name, publication.version)
            if key in self.paths:
                leave(where, f"{publication} is in {self.paths[key]} too, which is taken")
                continue
            self.paths[key] = path
            yield publication

    def get(self, publication):
        return check(read_archive(self.paths[publication.name, publication.version]), publication)
