"""What crates come from: an index with archives, an export of ours, or archives alone."""
import re
import tempfile
from collections import defaultdict
from pathlib import Path

from .addresses import CRATES_IO, usual_url
from .archives import CrateFiles, FolderArchives, WebArchives
from .faults import BadUse
from .indexes import FolderIndex, SparseIndex, clone, is_bare_repository, origin_of, publications_in
from .names import canonical
from .records import Records, read_records
from .semver import precedence
from .web import host_of

RECORDS = "registry.json"
PUBLIC = "public"
URL = re.compile(r"[a-z][a-z0-9+.-]*://|[\w.-]+@[\w.-]+:")


class Source:
    """The versions of each crate, their archives, and what else is known of them. `url` is where
    cargo finds the index that they come from, if that is known."""

    def __init__(self, url, archives, index=None, records=None):
        self.url = url
        self.archives = archives
        self.index = index
        self.records = records or Records()
        self.by_crate = {}
        # Where the index is a clone, which stays until the script ends.
        self.clone = None

    def owners_api(self):
        """The base of the API that tells owners; None where there is none."""
        return self.index.config.get("api") if self.index is not None else None

    def read(self, names, leave):
        """Reads the crates with these names, or all."""
        if self.index is None:
            self.read_archives(names, leave)
        else:
            self.read_index(names, leave)

    def read_index(self, names, leave):
        for name in self.index.names() if names is None else names:
            publications = publications_in(self.index, name, leave)
            self.add(publications)

    def read_archives(self, names, leave):
        wanted = None if names is None else {canonical(name) for name in names}
        found = defaultdict(list)
        for publication in self.archives.publications(leave):
            if wanted is None or publication.crate in wanted:
                found[publication.crate].append(publication)
        for crate in sorted(found):
            self.add(sorted(found[crate], key=lambda each: precedence(each.version)))
        for name in names or ():
            if canonical(name) not in found:
                leave(name, "no archive is of this crate")

    def add(self, publications):
        """The versions of a crate; where two of a source differ in their spelling alone, both are kept."""
        for publication in publications:
            self.by_crate.setdefault(publication.crate, []).append(publication)

    def versions(self, name):
        """The versions of a crate that may not be among those that are read."""
        crate = canonical(name)
        if crate in self.by_crate or self.index is None:
            return self.by_crate.get(crate, [])
        return publications_in(self.index, name, lambda _where, _reason: None)


def index_in(folder):
    """The folder of an index: this one, or its folder `index`; None where there is none."""
    return next((place for place in (folder, folder / "index") if (place / "config.json").is_file()), None)


def web_archives(index, token):
    """The archives that the index's config tells of. A token is for them too where the config says
    that all is asked with one, or where they are on the same host."""
    template = index.config.get("dl")
    if not isinstance(template, str):
        raise BadUse("the index's config.json has no dl: name the folder of the archives, by --archives")
    is_same_host = isinstance(index, SparseIndex) and host_of(template) == host_of(index.base)
    is_for_token = index.config.get("auth-required") is True or is_same_host
    return WebArchives(template, token if is_for_token else None)


def open_export(folder, options):
    """What registry-export wrote."""
    records = read_records(folder / RECORDS)
    index = FolderIndex(folder / PUBLIC / "index", options.index_url or records.index)
    archives = FolderArchives(options.archives or folder / PUBLIC / "crates")
    return Source(index.url, archives, index, records)


def open_index(index, options, token):
    if options.index_url:
        index.url = usual_url(options.index_url)
    archives = FolderArchives(options.archives) if options.archives else web_archives(index, token)
    return Source(index.url, archives, index)


def open_folder(folder, options, token):
    if (folder / RECORDS).is_file():
        return open_export(folder, options)
    if is_bare_repository(folder):
        return open_git(str(folder.absolute()), origin_of(folder), options, token)
    place = index_in(folder) or (folder if options.archives else None)
    if place is None:
        return open_archives(folder, options)
    url = origin_of(place) if (place / ".git").exists() else None
    return open_index(FolderIndex(place, url), options, token)


def open_archives(folder, options):
    url = options.index_url or CRATES_IO
    archives = CrateFiles(folder, url)
    if not any(archives.files()):
        raise BadUse(f"{folder} has no config.json of an index, and no .crate files")
    return Source(url, archives)


def open_git(repository, url, options, token):
    """A clone of a git repository; `url` is where cargo finds it."""
    folder = tempfile.TemporaryDirectory(prefix="registry-import-")
    clone(repository, folder.name)
    source = open_index(FolderIndex(folder.name, url), options, token)
    source.clone = folder
    return source


def open_source(options, token):
    """The source that the arguments name."""
    name = options.source
    if name.startswith("sparse+"):
        return open_index(SparseIndex(name, token), options, token)
    if Path(name).is_dir():
        return open_folder(Path(name), options, token)
    if Path(name).exists() or not URL.match(name):
        raise BadUse(f"{name} is no folder, and no address such as sparse+https://.. or one of git")
    return open_git(name, name, options, token)
