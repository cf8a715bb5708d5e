"""The indexes that crates come from: a folder, a git repository, or a sparse index by HTTP."""
import json
import os
import subprocess
from pathlib import Path

from . import web
from .addresses import CRATES_IO, usual_url
from .faults import BadUse, Fault, Left
from .names import SAFE_NAME, canonical, index_path
from .publications import publication_of

CRATES_IO_API = "https://crates.io"


def read_config(text, where):
    try:
        config = json.loads(text or b"")
    except ValueError:
        config = None
    if not isinstance(config, dict):
        raise Fault(f"{where} is no config.json of an index")
    return config


class FolderIndex:
    """The files of an index below a folder; `url` is where cargo found the index, if that is known."""

    def __init__(self, folder, url=None):
        self.folder = Path(folder)
        self.config = self.read_config()
        # A copy of crates.io's tells by its config what it is, wherever it is.
        self.url = CRATES_IO if self.config.get("api") == CRATES_IO_API else usual_url(url)

    def read_config(self):
        path = self.folder / "config.json"
        if not path.is_file():
            return {}
        try:
            return read_config(path.read_bytes(), path)
        except OSError as fault:
            raise Fault(f"can't read {path}: {fault.strerror}") from None

    def names(self):
        """The names in lower case of all files that stand at a name's path."""
        for parent, folders, files in os.walk(self.folder):
            folders[:] = sorted(folder for folder in folders if not folder.startswith("."))
            for file in sorted(files):
                place = Path(parent, file).relative_to(self.folder).as_posix()
                if SAFE_NAME.fullmatch(file) and place == index_path(file):
                    yield file

    def text(self, name):
        """The lines of a crate; None where there is no such crate."""
        path = self.folder / index_path(name)
        try:
            return path.read_bytes() if path.is_file() else None
        except OSError as fault:
            raise Left(f"can't read {path}: {fault.strerror}") from None


class SparseIndex:
    """An index that a server gives file by file, and never tells whole."""

    def __init__(self, url, token):
        self.base = url[len("sparse+"):].rstrip("/")
        self.token = token
        self.url = usual_url(f"sparse+{self.base}/")
        self.config = read_config(self.get("config.json", web.ask_once), f"{self.base}/config.json")

    def get(self, path, get=web.get):
        """A file of the index; None where there is none."""
        url = f"{self.base}/{path}"
        try:
            reply = get(url, self.token)
        except web.NoAnswer as fault:
            raise Fault(str(fault)) from None
        if reply.status not in (200, 404, 410, 451):
            raise Fault(f"{url} is answered with status {reply.status}")
        return reply.body if reply.status == 200 else None

    def names(self):
        raise BadUse("a sparse index does not tell its crates: name them in a file, by --names")

    def text(self, name):
        return self.get(index_path(name))


def run_git(*arguments):
    try:
        done = subprocess.run(["git", *arguments], stdin=subprocess.DEVNULL, capture_output=True)
    except FileNotFoundError:
        raise Fault("git is not on this machine, which an index of git needs") from None
    return done.returncode, done.stdout.decode(errors="replace"), done.stderr.decode(errors="replace")


def origin_of(folder):
    """What a clone was made from; None where nothing tells it, or where that is a folder."""
    try:
        status, url, _ = run_git("-C", str(folder), "config", "remote.origin.url")
    except Fault:
        return None
    return url.strip() if status == 0 and not Path(url.strip()).exists() else None


def clone(repository, folder):
    """Clones a git repository, which may be a folder, into a folder."""
    status, _, said = run_git("clone", "--quiet", "--depth", "1", "--", repository, str(folder))
    if status:
        raise Fault(f"git can't clone {repository}: {' '.join(said.split())}")


def is_bare_repository(folder):
    return (folder / "HEAD").is_file() and (folder / "objects").is_dir()


def publications_in(index, name, leave):
    """The versions of a crate in the order of its lines; `leave` is told of each line that is not
    taken. Where a version stands twice, the last line counts, as for cargo."""
    text = index.text(name)
    if text is None:
        leave(name, "the index has no such crate")
        return []
    found = {}
    for number, line in enumerate(text.split(b"\n"), 1):
        where = f"line {number} of {index_path(name)}"
        try:
            publication = publication_of(line) if line.strip() else None
        except Left as reason:
            leave(where, str(reason))
            continue
        if publication is None:
            continue
        if canonical(publication.name) != canonical(name):
            leave(where, f"it is of {publication.name}")
            continue
        before = found.get(publication.version)
        if before and before.checksum != publication.checksum:
            leave(where, f"{publication} stands there before, with another checksum; this line counts")
        found[publication.version] = publication
    return list(found.values())
