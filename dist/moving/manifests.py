"""A version whose archive is all that there is: its Cargo.toml, read as `cargo publish` reads it."""
import hashlib
import io
import re
import tarfile
import zlib

try:
    import tomllib
except ImportError:  # Python before 3.11
    tomllib = None

from .addresses import CRATES_IO, is_same_index
from .faults import BadUse, Left
from .publications import Dependency, Publication, all_texts, check_names
from .semver import requirement_of

# In the order in which cargo lists dependencies; at a target its build dependencies come first.
TABLES = (("dependencies", "normal"), ("dev-dependencies", "dev"), ("build-dependencies", "build"))
TARGET_TABLES = (TABLES[0], TABLES[2], TABLES[1])
LARGEST_MANIFEST = 4 * 1024 * 1024
CFG_TOKEN = re.compile(r'"[^"]*"|[^\s"(),=]+|[(),=]')


def ask_for_tomllib():
    """Archives alone can't be read by a Python before 3.11."""
    if tomllib is None:
        raise BadUse(
            "archives without an index are read by tomllib, which this Python lacks: take 3.11 or later"
        )


def manifest_text(archive):
    """The Cargo.toml of an archive, and the folder in which it is there."""
    try:
        with tarfile.open(fileobj=io.BytesIO(archive), mode="r:gz") as files:
            for entry in files:
                folder, _, file = entry.name.partition("/")
                if file == "Cargo.toml" and entry.isfile():
                    return folder, files.extractfile(entry).read(LARGEST_MANIFEST).decode()
    except UnicodeDecodeError:
        raise Left("its Cargo.toml is not UTF-8") from None
    except (tarfile.TarError, OSError, EOFError, zlib.error) as fault:
        raise Left(f"it is no archive of a crate: {fault}") from None
    raise Left("it has no Cargo.toml")


def written_target(target):
    """A target as cargo writes it: `cfg(unix)`, with its spaces at their usual places."""
    if not target.startswith("cfg("):
        return target
    words = []
    for token in CFG_TOKEN.findall(target):
        if token == ")" and words and words[-1] == ", ":
            words.pop()
        words.append({",": ", ", "=": " = "}.get(token, token))
    return "".join(words)


def member(table, key, kind, otherwise=None):
    """A value of a table by its key, which older manifests write with _."""
    value = table.get(key, table.get(key.replace("-", "_"), otherwise))
    if value is not None and not isinstance(value, kind):
        if isinstance(value, dict) and value.get("workspace"):
            raise Left(f"its {key} is that of a workspace: package it by cargo")
        raise Left(f"its {key} is of the wrong kind")
    return value


def texts(table, key):
    """A list of texts of a table by its key."""
    return all_texts(member(table, key, list, []), key)


class Manifest:
    """The Cargo.toml of a packaged crate, which came from the registry whose index has the URL."""

    def __init__(self, text, index_url):
        try:
            self.table = tomllib.loads(text)
        except (tomllib.TOMLDecodeError, RecursionError) as fault:
            raise Left(f"its Cargo.toml is no TOML: {fault}") from None
        self.package = member(self.table, "package", dict) or {}
        self.index_url = index_url

    def text(self, key):
        return member(self.package, key, str)

    def registry_of(self, name, table):
        """The registry of a dependency; None is the one that the crate came from."""
        if "registry" in table:
            raise Left(f"its dependency {name} is of a registry that only a configuration knows")
        registry = member(table, "registry-index", str, CRATES_IO)
        return None if is_same_index(registry, self.index_url) else registry

    def dependency(self, name, value, kind, target):
        table = {"version": value} if isinstance(value, str) else value
        if not isinstance(table, dict):
            raise Left(f"its dependency {name} is of the wrong kind")
        if table.get("workspace"):
            raise Left(f"its dependency {name} is that of a workspace: package it by cargo")
        version = member(table, "version", str)
        if version is None:
            raise Left(f"its dependency {name} has no version")
        requirement = requirement_of(version)
        package = member(table, "package", str)
        return Dependency(
            name=name if package is None else package,
            requirement=version if requirement is None else str(requirement),
            features=texts(table, "features"),
            optional=member(table, "optional", bool, False),
            default_features=member(table, "default-features", bool, True),
            target=target,
            kind=kind,
            registry=self.registry_of(name, table),
            renamed_to=None if package is None else name,
        )

    def dependencies_in(self, table, names, target):
        for key, kind in names:
            for name, value in sorted((member(table, key, dict) or {}).items()):
                yield self.dependency(name, value, kind, target)

    def dependencies(self):
        yield from self.dependencies_in(self.table, TABLES, None)
        for target, table in sorted((member(self.table, "target", dict) or {}).items()):
            yield from self.dependencies_in(table, TARGET_TABLES, written_target(target))

    def features(self):
        features = member(self.table, "features", dict) or {}
        return {name: texts(features, name) for name in sorted(features)}

    def publication(self, checksum):
        name, version = self.text("name"), self.text("version")
        if name is None or version is None:
            raise Left("its Cargo.toml has no name or no version")
        check_names(name, version)
        return Publication(
            name=name,
            version=version,
            checksum=checksum,
            dependencies=tuple(self.dependencies()),
            features=self.features(),
            links=self.text("links"),
            rust_version=self.text("rust-version"),
            description=self.text("description"),
        )


def publication_in(archive, index_url):
    """The version that an archive holds."""
    folder, text = manifest_text(archive)
    publication = Manifest(text, index_url).publication(hashlib.sha256(archive).hexdigest())
    if folder != f"{publication.name}-{publication.version}":
        raise Left(f"its folder is {folder}, and its Cargo.toml that of {publication}")
    return publication
