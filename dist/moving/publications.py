"""A published version: read from a line of an index, and written as the body of a publish."""
import json
import re
from dataclasses import dataclass, field
from typing import Dict, Optional, Tuple

from .faults import Left
from .names import SAFE_NAME, SAFE_VERSION, canonical

CHECKSUM = re.compile(r"[0-9a-f]{64}")
LINE_KEYS = {
    "name", "vers", "deps", "cksum", "features", "features2", "yanked", "links", "rust_version", "v",
}
DEPENDENCY_KEYS = {
    "name", "req", "features", "optional", "default_features", "target", "kind", "registry", "package",
}
NEWEST_FORMAT = 2
# 8 bytes of lengths, the metadata and the archive: a registry reads no larger body.
LARGEST_ARCHIVE = 33_554_432
LARGEST_BODY = 8 + 4_194_304 + LARGEST_ARCHIVE


@dataclass(frozen=True)
class Dependency:
    """A dependency as a publish names it: `name` is the crate's own, whatever it is renamed to."""

    name: str
    requirement: str
    features: Tuple[str, ...] = ()
    optional: bool = False
    default_features: bool = True
    target: Optional[str] = None
    kind: str = "normal"
    registry: Optional[str] = None
    renamed_to: Optional[str] = None

    def to_metadata(self, registry):
        return {
            "name": self.name,
            "version_req": self.requirement,
            "features": self.features,
            "optional": self.optional,
            "default_features": self.default_features,
            "target": self.target,
            "kind": self.kind,
            "registry": registry,
            "explicit_name_in_toml": self.renamed_to,
        }


@dataclass(frozen=True)
class Publication:
    """A version of a crate, with all that its index line says of it. `lost` are the keys of the
    line that a publish can't bring."""

    name: str
    version: str
    checksum: str
    dependencies: Tuple[Dependency, ...] = ()
    features: Dict[str, Tuple[str, ...]] = field(default_factory=dict)
    links: Optional[str] = None
    rust_version: Optional[str] = None
    yanked: bool = False
    description: Optional[str] = None
    lost: Tuple[str, ...] = ()

    def __str__(self):
        return f"{self.name} {self.version}"

    @property
    def crate(self):
        return canonical(self.name)

    def to_metadata(self, registry_of):
        """The metadata of a publish, in which each dependency has the registry that the function says."""
        return {
            "name": self.name,
            "vers": self.version,
            "deps": [
                dependency.to_metadata(registry_of(dependency)) for dependency in self.dependencies
            ],
            "features": self.features,
            "description": self.description,
            "links": self.links,
            "rust_version": self.rust_version,
        }


def publish_body(metadata, archive):
    """The body of a publish (Registry Web API): each part behind its length."""
    written = json.dumps(metadata).encode()
    body = b"".join(
        (len(written).to_bytes(4, "little"), written, len(archive).to_bytes(4, "little"), archive)
    )
    if len(body) > LARGEST_BODY:
        raise Left(f"its publish has {len(body):,} bytes, above the limit of {LARGEST_BODY:,}")
    return body


KINDS = {str: "text", bool: "true or false", list: "a list", dict: "an object", int: "a number"}


def member(found, key, kind, otherwise):
    """A member of an object, which has to be of the kind; null counts as not given."""
    value = found.get(key)
    if value is None:
        return otherwise
    if not isinstance(value, kind) or (kind is int and isinstance(value, bool)):
        raise Left(f"its {key} is not {KINDS[kind]}")
    return value


def required(found, key):
    value = member(found, key, str, None)
    if value is None:
        raise Left(f"it has no {key}")
    return value


def all_texts(values, key):
    """The values of a key, which are all texts."""
    if not all(isinstance(value, str) for value in values):
        raise Left(f"its {key} has what is no text")
    return tuple(values)


def texts(found, key):
    """A list of texts."""
    return all_texts(member(found, key, list, []), key)


def features_of(found):
    """The features of a line, those of both of its objects."""
    features = {}
    for key in ("features", "features2"):
        values = member(found, key, dict, {})
        for name in values:
            features[name] = features.get(name, ()) + texts(values, name)
    return features


def dependency_of(found):
    if not isinstance(found, dict):
        raise Left("a dependency is not an object")
    name = required(found, "name")
    package = member(found, "package", str, None)
    return Dependency(
        name=name if package is None else package,
        requirement=required(found, "req"),
        features=texts(found, "features"),
        optional=member(found, "optional", bool, False),
        default_features=member(found, "default_features", bool, True),
        target=member(found, "target", str, None),
        kind=member(found, "kind", str, "normal"),
        registry=member(found, "registry", str, None),
        renamed_to=None if package is None else name,
    )


def lost_keys(found, dependencies):
    """The keys with a value that no publish of ours has a place for."""
    keys = [key for key in found if key not in LINE_KEYS and found[key]]
    for dependency in dependencies:
        keys += [f"deps.{key}" for key in dependency if key not in DEPENDENCY_KEYS and dependency[key]]
    return tuple(sorted(set(keys)))


def check_names(name, version):
    """Both stand in paths and in the heads of requests."""
    if not SAFE_NAME.fullmatch(name):
        raise Left(f"{name!r} is no name of a crate")
    if not SAFE_VERSION.fullmatch(version):
        raise Left(f"{version!r} is no version")


def publication_of(line):
    """The version that a line of an index tells of, whatever wrote it; missing members count as null."""
    try:
        found = json.loads(line)
    except (ValueError, RecursionError):
        raise Left("it is not JSON") from None
    if not isinstance(found, dict):
        raise Left("it is not an object")
    name, version = required(found, "name"), required(found, "vers")
    check_names(name, version)
    if member(found, "v", int, 1) > NEWEST_FORMAT:
        raise Left(f"it is of format {found['v']}, which is not known here")
    checksum = required(found, "cksum").lower()
    if not CHECKSUM.fullmatch(checksum):
        raise Left("its cksum is not 64 hexadecimal digits")
    dependencies = member(found, "deps", list, [])
    return Publication(
        name=name,
        version=version,
        checksum=checksum,
        dependencies=tuple(map(dependency_of, dependencies)),
        features=features_of(found),
        links=member(found, "links", str, None),
        rust_version=member(found, "rust_version", str, None),
        yanked=member(found, "yanked", bool, False),
        lost=lost_keys(found, dependencies),
    )
