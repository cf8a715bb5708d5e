"""Names of crates, and where an index and a folder of archives keep them (the Cargo Book, Registry Index)."""
import re

# What is safe in a path and in the head of a request. A registry decides which of these it takes.
SAFE_NAME = re.compile(r"[0-9A-Za-z_-]+")
SAFE_VERSION = re.compile(r"[0-9A-Za-z.+-]+")
LOGIN = re.compile(r"[a-z][a-z0-9_-]{0,31}")
CRATE_NAME = re.compile(r"[A-Za-z][0-9A-Za-z_-]{0,63}")


def canonical(name):
    """The text that names share which differ only in capitals, or in - and _."""
    return name.lower().replace("-", "_")


def prefix_of(name):
    """The folder of an index in which the name's file is."""
    if len(name) <= 2:
        return str(len(name))
    if len(name) == 3:
        return f"3/{name[0]}"
    return f"{name[:2]}/{name[2:4]}"


def index_path(name):
    """The path of a crate's file in an index."""
    return f"{prefix_of(name.lower())}/{name.lower()}"


def covers(pattern, name):
    """Whether a pattern, which is a name or a prefix followed by *, is about the name."""
    if pattern.endswith("*"):
        return canonical(name).startswith(canonical(pattern[:-1]))
    return canonical(name) == canonical(pattern)
