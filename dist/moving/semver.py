"""Versions and requirements as cargo reads and writes them (SemVer 2.0.0 and the crate `semver`)."""
import re
from dataclasses import dataclass
from functools import lru_cache
from typing import Optional, Tuple

NUMBER = r"(0|[1-9][0-9]*)"
TAGS = r"([0-9A-Za-z-]+(?:\.[0-9A-Za-z-]+)*)"
VERSION = re.compile(rf"{NUMBER}\.{NUMBER}\.{NUMBER}(?:-{TAGS})?(?:\+{TAGS})?")
PART = r"(0|[1-9][0-9]*|[*xX])"
COMPARATOR = re.compile(rf" *(=|>=|<=|>|<|~|\^)? *{PART}(?:\.{PART})?(?:\.{PART})?(?:-{TAGS})?(?:\+{TAGS})? *")
# Behind each version that has this key there is none.
LAST = (float("inf"),)


def tags_key(tags):
    """The precedence of a pre-release: below none, numbers below words, the shorter list below."""
    if not tags:
        return (1,)
    return (0, tuple((0, int(tag), "") if tag.isdigit() else (1, 0, tag) for tag in tags.split(".")))


def precedence(version):
    """A key by which versions sort; what is no version comes last, by its text."""
    found = VERSION.fullmatch(version)
    if not found:
        return (*LAST, 0, 0, version)
    major, minor, patch, tags, _ = found.groups()
    return (int(major), int(minor), int(patch), tags_key(tags))


def is_wildcard(part):
    return part is not None and part in "*xX"


@dataclass(frozen=True)
class Comparator:
    """One comparator of a requirement, such as ^1.2; parts that are not given are None."""

    operator: str
    major: int
    minor: Optional[int] = None
    patch: Optional[int] = None
    tags: Optional[str] = None

    def __str__(self):
        parts = [str(part) for part in (self.major, self.minor, self.patch) if part is not None]
        if self.operator == "*":
            return ".".join([*parts, "*"])
        return self.operator + ".".join(parts) + (f"-{self.tags}" if self.tags else "")

    def first(self):
        """The lowest version that it names."""
        return (self.major, self.minor or 0, self.patch or 0, tags_key(self.tags))

    def after(self, parts):
        """The lowest version above all that begin with so many of its parts."""
        numbers = [self.major, self.minor or 0, self.patch or 0][:parts]
        numbers[-1] += 1
        return (*numbers, *[0] * (3 - parts), tags_key(None))

    def given(self):
        return 1 + (self.minor is not None) + (self.patch is not None)

    def caret_parts(self):
        """How many parts a caret keeps: up to the first that is not zero."""
        numbers = [self.major, self.minor, self.patch][: self.given()]
        return next((at for at, number in enumerate(numbers, 1) if number), self.given())

    def admits(self, key):
        """Whether a version of this precedence is within its bounds."""
        if self.operator == "~":
            return self.first() <= key < self.after(min(self.given(), 2))
        if self.operator == "^":
            return self.first() <= key < self.after(self.caret_parts())
        if self.operator == "<":
            return key < self.first()
        if self.operator == ">=":
            return key >= self.first()
        is_whole = self.given() == 3
        above = key > self.first() if is_whole else key >= self.after(self.given())
        if self.operator == ">":
            return above
        if self.operator == "<=":
            return not above
        return not above and key >= self.first()


def comparator_of(text):
    """The comparator that a text is, or None."""
    found = COMPARATOR.fullmatch(text)
    if not found:
        return None
    operator, *parts, tags, _ = found.groups()
    if is_wildcard(parts[0]) or (is_wildcard(parts[1]) and parts[2] and not is_wildcard(parts[2])):
        return None
    numbers = [int(part) if part and not is_wildcard(part) else None for part in parts]
    has_wildcard = any(is_wildcard(part) for part in parts)
    if tags and numbers[2] is None:
        return None
    return Comparator(operator or ("*" if has_wildcard else "^"), *numbers, tags)


@dataclass(frozen=True)
class Requirement:
    """A requirement; without a comparator it takes every version that is no pre-release."""

    comparators: Tuple[Comparator, ...]

    def __str__(self):
        return ", ".join(map(str, self.comparators)) or "*"

    def matches(self, version):
        found = VERSION.fullmatch(version)
        if not found:
            return False
        key = precedence(version)
        if not all(comparator.admits(key) for comparator in self.comparators):
            return False
        return not found[4] or any(
            comparator.tags and comparator.first()[:3] == key[:3] for comparator in self.comparators
        )


@lru_cache(maxsize=None)
def requirement_of(text):
    """The requirement that a text is, or None where cargo reads none."""
    if text.strip(" ") in ("*", "x", "X"):
        return Requirement(())
    comparators = [comparator_of(part) for part in text.split(",")]
    return Requirement(tuple(comparators)) if all(comparators) else None
