"""Registries that are filled row by row, as publishes would fill them: a publish each would wait for the disk."""
import hashlib
import os
import sqlite3
from pathlib import Path

from registry import answer, make, publish

ENDING = b"false}\n"
EXAMPLE = ("example", "9.9.9", b"")


def stem_form(stem):
    """The stem of any manifest like the example's: digest, name and version are put in by `%`."""
    name, version, archive = EXAMPLE
    digest = hashlib.sha256(archive).hexdigest()
    for text, key in ((digest, "digest"), (name, "name"), (version, "version")):
        stem = stem.replace(f'"{text}"'.encode(), f'"%({key})b"'.encode())
    return stem


def add_crate(link, form, name, versions):
    """A crate of the account 1, whose versions rise: pairs of a version and its archive."""
    crate = link.execute("INSERT INTO crates (canon, name) VALUES (?, ?)", (name.replace("-", "_"), name)).lastrowid
    link.execute("INSERT INTO owners VALUES (?, 1)", (crate,))
    length = 0
    for version, archive in versions:
        digest = hashlib.sha256(archive)
        stem = form % {b"digest": digest.hexdigest().encode(), b"name": name.encode(), b"version": version.encode()}
        row = (crate, version, version, digest.digest(), stem, "A crate to measure")
        fields = "crate, vers, release, digest, stem, description, yanked"
        highest = link.execute(f"INSERT INTO versions ({fields}) VALUES (?, ?, ?, ?, ?, ?, 0)", row).lastrowid
        link.execute("INSERT INTO archives VALUES (?, ?)", (highest, archive))
        length += len(stem) + len(ENDING)
    link.execute("INSERT INTO summaries VALUES (?, ?, ?)", (crate, highest, length))


def change(db, call):
    """Lets a call change the tables in one transaction, without a log, and waits until the disk has them."""
    link = sqlite3.connect(db, isolation_level=None)
    link.execute("PRAGMA journal_mode = OFF")
    link.execute("BEGIN")
    call(link)
    link.execute("COMMIT")
    link.execute("PRAGMA journal_mode = WAL")
    link.close()
    with open(db) as file:
        os.fsync(file.fileno())


def fill(db, crates):
    """Makes a registry with crates: pairs of a name and its versions. The program itself publishes the example."""

    def add_all(link):
        (stem,) = link.execute("SELECT stem FROM versions").fetchone()
        form = stem_form(stem)
        for name, versions in crates:
            add_crate(link, form, name, versions)

    make(db)
    answer(["--db", db], [publish(*EXAMPLE)], Path(db + ".stream"))
    change(db, add_all)


def restrict(db, count):
    """Restricts the crates with the least ids."""
    change(db, lambda link: link.execute("INSERT INTO restricted SELECT id FROM crates ORDER BY id LIMIT ?", (count,)))
