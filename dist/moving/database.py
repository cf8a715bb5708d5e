"""Reads a small table of a registry's file, for what no command of the program tells: the reserved
names. The file is at rest: its log has been moved into it (SQLite's Database File Format)."""
import mmap

from .faults import Fault

LEAF, INTERIOR = 13, 5
HEADER = 100


def varint(data, at):
    """A number of one to nine bytes, and where what follows it begins."""
    number = 0
    for _ in range(8):
        number = number << 7 | data[at] & 0x7F
        at += 1
        if data[at - 1] < 0x80:
            return number, at
    return number << 8 | data[at], at + 1


def value_of(data, at, kind):
    """A value of a record by its serial type: a number, a text, or None for what is not read here."""
    if kind >= 13 and kind % 2:
        return data[at : at + (kind - 13) // 2].decode()
    if 1 <= kind <= 6:
        return int.from_bytes(data[at : at + size_of(kind)], "big", signed=True)
    return {8: 0, 9: 1}.get(kind)


def size_of(kind):
    return (kind - 12) // 2 if kind >= 12 else (0, 1, 2, 3, 4, 6, 8, 8, 0, 0)[kind]


def record_at(data, at):
    """The values of a record."""
    end, place = varint(data, at)
    end += at
    kinds = []
    while place < end:
        kind, place = varint(data, place)
        kinds.append(kind)
    values = []
    for kind in kinds:
        values.append(value_of(data, place, kind))
        place += size_of(kind)
    return values


class Database:
    """The pages of a file."""

    def __init__(self, data):
        self.data = data
        size = int.from_bytes(data[16:18], "big")
        self.page_size = 65536 if size == 1 else size
        self.usable = self.page_size - data[20]

    def rows(self, number):
        """The records of the table whose first page has the number."""
        page = self.data[(number - 1) * self.page_size : number * self.page_size]
        head = HEADER if number == 1 else 0
        kind, count = page[head], int.from_bytes(page[head + 3 : head + 5], "big")
        cells = head + (8 if kind == LEAF else 12)
        for cell in range(cells, cells + 2 * count, 2):
            at = int.from_bytes(page[cell : cell + 2], "big")
            if kind == LEAF:
                length, at = varint(page, at)
                if length > self.usable - 35:
                    raise ValueError("a record goes beyond its page")
                yield record_at(page, varint(page, at)[1])
            elif kind == INTERIOR:
                yield from self.rows(int.from_bytes(page[at : at + 4], "big"))
            else:
                raise ValueError("a page is no table's")
        if kind == INTERIOR:
            yield from self.rows(int.from_bytes(page[head + 8 : head + 12], "big"))

    def table(self, name):
        """The first page of a table."""
        for kind, own_name, _, root, *_ in self.rows(1):
            if kind == "table" and own_name == name:
                return root
        raise ValueError(f"there is no table {name}")


def reserved_names(path):
    """The names that the administrator has reserved."""
    try:
        with open(path, "rb") as file, mmap.mmap(file.fileno(), 0, access=mmap.ACCESS_READ) as data:
            database = Database(data)
            return sorted(row[0] for row in database.rows(database.table("reserved")))
    except (OSError, ValueError, IndexError, UnicodeDecodeError) as fault:
        raise Fault(f"the reserved names of {path} can't be read: {fault}") from None
