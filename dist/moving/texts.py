"""Files of text that the arguments name."""
from pathlib import Path

from .faults import BadUse


def read_text(path):
    try:
        return Path(path).read_text(encoding="utf-8")
    except OSError as fault:
        raise BadUse(f"can't read {path}: {fault.strerror}") from None
    except UnicodeDecodeError:
        raise BadUse(f"can't read {path}: it is not UTF-8") from None


def lines_of(path):
    """The words of each line, without a comment behind #, and the line's number."""
    for number, line in enumerate(read_text(path).splitlines(), 1):
        words = line.partition("#")[0].split()
        if words:
            yield number, words
