"""The addresses by which cargo names an index."""

CRATES_IO = "https://github.com/rust-lang/crates.io-index"
CRATES_IO_SPARSE = "sparse+https://index.crates.io"


def usual_url(url):
    """The one that stands in index lines: crates.io has two."""
    return CRATES_IO if url is not None and url.rstrip("/") == CRATES_IO_SPARSE else url


def is_same_index(url, other):
    return other is not None and usual_url(url).rstrip("/") == usual_url(other).rstrip("/")
