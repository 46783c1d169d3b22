"""A configuration in a file, or the first thing that is wrong with it."""

import errno

from .accepted import Accepted
from .document import Document, NotToml
from .faults import Looking
from .keys import Page

# as many bytes as the program reads of a configuration
MOST_BYTES = 1 << 20
NOT_TOML = "config: not toml"


class Refused(Exception):
    """What is wrong with a configuration, with its place."""


def read_bytes(file, name):
    """What is in a file that was opened; of one that is too long OSError says so."""
    raw = file.read(MOST_BYTES + 1)
    if len(raw) > MOST_BYTES:
        raise OSError(errno.EFBIG, "more than 1 MiB", name)
    return raw


def read_accepted(path):
    """The configuration in a file. Refused says the first thing that is wrong with it, and OSError why it can't be read."""
    with open(path, "rb") as file:
        raw = read_bytes(file, path)
    page = Page()
    try:
        document = Document(raw)
    except NotToml as error:
        raise Refused(f"{path}:{error.place[0]}:{error.place[1]}: {NOT_TOML}: {error}") from error
    faults = Looking(document, page).all()
    if faults:
        first = faults[0]
        place = f"{path}:{first.place[0]}:{first.place[1]}" if first.place else path
        raise Refused(f"{place}: {first.line().decode(errors='backslashreplace')}")
    return Accepted(document, page)
