"""The pages that tools read at run time, and where they lie.

They are pages of docs/ in a checkout. packaging/install puts them into pages/ beside tools/, since a system may leave out what lies in share/doc.
"""

import os

CONFIGURATION, FORMATS, REPORTS = "configuration.md", "formats.md", "reports.md"
TOP = os.path.join(os.path.dirname(os.path.realpath(__file__)), "..", "..")
OF_INSTALL, OF_CHECKOUT = os.path.join(TOP, "pages"), os.path.join(TOP, "docs")


class PageChanged(Exception):
    """What a reader doesn't find on a page."""

    def __init__(self, page, what):
        super().__init__(f"docs/{page}: {what}")


def text_of(page):
    """The text of a page; OSError says why it can't be read."""
    with open(os.path.join(OF_INSTALL if os.path.isdir(OF_INSTALL) else OF_CHECKOUT, page), encoding="utf-8") as file:
        return file.read()
