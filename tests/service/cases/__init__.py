"""What tests/service/boot tries in the machine. A module has its cases in CASES; each is a function that answers what it saw, or raises Failed."""

# In this order: the first looks at the boot, the last removes what was installed.
MODULES = ("clock", "priority", "restarts", "recording", "page", "ways", "package")


class Failed(Exception):
    """A case doesn't hold."""


def wanted(what, is_so):
    if not is_so:
        raise Failed(what)
