"""All that is accepted and fails in silence on board."""

from .links import Links
from .sources import Sources


def warnings_of(accepted):
    """What is warned of without a recording."""
    yield from Links(accepted).warnings()
    yield from Sources(accepted).warnings()
