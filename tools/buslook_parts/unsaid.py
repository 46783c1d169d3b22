"""Rows that nobody says: what came of them on the bus, and why none of it was taken."""

import collections
import functools
from typing import NamedTuple

from configuration.keys import is_matched
from configuration.messages import sources_of_rows
from onboard.fast_packets import is_fast

# why a message isn't taken, in words behind one address or several
REASONS = UNCLAIMED, OWN, IGNORED, UNLISTED, WITHOUT_VALUE, TOO_SHORT = (
    "claimed later", "the gateway's own", "ignored", "not in the row's sources", "said no value", "said too few bytes")
NEVER_CLAIMED, IN_PART = "never claimed", "said it in part alone"
MOST_ADDRESSES, MOST_KEPT = 8, 4096


class Came:
    """What came of a row that wasn't said: how many messages began, by their addresses, and how many were whole, by address and reason."""

    def __init__(self):
        self.begun, self.reasons = collections.Counter(), collections.Counter()

    def messages(self):
        return sum(self.begun.values())

    def addresses(self, claimed):
        """The addresses of each reason; where most of what began was never whole, that is one."""
        found = {}
        for (address, reason), _ in self.reasons.most_common():
            found.setdefault(NEVER_CLAIMED if reason == UNCLAIMED and address not in claimed else reason, set()).add(address)
        broken = {address for address, begun in self.begun.items() if 2 * sum(self.reasons[address, reason] for reason in REASONS) < begun}
        return {**found, IN_PART: broken} if broken else found


class Unsaid:
    """What came of each row until it was said with a value, and the rows that the network had sent to the bus."""

    def __init__(self, config, rows_of_page):
        self.tables, self.ignored = config.get("row", {}), config.get("bus", {}).get("ignore", [])
        self.own_name = int(config["gateway"]["name"], 16)
        self.came = {row.name: Came() for row in rows_of_page}
        self.said, self.sent = set(), set()
        # asked at each message
        self.reason = functools.lru_cache(maxsize=MOST_KEPT)(self._reason)
        self.sources = {}
        for row, sources in sources_of_rows(rows_of_page).items():
            for source in sources:
                self.sources.setdefault(source.pgn, []).append((row, source))

    def frame(self, frame, parts):
        """A frame of several may begin a message that is never whole; of such a PGN each message is of the same row."""
        for row, _ in self.sources[parts.pgn]:
            if row not in self.said and is_fast(parts.pgn) and frame.begins_fast_packet():
                self.came[row].begun[parts.source] += 1

    def message(self, message, name, rows_said, rows_empty):
        """A whole message by the NAME that holds its address, the rows that were said at it, and those of which it has no value."""
        pgn, source = message.parts.pgn, message.parts.source
        for row, said in self.sources[pgn]:
            if row in self.said or not said.is_said_by(pgn, message.data):
                continue
            self.came[row].begun[source] += not is_fast(pgn)
            if row not in rows_said:
                self.came[row].reasons[source, self.reason(row, name)] += 1
            elif row in rows_empty:
                self.came[row].reasons[source, WITHOUT_VALUE] += 1
            else:
                self.said.add(row)

    def _reason(self, row, name):
        """Why nothing was said at a message of a row from the device with this NAME. Where nothing speaks against the device, it is the message."""
        table = self.tables.get(row, {})
        if name is None:
            return UNCLAIMED
        if name == self.own_name:
            return OWN
        if any(is_matched(pattern, name) for pattern in self.ignored):
            return IGNORED
        is_listed = table.get("others", True) or any(is_matched(pattern, name) for pattern in table.get("sources", []))
        return TOO_SHORT if is_listed else UNLISTED

    def sent_frame(self, pgn, data):
        """A frame that the network had sent to the bus."""
        self.sent.update(row for row, source in self.sources.get(pgn, ()) if source.is_said_by(pgn, data))

    def not_taken(self, claimed):
        """What came of each row that nobody said, by the addresses that ever claimed."""
        return [NotTaken((row,), came.messages(), came.addresses(claimed)) for row, came in self.came.items() if came.begun and row not in self.said]

    def not_there(self):
        """The rows of which no message came, from the bus or from the network."""
        return [row for row, came in self.came.items() if not came.begun and row not in self.said | self.sent]


class NotTaken(NamedTuple):
    """Messages of rows that nobody said, with the addresses that they came from by the reasons why they weren't taken."""

    rows: tuple
    messages: int
    addresses: dict

    def why(self):
        return ", ".join(f"{few(sorted(addresses))} {reason}" for reason, addresses in self.addresses.items())

    def joined(self, other):
        addresses = {reason: self.addresses[reason] | other.addresses[reason] for reason in self.addresses}
        return NotTaken(self.rows + other.rows, self.messages + other.messages, addresses)


def by_reasons(found):
    """Those of the same reasons as one."""
    joined = {}
    for one in found:
        key = frozenset(one.addresses)
        joined[key] = joined[key].joined(one) if key in joined else one
    return list(joined.values())


def few(numbers, word="address "):
    """Some numbers in words; of many the first ones."""
    more = f" and {len(numbers) - MOST_ADDRESSES} more" if len(numbers) > MOST_ADDRESSES else ""
    return word + ", ".join(map(str, numbers[:MOST_ADDRESSES])) + more
