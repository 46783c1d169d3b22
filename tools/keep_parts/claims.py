"""Who holds which address of the bus, as the claims in a recording say (ISO 11783-5, Address claimed)."""

import re

from onboard import candump
from onboard.identifiers import ADDRESS_CLAIM, NULL_ADDRESS, name_of, parts_of

# Most lines are none, and are told by this alone: a frame with the format of the claim's PGN and with a whole NAME.
LIKE_A_CLAIM = re.compile(rb"^\(\d+\.\d{6}\) (can0 [01][0-9A-F]EE[0-9A-F]{4}#[0-9A-F]{16})$", re.MULTILINE)


class Claims:
    """Of each address that a device holds the last claim of that device, in the order in which they won them."""

    def __init__(self):
        # the NAME and the claim of each address, and the address of each NAME
        self.holders, self.addresses = {}, {}

    def __iter__(self):
        return (claim for _, claim in self.holders.values())

    def take(self, text):
        """Takes the claims among these lines."""
        for match in LIKE_A_CLAIM.finditer(text):
            frame = candump.read_line(match.group()).frame
            parts = parts_of(frame.identifier)
            if parts.pgn == ADDRESS_CLAIM and parts.source <= NULL_ADDRESS:
                self._take(parts.source, name_of(frame.data), match.group(1))

    def _take(self, address, name, claim):
        left = self.addresses.get(name)
        if left is not None and left != address:
            self._forget(left)
        if address == NULL_ADDRESS:
            return
        holder = self.holders.get(address, (name, None))[0]
        if holder < name:
            # of two NAMEs the smaller one keeps the address
            return
        if holder > name:
            self._forget(address)
        self.holders[address], self.addresses[name] = (name, claim), address

    def _forget(self, address):
        name, _ = self.holders.pop(address)
        del self.addresses[name]
