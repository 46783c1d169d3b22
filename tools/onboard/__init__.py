"""What the tools around the gateway share: lines of candump, identifiers, fast packets, ways to a bus, recordings, words on standard error."""
