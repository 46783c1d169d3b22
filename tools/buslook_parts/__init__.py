"""The parts of buslook."""
