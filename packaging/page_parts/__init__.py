"""The parts of packaging/page."""
