"""The parts of livelook: how it follows a run, what it gathers of it, and how it shows that."""
