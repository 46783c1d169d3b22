"""What a configuration file says: its text, its keys, and what is wrong with it."""
