"""What keep is made of: the lines of a run, the claims in them, outlets that hold up nobody, files in a folder, and their parts joined again."""
