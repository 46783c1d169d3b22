"""The words of a command, as each tool here reads them."""

import argparse


def parser_of(doc, usage=None):
    """A parser for a tool, with its doc as the help: the first paragraph above the words, the rest below. A word counts only as it is written whole."""
    about, _, more = doc.partition("\n\n")
    form = argparse.RawDescriptionHelpFormatter
    return argparse.ArgumentParser(usage=usage, description=about, epilog=more, formatter_class=form, allow_abbrev=False)
