"""The words of a measure: a seed and a number, as most have them."""
from __future__ import annotations

import argparse


def words_of(doc: str | None) -> argparse.ArgumentParser:
    """A parser whose help is the description of the measure, as it stands."""
    return argparse.ArgumentParser(
        description=doc, formatter_class=argparse.RawDescriptionHelpFormatter, allow_abbrev=False
    )


def seeded(doc: str | None, number: int) -> argparse.ArgumentParser:
    """The same with a seed, 1 where none is said, and a number."""
    parser = words_of(doc)
    parser.add_argument("seed", nargs="?", type=int, default=1)
    parser.add_argument("number", nargs="?", type=int, default=number)
    return parser
