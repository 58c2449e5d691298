"""The words that tools share which refuse tests their memory."""

from pathlib import Path

from building.command import positive
from common.parsing import Words
from refusing.programs import BUDGET


def add_refusals(parser: Words) -> None:
    """Adds where tests' programs stand, how long a test may take, and how many run at once."""
    built = "where tests' programs stand that are built: there, or in crates there in out/"
    parser.add_argument("--built", type=Path, metavar="FOLDER", help=built)
    seconds = f"processor time of a test with all its refusals: a sample of them where it takes longer ({BUDGET})"
    parser.add_argument("--seconds", type=positive, default=BUDGET, metavar="S", help=seconds)
    parser.add_argument("--jobs", type=positive, metavar="N", help="how many tests run at once (as many as processors)")
