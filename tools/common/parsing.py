"""The parser of a tool's command line."""

import argparse
from typing import Any

from common.faults import WORDS, ToolFault


class Words(argparse.ArgumentParser):
    """A parser that tells a fault of the words in one line."""

    def error(self, message: str) -> Any:
        raise ToolFault(WORDS, message)
