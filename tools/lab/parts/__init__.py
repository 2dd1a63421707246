"""What the tools of this folder share, and the parts of those that have several. They find by it
what all tools share."""

import os
import re
import sys

sys.path.insert(1, os.path.realpath(f"{__path__[0]}/../.."))
from lib import tool  # noqa: E402, F401


def geometry(text):
    """A cache as an argument, 's,E,b'."""
    if not re.fullmatch("[0-9]+,[0-9]+,[0-9]+", text):
        raise ValueError
    return text


def seconds(text):
    """A time as an argument."""
    if not 0 < float(text) < 1e6:
        raise ValueError
    return float(text)
