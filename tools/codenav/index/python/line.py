"""How what answers of files of Python is called."""

import os
import shlex
import shutil
import sys

from codenav.index.answers import Answers
from codenav.index.given import Given
from codenav.index.kept import Kept

SYSTEM = "/usr/bin/python3"
"""Debian's Python, which sees Debian's modules where another one is first on the path."""
PYTHON = SYSTEM if os.access(SYSTEM, os.X_OK) else sys.executable
MAIN = os.path.join(os.path.dirname(os.path.realpath(__file__)), "__main__.py")
LINE = shlex.join([PYTHON, "-B", MAIN])


def lacks() -> str:
    """What of it isn't installed; empty where all is."""
    return "" if shutil.which(PYTHON) else "python3"


def answers(given: Given, kept: Kept) -> tuple[Answers, Kept]:
    """What is answered of a folder's files, of which what hasn't changed is kept. Raises BadCall where
    the process doesn't start."""
    from codenav.index.python import asking  # which has the kinds of servers, of the languages

    return asking.answers(given, kept)
