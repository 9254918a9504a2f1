"""Texts of others as they're printed: no character of theirs tells a terminal anything, ends a line,
or turns the direction of what follows."""

import re

MARK = "\ufffd"
UNPRINTED = "\\x00-\\x1f\\x7f-\\x9f\\u061c\\u200e\\u200f\\u2028-\\u202e\\u2066-\\u2069"
LINE = re.compile(f"[{UNPRINTED}]")
TEXT = re.compile(f"(?![\t\n])[{UNPRINTED}]")


def line(text: str) -> str:
    """A text as one line."""
    return LINE.sub(MARK, text)


def lines(text: str) -> str:
    """A text of several lines, with its tabs."""
    return TEXT.sub(MARK, text)
