"""Texts as they're drawn: a character that turns the text around it is drawn as a mark in its
place, so that lines read in the order that they're written in."""

from html import escape

TURNS = dict.fromkeys([*range(0x202A, 0x202F), *range(0x2066, 0x206A)], "\ufffd")


def drawn(text: str) -> str:
    """A text with marks; it's as long as it was."""
    return text if text.isascii() else text.translate(TURNS)


def html(text: str) -> str:
    """A text with marks, as HTML."""
    return escape(drawn(text))
