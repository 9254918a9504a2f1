"""Writes the lines of a dump."""

from typing import IO

from codenav.limits import excesses
from codenav.outcome import Excess


class LineWriter:
    """Writes lines, and counts them and their bytes."""

    def __init__(self, out: IO[bytes]) -> None:
        self.out = out
        self.elements = self.body_bytes = self.longest_line = 0

    def put(self, text: bytes) -> None:
        """Writes an element by its text."""
        self.out.write(text + b"\n")
        self.elements += 1
        size = len(text)
        self.body_bytes += size + 1
        if size > self.longest_line:
            self.longest_line = size

    def excesses(self) -> tuple[Excess, ...]:
        """The limits of the server that the dump goes over."""
        return tuple(excesses(self.elements, self.body_bytes, self.longest_line))
