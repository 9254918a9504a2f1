"""Where a step says how far it is."""

from typing import Optional, Protocol


class Shows(Protocol):
    """Where a step says how far it is, in stages one after the other: `cli/show.py` has them on
    the standard error."""

    def begin(self, what: str, total: Optional[int] = None, unit: str = "B") -> None:
        """Begins a stage, of so many units where that is known."""

    def at(self, done: int) -> None:
        """So many units are done."""

    def end(self, said: str = "") -> None:
        """Ends the stage, with what's to be said of it."""

    def warn(self, line: str) -> None:
        """Says a line at once."""


class Quiet:
    """Says nothing."""

    def begin(self, what: str, total: Optional[int] = None, unit: str = "B") -> None:
        """Says nothing."""

    def at(self, done: int) -> None:
        """Says nothing."""

    def end(self, said: str = "") -> None:
        """Says nothing."""

    def warn(self, line: str) -> None:
        """Says nothing."""
