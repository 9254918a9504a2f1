"""What a tool says on the standard error while it works: a bar on a terminal, where Debian's
python3-tqdm is there, for a stage that takes over a second, and a line when a stage has ended."""

import sys
import time
from typing import Any, Optional

from codenav import printed


class Shown:
    """The progress of a tool (`progress.Shows`). With `is_long` each stage is a line at its end."""

    def __init__(self, tool: str, is_long: bool = False) -> None:
        self.tool, self.is_long, self.what, self.start = tool, is_long, "", 0.0
        self.bar: Any = None

    def begin(self, what: str, total: Optional[int] = None, unit: str = "B") -> None:
        """Begins a stage, of so many units where that is known."""
        self.what, self.start = what, time.monotonic()
        try:
            from tqdm import tqdm
        except ImportError:
            return
        # `disable`: no bar but on a terminal
        look: dict[str, Any] = {"unit": unit, "unit_scale": True, "delay": 1, "disable": None}
        if total is None:
            look["bar_format"] = "{desc}: {n_fmt}{unit} in {elapsed}"
        text = f"{self.tool}: {what}"
        self.bar = tqdm(desc=text, total=total, leave=False, file=sys.stderr, **look)

    def at(self, done: int) -> None:
        """So many units are done."""
        if self.bar is not None:
            self.bar.update(done - self.bar.n)

    def end(self, said: str = "") -> None:
        """Ends the stage, with what's to be said of it."""
        if self.bar is not None:
            self.bar.close()
            self.bar = None
        if self.is_long:
            seconds = time.monotonic() - self.start
            self.warn(
                f"{self.what}: {said} ({seconds:.1f} s)"
                if said
                else f"{self.what} ({seconds:.1f} s)"
            )

    def __enter__(self) -> "Shown":
        return self

    def __exit__(self, *_: object) -> None:
        """Takes the bar of a stage away that came to no end."""
        if self.bar is not None:
            self.bar.close()

    def warn(self, line: str) -> None:
        """Says a line at once."""
        print(f"{self.tool}: {printed.line(line)}", file=sys.stderr, flush=True)
