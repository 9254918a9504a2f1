"""Tests of the tools. Ctrl-C and SIGHUP are heard by what they start, also where a shell has them
ignored, as by its jobs in the background and by `nohup`. What Python warns of goes to the test's
own standard error: it may be of what an earlier test left, so it's no line of the call that a test
looks at."""

import signal
import sys
import warnings
from typing import Optional, TextIO

if signal.getsignal(signal.SIGINT) is signal.SIG_IGN:
    signal.signal(signal.SIGINT, signal.default_int_handler)
if signal.getsignal(signal.SIGHUP) is signal.SIG_IGN:
    signal.signal(signal.SIGHUP, signal.SIG_DFL)


def to_the_terminal(
    message: Warning | str,
    category: type[Warning],
    filename: str,
    lineno: int,
    file: Optional[TextIO] = None,
    line: Optional[str] = None,
) -> None:
    """Shows a warning where a test that took over `sys.stderr` doesn't read it."""
    text = warnings.formatwarning(message, category, filename, lineno, line)
    (file or sys.__stderr__).write(text)


warnings.showwarning = to_the_terminal
