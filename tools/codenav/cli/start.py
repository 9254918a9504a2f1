"""How the command line's call begins: Ctrl-C is heard before the modules are there, whose loading
takes longest. Whoever starts Python may block it up to here, for Python has no answer to it
before."""

import os
import signal
from typing import NoReturn


def end_early(*_: object) -> None:
    """Ends the call by Ctrl-C."""
    try:
        os.write(2, b"codenav: ended by Ctrl-C\n")
    finally:
        os._exit(128 + signal.SIGINT)


def run() -> NoReturn:
    """Calls the word of the command line, and ends the process."""
    if signal.getsignal(signal.SIGINT) is not signal.SIG_IGN:
        signal.signal(signal.SIGINT, end_early)
    signal.pthread_sigmask(signal.SIG_UNBLOCK, [signal.SIGINT])
    from codenav.cli import main

    main.run()
