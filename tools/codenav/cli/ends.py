"""How a call of a tool ends."""

import codecs
import io
import os
import signal
import sys
import threading
import time
from typing import Any, Callable, NoReturn

from codenav.faults import Fault
from codenav.files import STANDARD_OUTPUT, of_file
from codenav.printed import MARK, line

CLOSED_PIPE = 128 + signal.SIGPIPE
MARKED = "marked"
"""How the standard error has what isn't text."""


class Unfailing(io.FileIO):
    """The standard error, where what can't be said is dropped: a call ends as it would with it."""

    def write(self, body: Any) -> int:
        """Writes a part of a body, or drops it."""
        try:
            return super().write(body) or 0
        except OSError:
            return memoryview(body).nbytes


def marked(fault: UnicodeError) -> tuple[bytes, int]:
    """A mark for each of the characters that aren't any, as a name has them that isn't UTF-8."""
    assert isinstance(fault, UnicodeEncodeError)
    return MARK.encode() * (fault.end - fault.start), fault.end


def open_standard() -> None:
    """Has what isn't there of the standard input, output and error be there, so that no file takes
    its number: a call that reads or writes it meets a fault."""
    for number, flags in enumerate((os.O_WRONLY, os.O_RDONLY, os.O_WRONLY)):
        try:
            os.fstat(number)
        except OSError:
            os.open(os.devnull, flags)
    sys.stdin = sys.stdin or open(0, encoding="utf-8", closefd=False)
    sys.stdout = sys.stdout or open(1, "w", encoding="utf-8", closefd=False)
    error = io.BufferedWriter(Unfailing(2, "w", closefd=False))
    codecs.register_error(MARKED, marked)
    sys.stderr = io.TextIOWrapper(error, "utf-8", MARKED, write_through=True)


class Signalled(BaseException):
    """A signal that ends the call, after what has to be done at its end, as removing files."""

    def __init__(self, number: int) -> None:
        super().__init__()
        self.number = number


def raise_signal(number: int, _: object) -> NoReturn:
    """Ends the call by a signal; another one then ends it at once."""
    signal.signal(number, signal.SIG_DFL)
    raise KeyboardInterrupt() if number == signal.SIGINT else Signalled(number)


SIGNALS = {signal.SIGINT: "Ctrl-C", signal.SIGTERM: "SIGTERM", signal.SIGHUP: "SIGHUP"}
PAUSE = 0.1


def end_by_signals() -> None:
    """Has each of these signals that isn't ignored end the call. One may come where the interpreter
    doesn't see it, as when it begins to wait, or where it drops what's raised, as in a finaliser:
    then it's sent again, where the system has what that needs."""
    for number in SIGNALS:
        if signal.getsignal(number) != signal.SIG_IGN:
            signal.signal(number, raise_signal)
    try:
        read, write = os.pipe()
    except OSError:
        return
    os.set_blocking(write, False)
    main = threading.get_ident()

    def send_again() -> None:
        while True:
            number = os.read(read, 1)[0]
            time.sleep(PAUSE)
            while signal.getsignal(number) is raise_signal:
                signal.pthread_kill(main, number)
                time.sleep(PAUSE)

    def was_dropped(fault: "sys.UnraisableHookArgs") -> None:
        end = fault.exc_value
        if not isinstance(end, (KeyboardInterrupt, Signalled)):
            sys.__unraisablehook__(fault)
            return
        number = end.number if isinstance(end, Signalled) else signal.SIGINT
        signal.signal(number, raise_signal)
        os.write(write, bytes([number]))

    sys.unraisablehook = was_dropped
    signal.set_wakeup_fd(write, warn_on_full_buffer=False)
    os.register_at_fork(after_in_child=lambda: signal.set_wakeup_fd(-1))
    threading.Thread(target=send_again, daemon=True).start()


def drop_output() -> None:
    """Has what couldn't be printed go nowhere, so that its fault isn't met again."""
    os.dup2(os.open(os.devnull, os.O_WRONLY), sys.stdout.fileno())


def text_of(fault: OSError) -> str:
    """What a fault of the system is said by."""
    name = fault.filename
    try:
        sys.stdout.flush()
    except OSError:
        name = name or STANDARD_OUTPUT
        drop_output()
    text = fault.strerror or str(fault)
    return f"{name}: {text}" if name else text


def status_of(tool: str, call: Callable[[], int]) -> int:
    """Makes the call of a tool and answers its status. What can't be carried out is one line on the
    standard error and status 2, or that of the fault. Ctrl-C, SIGTERM and SIGHUP are one line too,
    with 130, 143 and 129. Where nobody reads the standard output any more the call ends without a
    word, with the status of a program that SIGPIPE ended."""
    try:
        status = call()
        with of_file(STANDARD_OUTPUT):
            sys.stdout.flush()
        return status
    except BrokenPipeError:
        drop_output()
        return CLOSED_PIPE
    except (KeyboardInterrupt, Signalled) as end:
        number = end.number if isinstance(end, Signalled) else signal.SIGINT
        status, text = 128 + number, f"ended by {SIGNALS[signal.Signals(number)]}"
    except Fault as fault:
        status, text = fault.status, str(fault)
    except OSError as fault:
        status, text = 2, text_of(fault)
    print(f"{tool}: {line(text)}", file=sys.stderr)
    return status
