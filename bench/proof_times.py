"""Says what takes long in a proof: runs a command, watches which process closes which proof file,
and prints the seconds before each.

A check writes a file of each step of each function (`NAME.Lts`, `NAME.Proof`, `NAME.Tie`) when the
step is done, so the time since the file before, of the same process, is what the step took; with
several jobs each process is looked at by itself. What a check has kept it doesn't write again.
Processes that start late read what others wrote, which is counted for the first file that they
write. All processes of the machine are looked at, so let nothing else prove meanwhile; and a
crate's second `rt` waits for the first one.
"""

import argparse
import ctypes
import os
import re
import struct
import subprocess
import sys
import threading
import time
from collections import defaultdict
from typing import NoReturn

CLOSED = 0x8
ADD, WHOLE_MOUNT = 0x1, 0x10
HERE = -100
EVENT = struct.Struct("=IBBHQii")
FILE = re.compile(r"([^/]+?)(?:\.decls)?\.oantt[^/]*$")


def watch() -> int:
    """A descriptor that reports each file that is closed after it was written, on the file system
    of this folder and on that of /tmp."""
    libc = ctypes.CDLL(None, use_errno=True)
    libc.fanotify_mark.argtypes = [
        ctypes.c_int,
        ctypes.c_uint,
        ctypes.c_uint64,
        ctypes.c_int,
        ctypes.c_char_p,
    ]
    events: int = libc.fanotify_init(0, os.O_RDONLY)
    marked = events >= 0 and all(
        libc.fanotify_mark(events, ADD | WHOLE_MOUNT, CLOSED, HERE, path) == 0
        for path in (b".", b"/tmp")
    )
    if not marked:
        sys.exit(f"cannot watch files: {os.strerror(ctypes.get_errno())}")
    return events


def read(events: int, seconds: defaultdict[str, float]) -> NoReturn:
    """Adds the seconds before each file to those of its name, for good."""
    last: dict[int, float] = {}
    while True:
        block, at, now = os.read(events, 65536), 0, time.time()
        while at + EVENT.size <= len(block):
            length, _, _, _, _, file, process = EVENT.unpack_from(block, at)
            at += length
            if file < 0:
                continue
            name = FILE.search(os.readlink(f"/proc/self/fd/{file}"))
            os.close(file)
            if name:
                if process in last:
                    seconds[name[1]] += now - last[process]
                last[process] = now


def main() -> int:
    options = argparse.ArgumentParser(
        description=__doc__, formatter_class=argparse.RawDescriptionHelpFormatter
    )
    options.add_argument("--count", type=int, default=40, help="of those that took longest; 40")
    options.add_argument("command", nargs=argparse.REMAINDER, help="as root, on Linux")
    given = options.parse_args()
    seconds: defaultdict[str, float] = defaultdict(float)
    threading.Thread(target=read, args=(watch(), seconds), daemon=True).start()
    status = subprocess.run(given.command).returncode
    time.sleep(1)
    longest = sorted(seconds.items(), key=lambda it: it[1], reverse=True)
    for name, taken in longest[: given.count]:
        print(f"{taken:6.1f} {name}")
    print(f"{sum(seconds.values()):6.1f} in all")
    return status


if __name__ == "__main__":
    sys.exit(main())
