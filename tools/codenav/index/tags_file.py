"""The tags file of a checkout, by ctags, without the lines that the server would refuse."""

import os
import re
import shutil
import subprocess
import tempfile
from collections import Counter
from contextlib import contextmanager
from typing import IO, Iterable, Iterator, Optional

from codenav.faults import BadCall
from codenav.limits import MOST_BODY_BYTES, MOST_TAG_BYTES, MOST_TAG_LINES
from codenav.program import end_with_parent
from codenav.records import line_of

RECORD_BYTES = len(line_of("0" * 64))
CONTROLS = re.compile(rb"[\x00-\x08\x0b-\x1f\x7f]")
LEFT_OUT = {
    "T01": "longer than 65536 bytes",
    "T02": "not UTF-8",
    "T03": "with a control character",
    "T04": "without a name, a file and an address",
    "T11": "over the 100000 lines that the server takes",
    "H04": "over the 33554432 bytes that the server takes",
}


def files_of(folder: str, *kinds: str) -> Iterator[bytes]:
    """The files of a checkout, from its top on: those that git knows, or of the kinds that options of
    `git ls-files` name, with those of its submodules, and without git all whose folders' names
    don't begin with a dot."""
    listed = None
    if shutil.which("git"):
        listed = subprocess.run(
            ["git", "ls-files", "-z", *kinds],
            cwd=folder,
            stdin=subprocess.DEVNULL,
            capture_output=True,
        )
    if listed is not None and listed.returncode == 0:
        names: Iterator[bytes] = iter(filter(None, listed.stdout.split(b"\0")))
    else:
        names = walked(os.fsencode(folder))
    for name in names:
        path = os.path.join(os.fsencode(folder), name)
        if os.path.islink(path):
            continue
        if os.path.isfile(path):
            yield name
        elif not name.endswith(b"/") and os.path.exists(os.path.join(path, b".git")):
            yield from (os.path.join(name, one) for one in files_of(os.fsdecode(path), *kinds))


def walked(folder: bytes) -> Iterator[bytes]:
    """The files below a folder, from it on, in order."""
    for at, folders, files in os.walk(folder):
        folders[:] = sorted(name for name in folders if not name.startswith(b"."))
        for name in sorted(files):
            yield os.path.relpath(os.path.join(at, name), folder)


def fault_of(line: bytes, number: int, written: int) -> Optional[str]:
    """The code for which the server refuses a line that would be written as this number after so
    many bytes; None where there is none."""
    if len(line) > MOST_TAG_BYTES:
        return "T01"
    try:
        line.decode()
    except UnicodeDecodeError:
        return "T02"
    if CONTROLS.search(line):
        return "T03"
    parts = line.split(b"\t", 2)
    if len(parts) < 3 or not parts[0] or not parts[1]:
        return "T04"
    if number > MOST_TAG_LINES:
        return "T11"
    return "H04" if written + len(line) + 1 > MOST_BODY_BYTES else None


@contextmanager
def ctags(
    folder: str, names: IO[bytes], said: IO[bytes], work: str
) -> Iterator["subprocess.Popen[bytes]"]:
    """What prints the tags of the files that a file names; at a fault it's ended. What it says goes into
    another file, and its own ones, which it may leave, are in a folder."""
    with subprocess.Popen(
        ["ctags", "--options=NONE", "-f", "-", "-L", "-", "--fields=+n", "--sort=yes"],
        cwd=folder,
        stdin=names,
        stdout=subprocess.PIPE,
        stderr=said,
        env={**os.environ, "LC_ALL": "C", "TMPDIR": work},
        preexec_fn=end_with_parent,
    ) as run:
        try:
            yield run
        except BaseException:
            run.terminate()
            raise


def tagged(
    folder: str, files: Iterable[bytes], path: str, is_cut: bool = False
) -> tuple[int, Counter[str]]:
    """Writes the tags file of files of a checkout; answers how many lines it has, and how many were left
    out, by the server's codes. A record fits behind them; one that's cut afterwards may be larger
    than what the server takes.

    Files are named from `./` on, which no option begins with; and no options of the checkout's
    count.
    """
    count, written, left_out = 0, 0, Counter[str]()
    said, work = os.memfd_create("ctags"), os.path.dirname(os.path.abspath(path))
    with open(said, "w+b") as says, tempfile.TemporaryFile() as names, open(path, "wb") as out:
        for name in files:
            if b"\n" in name:
                left_out["T03"] += 1
            else:
                names.write(b"./" + name + b"\n")
        names.seek(0)
        with ctags(folder, names, says, work) as run:
            for line in run.stdout or ():
                line = line.removesuffix(b"\n").replace(b"\t./", b"\t", 1)
                code = fault_of(line, *((0, 0) if is_cut else (count + 2, written + RECORD_BYTES)))
                if code is not None:
                    left_out[code] += 1
                    continue
                written += out.write(line + b"\n")
                count += 1
        if run.returncode != 0:
            says.seek(0)
            last = says.read().decode(errors="replace").strip().rpartition("\n")[2]
            raise BadCall(f"ctags ended with status {run.returncode} in {folder}: {last}")
    return count, left_out
