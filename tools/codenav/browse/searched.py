"""Texts of the files that are shown, found by `git grep`: those that git has, and others that
`.gitignore` doesn't name; of a folder that is no checkout too. What is found is bounded, and so is
the time."""

import os
import re
import subprocess
import tempfile
import threading
import time
from dataclasses import dataclass, field
from typing import IO, Iterator, NamedTuple

from codenav.browse.folder import Folder, Refused
from codenav.browse.turns import Turns
from codenav.faults import BadCall
from codenav.texts.decoded import decoded
from codenav.texts.git import CALL, ENVIRONMENT, checked_top, commit_of, git, top_of
from codenav.texts.places import units

MOST_FOUND, MOST_CHARACTERS, MOST_LINE = 500, 300, 2_000_000
SECONDS = 10.0
AT_ONCE = {False: Turns(4), True: Turns(2)}
"""Of searches for texts, and of those for regular expressions, which may take all their time."""
GREP = ("grep", "-n", "-I", "-z", "--column", "--no-color", "--full-name", "--threads=2")
UNREAD = b"error: ", b"warning: could not open directory"
PLAIN = ("--no-textconv", "--no-recurse-submodules")
NAMED = ("ls-files", "-z", "--full-name", "--cached", "--ignored", "--exclude-standard")
"""Files that git has although `.gitignore` names them, which `git grep --untracked` leaves out."""


class Wanted(NamedTuple):
    """What is searched for: a text, or a regular expression; in files whose paths have a text; in
    the case that it's written in or in any."""

    text: str
    path: str = ""
    is_case: bool = False
    is_regex: bool = False


class Match(NamedTuple):
    """A line that was found: its file, from the folder on, its number from 1, where the text begins
    in it in UTF-16 code units from 0, and a part of the line."""

    file: str
    line: int
    character: int
    before: str
    text: str


@dataclass
class Matches:
    """What was found, what is to be said of it where it isn't all, and what git says of files and
    folders that it couldn't read."""

    rows: list[Match] = field(default_factory=list)
    said: str = ""
    unread: set[bytes] = field(default_factory=set)


def searched(folder: Folder, tops: list[str], wanted: Wanted, revision: str) -> Matches:
    """The lines that have a text, in folders below the one that is shown, one after the other.
    Raises Refused."""
    if not wanted.text or "\0" in wanted.text + wanted.path or "\n" in wanted.text:
        raise Refused(400, "Texts are searched by one line, without U+0000.")
    found = Matches()
    with AT_ONCE[wanted.is_regex].turn():
        until = time.monotonic() + SECONDS
        faults: list[str] = []
        is_known = not revision
        for top in tops:
            for call in calls_in(folder, top, revision, faults):
                is_known = True
                search_in(folder, call, wanted, found, until)
                if found.said:
                    return found
    if not is_known:
        raise Refused(404, faults[0])
    return found


class Call(NamedTuple):
    """A call of git: the folder, the top of its work tree, or nothing, the words that say in what
    is searched, and the files that count, from that top on, where not all do."""

    folder: str
    tree: str
    words: tuple[str, ...]
    commit: str = ""
    only: frozenset[str] = frozenset()


def calls_in(folder: Folder, top: str, revision: str, faults: list[str]) -> Iterator[Call]:
    """The calls that search a folder, also in the checkouts below it, which git leaves out of the
    one around them. Why one hasn't the revision is added to the faults."""
    paths = (os.path.join(folder.top, name) for name in folder.checkouts() if name)
    inner = [path for path in paths if path.startswith(f"{top}/")]
    is_all = folder.is_left_out and not os.path.lexists(os.path.join(top, ".git"))
    is_plain = False
    for own in [top, *inner]:
        tree = top_of(own)
        if revision:
            try:
                commit = commit_of(tree or checked_top(own), revision)
            except BadCall as fault:
                faults.append(str(fault))
            else:
                yield Call(own, tree, (), commit)
            continue
        if not tree:
            is_plain = True
            yield Call(own, own, ("--no-index", "--exclude-standard"))
        elif own == top and is_all:
            yield Call(own, tree, ("--untracked", "--no-exclude-standard"))
        else:
            if not is_plain:
                yield Call(own, tree, ("--untracked",))
            named = git(own, *NAMED) or b""
            if named:
                yield Call(own, tree, (), "", frozenset(os.fsdecode(named).split("\0")))


def words_of(wanted: Wanted, call: Call, above: str) -> list[str]:
    """The words of git's call in a folder, `above` which are the folders from the one that is shown
    to it."""
    words = [*GREP, *PLAIN, *call.words]
    words += ["-E" if wanted.is_regex else "-F", *([] if wanted.is_case else ["-i"])]
    words += ["-e", wanted.text, *([call.commit] if call.commit else []), "--"]
    return words + (paths_with(wanted.path, above) if wanted.path else ["."])


def paths_with(text: str, above: str) -> list[str]:
    """What git calls the paths in a folder that have a text, which may begin in those above."""
    if text.lower() in above.lower():
        return ["."]
    starts = [at for at in range(1, len(text)) if above.lower().endswith(text[:at].lower())]
    patterns = [f"*{pattern(text)}*", *(f"{pattern(text[at:])}*" for at in starts)]
    return [f":(icase){one}" for one in patterns]


def pattern(text: str) -> str:
    """A text as git writes it in a pattern."""
    return re.sub(r"([\\*?\[])", r"\\\1", text)


def search_in(folder: Folder, call: Call, wanted: Wanted, found: Matches, until: float) -> None:
    """Adds what a call finds up to a time."""
    environment = {**os.environ, **ENVIRONMENT}
    above = os.path.join(os.path.relpath(call.folder, folder.top), "").removeprefix("./")
    with tempfile.TemporaryFile() as errors:
        try:
            process = subprocess.Popen(
                [*CALL, "-C", call.folder, *words_of(wanted, call, above)],
                stdin=subprocess.DEVNULL,
                stdout=subprocess.PIPE,
                stderr=errors,
                env=environment,
            )
        except OSError as fault:
            raise Refused(500, f"git can't be started: {fault.strerror}") from None
        late = threading.Event()
        timer = threading.Timer(max(until - time.monotonic(), 0.0), stop, [process, late])
        timer.start()
        assert process.stdout is not None
        try:
            for match in read(process.stdout, folder, call):
                if len(found.rows) == MOST_FOUND:
                    found.said = f"the first {MOST_FOUND} lines"
                    break
                found.rows.append(match)
            if late.is_set():
                found.said = f"what was found in {SECONDS:g} seconds"
        finally:
            timer.cancel()
            process.kill()
            process.communicate()
        errors.seek(0)
        lines = errors.read(MOST_LINE).split(b"\n")
    found.unread.update(line for line in lines if line.startswith(UNREAD))
    fatal = next((line for line in lines if line.startswith(b"fatal: ")), b"")
    if fatal and not found.rows:
        label = "not a regular expression" if wanted.is_regex else "git can't search"
        raise Refused(400, f"{label}: {fatal[7:].decode(errors='replace')}")


def stop(process: subprocess.Popen[bytes], late: threading.Event) -> None:
    """Ends a search that takes too long."""
    late.set()
    process.kill()


def read(output: IO[bytes], folder: Folder, call: Call) -> Iterator[Match]:
    """The lines that git prints, of files that are shown."""
    prefix = f"{call.commit}:" if call.commit else ""
    while line := output.readline(MOST_LINE):
        rest = line
        while rest and line.count(b"\0") < 3:  # the name has line feeds
            rest = output.readline(MOST_LINE)
            line += rest
        while rest and not rest.endswith(b"\n"):
            rest = output.readline(MOST_LINE)
        fields = line.removesuffix(b"\n").split(b"\0", 3)
        if len(fields) < 4 or not fields[1].isdigit() or not fields[2].isdigit():
            continue
        own = os.fsdecode(fields[0]).removeprefix(prefix)
        if call.only and own not in call.only:
            continue
        name = os.path.relpath(os.path.join(call.tree, own), folder.top)
        if any(part.startswith(".") for part in name.split("/")):
            continue
        try:
            column = int(fields[2]) - 1
            before, text = decoded(fields[3][:column]), decoded(fields[3][column:])
        except ValueError:
            continue
        yield Match(
            name, int(fields[1]), units(before), before.lstrip()[-80:], text[:MOST_CHARACTERS]
        )
