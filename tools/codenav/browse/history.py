"""The history of a file: its commits, and the commit that each of its lines is of, by git. Nothing
that a repository's settings name is run."""

import os
import secrets
import time
from contextlib import suppress
from typing import NamedTuple, Optional

from codenav.browse.changes import same_lines
from codenav.browse.folder import Refused
from codenav.browse.turns import Turns
from codenav.browse.view import View
from codenav.faults import BadCall
from codenav.texts.decoded import decoded, lines_in
from codenav.texts.git import checked_top, commit_of, git

MOST_COMMITS = 50
AT_ONCE = Turns(4)
LAST = 253402300799
"""The last second of the year 9999."""
FIELDS = "--format={}%H%x00%at%x00%an%x00%s"
LOG = ("log", "-z", "--follow", "--name-only", "--encoding=UTF-8")
PLAIN = ("--no-ext-diff", "--no-textconv", "--no-show-signature", "--no-mailmap")
BLAME = ("blame", "--porcelain", "--no-textconv", "--encoding=UTF-8")


class Commit(NamedTuple):
    """A commit: its name, the day when it was made, by whom, its first line, and what the file was
    called there, from the folder that is shown on."""

    name: str
    day: str
    author: str
    subject: str
    file: str


def day_of(seconds: str) -> str:
    """The day of a time as git prints it; a sign where it's none."""
    if not seconds.isdecimal():
        return "-"
    return time.strftime("%Y-%m-%d", time.gmtime(min(int(seconds[:20]), LAST)))


class Repository(NamedTuple):
    """The work tree that a file is in, what the file is called there, the commit of the revision
    that is shown, and what leads from the folder that is shown to the work tree's top."""

    top: str
    name: str
    commit: str
    above: str

    def shown(self, name: str) -> str:
        """A file of the work tree as it's called from the folder on."""
        return os.path.normpath(os.path.join(self.above, name))


def repository_of(view: View, path: str, revision: str = "") -> Repository:
    """Where the history of a file is, of a revision, or of the one that is shown. Raises Refused."""
    real = os.path.realpath(path)
    folder = os.path.dirname(real)
    while not os.path.isdir(folder):
        folder = os.path.dirname(folder)
    try:
        top = os.path.realpath(checked_top(folder))
        commit = commit_of(top, revision or view.revision or "HEAD")
    except BadCall as fault:
        raise Refused(404, str(fault)) from None
    return Repository(
        top, os.path.relpath(real, top), commit, os.path.relpath(top, view.folder.top)
    )


def is_before_all(view: View, name: str) -> bool:
    """Whether the revision that is shown is what was before the first commit of a file's
    repository."""
    revision = view.revision.removesuffix("^")
    with suppress(Refused):
        if revision and revision != view.revision:
            where = repository_of(view, view.folder.named(name), revision)
            said = git(where.top, "cat-file", "commit", where.commit) or b"\nparent "
            return b"\nparent " not in said.partition(b"\n\n")[0]
    return False


def said_of(where: Repository, *words: str) -> bytes:
    """What git prints of a file; raises Refused where that's nothing, or takes too long."""
    faults: list[str] = []
    literal = {"GIT_LITERAL_PATHSPECS": "1"}
    try:
        with AT_ONCE.turn():
            printed = git(where.top, *words, variables=literal, faults=faults)
    except BadCall as fault:
        raise Refused(503, str(fault), "Its history is long: a revision before has less.") from None
    if printed is not None:
        return printed
    if git(where.top, "ls-tree", where.commit, "--", where.name, variables=literal) == b"":
        raise Refused(404, f"{where.name}: not in {where.commit[:12]}")
    raise Refused(500, f"{where.name}: {' '.join(faults) or 'git fails'}")


def commits(view: View, path: str, skip: int) -> tuple[list[Commit], bool]:
    """Some commits that changed a file, also under the names that it had before, the last one first;
    and whether there are more. Raises Refused."""
    if view.checkout is None and os.path.isdir(path):
        raise Refused(403, "not a file")
    where = repository_of(view, path)
    kind = git(where.top, "cat-file", "-t", f"{where.commit}:{where.name}")
    if view.checkout is not None and kind in (b"tree\n", b"commit\n"):
        raise Refused(403, "not a file")
    mark = secrets.token_hex(20)
    some = (FIELDS.format(mark), f"--skip={skip}", f"--max-count={MOST_COMMITS + 1}")
    words = (*LOG, *PLAIN, *some, where.commit, "--", where.name)
    printed = said_of(where, *words)
    found: list[Commit] = []
    name = where.name
    for part in os.fsdecode(printed).split(mark)[1:]:
        own, when, author, subject, *names = part.split("\0")
        if names and names[0].startswith("\n"):  # many of what was a folder
            name = names[0][1:]
        found.append(Commit(own, day_of(when), author, subject, where.shown(name)))
    return found[:MOST_COMMITS], len(found) > MOST_COMMITS


def blamed(view: View, path: str, lines: list[str]) -> list[tuple[Optional[Commit], int, int]]:
    """The lines of a file, which were read, as runs that are of one commit each: the commit, or None
    of what isn't committed, the first line from 0 and the one behind the last. Raises Refused."""
    where = repository_of(view, path)
    printed = said_of(where, *BLAME, where.commit, "--", where.name)
    known, owners, body = porcelain(printed, where)
    try:
        committed = lines_in(decoded(body))
    except ValueError as fault:
        raise Refused(403, f"{where.name}: {fault} in {where.commit[:12]}") from None
    pairs = dict((new, old) for old, new in same_lines(committed, lines))
    runs: list[tuple[Optional[Commit], int, int]] = []
    for number in range(len(lines) - (not lines[-1])):
        old = pairs.get(number, len(owners))
        owner = known[owners[old]] if old < len(owners) else None
        if runs and runs[-1][0] == owner:
            runs[-1] = owner, runs[-1][1], number + 1
        else:
            runs.append((owner, number, number + 1))
    return runs


def porcelain(printed: bytes, where: Repository) -> tuple[dict[str, Commit], list[str], bytes]:
    """The commits that `git blame --porcelain` prints, the one of each line, and the lines."""
    known: dict[str, Commit] = {}
    lines: list[bytes] = []
    owners: list[str] = []
    words: dict[str, str] = {}
    name = ""
    for line in printed.split(b"\n"):
        if line.startswith(b"\t"):
            if name not in known:
                file = where.shown(unquoted(words.get("filename", "")))
                day = day_of(words.get("author-time", ""))
                known[name] = Commit(
                    name, day, words.get("author", ""), words.get("summary", ""), file
                )
            owners.append(name)
            lines.append(line[1:])
            name, words = "", {}
        elif not name:
            name = line.split(b" ")[0].decode("ascii", "replace")
        else:
            key, _, value = os.fsdecode(line).partition(" ")
            words[key] = value
    return known, owners, b"\n".join(lines)


def unquoted(name: str) -> str:
    """A file's name that git quotes as C does, where it has to."""
    if not (name.startswith('"') and name.endswith('"') and len(name) > 1):
        return name
    body = os.fsencode(name[1:-1]).decode("latin-1")
    return os.fsdecode(body.encode("latin-1").decode("unicode_escape").encode("latin-1"))
