"""Which commit the index of a folder is of: the one that's named, or the one that is checked out,
where no file that git has differs from it."""

import os
from typing import Optional

from codenav.faults import BadCall
from codenav.texts.git import commit_of, copied_index, found_in, git, top_of

DIFFERS = "{} has files that differ from {}, of which the index is said to be"
OF_NONE = "{}, so the index is of no revision"
UNMARK = ("--no-skip-worktree", "--no-assume-unchanged")


def indexed_at(folder: str, given: Optional[str]) -> tuple[str, str]:
    """The commit that a folder's index is of, and a line to say where it can't be known or the
    files differ from it. Raises BadCall.

    It's the one that is given, else the one that is checked out, where no file that git has differs
    from it.
    """
    top = top_of(folder)
    if not top and given:
        raise BadCall(f"{folder}: not in a checkout of git, so {given} can't be looked up")
    commit = commit_of(top, given) if given else found_in(folder, "HEAD^{commit}")
    if not commit or not is_changed(top, commit):
        return commit, ""
    if given:
        return commit, DIFFERS.format(folder, given)
    return "", OF_NONE.format(f"{folder} has changes that aren't committed")


def still_indexed_at(folder: str, commit: str, given: Optional[str]) -> tuple[str, str]:
    """The same once the folder is indexed, of the commit that it was of before. Another one that is
    checked out meanwhile is a change too, but where one is given."""
    if not commit:
        return "", ""
    is_there = given or found_in(folder, "HEAD^{commit}") == commit
    if is_there and not is_changed(top_of(folder), commit):
        return commit, ""
    if given:
        return commit, DIFFERS.format(folder, given)
    return "", OF_NONE.format(f"{folder} changed meanwhile")


def is_changed(top: str, commit: str) -> bool:
    """Whether a file that git has in a work tree differs from a commit, or one of a submodule from
    the submodule's. Files that git leaves alone by a mark are compared too, where they're there, and
    submodules that are checked out.
    """
    listed = git(top, "ls-files", "--stage", "-v", "-z", seconds=None)
    if listed is None:
        return True
    marked: list[bytes] = []
    submodules: list[str] = []
    for entry in filter(None, listed.split(b"\0")):
        words, _, name = entry.partition(b"\t")
        path = os.path.join(top, os.fsdecode(name))
        mark, mode, *_ = words.split(b" ")
        if (mark == b"S" or mark.islower()) and os.path.lexists(path):
            marked.append(name + b"\0")
        if mode == b"160000" and os.path.lexists(os.path.join(path, ".git")):
            submodules.append(path)
    call = ["diff", "--quiet", "--ignore-submodules=dirty", commit, "--"]
    # git writes an index when it has looked at files that only seem to differ from it
    with copied_index(top) as variables:
        for word in UNMARK if marked else ():
            unmark = ["update-index", "-z", word, "--stdin"]
            git(top, *unmark, seconds=None, body=b"".join(marked), variables=variables)
        if git(top, *call, seconds=None, variables=variables) is None:
            return True
    return any(is_changed(submodule, "HEAD") for submodule in submodules)
