"""What git says of a work tree. It reads and writes nothing elsewhere, takes no lock, runs no hook and
no monitor of files, and fetches nothing of a partial clone."""

import os
import re
import shutil
import subprocess
import tempfile
from contextlib import contextmanager, suppress
from typing import Iterator, Mapping, Optional

from codenav.faults import BadCall

OTHERS = "GIT_ALTERNATE_OBJECT_DIRECTORIES"
COMMIT = re.compile(r"[0-9a-f]{40}|[0-9a-f]{64}")
SECONDS = 10.0
"""For so long git is waited for."""
NO_ANSWER = "{}: git gives no answer"
PLAIN = {"core.fsmonitor": "false", "core.hooksPath": os.devnull, "diff.orderFile": os.devnull}
CALL = ("git", *(word for key, value in PLAIN.items() for word in ("-c", f"{key}={value}")))
ENVIRONMENT = {"GIT_OPTIONAL_LOCKS": "0", "GIT_NO_LAZY_FETCH": "1", "LC_ALL": "C"}


def git(
    folder: str,
    *words: str,
    seconds: Optional[float] = SECONDS,
    body: bytes = b"",
    variables: Mapping[str, str] = ENVIRONMENT,
    faults: Optional[list[str]] = None,
) -> Optional[bytes]:
    """What a git command prints, which reads a body; None where it fails, or there is no git. Why
    it fails is added to the faults. Raises BadCall where it doesn't end in time."""
    try:
        done = subprocess.run(
            [*CALL, "-C", folder, *words],
            input=body,
            capture_output=True,
            check=False,
            env={**os.environ, **ENVIRONMENT, **variables},
            timeout=seconds,
        )
    except (FileNotFoundError, PermissionError):
        return None
    except OSError as fault:
        raise BadCall(f"{folder}: git can't be started: {fault.strerror}") from None
    except subprocess.TimeoutExpired:
        raise BadCall(NO_ANSWER.format(folder)) from None
    if done.returncode and faults is not None:
        faults += done.stderr.decode(errors="replace").splitlines()[:1]
    return done.stdout if done.returncode == 0 else None


def line_of(output: Optional[bytes]) -> str:
    """The line that git printed, or nothing."""
    return os.fsdecode(output or b"").rstrip("\n")


def top_of(folder: str) -> str:
    """The top of the work tree that a folder is in; empty where it's in none."""
    return line_of(git(folder, "rev-parse", "--show-toplevel"))


def checked_top(folder: str) -> str:
    """The top of the work tree that a folder is in. Raises BadCall where it's in none."""
    top = top_of(folder)
    if not top and not shutil.which("git"):
        raise BadCall(f"{folder}: git isn't installed")
    if not top:
        raise BadCall(f"{folder}: not in a checkout of git")
    return top


def found_in(top: str, name: str) -> str:
    """The object of a name in a work tree's repository; empty where it has none."""
    words = ["rev-parse", "--verify", "--quiet", "--end-of-options", name]
    return line_of(git(top, *words))


def commit_of(top: str, revision: str) -> str:
    """The commit that a revision is in a work tree; of a submodule, the one that its repository had
    at the revision. Raises BadCall.

    What the repository around a submodule doesn't know may be a revision of the submodule's own.
    """
    if "\0" in revision:
        raise BadCall(f"no revision {revision!r}")
    above = line_of(git(top, "rev-parse", "--show-superproject-working-tree"))
    own = found_in(top, f"{revision}^{{commit}}")
    if not above and own:
        return own
    if not above:
        raise BadCall(no_revision(top, revision))
    try:
        outer = commit_of(above, revision)
    except BadCall:
        if own:
            return own
        raise
    commit = found_in(above, f"{outer}:{os.path.relpath(top, os.path.realpath(above))}")
    if not commit:
        raise BadCall(f"{top}: a submodule that {revision} of {above} doesn't have")
    if git(top, "cat-file", "-e", f"{commit}^{{commit}}") is None:
        raise BadCall(f"{top}: a submodule without {commit}: `git fetch origin {commit}` gets it")
    return commit


@contextmanager
def copied_index(top: str) -> Iterator[dict[str, str]]:
    """The variables by which git has a copy of a work tree's index, of the same time, for its own;
    nothing is in it where the work tree has none. What git adds to it is kept beside it."""
    index = line_of(git(top, "rev-parse", "--git-path", "index"))
    objects = os.path.join(top, line_of(git(top, "rev-parse", "--git-path", "objects")))
    others = os.environ.get(OTHERS, "")
    with tempfile.TemporaryDirectory() as folder:
        copy = os.path.join(folder, "index")
        with suppress(FileNotFoundError):
            shutil.copy2(os.path.join(top, index), copy)
        quoted = '"' + os.path.realpath(objects).replace("\\", "\\\\").replace('"', '\\"') + '"'
        known = os.pathsep.join(filter(None, [quoted, others]))
        yield {"GIT_INDEX_FILE": copy, "GIT_OBJECT_DIRECTORY": folder, OTHERS: known}


def no_revision(top: str, revision: str) -> str:
    """Why a revision isn't in a repository, in one line."""
    if line_of(git(top, "rev-parse", "--is-shallow-repository")) == "true":
        how = f"`git fetch --depth 1 origin {revision}` gets it"
        if COMMIT.fullmatch(revision) is None:
            how = "`git fetch --unshallow --tags` gets all that there is"
        return f"{top}: a shallow clone without {revision}: {how}"
    return f"{top}: git knows no revision {revision}"
