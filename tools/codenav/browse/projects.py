"""Many projects on one page: each is a folder of the one that is shown. They are checkouts there, or
repositories elsewhere that are listed, each shown at a revision.

Of a repository that is listed nothing is written, and nothing is run that its settings name: the
page has a repository of its own beside the objects of that one, and its files in a temporary
folder.
"""

import os
import tempfile
import threading
import time
from contextlib import suppress
from typing import NamedTuple, Optional

from codenav.browse.answers import Browser
from codenav.browse.folder import Folder, is_below
from codenav.faults import BadCall
from codenav.names import server_of
from codenav.progress import Shows
from codenav.settings.found import FILE, Settings, found_in_file, name_of, settings_in, settings_of
from codenav.texts.git import git, line_of

SECONDS = 10.0
"""For so long it stands which commit a revision is."""
CHECKOUT_SECONDS = 600.0
OWN = {
    "GIT_CONFIG_GLOBAL": os.devnull,
    "GIT_CONFIG_NOSYSTEM": "1",
    "GIT_ATTR_NOSYSTEM": "1",
    "GIT_TERMINAL_PROMPT": "0",
}
ANY_OWNER = ("-c", "safe.directory=*")
REFS = ("for-each-ref", "--format=%(objectname) %(refname)")


def checkouts_in(folder: str) -> dict[str, Settings]:
    """The folders in a folder that have settings of their own, by their names."""
    found = {}
    for name in sorted(os.listdir(folder)):
        path = os.path.join(folder, name, FILE)
        if not name.startswith(".") and os.path.isfile(path):
            with suppress(BadCall):
                found[name] = settings_in(path)
    return found


class Listed(NamedTuple):
    """A project that a file of settings lists: its repository, the revision that is shown, and the
    server that is asked."""

    project: str
    repository: str
    revision: str
    server: str


def listed_in(path: str) -> list[Listed]:
    """The projects that a file of settings lists, each as `PROJECT = "REPOSITORY#REVISION"`; HEAD
    without a revision. Raises BadCall."""
    found = found_in_file(path)
    server = found.get("server", os.environ.get("CODENAV_URL", ""))
    if "projects" in found and not server:
        raise BadCall(f"{path}: no server, and CODENAV_URL has none")
    listed = []
    for project, text in found.get("projects", {}).items():
        name_of(project)
        repository, _, revision = text.partition("#")
        where = os.path.normpath(os.path.join(os.path.dirname(path), repository))
        listed.append(Listed(project, where, revision or "HEAD", server_of(server)))
    return listed


class Repositories:
    """The files of repositories at their revisions, in folders of a temporary one, by the names of
    their projects; they follow their revisions."""

    def __init__(self, listed: list[Listed], shows: Shows) -> None:
        self.home = tempfile.TemporaryDirectory(prefix="codenav-browse-")
        self.top = os.path.realpath(self.home.name)
        self.listed = {one.project: one for one in listed}
        self.commits: dict[str, str] = {}
        self.faults: dict[str, str] = {}
        self.looked: dict[str, float] = {}
        self.locks = {project: threading.Lock() for project in self.listed}
        try:
            shows.begin("projects", len(listed), "")
            for number, project in enumerate(self.listed, 1):
                os.mkdir(os.path.join(self.top, project))
                try:
                    self.follow(project)
                except BadCall as fault:
                    if number == len(listed) and not self.commits:
                        raise
                    shows.warn(str(fault))
                shows.at(number)
            shows.end()
        except BaseException:
            self.end()
            raise

    def end(self) -> None:
        """Removes the files."""
        self.home.cleanup()

    def browser(self, search: str, is_by_name: bool) -> Browser:
        """What shows them."""
        projects = {project: self.settings_of(one) for project, one in self.listed.items()}
        own = Settings("", "projects", self.top)
        return Browser(
            Folder(self.top, projects),
            own,
            search,
            is_by_name,
            True,
            projects,
            refresh=self.refresh,
        )

    def settings_of(self, one: Listed) -> Settings:
        """What is known of a project: its server, and of its own settings the folders below it
        alone."""
        folder = os.path.join(self.top, one.project)
        given = Settings(one.server, one.project, folder)
        path = os.path.join(folder, FILE)
        try:
            found = found_in_file(path) if os.path.isfile(path) else {}
            own = {key: found[key] for key in ("map", "tags") if key in found}
            said = settings_of({**own, "server": one.server, "project": one.project}, folder)
        except BadCall:
            return given
        return given._replace(
            maps=[(uri, to) for uri, to in said.maps if is_below(to, folder)],
            tags={name: to for name, to in said.tags.items() if is_below(to, folder)},
        )

    def refresh(self, project: str) -> str:
        """Has a project's files be those of its revision, which is looked up every few seconds; of
        one that is gone they stay. Answers why they aren't those."""
        if project not in self.listed:
            return ""
        is_due = time.monotonic() - self.looked[project] >= SECONDS
        if is_due and self.locks[project].acquire(blocking=False):
            try:
                with suppress(BadCall):
                    self.follow(project)
            finally:
                self.locks[project].release()
        return self.faults.get(project, "")

    def follow(self, project: str) -> None:
        """Checks out the commit of a project's revision, where that is another one. Raises
        BadCall."""
        self.looked[project] = time.monotonic()
        try:
            self.check_out(project)
        except BadCall as fault:
            where = f"{self.listed[project].repository}: "
            self.faults[project] = str(fault).removeprefix(where)
            raise BadCall(where + self.faults[project]) from None
        self.faults.pop(project, None)

    def check_out(self, project: str) -> None:
        """The same; the fault doesn't say where the repository is."""
        _, repository, revision, _ = self.listed[project]
        wanted = f"{revision}^{{commit}}"
        commit = line_of(
            self.read(repository, "rev-parse", "--verify", "--quiet", "--end-of-options", wanted)
        )
        if not commit and self.read(repository, "rev-parse", "--git-dir") is None:
            raise BadCall("not a repository of git")
        if not commit and not self.read(repository, "for-each-ref", "--count=1"):
            raise BadCall("no commit")
        if not commit:
            raise BadCall(f"git knows no revision {revision}")
        if commit == self.commits.get(project):
            return
        folder = os.path.join(self.top, project)
        if project not in self.commits:
            self.begin(repository, folder)
        refs = self.read(repository, *REFS) or b""
        with open(os.path.join(folder, ".git", "packed-refs"), "wb") as file:
            file.write(refs)
        words = ("-c", "advice.detachedHead=false", "checkout", "-q", "--force", "--detach", commit)
        if git(folder, *words, seconds=CHECKOUT_SECONDS, variables=OWN) is None:
            raise BadCall(f"{revision} can't be checked out")
        self.commits[project] = commit

    def read(self, repository: str, *words: str) -> Optional[bytes]:
        """What git says of a repository, whoever owns it."""
        return (
            git(repository, *ANY_OWNER, *words, variables=OWN)
            if os.path.isdir(repository)
            else None
        )

    def begin(self, repository: str, folder: str) -> None:
        """Makes the page's own repository over the objects of another one."""
        objects = line_of(self.read(repository, "rev-parse", "--git-path", "objects"))
        if not objects or git(folder, "init", "-q", "--template=", variables=OWN) is None:
            raise BadCall("not a repository of git")
        info = os.path.join(folder, ".git", "objects", "info")
        os.makedirs(info, exist_ok=True)
        with open(os.path.join(info, "alternates"), "wb") as file:
            file.write(os.fsencode(os.path.realpath(os.path.join(repository, objects))) + b"\n")
