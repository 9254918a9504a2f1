"""Which project or set the files of an editor are of: by the command line, by the file
`.codenav.toml` at the top of a checkout, and by the projects that answers name.

A checkout's own file is found upwards from each file, so that an editor over several checkouts asks
each of its project, and needs no command line.
"""

import copy
import os
import stat
from typing import Callable, Optional, Union

from codenav.asking.project import NO_PLACES, Project, Reply
from codenav.client.fetch import Fetch, fetch_from
from codenav.faults import NO_DOCUMENT, NO_DUMP, BadCall, NoDocument, NoReply
from codenav.settings.found import FILE, Settings, folders_above, settings_in
from codenav.texts.places import Place
from codenav.texts.sources import Source
from codenav.texts.today import Today

SECONDS = 30
Mark = Optional[tuple[int, int, int]]
"""What changes with a file."""


class Workspace:
    """The files of an editor, of which each is asked of its own project.

    `given` is what the command line says, for the files below the editor's folder, `root`, and for
    those that nothing else is known of. `say` is called with a line for the user, `tell` with what
    is wrong with settings, and `read` reads a file as the editor has it. With `is_by_name`
    definitions are looked for by name; with `is_alone` no file's own settings count. `apart` makes
    of what asks a server what questions ask it by.
    """

    def __init__(
        self,
        root: str,
        given: Optional[Settings],
        say: Callable[[str], None],
        read: Callable[[str], str],
        is_by_name: bool = False,
        is_alone: bool = False,
        tell: Optional[Callable[[str], None]] = None,
        apart: Callable[[Fetch], Fetch] = lambda fetch: fetch,
    ) -> None:
        self.root, self.given, self.say, self.read = root, given, say, read
        self.is_by_name, self.is_alone = is_by_name, is_alone
        self.tell, self.apart = tell or say, apart
        self.files: dict[str, tuple[Mark, Union[Settings, BadCall, None]]] = {}
        self.said: set[str] = set()
        self.asking: dict[tuple[str, str], Project] = {}
        self.mapping: dict[str, Today] = {}
        self.holders: dict[str, list[str]] = {}

    def beside(self) -> "Workspace":
        """Another one of the same files, which asks while this one waits for an answer."""
        other = copy.copy(self)
        other.asking = {}
        return other

    def settings(self, path: str) -> Optional[Settings]:
        """What is known of a file: by the nearest `.codenav.toml` above it, unless it's the
        editor's folder's own and the command line says it. Of a bad one that is nearer it's said,
        once."""
        found, faults = self.found_above(path)
        for fault in map(str, faults if found else []):
            if fault not in self.said:
                self.said.add(fault)
                self.tell(fault)
        return found

    def found_above(self, path: str) -> tuple[Optional[Settings], list[BadCall]]:
        """What is known of a file, and what is wrong with the settings that are nearer."""
        faults: list[BadCall] = []
        if self.is_alone:
            return self.given, faults
        for folder in folders_above(os.path.dirname(path)):
            if self.given and folder in folders_above(self.root) and is_below(path, self.root):
                break
            found = self.read_in(folder)
            if isinstance(found, Settings):
                return found, faults
            if found is not None:
                faults.append(found)
        return self.given, faults

    def read_in(self, folder: str) -> Union[Settings, BadCall, None]:
        """The settings of a folder that has a file of such, or what is wrong with them. They're
        read again where the file changed, and what was asked by them is forgotten then."""
        path = os.path.join(folder, FILE)
        mark = mark_of(path)
        known, found = self.files.get(folder, (None, None))
        if mark != known:
            if isinstance(found, Settings):
                self.forget(folder)
            try:
                found = settings_in(path) if mark else None
            except BadCall as fault:
                found = fault
            self.files[folder] = mark, found
        return found

    def forget(self, folder: str) -> None:
        """Forgets what was asked by the settings of a folder."""
        if folder in self.mapping:
            self.mapping.pop(folder).end()
        self.holders.clear()

    def project(self, settings: Settings, name: str) -> Project:
        """A project of the settings' server."""
        key = settings.folder, name
        if settings.folder not in self.mapping:
            self.mapping[settings.folder] = Today(
                settings.sources(), settings.maps, self.say, self.read, self.source
            )
        today, known = self.mapping[settings.folder], self.asking.get(key)
        if known is None or known.today is not today:
            fetch = self.apart(fetch_from(settings.server, SECONDS))
            known = self.asking[key] = Project(name, fetch, today, settings.tags_folder(name))
        return known

    def source(self, project: str, path: str) -> Optional[Source]:
        """The texts that were indexed of a file of another project, where the file's own settings
        name that project and say so."""
        settings = self.settings(path)
        if settings is None or settings.project != project:
            return None
        return self.project(settings, project).today.sources.get(project)

    def projects(self, settings: Settings, path: str) -> list[str]:
        """The projects that a file's questions go to, one after the other up to the first that has
        the document.

        A file below the settings' folder is of its project first, any other of those that an answer
        named.
        """
        named = self.holders.get(path, [])
        own = [settings.project]
        is_own = settings is not self.given and is_below(path, settings.folder)
        return list(dict.fromkeys([*own, *named] if is_own else [*named, *own]))

    def ask(self, what: str, at: Place, **more: str) -> Reply:
        """What is found at a place of a file, or of a document by its address. Raises NotThere, and
        BadCall where nothing answers."""
        path, is_file = at.name, os.path.isabs(at.name)
        settings = self.settings(path) if is_file else self.given
        if settings is None:
            faults = self.found_above(path)[1] if is_file else []
            if faults:
                raise faults[0]
            raise BadCall(
                f"neither a {FILE} above {path} nor the command line says of which project it is"
            )
        if self.is_by_name and what == "definition" and is_file:
            return self.project(settings, settings.project).by_name(at)
        *others, last = self.projects(settings, path)
        for name in others:
            try:
                return self.learnt(name, what, self.project(settings, name).ask(what, at, **more))
            except NoReply as fault:
                if fault.code() not in (NO_DUMP, NO_DOCUMENT):
                    raise NoReply(f"{name}: {fault}") from None
        try:
            return self.learnt(last, what, self.project(settings, last).answer(what, at, **more))
        except NoReply as fault:
            kind = NoDocument if fault.code() == NO_DOCUMENT else NoReply
            raise kind(f"{last}: {fault}") from None

    def learnt(self, asked: str, what: str, reply: Reply) -> Reply:
        """A reply, of whose places it's noted which projects have the files: the one that was asked
        before others."""
        found: dict[str, set[str]] = {}
        for place in reply.found if what not in NO_PLACES else []:
            if place["path"]:
                found.setdefault(place["path"], set()).add(place["project"])
        for path, projects in found.items():
            known = [
                *self.holders.get(path, []),
                *sorted(projects, key=lambda one: (one != asked, one)),
            ]
            self.holders[path] = list(dict.fromkeys(known))
        return reply

    def all_settings(self, paths: list[str]) -> list[Settings]:
        """The settings of the editor's folder and of files, each once."""
        found = [
            self.settings(os.path.join(self.root, FILE)),
            *(self.settings(path) for path in paths),
        ]
        return list({one.folder: one for one in found if one is not None}.values())


def mark_of(path: str) -> Mark:
    """When a regular file was written or changed, and its size; None where there is none."""
    try:
        found = os.stat(path)
    except (OSError, ValueError):
        return None
    is_file = stat.S_ISREG(found.st_mode)
    return (found.st_mtime_ns, found.st_ctime_ns, found.st_size) if is_file else None


def is_below(path: str, folder: str) -> bool:
    """Whether a path lies in a folder, or is it."""
    return os.path.commonpath([path, folder]) == folder if os.path.isabs(path) else False
