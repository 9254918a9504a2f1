"""What the pages ask for: definitions, references and hovers at a place, names, files, outlines and
addresses that stay."""

import os
import threading
from contextlib import suppress
from dataclasses import dataclass, field
from itertools import islice
from typing import Any, Callable, Iterator

from codenav.asking.outlines import Outlines, ends_of
from codenav.asking.project import Reply
from codenav.asking.tags import Names, Tag
from codenav.browse.finder import found as found_files
from codenav.browse.folder import Folder, Refused, href
from codenav.browse.listed import definitions, number, references, where
from codenav.browse.markdown import tree_of
from codenav.browse.searched import Matches, Wanted, searched
from codenav.browse.view import View, permalink
from codenav.faults import NoDocument
from codenav.settings.found import Settings
from codenav.texts.places import Place
from codenav.texts.today import NotThere

Parameters = dict[str, str]
QUERIES = ("definition", "references", "hover")
MOST_NUMBER = 2147483647
MOST_NAMES, MOST_VIEWS = 50, 32


@dataclass
class Browser:
    """What is shown, and what asks for it."""

    folder: Folder
    settings: Settings
    search: str = ""
    is_by_name: bool = False
    is_alone: bool = False
    projects: dict[str, Settings] = field(default_factory=dict)
    refresh: Callable[[str], str] = lambda name: ""
    views: dict[tuple[str, str], View] = field(default_factory=dict)
    outlines: dict[tuple[str, str], Outlines] = field(default_factory=dict)
    lock: threading.Lock = field(default_factory=threading.Lock)

    def view(self, parameters: Parameters) -> View:
        """The files of the revision that an address has, or those of today, of the project whose
        folder has the file of the address; else of the whole folder."""
        revision = parameters.get("revision", "")
        name = parameters.get("path", "").partition("/")[0]
        own = name if name in self.projects else ""
        if own:
            self.refresh(own)
        with self.lock:
            view = self.views.pop((own, revision), None) or View(
                self.folder,
                self.projects.get(own, self.settings),
                revision,
                self.is_by_name,
                own,
                self.is_alone,
            )
            self.views[own, revision] = view
            gone = self.views.pop(next(iter(self.views))) if len(self.views) > MOST_VIEWS else None
        if gone:
            gone.end()
        return view

    def all_views(self, revision: str) -> list[View]:
        """The files of all projects, of a revision or of today."""
        names = self.projects or [""]
        return [self.view({"path": name, "revision": revision}) for name in names]

    def texts(self, wanted: Wanted, revision: str) -> Matches:
        """The lines of files that have a text."""
        top = self.folder.top
        tops = [os.path.join(top, name) for name in self.projects] or [top]
        return searched(self.folder, tops, wanted, revision)

    def asked(self, parameters: Parameters) -> dict[str, Any]:
        """The answer at a place of a file."""
        what, position = parameters.get("what", ""), position_in(parameters)
        if what not in QUERIES:
            raise Refused(400, "bad parameter")
        view = self.view(parameters)
        at = Place(view.path(parameters.get("path", "")), *position)
        with view.answering():
            view.text(at.name)
            try:
                reply, notes = view.ask(what, at)
                if what == "hover":
                    nodes = [] if reply.found is None else tree_of(reply.found)
                    return {"nodes": nodes, "said": said(notes, reply.note, reply.of)}
                if what == "definition":
                    answer = definitions(view, reply.found, at.name)
                else:
                    answer = self.references(view, reply, at, parameters)
            except NotThere as fault:
                return {"places": [], "nodes": [], "said": about(fault), "is_new": True}
        own = "" if what == "references" and reply.note else answer["said"]
        return {**answer, "said": said(own, notes, reply.note, reply.of)}

    def references(
        self, view: View, reply: Reply, at: Place, parameters: Parameters
    ) -> dict[str, Any]:
        """A page of the references of a place; by name none is marked as the definition."""
        start = parameters.get("start", "0")
        if not start.isdecimal() or len(start) > 9:
            raise Refused(400, "bad parameter")
        defined = set() if reply.note else set(map(where, view.ask("definition", at)[0].found))
        return references(view, reply.found, defined, int(start), parameters.get("only", ""))

    def target(self, name: str, parameters: Parameters) -> str:
        """Where the link at a word leads: to its definition in the folder, if that is one alone,
        else to the word with its panel."""
        line, _, character = parameters.get("at", "").partition(".")
        position = position_in({"line": line, "character": character})
        view = self.view({**parameters, "path": name})
        at = Place(view.path(name), max(position[0], 1) - 1, max(position[1], 1) - 1)
        with view.answering(), suppress(NotThere):
            try:
                found = view.ask("definition", at)[0].found
            except NoDocument:
                said = "the index doesn't have this file"
                raise Refused(404, said, word=view.word(at)) from None
            rows = definitions(view, found, at.name)["places"]
            if len(rows) == 1 and rows[0]["href"]:
                return str(rows[0]["href"])
        return href(name, at.line, at.character, view.revision) + "&refs"

    def names(self, parameters: Parameters) -> dict[str, Any]:
        """The names that have a text, the nearest to it first, and of these those of the file that
        is shown, with the places of their tags in the folder, in files whose paths have a text."""
        prefix, own = parameters.get("prefix", ""), parameters.get("path", "")
        only = parameters.get("only", "").lower()
        if not prefix or "\0" in prefix or not is_utf8(prefix):
            raise Refused(400, "Names are searched by UTF-8, without U+0000.")
        names, notes = Names(), []
        found: list[tuple[Tag, Place, str]] = []
        is_more = False
        for view in self.all_views(parameters.get("revision", "")):
            with view.answering():
                named = self.named(view, prefix, names)
                known = (one for one in named if only in one[2].lower())
                found += islice(known, MOST_NAMES)
                is_more = is_more or next(known, None) is not None
                notes.append(view.noted())
        found.sort(key=lambda one: (*nearness(one[0]["name"], prefix), one[2] != own))
        revision = parameters.get("revision", "")
        rows = [
            {
                "name": tag["name"],
                "place": f"{inside}:{place.line + 1}",
                "href": href(inside, place.line, place.character, revision),
            }
            for tag, place, inside in found[:MOST_NAMES]
        ]
        is_more = is_more or len(found) > MOST_NAMES
        many = f"the first {MOST_NAMES} names" if is_more else number(len(rows), "name")
        return {"names": rows, "said": said(many, *notes, names.said(), "")}

    def named(self, view: View, prefix: str, names: Names) -> Iterator[tuple[Tag, Place, str]]:
        """The tags whose names have a text, with their places in the folder, each once, and what
        their files are called there."""
        settings, known = view.settings, set()
        for project in settings.projects():
            tags = self.tags_of(view, project, prefix)
            if len(tags) < MOST_NAMES:
                tags = [*tags, *self.outlines_of(view, project).within(prefix)]
            files = {(tag["project"], tag["file"]): None for tag in tags}
            shown = {file for file in files if self.has(settings, *file)}
            own = [tag for tag in tags if (tag["project"], tag["file"]) in shown]
            asked = view.workspace.project(settings, project)
            for tag, place in names.places(asked, own, settings.tags_folder):
                inside = self.folder.inside(place.name)
                key = tag["name"], inside, place.line, place.character
                if inside is not None and key not in known:
                    known.add(key)
                    yield tag, place, inside

    def tags_of(self, view: View, project: str, prefix: str) -> list[Tag]:
        """The tags of a project whose names begin with a text."""
        return view.workspace.project(view.settings, project).index.names({"prefix": prefix}, False)

    def outlines_of(self, view: View, project: str) -> Outlines:
        """The tags of a project that were read."""
        made = Outlines(lambda prefix: self.tags_of(view, project, prefix))
        return self.outlines.setdefault((view.settings.server, project), made)

    def has(self, settings: Settings, project: str, file: str) -> bool:
        """Whether the file of a tag is in the folder that is shown, if it's there at all."""
        folder = settings.tags_folder(project)
        return folder is not None and self.folder.inside(os.path.join(folder, file)) is not None

    def outline(self, parameters: Parameters) -> dict[str, Any]:
        """The tags of a file, in the order of its lines."""
        view, name, names = self.view(parameters), parameters.get("path", ""), Names()
        path = view.path(name)
        with view.answering():
            found = sorted(self.outlined(view, path, names), key=lambda one: one[1].line)
            ends = ends_of(view.lines(path), [place.line for _, place in found])
            rows = [
                {
                    "name": tag["name"],
                    "kind": tag["kind"],
                    "line": place.line + 1,
                    "end": end + 1,
                    "href": href(name, place.line, place.character, view.revision),
                }
                for (tag, place), end in zip(found, ends)
            ]
            notes = view.noted()
        return {"names": rows, "said": said(number(len(rows), "name"), notes, names.said(), "")}

    def outlined(self, view: View, path: str, names: Names) -> Iterator[tuple[Tag, Place]]:
        """The tags of a file, with their places."""
        text = view.text(path)
        settings = view.settings
        for project in settings.projects():
            folder = settings.tags_folder(project)
            if folder is None:
                continue
            asked = view.workspace.project(settings, project)
            inside = os.path.relpath(names.old_path(asked, project, path), folder)
            if inside.startswith(os.pardir):
                continue
            tags, left = self.outlines_of(view, project).of(inside, text)
            if left:
                view.notes.append(f"without names that begin with {left} other letters")
            yield from names.places(asked, tags, settings.tags_folder)

    def files(self, parameters: Parameters) -> dict[str, Any]:
        """The files whose names have the letters of a text, and whose paths have another one."""
        only = parameters.get("only", "").lower()
        files = (name for name in self.folder.files() if only in name.lower())
        names = found_files(files, parameters.get("text", ""), self.folder.may_show)
        revision = parameters.get("revision", "")
        rows = [
            {"name": name, "place": "", "href": href(name, revision=revision)} for name in names
        ]
        return {"names": rows, "said": number(len(rows), "file")}

    def address(self, parameters: Parameters) -> dict[str, Any]:
        """The address of a place that stays: with the commit that has it."""
        view, name = self.view(parameters), parameters.get("path", "")
        path = view.path(name)
        with view.answering():
            commit, line, character = permalink(view, Place(path, *position_in(parameters)))
        return {
            "href": href(name, line, character, commit),
            "said": f"copied, with the revision {commit[:12]}",
        }


def nearness(name: str, text: str) -> tuple[bool, bool, bool, int]:
    """How near a name is to a text: it's the text, it's so in other letters, it begins with it, or
    it has it; short names are nearer."""
    low, wanted = name.lower(), text.lower()
    return name != text, low != wanted, not low.startswith(wanted), len(name)


def is_utf8(text: str) -> bool:
    """Whether a text was UTF-8 in its address."""
    return text.encode(errors="replace").decode() == text


def position_in(parameters: Parameters) -> tuple[int, int]:
    """The line and the character of a question; raises Refused."""
    values = [parameters.get(name, "") for name in ("line", "character")]
    numbers = [int(value) for value in values if value.isdecimal() and len(value) < 11]
    if len(numbers) != 2 or max(numbers) > MOST_NUMBER:
        raise Refused(400, "bad parameter")
    return numbers[0], numbers[1]


def said(*texts: str) -> str:
    """What is said, the last of which is how the indexed text is called, where that of the file
    differs."""
    *first, of = texts
    return "; ".join(
        [text for text in first if text] + ([f"of {of}, the file changed since"] if of else [])
    )


def about(fault: NotThere) -> str:
    """What a fault says, without the file."""
    return str(fault).rpartition(": ")[2]
