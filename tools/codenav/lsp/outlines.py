"""The symbols of an editor's documents: by ctags, of the text at hand, or where that has none by the
tags of the index; and those of all files by their names."""

import os
from heapq import nsmallest
from typing import Iterable, Iterator

from codenav.asking.outlines import Outlines
from codenav.asking.project import Project
from codenav.asking.tags import Names, Tag, file_of
from codenav.asking.workspace import Workspace
from codenav.faults import BadCall
from codenav.lsp.ctags import Entry, tagged
from codenav.lsp.editor import Editor
from codenav.lsp.jsonrpc import CONTENT_MODIFIED, Fault, Message
from codenav.lsp.open_documents import document_name
from codenav.lsp.outline import MOST, Symbol, cut, flat, outline_of, range_of
from codenav.lsp.positions import Positions
from codenav.lsp.side_by_side import Requests
from codenav.lsp.symbols import Rank, kind_of, ranked
from codenav.settings.found import Settings
from codenav.texts.places import Place

MOST_SYMBOLS, MOST_KEPT, TRIES = 256, 64, 3
OTHER_FIELDS = ("line", "file", "typeref", "access", "inherits", "signature", "end", "language")
"""Of a tag, beside the one that says what it's in."""


class Outlined:
    """The symbols of documents, for what answers one question at a time."""

    def __init__(self, editor: Editor, workspace: Workspace, requests: Requests) -> None:
        self.editor, self.workspace, self.requests = editor, workspace, requests
        self.tags: dict[tuple[str, str], tuple[Project, Outlines]] = {}

    def document(self, uri: str) -> list[Message]:
        """The symbols of a document as the editor gets them. Raises Fault where it's edited again
        and again meanwhile."""
        name = document_name(uri)
        for _ in range(TRIES):
            lines = self.editor.lines(name)
            symbols = self.of([name])[name]
            if lines is None:
                return []
            if self.editor.lines(name) == lines:
                break
        else:
            raise Fault(CONTENT_MODIFIED, "the text changed meanwhile")
        count = cut(symbols)
        if count > MOST:
            self.editor.say(f"{MOST} of {count} symbols of {uri} are shown")
        positions = self.editor.positions()
        if self.editor.is_nested:
            return [nested(one, name, positions) for one in symbols]
        return [information(one, name, uri, positions) for one in flat(symbols)]

    def of(self, names: Iterable[str]) -> dict[str, list[Symbol]]:
        """The symbols of documents by their names; none of those that can't be read."""
        kept, texts = self.editor.outlines, dict[str, str]()
        found: dict[str, list[Symbol]] = {name: [] for name in names}
        for name in found:
            lines = self.editor.lines(name)
            if lines is not None:
                texts[name] = "\n".join(lines)
        known = {name: kept[name] for name in texts if name in kept}
        due = {name: text for name, text in texts.items() if (text,) != known.get(name, ())[:1]}
        if due:
            with self.requests.waiting():
                printed = tagged(due)
            for name, text in due.items():
                known[name] = text, printed[name] or list(self.by_index(name, text))
                kept.pop(name, None)
                kept[name] = known[name]
        while len(kept) > MOST_KEPT:
            del kept[next(iter(kept))]
        for name, text in texts.items():
            found[name] = outline_of(known[name][1], text.split("\n"))
        return found

    def by_index(self, path: str, text: str) -> Iterator[Entry]:
        """The symbols of a file, of the tags of its projects."""
        settings = self.workspace.settings(path) if os.path.isabs(path) else None
        if settings is None:
            return
        names = Names()
        for project in settings.projects():
            folder = settings.tags_folder(project)
            if folder is None:
                continue
            try:
                asked = self.workspace.project(settings, project)
                inside = os.path.relpath(names.old_path(asked, project, path), folder)
                if inside.startswith(os.pardir):
                    continue
                tags, _ = self.tags_of(settings, project).of(inside, text)
                for tag, place in names.places(asked, tags, settings.tags_folder):
                    yield entry_of(tag, place)
            except BadCall as fault:
                self.editor.refuse(str(fault), project, settings.folder)

    def tags_of(self, settings: Settings, project: str) -> Outlines:
        """The tags of a project that were read."""
        key, asked = (settings.folder, project), self.workspace.project(settings, project)
        if key not in self.tags or self.tags[key][0] is not asked:
            made = Outlines(lambda prefix: asked.index.names({"prefix": prefix}, False))
            self.tags[key] = asked, made
        return self.tags[key][1]

    def found(self, text: str) -> list[Message]:
        """The symbols whose names have a text, of the projects of the editor's folder and of the
        files that are open, the best first."""
        names, found = Names(), list[tuple[Rank, Tag, Settings]]()
        for settings in self.workspace.all_settings(self.editor.open.paths()) if text else []:
            try:
                for number, project in enumerate(settings.projects()):
                    own = self.ranked(settings, project, text, number)
                    found += [(rank, tag, settings) for rank, tag in own]
            except BadCall as fault:
                self.editor.refuse(str(fault), settings.folder, settings.folder)
        if len(found) > MOST_SYMBOLS:
            self.editor.say(f"of {len(found)} names with {text!r} {MOST_SYMBOLS} are shown")
            found = nsmallest(MOST_SYMBOLS, found, key=lambda one: one[0])
        found.sort(key=lambda one: one[0])
        places = self.places(names, [(tag, settings) for _, tag, settings in found])
        positions = self.editor.positions()
        symbols = [symbol(tag, place, self.editor, positions) for tag, place in places]
        if said := names.said():
            self.editor.say(said)
        return symbols

    def ranked(
        self, settings: Settings, project: str, text: str, number: int
    ) -> list[tuple[Rank, Tag]]:
        """The tags of a project whose names have a text, each with its rank; those that begin with
        it as they are now."""
        asked = self.workspace.project(settings, project)
        tags = asked.index.names({"prefix": text}, False)
        rest = (tag for tag in self.tags_of(settings, project).all(text))
        tags = [*tags, *(tag for tag in rest if not tag["name"].startswith(text))]

        def is_here(tag: Tag) -> bool:
            return file_of(tag, settings.tags_folder)[1] == self.editor.here

        return ranked(tags, text, number, is_here)

    def places(self, names: Names, tags: list[tuple[Tag, Settings]]) -> list[tuple[Tag, Place]]:
        """Tags with their places, in their order; without those that have none."""
        found: dict[int, tuple[Tag, Place]] = {}
        groups: dict[tuple[str, str], tuple[Settings, dict[int, int]]] = {}
        for number, (tag, settings) in enumerate(tags):
            group = groups.setdefault((settings.folder, tag["project"]), (settings, {}))
            group[1][id(tag)] = number
        for (_, project), (settings, numbers) in groups.items():
            own = [tags[number][0] for number in numbers.values()]
            asked = self.workspace.project(settings, project)
            for tag, place in names.places(asked, own, settings.tags_folder):
                found[numbers[id(tag)]] = tag, place
        return [found[number] for number in sorted(found)]


def entry_of(tag: Tag, place: Place) -> Entry:
    """A tag as ctags had the symbol."""
    scope = next((text for name, text in tag["fields"] if name not in OTHER_FIELDS), "")
    return Entry(tag["name"], tag["kind"] or "", place.line, scope=scope)


def nested(one: Symbol, name: str, positions: Positions) -> Message:
    """A symbol as the protocol has it, with those inside it."""
    inside = [nested(own, name, positions) for own in one.inside]
    start, end = range_of(one, positions.lines(name) or [""])
    own = {
        "name": one.name,
        "kind": one.kind,
        "range": positions.range(name, (start, end)),
        "selectionRange": positions.range(name, ((one.line, one.start), (one.line, one.end))),
    }
    if one.detail:
        own["detail"] = one.detail
    return {**own, "children": inside} if inside else own


def information(one: Symbol, name: str, uri: str, positions: Positions) -> Message:
    """A symbol as the protocol has it for editors that know no nesting."""
    span = positions.range(name, range_of(one, positions.lines(name) or [""]))
    own = {"name": one.name, "kind": one.kind, "location": {"uri": uri, "range": span}}
    return {**own, "containerName": one.container} if one.container else own


def symbol(tag: Tag, place: Place, editor: Editor, positions: Positions) -> Message:
    """A tag as the protocol has it."""
    at = place.line, place.character
    location = {
        "uri": editor.open.uri_of(place.name),
        "range": positions.range(place.name, (at, at)),
    }
    return {
        "name": tag["name"],
        "kind": kind_of(tag["kind"]),
        "containerName": tag["project"],
        "location": location,
    }
