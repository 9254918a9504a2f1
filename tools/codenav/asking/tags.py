"""Tags that the server found, and the places of their names in the files of today.

Where it's known which texts were indexed, a tag's line is looked for in these, and its place is
mapped like any other. Else, and where the tag is of another text, it's looked for in today's.
"""

from __future__ import annotations

import os
from collections import Counter
from typing import TYPE_CHECKING, Any, Callable, Iterator, NamedTuple, Optional

from codenav.asking.versions import NONE_KEPT, UNCOMMITTED
from codenav.faults import BadCall
from codenav.names import project_of
from codenav.texts.decoded import lines_in
from codenav.texts.places import Place, units, work_tree
from codenav.texts.tagged import FILE, Tagged, Words, near_of
from codenav.texts.today import FileMap

if TYPE_CHECKING:
    from codenav.asking.project import Project

Tag = dict[str, Any]
Tags = dict[int, Tag]
"""Tags of one file, by their numbers."""
FolderOf = Callable[[str], Optional[str]]
"""The folder in which a project's tags file was made, if that's known."""
ELSEWHERE = "--tags PROJECT=FOLDER says where a project's tags file was made"


def folders_of(texts: list[str]) -> dict[str, str]:
    """The folder in which each project's tags file was made, written as `PROJECT=FOLDER`."""
    folders = {}
    for project, _, folder in (text.partition("=") for text in texts):
        if not folder:
            raise BadCall("--tags takes PROJECT=FOLDER, neither of them empty")
        folders[project_of(project)] = os.path.abspath(folder)
    return folders


class Found(NamedTuple):
    """The place of a tag, or None where it has none; and what is to be said of it."""

    place: Optional[Place]
    what: str = ""


CHANGED, GONE, AWAY, GUESSED = "changed", "gone", "away", "guessed"
SAID = {
    CHANGED: "{} of {} places changed since {}",
    GONE: "{} of {} tags aren't shown, for neither their lines nor their names are in their files any more",
    GUESSED: "{} of {} places are guessed: the tag's line isn't in its file any more, and the nearest that has the name is shown",
    AWAY: f"{{}} of {{}} tags aren't shown, for their files aren't here: {ELSEWHERE}",
}


class Names:
    """Finds the places of tags, for one answer, and counts those that aren't as they were."""

    def __init__(self) -> None:
        self.count = 0
        self.counts: Counter[str] = Counter()
        self.labels: set[str] = set()
        self.learnt: set[str] = set()

    def said(self) -> str:
        """What is to be said of the places, on one line; nothing where all are as they were."""
        labels = " or ".join(sorted(self.labels))
        return "; ".join(
            text.format(self.counts[what], self.count, labels)
            for what, text in SAID.items()
            if self.counts[what]
        )

    def places(
        self, asked: Project, tags: list[Tag], folder_of: FolderOf
    ) -> Iterator[tuple[Tag, Place]]:
        """Tags with the places of their names, without those of a project that has no folder; files
        are named from the folder of the project.

        A tag whose file isn't there is left out: the folder is another one, or the file was
        removed. So is one that a changed file doesn't have any more. Where a name isn't on its
        line, the place is the beginning of the line.

        A file is read once, when the first of its tags is due.
        """
        files = [file_of(tag, folder_of) for tag in tags]
        of_files: dict[tuple[str, str], list[int]] = {}
        for number, file in enumerate(files):
            of_files.setdefault(file, []).append(number)
        found: dict[int, Found] = {}
        for number, (tag, file) in enumerate(zip(tags, files)):
            if not file[1]:
                continue
            if number not in found:
                own = {one: tags[one] for one in of_files[file]}
                found.update(self.in_file(asked, *file, own))
            place, what = found.pop(number)
            self.count += 1
            self.counts[what] += 1
            if place is not None:
                yield tag, place

    def in_file(
        self, asked: Project, project: str, path: str, tags: Tags
    ) -> Iterator[tuple[int, Found]]:
        """What becomes of the tags of one file, which has its path of when they were made."""
        to = self.map_from(asked, project, path)
        if to.is_mapped() and to.text_map is None:
            self.labels.add(to.label)
            yield from ((number, Found(None, CHANGED)) for number in tags)
            return
        lines = readable_lines(asked, to.path or path)
        if lines or asked.today.lacking(project, to.fault):
            asked.today.tell(to.fault)
        mapped = dict(mapped_of(to, tags))
        if any(place is None for place, _ in mapped.values()):
            self.labels.add(to.label)
        yield from mapped.items()
        others = {number: tag for number, tag in tags.items() if number not in mapped}
        yield from found_today(to.path or path, lines, others)

    def map_from(self, asked: Project, project: str, path: str) -> FileMap:
        """Where a file of tags is today, and the map to it where the indexed text is known."""
        self.learn(asked, project, path)
        if not is_known(asked, project, path) and not work_tree(path):
            return FileMap(path, None)
        is_source = asked.today.source(project, path) is not None
        return asked.today.map_from(project, path) if is_source else FileMap(path, None)

    def learn(self, asked: Project, project: str, path: str) -> None:
        """Learns of which revision a project's tags are, by two requests at most: once, and for a
        file in a checkout."""
        if project in self.learnt or is_known(asked, project, path) or not work_tree(path):
            return
        self.learnt.add(project)
        version = asked.versions.of_tags(project)
        asked.today.learn(project, version.revision, version.why)
        if version.why not in (NONE_KEPT, UNCOMMITTED):
            asked.today.tell(asked.today.reason(project))

    def old_path(self, asked: Project, project: str, path: str) -> str:
        """The path that a file of today had when its tags were made. Raises BadCall where there is
        no such file."""
        self.learn(asked, project, path)
        return asked.today.map_of(project, path)[0]


def is_known(asked: Project, project: str, path: str) -> bool:
    """Whether it was said which texts of a project were indexed, so that its index needn't."""
    today = asked.today
    return project in today.sources or today.others(project, path) is not None


def file_of(tag: Tag, folder_of: FolderOf) -> tuple[str, str]:
    """The project of a tag, and the path of its file, empty where the project has no folder."""
    folder = folder_of(tag["project"])
    path = "" if folder is None else os.path.normpath(os.path.join(folder, tag["file"]))
    return tag["project"], "" if "\0" in path else path


def readable_lines(asked: Project, path: str) -> list[str]:
    """The lines of a file as it is today, none where it can't be read."""
    try:
        return lines_in(asked.today.read(path))
    except BadCall:
        return []


def mapped_of(to: FileMap, tags: Tags) -> Iterator[tuple[int, Found]]:
    """The places of the tags of a file that are of the text which was indexed: they're found in it,
    where they say that they are. A tag of a whole file is none of them."""
    if to.text_map is None or to.text_map.is_same or to.path is None:
        return
    tagged, own = Tagged(to.text_map.old.lines), {}
    for number, tag in tags.items():
        line, near = tagged.line_of(tag), near_of(tag)
        if line is not None and near in (None, line) and tag["kind"] not in FILE:
            own[number] = line
    for number, start, end in columns(tagged.lines, own, tags):
        places = to.text_map.forward_range((own[number], start), (own[number], end))
        found = Found(Place(to.path, *places[0])) if places else Found(None, CHANGED)
        yield number, found


def found_today(path: str, lines: list[str], tags: Tags) -> Iterator[tuple[int, Found]]:
    """The places of the tags of a file in the lines that it has today."""
    tagged, own, guessed = Tagged(lines), {}, set()
    for number, tag in tags.items():
        line = tagged.line_of(tag)
        if line is None and (line := tagged.guess(tag)) is not None:
            guessed.add(number)
        if line is not None:
            own[number] = line
        else:
            yield number, Found(None, GONE if lines else AWAY)
    for number, character, _ in columns(lines, own, tags):
        what = GUESSED if number in guessed else ""
        yield number, Found(Place(path, own[number], character), what)


def columns(lines: list[str], own: dict[int, int], tags: Tags) -> Iterator[tuple[int, int, int]]:
    """Where the names of tags start and end on their lines, in UTF-16 code units; both at the
    beginning where the name isn't on its line."""
    of_lines: dict[int, list[int]] = {}
    for number, line in own.items():
        of_lines.setdefault(line, []).append(number)
    for line, numbers in of_lines.items():
        words = Words(lines[line])
        after = character = 0
        for column, number in sorted((words.column(tags[one]["name"]), one) for one in numbers):
            character += units(words.line[after:column])
            after, name = column, tags[number]["name"]
            end = units(name) if words.line.startswith(name, column) else 0
            yield number, character, character + end
