"""Places as the panel of a word lists them: by files, each with the line that stands there, a page
of them at a time; definitions with the text around them."""

from typing import Any

from codenav.browse.folder import Refused, href
from codenav.browse.view import View
from codenav.texts.places import units
from codenav.texts.today import is_whole_file

Row = dict[str, Any]
Where = tuple[str, int, int]
MOST_PLACES, MOST_CHARACTERS, LINES_AROUND = 50, 500, 2
WHOLE = "Nothing but a range over the whole file covers this place."


def definitions(view: View, found: list[Row], path: str) -> dict[str, Any]:
    """The definitions that were found for a place of a file, with the lines behind each."""
    if len(found) == 1 and is_whole_file(found[0], path, view.lines(path)):
        return {"places": [], "said": WHOLE}
    places = list({where(one): one for one in found}.values())[:MOST_PLACES]
    rows = [{**row(view, one), "around": around(view, one)} for one in places]
    return {"places": rows, "said": counted("definition", len(places), len(files_of(view, places)))}


def references(
    view: View, found: list[Row], defined: set[Where], start: int, only: str
) -> dict[str, Any]:
    """A page of references, those of the files alone whose paths have a text: definitions first,
    then by files. The counts are those of all."""
    places = list({where(one): one for one in found}.values())
    names = {where(one)[0]: shown_name(view, where(one)[0]) for one in places}
    kept = [one for one in places if only.lower() in names[where(one)[0]].lower()]
    kept.sort(key=lambda one: where(one) not in defined)
    by_file: dict[str, list[Row]] = {}
    for one in kept:
        by_file.setdefault(names[where(one)[0]], []).append(one)
    kept = [one for own in by_file.values() for one in own]
    page = kept[start : start + MOST_PLACES]
    rows = [{**row(view, one), "is_definition": where(one) in defined} for one in page]
    return {
        "places": rows,
        "start": start,
        "count": len(kept),
        "size": MOST_PLACES,
        "files": {name: len(own) for name, own in by_file.items()},
        "said": counted("references", len(kept), len(by_file)),
    }


def shown_name(view: View, name: str) -> str:
    """A file as lists call it: from the folder that is shown on, where it's in it."""
    return view.folder.inside(name) or name


def files_of(view: View, places: list[Row]) -> set[str]:
    """The files of places."""
    return {shown_name(view, where(one)[0]) for one in places}


def row(view: View, place: Row) -> Row:
    """A place as it's listed: its file, its line, the text there, and which part of the text it is.
    One that isn't in the folder has no address."""
    name, line, character = where(place)
    own: Row = {"line": line + 1, "href": None, "start": 0, "end": 0, "file": name}
    inside = view.folder.inside(name)
    if inside is None:
        return {**own, "text": "not in the folder that is shown"}
    own["file"] = inside
    try:
        lines = view.lines(view.path(inside))
    except Refused as fault:
        return {**own, "text": str(fault)}
    if line >= len(lines):
        return {**own, "text": "the file has no such line"}
    text = lines[line]
    indent = len(text) - len(text.lstrip())
    start, end = character - indent, part_end(place, units(text)) - indent
    cut = text[indent : indent + MOST_CHARACTERS]
    address = href(inside, line, character, view.revision)
    return {**own, "text": cut, "start": start, "end": end, "href": address}


def around(view: View, place: Row) -> list[str]:
    """The lines behind that of a place, none where it isn't in the folder."""
    name, line, _ = where(place)
    inside = view.folder.inside(name)
    if inside is None:
        return []
    try:
        lines = view.lines(view.path(inside))
    except Refused:
        return []
    end = len(lines) - (not lines[-1])
    own, *behind = lines[line : min(line + 1 + LINES_AROUND, end)] or [""]
    indent = len(own) - len(own.lstrip())
    return [without(one, indent)[:MOST_CHARACTERS] for one in behind]


def without(line: str, indent: int) -> str:
    """A line without so much of its indentation."""
    return line[min(indent, len(line) - len(line.lstrip())) :]


def where(place: Row) -> Where:
    """The file, or the document that is no file, of a place, its line and its character."""
    return place["path"] or place["uri"], place["start"]["line"], place["start"]["character"]


def part_end(place: Row, length: int) -> int:
    """Where a place ends on its first line."""
    end = place["end"]
    return min(int(end["character"]), length) if end["line"] == place["start"]["line"] else length


def number(count: int, what: str) -> str:
    """How many there are, in words."""
    return f"{count:,} {what}{'' if count == 1 else 's'}"


def counted(what: str, count: int, files: int) -> str:
    """How many places were found, in words."""
    if not count:
        return f"The index has no {what} here."
    return f"{number(count, what.removesuffix('s'))} in {number(files, 'file')}"
