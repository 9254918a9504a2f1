"""What the server answers, as a plain model of docs/API.md for tests: all dumps and tags are in
memory, requests at a position are answered by walks, and nothing is looked up but by going over all
that is there.

It has no model of what the program alone does: a full disk, refused memory, a limit of rows. A
database that is a file is one of SQLite, which has the bodies as they came.
"""

import json
import os
import re
import sqlite3
from typing import Any, Optional
from urllib.parse import parse_qsl

from codenav.urls import href
from tests import accepted
from tests.dump_walks import LABELS, Question, Walk, answered
from tests.tag_lines import Tag, read_tags

TOP = os.path.dirname(os.path.dirname(os.path.dirname(os.path.realpath(__file__))))
METHODS = {
    **{"/names": "GET", "/projects": "GET", "": "DELETE", "lsif": "PUT", "tags": "PUT"},
    **dict.fromkeys(["profile", *LABELS], "GET"),
}
FORMS = {
    "key": "[A-Za-z0-9_-]{1,64}",
    "project": "[a-z0-9_-]{1,64}",
    "profile": "[12]",
    "uri": "(?s:.+)",
    "line": "0|[1-9][0-9]{0,9}",
    "character": "0|[1-9][0-9]{0,9}",
    "declaration": "yes|no",
    "name": r"[^\0]+",
    "prefix": r"[^\0]+",
}
# the text and the status of each code, as the pages have them; behind `:` or `;` more is said of it
ROW = re.compile(r"^\| ([A-Z][0-9]{2}) \| (.+?) \|(?: ([0-9]{3}) \|)?$", re.M)
CODES: dict[str, tuple[str, int]] = {}
for page in "API.md", "inside/DEFINITIONS.md":
    with open(os.path.join(TOP, "docs", page), encoding="utf-8") as file:
        for code, text, status in ROW.findall(file.read()):
            shown = re.split("[:;]", text)[0] if page == "API.md" else text
            CODES[code] = (shown, int(status or 422))
TABLES = """
CREATE TABLE IF NOT EXISTS document (project, part, profile, body, PRIMARY KEY (project, part));
CREATE TABLE IF NOT EXISTS kept (project, key, reply, PRIMARY KEY (project, key));
"""


class Refused(Exception):
    """A request is refused by a code, maybe of a line of its body, or since a path has another
    method."""

    def __init__(self, code: str, line: Optional[int] = None, allow: str = "") -> None:
        super().__init__(code)
        self.code, self.allow = code, allow
        self.text, self.status = CODES[code]
        at = {} if line is None else {"line": line}
        self.body = json_of({"fault": code, "text": self.text, **at})


def json_of(value: Any) -> bytes:
    """Compact JSON, with members in the order of their names."""
    return json.dumps(value, ensure_ascii=False, separators=(",", ":"), sort_keys=True).encode()


def unless_faulty(found: Any) -> Any:
    """What was read of a body. Raises Refused where that's `line N: CODE`."""
    if isinstance(found, str):
        line, code = found.removeprefix("line ").split(": ")
        raise Refused(code, int(line))
    return found


class Parameters:
    """The parameters of a query string."""

    def __init__(self, query: str) -> None:
        self.pairs = parse_qsl(query, keep_blank_values=True, errors="replace")

    def value(self, name: str, default: str = "") -> str:
        """The value of a parameter, which has to be there where there's no default. Raises Refused
        where it's there twice, or isn't of its form."""
        value, *more = [text for own, text in self.pairs if own == name] or [default]
        if more or not re.fullmatch(FORMS[name], value):
            raise Refused("D03")
        return value

    def has(self, name: str) -> bool:
        """Whether a parameter is there."""
        return any(own == name for own, _ in self.pairs)

    def number(self, name: str) -> int:
        """The value of a parameter that is a number."""
        number = int(self.value(name))
        if number > accepted.MOST_NUMBER:
            raise Refused("D03")
        return number

    def question(self, request: str) -> Question:
        """What is asked at a position."""
        uri = href(self.value("uri"))
        if uri is None:
            raise Refused("D03")
        position = self.number("line"), self.number("character")
        is_asked = request != "references" or self.value("declaration", "yes") == "yes"
        return Question(request, uri, position, is_asked)


def dump_of(body: bytes, profile: str) -> Walk:
    """A dump, with the addresses of its documents as the server compares them. Raises Refused where
    it's faulty."""
    unless_faulty(accepted.fault(body, profile))
    elements = [json.loads(line) for line in accepted.lines_of(body)]
    for one in elements:
        if (one["type"], one["label"]) == ("vertex", "document"):
            one["uri"] = href(one["uri"])
    return Walk(elements, profile)


class Index:
    """What was accepted: of each project its dump and its tags, and the reply to each key."""

    def __init__(self, database: str) -> None:
        self.dumps: dict[str, Walk] = {}
        self.tags: dict[str, list[Tag]] = {}
        self.file = sqlite3.connect(database, timeout=0)
        self.file.execute("PRAGMA locking_mode = EXCLUSIVE")
        self.file.execute("PRAGMA journal_mode = WAL")
        self.file.executescript(f"BEGIN EXCLUSIVE; {TABLES} COMMIT;")
        for row in self.file.execute("SELECT project, part, profile, body FROM document"):
            self.take(*row)
        self.kept: dict[tuple[str, str], bytes] = {
            (project, key): reply
            for project, key, reply in self.file.execute("SELECT project, key, reply FROM kept")
        }

    def take(self, project: str, part: str, profile: str, body: bytes) -> int:
        """Has a project's dump or its tags be those of a body; answers how many elements or tags
        these are. Raises Refused where the body is faulty."""
        if part == "tags":
            self.tags[project] = unless_faulty(read_tags(body))
            return len(self.tags[project])
        self.dumps[project] = dump_of(body, profile)
        return len(accepted.lines_of(body))

    def put(self, project: str, part: str, key: str, profile: str, body: bytes) -> bytes:
        """The reply to an upload, which acts once."""
        if (project, key) not in self.kept:
            count = self.take(project, part, profile, body)
            row = project, part, profile, body
            self.file.execute("REPLACE INTO document VALUES (?, ?, ?, ?)", row)
            self.keep(project, key, {"accepted": part, "count": count})
        return self.kept[project, key]

    def remove(self, project: str, key: str) -> bytes:
        """The reply to a removal, which acts once."""
        if (project, key) not in self.kept:
            found = [self.dumps.pop(project, None), self.tags.pop(project, None)]
            self.file.execute("DELETE FROM document WHERE project = ?", (project,))
            self.keep(project, key, {"removed": found != [None, None]})
        return self.kept[project, key]

    def keep(self, project: str, key: str, reply: Any) -> None:
        """Keeps a reply under its key, and the change before it."""
        self.kept[project, key] = json_of(reply)
        self.file.execute("INSERT INTO kept VALUES (?, ?, ?)", (project, key, json_of(reply)))
        self.file.commit()

    def dump(self, project: str) -> Walk:
        """A project's dump. Raises Refused where it has none."""
        if project not in self.dumps:
            raise Refused("D01")
        return self.dumps[project]

    def at(self, project: str, question: Question) -> Any:
        """The answer at a position. Raises Refused where there's no such dump or document."""
        vertices = self.dump(project).vertices.values()
        if not any(own["label"] == "document" and own["uri"] == question.uri for own in vertices):
            raise Refused("D02")
        found = answered(self.dumps, project, question)
        if question.request == "hover":
            return {"contents": contents_of(found)}
        return {"places": [place_of(place) for place in sorted(found)]}

    def names(self, parameters: Parameters) -> Any:
        """The tags of a name or of a prefix."""
        if parameters.has("name") == parameters.has("prefix"):
            raise Refused("D03")
        is_whole = parameters.has("name")
        text = parameters.value("name" if is_whole else "prefix")
        projects = [parameters.value("project")] if parameters.has("project") else [*self.tags]
        found = [
            {**tag, "project": project}
            for project in projects
            for tag in self.tags.get(project, [])
            if (tag["name"] == text if is_whole else tag["name"].startswith(text))
        ]
        found.sort(key=lambda tag: (tag["name"], tag["project"], tag["line"]))
        return {"tags": [{name: tag[name] for name in tag if name != "written"} for tag in found]}

    def projects(self) -> Any:
        """What each project has."""
        names = sorted({*self.dumps, *self.tags})
        has = [{"dump": own in self.dumps, "name": own, "tags": own in self.tags} for own in names]
        return {"projects": has}

    def reply(self, method: str, target: str, body: bytes) -> bytes:
        """The body of the reply to a request. Raises Refused where it's refused."""
        path, _, query = target.partition("?")
        route, project = route_of(path)
        if method != METHODS[route]:
            raise Refused("H07", allow=METHODS[route])
        parameters = Parameters(query)
        if route == "/projects":
            return json_of(self.projects())
        if route == "/names":
            return json_of(self.names(parameters))
        if not re.fullmatch(FORMS["project"], project):
            raise Refused("D03")
        if route == "profile":
            return json_of({"profile": 2 if "declaration" in self.dump(project).requests else 1})
        if route in LABELS:
            return json_of(self.at(project, parameters.question(route)))
        key = parameters.value("key")
        if route == "":
            return self.remove(project, key)
        profile = parameters.value("profile", "1") if route == "lsif" else ""
        return self.put(project, route, key, profile, body)


def route_of(path: str) -> tuple[str, str]:
    """The route of a path, and its project. Raises Refused where there's none."""
    if path in ("/names", "/projects"):
        return path, ""
    found = re.fullmatch("/projects/([^/]+)(?:/([a-z]+))?", path)
    if found is None or (found[2] or "") not in METHODS:
        raise Refused("H06")
    return found[2] or "", found[1]


def place_of(place: Any) -> Any:
    """A place as a reply has it."""
    project, uri, *ends = place
    start, end = ({"line": line, "character": character} for line, character in ends)
    return {"project": project, "uri": uri, "start": start, "end": end}


def contents_of(value: Any) -> Any:
    """The contents of a hover, without the members that aren't theirs."""
    if isinstance(value, list):
        return [part_of(part, "language") for part in value]
    return part_of(value, "kind" if isinstance(value, dict) and "kind" in value else "language")


def part_of(part: Any, kind: str) -> Any:
    """A part of a hover's contents."""
    return {name: part[name] for name in (kind, "value")} if isinstance(part, dict) else part
