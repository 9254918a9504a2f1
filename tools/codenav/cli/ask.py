"""`codenav ask`."""

import argparse
import json
import os
from typing import Any, NamedTuple, Optional

from codenav import printed
from codenav.asking.by_name import found_at, has_dump, has_tags
from codenav.asking.project import Project, Reply
from codenav.asking.tags import Names, Tag
from codenav.cli.asking import Asking, add_asking, add_by_name
from codenav.cli.command import Command
from codenav.cli.options import Help, add_server, first_place, named_all, number
from codenav.cli.show import Shown
from codenav.client.fetch import fetch_from
from codenav.client.http import SECONDS
from codenav.faults import NoReply
from codenav.kinds import hover_text
from codenav.settings.found import FILE, Settings, servers_above, settings_by
from codenav.texts.decoded import Texts
from codenav.texts.places import Maps, Place, asked_path, character_at, path_of, place_line, uri_of
from codenav.texts.today import NotThere, Today, is_whole_file, position_of

KINDS = {
    "definition": "where it's defined",
    "declaration": "where it's declared, of a dump of profile 2",
    "implementation": "where it's implemented, of a dump of profile 2",
    "references": "where it's used",
    "hover": "what is said of it",
    "names": "the tags of a name, or those whose names begin with a text",
}
warn = Shown("codenav ask").warn


class AskCall(Asking):
    """What `ask` is told."""

    project = ""
    what = ""
    utf16 = False
    json = False
    no_declaration = False
    file = ""
    line = 0
    column = 0
    all_projects = False
    servers = ""
    name = ""
    prefix: Optional[str] = None


class Answer(NamedTuple):
    """What is printed: a reply in the server's words, or lines."""

    reply: dict[str, Any]
    lines: list[str]


def project_of(settings: Settings, texts: Texts) -> Project:
    """The project of settings, whose files are read by `texts`. Raises BadCall."""
    today = Today(settings.sources(), settings.maps, warn, texts.text)
    fetch, folder = fetch_from(settings.server, SECONDS), settings.tags_folder(settings.project)
    return Project(settings.project, fetch, today, folder)


def tags_of(call: AskCall, settings: Settings, project: Project) -> list[Tag]:
    """The tags of the names that a call asks for. Raises NoReply."""
    parameters = {"name": call.name} if call.prefix is None else {"prefix": call.prefix}
    if call.all_projects:
        # here, since few calls need it
        from codenav.asking.all_servers import names_of_all
        from codenav.sets.ring import servers_of

        given = named_all(call.servers) if call.servers else servers_above(os.curdir)
        if servers := servers_of(given) if given else []:
            return names_of_all(
                servers, settings.project, parameters, lambda url: fetch_from(url, SECONDS)
            )
    index = project.index
    tags = index.names(parameters, call.all_projects)
    if not tags and not call.all_projects and not has_dump(index) and not has_tags(index):
        raise NoReply(
            f"{settings.project} has neither a dump at {settings.server} nor tags that `codenav publish` made: it may not be there"
        )
    return tags


def answer_names(call: AskCall, settings: Settings) -> Answer:
    """The names that a call asks for. Raises NoReply."""
    texts, names = Texts(), Names()
    project = project_of(settings, texts)
    try:
        tags = tags_of(call, settings, project)
        named = list(
            names.places(project, tags, lambda own: settings.tags.get(own, settings.folder))
        )
    finally:
        project.today.end()
    if said := names.said():
        warn(said)
    lines = [place_line(place, call.utf16, texts.of) for _, place in named]
    return Answer(
        {"tags": [{**tag, **found_at(tag, place, settings.maps)} for tag, place in named]},
        [f"{line}: {tag['name']}" for (tag, _), line in zip(named, lines)],
    )


def reply_at(call: AskCall, settings: Settings, texts: Texts) -> Reply:
    """What is found at the place that a call names; empty, with a line, where the place is new.
    Raises NoReply."""
    project, asked = project_of(settings, texts), texts.of(call.file)
    character = character_at(call.file, asked.lines, call.line, call.column, call.utf16)
    if call.line - 1 in asked.others:
        warn(f"{call.file}:{call.line} isn't UTF-8: its columns count bytes")
    more = {"declaration": "no"} if call.no_declaration else {}
    at = Place(asked_path(call.file, settings.maps), call.line - 1, character)
    try:
        reply = project.by_name(at) if call.by_name else project.answer(call.what, at, **more)
    except NotThere as fault:
        warn(str(fault))
        return Reply(None if call.what == "hover" else [], "")
    finally:
        project.today.end()
    changed = reply.of and f"{call.file} changed since: the answer is of {reply.of}"
    for line in filter(None, (reply.note, changed, reply.why)):
        warn(line)
    return reply


def shown(place: dict[str, Any], maps: Maps) -> dict[str, Any]:
    """A place in the server's words: of a file that was renamed with the address of today."""
    path = place["path"]
    is_renamed = path and path_of(place["uri"], maps) != path
    return {**place, "uri": uri_of(path, maps)} if is_renamed else place


def answer_at(call: AskCall, settings: Settings) -> Answer:
    """What is found at a place, of which a place of several projects is one line."""
    texts = Texts()
    found = reply_at(call, settings, texts).found
    if call.what == "hover":
        return Answer({"contents": found}, [] if found is None else [hover_text(found)])
    is_one = call.what != "references" and len(found) == 1
    if is_one and is_whole_file(found[0], call.file, texts.of(call.file).lines):
        warn(f"nothing but a range over all of {call.file} covers this place")
    places = [Place(one["path"] or one["uri"], *position_of(one["start"])) for one in found]
    return Answer(
        {"places": [shown(one, settings.maps) for one in found]},
        list(dict.fromkeys(place_line(place, call.utf16, texts.of) for place in places)),
    )


def ask(call: AskCall) -> int:
    """Asks and prints the answer; answers 0 with an answer and 1 with an empty one."""
    above = os.path.dirname(os.path.abspath(call.file)) if call.what != "names" else os.curdir
    given = call.settings(call.url, call.project, os.curdir)
    settings = settings_by(given, above)
    reply, lines = (answer_names if call.what == "names" else answer_at)(call, settings)
    for line in [json.dumps(reply, sort_keys=True, separators=(",", ":"))] if call.json else lines:
        print(printed.lines(line) if call.what == "hover" else printed.line(line))
    return 0 if lines else 1


def add_json(parser: argparse.ArgumentParser) -> None:
    """Adds the option for what programs read, before and behind WHAT."""
    parser.add_argument(
        "--json",
        action="store_true",
        help="print one line as the server replies, but of today's texts, and with the path of each place (null of what is no file)",
    )


def add(parser: argparse.ArgumentParser) -> None:
    """The words of `ask`."""
    add_asking(parser)
    parser.add_argument(
        "--utf16",
        action="store_true",
        help="COLUMN and the columns printed count UTF-16 code units, as those of VS Code do",
    )
    add_json(parser)
    add_server(parser)
    parser.add_argument(
        "project",
        metavar="PROJECT",
        help=f"a project or a set; without it the one that the nearest {FILE} above the file says, with its map and its revision",
    )
    kinds = parser.add_subparsers(
        dest="what",
        metavar="WHAT",
        required=True,
        help="what to ask for; each has --help",
        prog="codenav ask [OPTION..] [[URL] PROJECT]",
    )
    for kind, text in KINDS.items():
        one = kinds.add_parser(
            kind,
            help=text,
            description=f"Asks: {text}.",
            argument_default=argparse.SUPPRESS,
            formatter_class=Help,
        )
        add_json(one)
        (add_names if kind == "names" else add_place)(one, kind)


def add_place(parser: argparse.ArgumentParser, kind: str) -> None:
    """The words of a question at a place."""
    if kind == "references":
        parser.add_argument(
            "--no-declaration", action="store_true", help="without the declaration itself"
        )
    if kind == "definition":
        add_by_name(parser)
    parser.add_argument("file", metavar="FILE")
    parser.add_argument("line", metavar="LINE", type=number)
    parser.add_argument("column", metavar="COLUMN", type=number)


def add_names(parser: argparse.ArgumentParser, _: str) -> None:
    """The words of `ask names`."""
    parser.add_argument(
        "--all-projects",
        action="store_true",
        help="those of all projects, and not of PROJECT alone",
    )
    parser.add_argument(
        "--servers",
        metavar="URL,URL..",
        help="with --all-projects: all servers of a front that spreads projects, each of which is asked; without it `servers` of the "
        "nearest .codenav.toml above the current folder, or the server at URL alone",
    )
    texts = parser.add_mutually_exclusive_group(required=True)
    texts.add_argument("name", metavar="NAME", nargs="?")
    texts.add_argument("--prefix", metavar="TEXT")


def filled(parser: argparse.ArgumentParser, words: list[str]) -> list[str]:
    """The words of a call, with an empty URL and PROJECT where these are left out: where WHAT comes
    first, or in the second place with no CODENAV_URL. So of a project that is called as a WHAT the
    URL is needed."""
    at = first_place(parser, words)
    if words[at : at + 1] and words[at] in KINDS:
        return [*words[:at], "", "", *words[at:]]
    if words[at + 1 : at + 2] and words[at + 1] in KINDS and "://" not in words[at]:
        return [*words[:at], os.environ.get("CODENAV_URL", ""), *words[at:]]
    return words


ASK = Command(
    "ask",
    "Asks the server, and prints places as compilers do: what is at a place, from 1 and in "
    "characters, or the tags of a name.",
    AskCall,
    add,
    ask,
    epilog="status: 0 with an answer, 1 with an empty one",
    usage="%(prog)s [-h] [OPTION..] [[URL] PROJECT] WHAT ..",
    names_server=True,
    filled=filled,
)
