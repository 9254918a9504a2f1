"""`codenav browse`."""

import argparse
import os
import re
from contextlib import contextmanager
from typing import Iterator, Sequence

from codenav.browse.answers import Browser
from codenav.browse.colours import MISSING, lexer_of
from codenav.browse.folder import Folder
from codenav.browse.projects import Repositories, checkouts_in, listed_in
from codenav.browse.server import Pages
from codenav.cli.asking import Asking, add_asking, add_by_name
from codenav.cli.command import Command
from codenav.cli.options import URL_HELP, add_words, number, url_in
from codenav.cli.show import Shown
from codenav.faults import BadCall
from codenav.settings.found import FILE, nearest, settings_by

FORM = "[[URL] PROJECT] FOLDER"
HOST = re.compile(r"(\[[0-9A-Fa-f:.]+\]|[\w.-]+)(:[0-9]{1,5})?", re.ASCII)


class BrowseCall(Asking):
    """What `browse` is told."""

    words: Sequence[str] = ()
    search = ""
    host: list[str] = []
    port = 8081


def add_browse(parser: argparse.ArgumentParser) -> None:
    """The words of `browse`."""
    add_asking(parser, "; that of the project asked for, without it, in the folder that is shown")
    parser.add_argument(
        "--search",
        metavar="ADDRESS",
        help="a search engine for texts, to which the key s leads with the word: it replaces {} in ADDRESS",
    )
    parser.add_argument(
        "--host",
        action="append",
        metavar="NAME",
        help="a name that browsers ask by, besides 127.0.0.1 and localhost, as of a front or behind ssh -L: NAME:PORT, or NAME with any port",
    )
    parser.add_argument("--port", type=number, help="8081 without it; 0 for a free one")
    add_by_name(parser)
    add_words(
        parser,
        FORM,
        f"{URL_HELP}. Without PROJECT it's the one that the nearest {FILE} above FOLDER says, with its map and its revision; "
        f"or all projects that FOLDER's {FILE} lists, or whose checkouts are FOLDER's folders",
    )


@contextmanager
def browser_of(call: BrowseCall) -> Iterator[Browser]:
    """What a call shows. Raises BadCall."""
    if call.search and (
        "{}" not in call.search or not call.search.startswith(("http://", "https://"))
    ):
        raise BadCall(
            "--search takes an address with {} in it, as http://localhost:6070/search?q={}"
        )
    for host in call.host:
        if not HOST.fullmatch(host):
            raise BadCall(f"--host takes a name, or NAME:PORT, not {host!r}")
    url, words = url_in(list(call.words))
    if not 1 <= len(words) <= 2:
        raise BadCall(f"it takes {FORM}")
    folder, project = Folder(words[-1]), words[0] if words[1:] else ""
    path = os.path.join(folder.given, FILE)
    listed = listed_in(path) if not project and os.path.isfile(path) else []
    if listed:
        with Shown("codenav browse") as shows:
            repositories = Repositories(listed, shows)
        try:
            yield repositories.browser(call.search, call.by_name)
        finally:
            repositories.end()
        return
    given = call.settings(url, project, folder.given)
    checkouts = {} if project or nearest(folder.given) else checkouts_in(folder.given)
    if checkouts:
        own = given._replace(project="projects")
        folder = Folder(folder.given, checkouts)
        yield Browser(folder, own, call.search, call.by_name, projects=checkouts)
        return
    settings = settings_by(given, folder.given)
    settings.sources()
    yield Browser(folder, settings, call.search, call.by_name)


def browse(call: BrowseCall) -> int:
    """Serves until it's interrupted."""
    with browser_of(call) as browser:
        try:
            pages = Pages(browser, call.port, call.host)
        except (OSError, OverflowError) as fault:
            raise BadCall(f"{call.port}: {getattr(fault, 'strerror', fault)}") from None
        if lexer_of("x.py") is None:
            Shown("codenav browse").warn(MISSING)
        print(f"codenav browse: http://127.0.0.1:{pages.server_address[1]}/files/", flush=True)
        try:
            pages.serve_forever()
        except KeyboardInterrupt:
            pass
        pages.server_close()
    return 0


BROWSE = Command(
    "browse",
    "Shows the files of a folder as web pages on 127.0.0.1, and asks the server at their words: a "
    "click on one opens a panel with what the index says of it, its definition and its references, "
    "`f` finds files and `/` names as one types, and `?` lists all keys. `#L12C4` in an address is "
    "line 12, character 4, from 1.",
    BrowseCall,
    add_browse,
    browse,
    usage=f"%(prog)s [-h] [OPTION..] {FORM}",
    is_mixed=True,
)
