"""`codenav lsp`."""

import argparse
import os
import sys
from typing import Optional

from codenav.cli.asking import Asking, add_asking, add_by_name
from codenav.cli.command import Command
from codenav.cli.options import add_server
from codenav.cli.show import Shown
from codenav.faults import BadCall
from codenav.lsp.bridge import Bridge, serve
from codenav.lsp.jsonrpc import Inbox, logger
from codenav.settings.found import FILE, Settings, name_of


class LspCall(Asking):
    """What `lsp` is told."""

    project: Optional[str] = None
    log: Optional[str] = None


def add_lsp(parser: argparse.ArgumentParser) -> None:
    """The words of `lsp`."""
    add_asking(parser, "; that of the project asked for, without it, in the editor's folder")
    parser.add_argument("--log", metavar="FILE", help="write the traffic with the editor to FILE")
    add_by_name(parser)
    add_server(parser, is_optional=True)
    parser.add_argument(
        "project",
        metavar="PROJECT",
        nargs="?",
        help=f"the project or set of the editor's files; without it a {FILE} above each file says which",
    )


def settings_given(call: LspCall) -> Optional[Settings]:
    """What the command line says of the editor's files; nothing where it names no project. Raises
    BadCall."""
    if call.project is None:
        if call.url not in ("", os.environ.get("CODENAV_URL")):
            raise BadCall(f"no project, of the server {call.url}")
        return None
    given = call.settings(call.url, name_of(call.project), os.getcwd())
    given.sources()
    return given


def lsp(call: LspCall) -> int:
    """Serves an editor; answers 0 after `shutdown` and `exit`, 1 after an end without."""
    given, log = settings_given(call), logger(call.log, Shown("codenav lsp").warn)
    try:
        bridge = Bridge(given, sys.stdout.buffer, log, call.by_name)
        return serve(bridge, Inbox(sys.stdin.buffer, log))
    except BrokenPipeError:
        os._exit(1)


LSP = Command(
    "lsp",
    "A language server for every editor: speaks the Language Server Protocol 3.17 on its standard "
    "input and output, and asks `codenav serve` for the answers. The project of a file is that of "
    f"the command line, or that of a file `{FILE}` above it. Where it's known which texts were "
    "indexed, positions are mapped between these and the texts in the editor; else they are those "
    "of the indexed files.",
    LspCall,
    add_lsp,
    lsp,
    names_server=True,
)
