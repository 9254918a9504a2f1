"""The command `codenav`: its words are those of the program, which is called for them, and those of
the tools, each of which is a module that's loaded when it's called."""

import importlib
import os
import sys
from typing import TYPE_CHECKING, Any, NamedTuple, NoReturn, Optional, cast

from codenav import VERSION
from codenav.cli.ends import end_by_signals, open_standard, status_of

if TYPE_CHECKING:
    from codenav.cli.command import Command


class Tool(NamedTuple):
    """A tool: its module in `cli`, which has its `Command` by the word's name, and what it does."""

    module: str
    text: str


TOOLS = {
    "publish": Tool("publish", "from a checkout to answers: index, prepare, check, upload"),
    "index": Tool("index", "make a dump by asking a language server"),
    "prepare": Tool("prepare", "make a dump that the server takes of an indexer's"),
    "upload": Tool("upload", "upload dumps, tags files or a set"),
    "rebalance": Tool("rebalance", "put kept sets where they belong"),
    "list": Tool("projects", "list the projects of a server"),
    "remove": Tool("projects", "remove a project"),
    "ask": Tool("ask", "ask what is at a place, or for a name"),
    "lsp": Tool("lsp", "serve an editor by the Language Server Protocol"),
    "browse": Tool("browse", "show a folder's files as web pages with answers"),
    "why": Tool("explain", "say of a dump why an answer is what it is"),
    "explain": Tool("explain", "say what is wrong with a dump that is refused"),
    "supervise": Tool("service", "keep a server running over a folder"),
    "turn": Tool("service", "start a service's server anew, losing no request"),
    "backup": Tool("service", "copy a service's database while it runs"),
    "restore": Tool("service", "put a copy in a service's database's place"),
    "try-it": Tool("try_it", "try the whole way, on a demo"),
}
OWN = {
    "serve": "serve a database on a port of 127.0.0.1",
    "replay": "answer the requests of a file",
    "migrate": "bring a database of an earlier version to this one",
    "check-lsif": "check a dump by the server's rules",
    "check-tags": "check a tags file",
}


def usage() -> str:
    """How the command is called."""
    tools, own = (
        [f"  {name:10}  {text}" for name, text in group.items()]
        for group in ({name: tool.text for name, tool in TOOLS.items()}, OWN)
    )
    head = "usage: codenav WORD ..      each has --help; --version says what's here"
    return "\n".join([head, *tools, "the program:", *own])


def version() -> str:
    """Which tools and which program these are, and whether that's known to be proved."""
    from codenav.program import NONE, Program  # here, for it takes `ask` long to load

    program = Program.found()
    if program is None:
        return f"codenav {VERSION}\n{NONE}"
    said = program.called("--version").out.split()
    proved = "proved" if program.is_proved() else "not known to be proved"
    return f"codenav {VERSION}\nthe program {said[-1] if said else '?'}, {proved}: {program.path}"


def command_of(name: str) -> "Command[Any]":
    """A tool."""
    module = importlib.import_module(f"codenav.cli.{TOOLS[name].module}")
    return cast("Command[Any]", getattr(module, name.upper().replace("-", "_")))


def called(name: str, words: list[str]) -> int:
    """Calls a word. The program takes this process's place."""
    if name in OWN:
        from codenav.program import Program

        os.execv(Program.needed().path, ["codenav", name, *words])
    return command_of(name).main(words)


def main(words: Optional[list[str]] = None) -> int:
    """Calls a word; answers its status, and 2 where there's no such word."""
    words = sys.argv[1:] if words is None else words
    if words[:1] in (["--help"], ["-h"], ["--version"], ["-V"]):
        print(version() if words[0] in ("--version", "-V") else usage())
        return 0
    if not words or words[0] not in {*TOOLS, *OWN}:
        named = f"no word {words[0]!r}: " if words else ""
        print(f"codenav: {named}codenav --help lists the words", file=sys.stderr)
        return 2
    name, rest = words[0], words[1:]
    return status_of(f"codenav {name}", lambda: called(name, rest))


def ended() -> int:
    """The status of the command line's call, that of one that makes none too."""
    end_by_signals()
    try:
        return main()
    except SystemExit as end:
        return int(end.code or 0)


def run() -> NoReturn:
    """Calls the word of the command line, and ends the process: at once, and not after Python has
    freed all its modules, which takes longer than a question."""
    open_standard()
    status = status_of("codenav", ended)
    sys.stderr.flush()
    os._exit(status)
