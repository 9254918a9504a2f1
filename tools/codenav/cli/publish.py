"""`codenav publish`."""

import argparse
import os
import sys
from contextlib import contextmanager
from dataclasses import dataclass
from typing import Any, Iterator, Optional, Sequence

from codenav.cli.command import Command
from codenav.cli.options import URL_HELP, add_words, named_all, url_in
from codenav.cli.published import as_json, counted, documents, not_uploaded, table, uploaded
from codenav.cli.show import Shown
from codenav.faults import BadCall
from codenav.files import new_folder, whole_file
from codenav.index.indexers import INDEXERS
from codenav.names import shown_name
from codenav.printed import line as printed
from codenav.program import Program
from codenav.publishing.database import publish_into
from codenav.publishing.made import How, Made, Refused
from codenav.publishing.making import Making
from codenav.publishing.send import Sent, send
from codenav.publishing.target import Target, target_at
from codenav.publishing.there import there_at
from codenav.service import digests
from codenav.service.folder import locked
from codenav.service.locks import holder_of
from codenav.sets.ring import servers_of
from codenav.settings.checkout import new_settings, plain, target_of
from codenav.settings.found import FILE, found_in_file

TOOL = "codenav publish"
NOWHERE = "http://localhost"
"""What stands for the server where none is asked."""
FORM = "[[URL] PROJECT] [FOLDER]"
KNOWN = "\n".join(
    f"  {one.name:20} {one.line}"
    + (f"   where there is {' or '.join(one.marks)}" if one.marks else "")
    for one in INDEXERS
)
VALUES = {
    "--program PATH": "the program, which checks before the upload; without it CODENAV_PROGRAM, that of this clone or package, or the one on the path",
    "--servers URL,URL..": "all servers of a front that spreads projects, spelled as in its configuration: the set goes to the one that the front picks, and its "
    f"surface to the others; without it `servers` of FOLDER's {FILE}. URL is the front then, or one of them",
    "--apart NAME,NAME..": "packages that all use, as std,core,alloc: a surface has nothing of what is imported of them, so that references to their own items are "
    "those of one server; their definitions are found from all",
    "--revision REV": "the git revision that is indexed; without it the one that FOLDER has checked out, where no file that git has is changed",
    "--database FILE": "put all into the file of a database that no server has, beside what it has, in place of uploading it: `codenav restore` puts it into a "
    "service. It has its digest beside it",
    "--keep FOLDER": "keep the files that are made, in FOLDER, which with several servers is one for each set: `codenav rebalance` puts them",
}
FLAGS = {
    "--no-tags": "upload the dump alone",
    "--set": "make a set of parts, as is done by itself of a dump that is too large for one project",
    "--servers-that-join": "the surface goes to those of the servers alone that have a set which imports or exports something of one of its packages",
    "--more": "keep the type definitions, monikers, folding ranges and links of an LSIF dump too, for `lsp`, where it has room for them",
    "--dry-run": "make and check all, upload nothing, and say what is there that it would replace",
    "--write-settings": f"write FOLDER's {FILE} with what is published, unless it has other settings",
    "--overwrite": "with --write-settings, other settings too",
    "--json": "print what was done as JSON",
}


@dataclass(slots=True)
class PublishCall(How):
    """What `publish` is told."""

    servers: str = ""
    servers_that_join: bool = False
    dry_run: bool = False
    keep: Optional[str] = None
    database: Optional[str] = None
    write_settings: bool = False
    overwrite: bool = False
    json: bool = False
    words: Sequence[str] = ()


def add_publish(parser: argparse.ArgumentParser) -> None:
    """The words of `publish`."""
    how = parser.add_mutually_exclusive_group()
    how.add_argument(
        "--index",
        metavar="LINE",
        help="the line of a shell that indexes FOLDER and is called there: it prints LSIF or SCIP, or writes it to the file that $OUT names",
    )
    how.add_argument("--indexer", metavar="NAME", help="one of the known indexers, by its name")
    how.add_argument("--dump", metavar="FILE", help="a dump or a SCIP index that is there already")
    how.add_argument("--no-index", action="store_true", help="upload tags alone")
    parser.add_argument(
        "--without",
        action="append",
        metavar="GLOB",
        help="leave out the documents whose path from the project's root on is like GLOB, as of prepare",
    )
    parser.add_argument(
        "--profile",
        choices=["1", "2"],
        help="how the dump is read; 2 has declarations and implementations too, and is taken without it where the dump has such",
    )
    for option, text in VALUES.items():
        name, metavar = option.split()
        parser.add_argument(name, metavar=metavar, help=text)
    for option, text in FLAGS.items():
        parser.add_argument(option, action="store_true", help=text)
    add_words(
        parser,
        FORM,
        f"{URL_HELP}. PROJECT, and URL too, may be left out where FOLDER's {FILE} has them. FOLDER is the checkout, and . without it; one whose "
        "name could be a project's is written as ./NAME",
    )


def servers_in(given: str, folder: str) -> tuple[str, ...]:
    """The servers that a set is published to, as they're given or by the settings in a folder; none
    where it goes to one."""
    path = os.path.join(folder, FILE)
    if given:
        return tuple(servers_of(named_all(given)))
    found = found_in_file(path).get("servers", []) if os.path.isfile(path) else []
    return tuple(servers_of(found)) if found else ()


@contextmanager
def work_folder(kept: Optional[str]) -> Iterator[str]:
    """The folder that files are made in: the one that is named, which stays, or one that goes with
    the context."""
    if kept is not None:
        os.makedirs(kept, exist_ok=True)
        yield os.path.abspath(kept)
        return
    with new_folder("codenav-publish-") as folder:
        yield folder


def settings_of(url: str, target: Target, made: Made, overwrites: bool) -> str:
    """The text of the settings of what is published; nothing where it has them. Raises
    BadCall."""
    wanted: dict[str, Any] = {"server": plain(url), "project": target.project}
    if target.servers:
        wanted["servers"] = [plain(server) for server in target.servers]
    wanted["map"] = {made.where: made.inside}
    return new_settings(os.path.join(made.folder, FILE), wanted, overwrites)


def say(call: PublishCall, made: Made, sent: Sent, target: Target, settings: str) -> None:
    """Says what was uploaded, and writes the settings into the checkout where there are some."""
    for other in sent.lacking:
        name = shown_name(target.project)
        text = f"publish {shown_name(other)} again: it's joined to {name}, and its surface isn't at {target.home}"
        print(f"{TOOL}: {text}", file=sys.stderr)
    for away in sent.away:
        text = f"{away} doesn't answer: publish {shown_name(target.project)} again when it does; up to then it lacks its surface"
        print(f"{TOOL}: {text}", file=sys.stderr)
    for line in () if call.json else uploaded(made, sent, target):
        print(printed(line))
    path = os.path.join(made.folder, FILE)
    if settings:
        with whole_file(path) as file:
            file.write(settings.encode())
        if not call.json:
            print(printed(f"written {path}"))
    pinned = found_in_file(path).get("revision") if os.path.isfile(path) else None
    if pinned not in (None, made.commit):
        text = f"{TOOL}: {path}: tools go by its revision {pinned} there"
        print(printed(text), file=sys.stderr)


def publish_to_file(call: PublishCall, database: str) -> int:
    """Goes from the checkout to the file of a database."""
    url, words = url_in([*call.words])
    _, project, folder = target_of("none", words)
    if url or call.dry_run or call.write_settings or servers_in(call.servers, folder):
        raise BadCall(
            "--database takes neither a server nor several, --dry-run or --write-settings"
        )
    program, call.is_alone = Program.needed(call.program), True
    target, place = target_at(NOWHERE, project, (), False, call.set), os.path.dirname(database)
    if not os.path.isdir(place):
        raise BadCall(f"{place}: not a folder")
    with Shown(TOOL, True) as shows, work_folder(call.keep) as work:
        try:
            made = Making(folder, target, call, shows).make(work)
            shows.begin(f"put into {database}")
            with locked(place):
                if holder_of(database) is not None:
                    raise BadCall(f"{database}: a server has it")
                sent = publish_into(program, database, made)
                digests.keep(database)
            shows.end(f"{os.path.getsize(database)} bytes")
        except Refused as fault:
            for line in str(fault).splitlines():
                shows.warn(line)
            return 1
    lines = [f"{database}: {line}" for line in counted(made, sent, target)]
    for line in [as_json(made, sent, target)] if call.json else [*lines, *documents(made)]:
        print(printed(line))
    for line in () if call.json else table(made.left_out):
        print(printed(line))
    return 0


def run_publish(call: PublishCall) -> int:
    """Goes from the checkout to the server; answers 1 where that refuses what was made, or
    would."""
    if call.database is not None:
        return publish_to_file(call, os.path.abspath(call.database))
    url, project, folder = target_of(*url_in([*call.words]))
    servers = servers_in(call.servers, folder)
    target = target_at(url, project, servers, call.servers_that_join, call.set)
    with Shown(TOOL, True) as shows:
        making, sent, settings = Making(folder, target, call, shows), None, ""
        there = there_at(target) if call.dry_run else None
        call.is_alone = there is not None and bool(there.fault)
        if there is None:
            target.reach()
        try:
            with work_folder(call.keep) as work:
                made = making.make(work)
                if call.write_settings:
                    settings = settings_of(url, target, made, call.overwrite)
                sent = send(made, target, shows) if there is None else None
        except Refused as fault:
            for line in str(fault).splitlines():
                shows.warn(line)
            return 1
    if sent is not None:
        say(call, made, sent, target, settings)
    for line in not_uploaded(made, target, there) if there and not call.json else ():
        print(printed(line))
    for line in [as_json(made, sent, target, there)] if call.json else table(made.left_out):
        print(printed(line))
    return 2 if sent is not None and sent.away else 0


PUBLISH = Command(
    "publish",
    "From a checkout to answers by one call: indexes FOLDER, prepares the dump, has ctags make its "
    "tags, checks both, and uploads them. Each stage is a line on the standard error, and on a "
    "terminal a bar where Debian's python3-tqdm is there. Nothing is uploaded before all is made and "
    "checked. What was uploaded is printed, and then what was left out, and why. A dump that is too "
    "large for one project becomes a set of parts, which is asked by PROJECT too; `NAME@BRANCH` is "
    "one beside that of NAME. With several servers it's always a set, which goes to its home, and its "
    "surface to the others.",
    PublishCall,
    add_publish,
    run_publish,
    epilog=f"known indexers, and how each is called in FOLDER:\n\n{KNOWN}\n\n"
    "status: 0 where all was uploaded; 1 where the server refuses it or would; 2 where something can't be carried out",
    usage=f"%(prog)s [-h] [OPTION..] {FORM}",
    is_mixed=True,
)
