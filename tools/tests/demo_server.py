"""A real server with the dumps of both demo crates and the tags of one, for the scripts that are
run by hand."""

import os
import sys
import tempfile
from contextlib import contextmanager
from typing import Iterator

from codenav.cli.try_it import TAGS, run
from codenav.faults import Failed
from codenav.program import Program, build

REQUESTS = 10_000
PROJECTS = {"temperature": "demo/crate.raw.lsif", "kettle": "demo/user.raw.lsif"}
MAP = ["--map", "file:///src/tr=demo", "--tags", "temperature=demo/crate"]


def succeed(words: list[str]) -> None:
    """Makes a call that must end with status 0."""
    if run(words)[1] != 0:
        raise Failed(f"codenav {words[0]} failed")


@contextmanager
def demo_server(program: str) -> Iterator[str]:
    """The address of a server that has both dumps and the tags; it ends with the context."""
    with tempfile.TemporaryDirectory() as folder, Program(program).serve(
        requests=REQUESTS
    ) as server:
        url = server.url
        for project, raw in PROJECTS.items():
            dump = os.path.join(folder, "prepared.lsif")
            succeed(["prepare", raw, dump])
            succeed(["upload", url, project, dump])
        succeed(["upload", url, "temperature", TAGS])
        yield url


def program_of(words: list[str]) -> str:
    """The built program that the command line names; without it the one of this clone, which is
    built first where it isn't yet."""
    if len(words) > 1:
        sys.exit("usage: [PROGRAM]")
    if words:
        return os.path.abspath(words[0])
    build()
    return Program.needed().path
