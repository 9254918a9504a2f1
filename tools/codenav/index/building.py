"""What says how a folder's files are built: a server's answers hold as long as that is the same."""

import json
import os
import re
import shlex
from contextlib import suppress
from typing import Iterable, Iterator, NamedTuple

from codenav.index.packages import said, text_in

DATABASES, FLAGS = ("compile_commands.json", "build/compile_commands.json"), "compile_flags.txt"
"""What says in a folder how the files below it are compiled."""
DATABASE_AT = re.compile(r"\bCompilationDatabase\s*:\s*[\"']?([^\"'\n#,}]+)")
"""Where a `.clangd` has such a one looked for."""
RESPONSE = re.compile(r"(?:^|\s)[\"']?@([^\s\"']+)")
"""A file with further words of a command."""
INCLUDED = re.compile(r"-(?:include|imacros)[\s\"',=]*([^\s\"',]+)")
"""A file that each file includes by a word of its command."""


class Building(NamedTuple):
    """What says to servers how files of a language are built: files with these names in the folder of
    a file or one above; files of the user, each by the variable that names its folder, by the usual
    one, and by its path there; variables whose names begin so; and what programs print."""

    names: tuple[str, ...] = ()
    of_user: tuple[tuple[str, str, str], ...] = ()
    variables: tuple[str, ...] = ()
    lines: tuple[tuple[str, ...], ...] = ()

    def files(self, folder: str, paths: Iterable[str], line: str) -> list[str]:
        """The files that say it of files of a folder to a server that a line calls."""
        folders = {folder, *above(folder)}
        for path in paths:
            for one in above(path):
                if one in folders:
                    break
                folders.add(one)
        user = [
            os.path.join(os.environ.get(variable) or os.path.expanduser(usual), name)
            for variable, usual, name in self.of_user
        ]
        told = [os.path.join(folder, word.rpartition("=")[2]) for word in shlex.split(line)]
        folders.update(filter(os.path.isdir, told))
        found = dict[str, None]()
        rest = [os.path.join(one, name) for one in sorted(folders) for name in self.names] + user
        while rest:
            path = rest.pop()
            if path not in found and os.path.isfile(path):
                found[path] = None
                rest += named_in(path)
        return sorted(found)

    def around(self, folder: str) -> list[str]:
        """What the variables and the programs say in a folder."""
        variables = [
            f"{name}={text}"
            for name, text in sorted(os.environ.items())
            if name.startswith(self.variables)
        ]
        return [*variables, *(said(*line, cwd=folder) for line in self.lines)]


def above(path: str) -> Iterator[str]:
    """The folders above a path, the nearest first."""
    folder, below = os.path.split(path)
    while below:
        yield folder
        folder, below = os.path.split(folder)


def named_in(path: str) -> list[str]:
    """The files that such a file names: databases elsewhere, and files of further words."""
    folder, name = os.path.split(path)
    text = text_in(folder, name)
    if name in (DATABASES[0], FLAGS):
        further = responses(folder, text) if name != FLAGS and "@" in text else set()
        return sorted(further | {os.path.join(folder, one) for one in INCLUDED.findall(text)})
    if name not in (".clangd", "config.yaml"):
        return []
    places = [os.path.join(folder, at.strip()) for at in DATABASE_AT.findall(text)]
    return [os.path.join(at, one) for at in places for one in (*DATABASES, FLAGS)]


def responses(folder: str, text: str) -> set[str]:
    """The files with further words that the commands of a database name, also in such files."""
    rest = set[tuple[str, str]]()
    with suppress(ValueError, TypeError, KeyError, AttributeError):
        for entry in json.loads(text):
            command = " ".join(entry.get("arguments") or [entry.get("command") or ""])
            at = os.path.join(folder, entry["directory"])
            rest.update((at, name) for name in RESPONSE.findall(command))
    found = set[str]()
    while rest:
        at, name = rest.pop()
        path = os.path.normpath(os.path.join(at, name))
        if path not in found:
            found.add(path)
            rest.update((at, one) for one in RESPONSE.findall(text_in("", path)))
    return found
