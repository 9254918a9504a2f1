"""The symbols of texts by ctags; none where it isn't installed. It gets each text as a file of the name that
the document has, since that says the language."""

import json
import os
import subprocess
import tempfile
import threading
from typing import Any, Iterator, NamedTuple, Optional

CTAGS = "ctags"
WORDS = ("--options=NONE", "--output-format=json", "--fields=+neKsSlE", "--sort=no", "-f", "-")
MOST_BYTES = 64 << 20
"""Of what it prints, which is cut there."""
SECONDS = 60.0
MOST_NAME = 200


class Entry(NamedTuple):
    """A symbol as ctags has it: its name, the names of its kind and its language, its line and its
    last one, if that's known, from 0; the names and the kind of what it's in; and how it's called.
    """

    name: str
    kind: str
    line: int
    language: str = ""
    last: Optional[int] = None
    scope: str = ""
    scope_kind: str = ""
    detail: str = ""


def tagged(texts: dict[str, str]) -> dict[str, list[Entry]]:
    """The symbols of texts by the names of their documents, in the order of ctags; none of those
    that it knows nothing of."""
    found: dict[str, list[Entry]] = {name: [] for name in texts}
    with tempfile.TemporaryDirectory() as folder:
        names = dict(enumerate(texts))
        paths = []
        for number, name in names.items():
            paths.append(os.path.join(str(number), file_name(name)))
            os.mkdir(os.path.join(folder, str(number)))
            with open(os.path.join(folder, paths[-1]), "wb") as file:
                file.write(texts[name].encode("utf-8", "replace"))
        for line in printed(folder, paths):
            number = line["path"].partition("/")[0]
            found[names[int(number)]].append(read(line))
    return found


def file_name(name: str) -> str:
    """The name that the file of a document gets: its own, or one with the same ending."""
    own = os.path.basename(name)
    if own.isascii() and own.isprintable() and 0 < len(own) < MOST_NAME:
        return own
    ending = os.path.splitext(own)[1]
    return f"text{ending if ending[1:].isalnum() and ending.isascii() else ''}"


def printed(folder: str, paths: list[str]) -> Iterator[dict[str, Any]]:
    """What ctags prints of files, line by line; what it can't be started for is nothing."""
    if not paths:
        return
    try:
        run = subprocess.Popen(
            [CTAGS, *WORDS, *paths],
            cwd=folder,
            stdin=subprocess.DEVNULL,
            stdout=subprocess.PIPE,
            stderr=subprocess.DEVNULL,
            env={**os.environ, "LC_ALL": "C"},
        )
    except OSError:
        return
    with run:
        timer = threading.Timer(SECONDS, run.kill)
        timer.start()
        body = run.stdout.read(MOST_BYTES) if run.stdout else b""
        timer.cancel()
        run.kill()
    for line in body.splitlines():
        if line.endswith(b"}"):
            one = json.loads(line)
            if one["_type"] == "tag" and one["name"].strip() and "line" in one:
                yield one


def read(line: dict[str, Any]) -> Entry:
    """A symbol of what ctags prints."""
    return Entry(
        line["name"],
        line["kind"],
        max(line["line"] - 1, 0),
        line.get("language", ""),
        line["end"] - 1 if "end" in line else None,
        line.get("scope", ""),
        line.get("scopeKind", ""),
        line.get("signature", ""),
    )
