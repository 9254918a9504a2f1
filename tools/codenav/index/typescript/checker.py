"""What the compiler's checker finds of a folder of TypeScript and JavaScript, which a program of node
beside this prints."""

import json
import os
import shlex
import shutil
import signal
import threading
from collections import defaultdict
from contextlib import suppress
from typing import Any, Iterable, Iterator

from codenav.faults import BadCall
from codenav.index.answers import Answers, Place
from codenav.index.given import Given
from codenav.index.indexers import begun, tail_of
from codenav.index.kept import Kept, Said, digest_of_file, key_of, stamp_of
from codenav.index.looks import THERE, looks_of
from codenav.index.packages import Package
from codenav.texts.places import path_of, uri_of

PROGRAM = os.path.join(os.path.dirname(os.path.abspath(__file__)), "checker.js")
STAGE = "asked the compiler's checker"
ENDINGS = (".ts", ".tsx", ".mts", ".cts", ".js", ".jsx", ".mjs", ".cjs", ".json")
WHOLE, SEPARATOR = "", b"\t"
"""The name of all that was said, and what is between the lines of that: no JSON on one line has it."""


def compiler() -> str:
    """The compiler's library, which is beside the `tsc` on the path; empty where there's none."""
    own = shutil.which("tsc")
    if own is None:
        return ""
    top = os.path.dirname(os.path.dirname(os.path.realpath(own)))
    path = os.path.join(top, "lib", "typescript.js")
    return path if os.path.isfile(path) else ""


def lacks() -> str:
    """What of it isn't installed; empty where all is."""
    return "" if shutil.which("node") and compiler() else "the compiler of node-typescript"


def printed(given: Given) -> Iterator[bytes]:
    """What the program prints, line by line. Raises BadCall where it doesn't come to its end."""
    own = given.own and {"name": given.own.name, "version": given.own.version}
    files = [path_of(one.uri, []) for one in given.documents]
    asked, log = (os.path.join(given.work, name) for name in ("given.json", "node.log"))
    with open(asked, "w", encoding="utf-8") as out:
        json.dump({"root": given.folder, "own": own, "files": files}, out)
    most = f"--max-old-space-size={given.limits.megabytes}"
    line, late = shlex.join(["node", most, PROGRAM, compiler(), asked]), threading.Event()
    with open(log, "wb") as said, begun(line, given.work, stdout=-1, stderr=said) as run:

        def end() -> None:
            late.set()
            with suppress(ProcessLookupError):
                os.killpg(run.pid, signal.SIGKILL)

        timer = threading.Timer(given.limits.seconds, end)
        timer.start()
        try:
            assert run.stdout is not None
            with run.stdout:
                yield from run.stdout
            status = run.wait()
        finally:
            timer.cancel()
    if late.is_set():
        raise BadCall(f"the compiler's checker wasn't done within {given.limits.seconds:g} s")
    if status != 0:
        raise BadCall(f"the compiler's checker ended with status {status}: {tail_of(log)}")


class Checked:
    """What the checker found, on the way to answers."""

    def __init__(self, given: Given) -> None:
        self.given, self.found = given, Answers()
        self.symbols: dict[int, Place] = {}
        self.words: list[tuple[Place, list[int]]] = []
        self.over: list[tuple[int, int]] = []
        self.uris: dict[str, str] = {}
        self.texts, self.touched, self.listed = list[bytes](), list[str](), list[str]()

    def uri(self, path: str) -> str:
        """The address of a file."""
        if path not in self.uris:
            self.uris[path] = uri_of(path, [])
        return self.uris[path]

    def answers(self, lines: Iterable[bytes]) -> Answers:
        """All that it found, by what it printed. Raises BadCall."""
        given, count = self.given, 0
        given.shows.begin(STAGE, len(given.documents), "")
        for text in lines:
            try:
                one = json.loads(text)
            except ValueError:
                continue
            if "touched" in one:
                self.touched, self.listed = one["touched"], one["listed"]
                continue
            self.texts.append(text.rstrip())
            if "file" in one:
                self.take_file(one)
                count += 1
                given.shows.at(count)
            elif "symbol" in one:
                self.take_symbol(one)
            elif "document" in one:
                package = Package("npm", *one["package"])
                self.found.packages[self.uri(one["document"])] = package
            elif "mind" in one:
                given.mind(one["mind"])
            else:
                given.notes.leave_out(*one["left"])
        self.join()
        empty = self.found.empty
        given.shows.end(f"{len(self.words)} words, {empty} empty")
        return self.found

    def take_file(self, one: Any) -> None:
        """Takes a file's words, and which of its symbols implement others."""
        uri = self.uri(one["file"])
        for line, start, end, symbols in one["words"]:
            self.words.append((Place(uri, line, start, line, end), symbols))
        self.over += [(base, own) for base, own in one["over"]]

    def take_symbol(self, one: Any) -> None:
        """Takes a symbol: its places, of which the first is its own, its name, and what's said of it."""
        own, *others = [Place(self.uri(place[0]), *place[1:]) for place in one["places"]]
        self.symbols[one["symbol"]] = own
        if others:
            self.found.declared[own] = others
        if one["name"]:
            *package, name = one["name"]
            self.found.identifiers[own.at] = Package("npm", *package), name
        if one["hover"]:
            self.found.hovers[own] = {"kind": "markdown", "value": one["hover"]}

    def join(self) -> None:
        """Has words lead to the places of their symbols."""
        found, symbols = self.found, self.symbols
        for word, ids in self.words:
            found.words[word.at] = word
            if ids:
                found.leads[word] = [symbols[one] for one in ids]
        found.empty = sum(not ids for _, ids in self.words)
        over = defaultdict[Place, set[Place]](set)
        for base, own in self.over:
            over[symbols[base]].add(symbols[own])
        found.implementations = {base: sorted(own) for base, own in over.items()}


def answers(given: Given, kept: Kept) -> tuple[Answers, Kept]:
    """What the checker finds of a folder's documents, which is kept where nothing that it reads or
    looks for has changed. Raises BadCall."""
    digests = {one.uri: digest_of_file(path_of(one.uri, []) or "") for one in given.documents}
    library, node = compiler(), shutil.which("node") or ""
    key = key_of(given.folder, node, (), library, stamp_of(library), given.own, digests)
    own = kept.said.get(WHOLE)
    there = {uri for uri, look in kept.outside.items() if look.digest == THERE}
    looks = looks_of(given.folder, kept.outside, digests, ENDINGS, there)
    if own is not None and kept.key == key and looks == kept.outside:
        return Checked(given).answers(own.body.split(SEPARATOR)), kept
    checked, after = Checked(given), Kept(key)
    found = checked.answers(printed(given))
    touched, listed = (
        {uri_of(path, []) for path in paths} for paths in (checked.touched, checked.listed)
    )
    around, there = sorted(touched | listed), touched - listed
    after.outside = looks_of(given.folder, around, digests, ENDINGS, there)
    after.said[WHOLE] = Said("", body=SEPARATOR.join(checked.texts))
    return found, after
