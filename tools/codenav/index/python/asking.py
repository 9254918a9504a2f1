"""Asks the process that answers of files of Python."""

import json
import os
from typing import Any, Iterable

from codenav.faults import BadCall
from codenav.index.answers import WHOLE, Answers, Place
from codenav.index.asked import FORMLESS
from codenav.index.given import Given
from codenav.index.indexers import tail_of
from codenav.index.kept import Kept, Known, Said, digest_of_file, key_of
from codenav.index.languages import ServerKind
from codenav.index.looks import looks_of
from codenav.index.packages import Package, said as printed
from codenav.index.python.again import asked_again
from codenav.index.python.answers import MODULE
from codenav.index.python.line import LINE, MAIN, PYTHON
from codenav.index.python.touched import ENDINGS
from codenav.index.questions import Question
from codenav.index.team import Team
from codenav.texts.places import path_of, uri_of

LACKING = "{} isn't installed (Debian's python3-{}): what needs it is without a definition"


def place(found: list[Any]) -> Place:
    """A place as it's answered."""
    uri, *numbers = found
    return Place(str(uri), *map(int, numbers))


def module_of(path: str) -> str:
    """The module of a file by its path below the folder it's imported from; stubs are of the module
    itself."""
    parts = os.path.splitext(path)[0].split("/")
    parts[0] = parts[0].removesuffix("-stubs")
    return ".".join(parts[:-1] if parts[-1] == "__init__" else parts)


class Asking:
    """Asks of files what isn't kept, and takes what is answered."""

    def __init__(self, given: Given, kept: Kept) -> None:
        self.given, self.found = given, Answers()
        self.uris = sorted(one.uri for one in given.documents)
        self.modules = dict[str, tuple[Package, str]]()
        self.copies = dict[str, str]()
        self.digests = {uri: digest_of_file(path_of(uri, []) or "") for uri in self.uris}
        packages = [uri for uri in self.uris if uri.endswith("/__init__.py")]
        paths = printed(PYTHON, "-B", MAIN, "paths", cwd=given.folder)
        key = key_of(given.folder, PYTHON, (), paths, packages)
        is_same = kept.key == key and self.looks(kept.outside) == kept.outside
        self.before, self.after = kept if is_same else Kept(key), Kept(key)
        self.again = asked_again(given.folder, self.before.said, self.digests)
        for uri in self.uris:
            own = self.before.said.get(uri) if uri not in self.again else None
            self.after.said[uri] = own or Said(self.digests[uri])
        self.after.minds, self.around = self.before.minds, set(self.before.outside)

    def looks(self, uris: Iterable[str]) -> dict[str, Known]:
        """What is known of files and folders that answers were found by."""
        return looks_of(self.given.folder, uris, self.digests, ENDINGS)

    def documents(self, talk: Team) -> None:
        """Asks of documents. What isn't answered is noted."""
        shows = self.given.shows
        lacking = talk.first.offers.get("lacking") or ()
        self.after.minds = [LACKING.format(library, library) for library in lacking]
        asked = {uri: {"textDocument": {"uri": uri}} for uri in sorted(self.again)}
        questions = (Question(uri, "codenav/answers", params) for uri, params in asked.items())
        shows.begin("definitions", len(asked), "")
        for count, (uri, result, fault) in enumerate(talk.answers(questions), 1):
            shows.at(count)
            if fault:
                self.leave_out(uri, f"a file of Python: {fault}")
                continue
            try:
                own, touched = self.after.said[uri], result.pop("touched")
                own.read = [uri_of(path, []) for path in touched["read"]]
                own.names = list(map(str, touched["names"]))
                self.around |= {uri_of(path, []) for path in (*touched["around"], *touched["read"])}
                own.digest = "" if result["is_passing"] else own.digest
                own.body = json.dumps(result, separators=(",", ":")).encode()
            except FORMLESS:
                self.leave_out(uri, "an answer without its form")
        shows.end(f"{len(asked)} files")
        if talk.restarts:
            self.given.mind(f"what answers of Python was started again, {talk.restarts} times")

    def take_all(self) -> None:
        """Takes what is answered of all documents, one after the other as they're sorted."""
        for mind in self.after.minds:
            self.given.mind(mind)
        for uri, own in self.after.said.items():
            if not own.body:
                continue
            try:
                result = json.loads(own.body)
                if "left" in result:
                    why, more = result["left"]
                    self.leave_out(uri, f"a file of Python: {why}", more)
                else:
                    self.take(uri, result)
            except FORMLESS:
                own.body = b""
                self.leave_out(uri, "an answer without its form")
        self.mind_copies()
        self.after.outside = self.looks(self.around)

    def leave_out(self, uri: str, what: str, more: str = "") -> None:
        """Notes that a document isn't answered."""
        where = ", ".join(filter(None, [path_of(uri, []) or uri, more]))
        self.given.notes.leave_out(what, where)

    def take(self, uri: str, result: Any) -> None:
        """Takes what is answered of a document."""
        found, symbols = self.found, [place(own["at"]) for own in result["symbols"]]
        for home, said in result["homes"].items():
            if said:
                self.take_home(home, *said)
        for line, start, end, numbers in result["words"]:
            word = Place(uri, line, start, line, end)
            found.words[word.at] = word
            found.empty += not numbers
            if numbers:
                found.leads[word] = [symbols[number] for number in numbers]
        for symbol, own in zip(symbols, result["symbols"]):
            self.take_symbol(symbol, own)
            if own["kind"] == MODULE and symbol.uri == uri:
                found.leads[symbol] = [symbol]
        for line, start, end, text in result["faults"]:
            where = str(Place(uri, line, start, line, end))
            self.given.notes.leave_out(f"inferred: {text}", where)

    def take_home(self, uri: str, name: str, version: str, below: str) -> None:
        """Takes the package of a document, and its path below the folder it's imported from."""
        package = self.given.own if uri in self.uris else None
        if name:
            package = self.found.packages[uri] = Package("pip", name, version)
        if package is not None and package.manager == "pip":
            self.modules[uri] = package, module_of(below)
        if uri not in self.uris:
            self.copies[uri] = below

    def take_symbol(self, symbol: Place, own: Any) -> None:
        """Takes what is known of a symbol."""
        found = self.found
        if own["around"] is not None and symbol.uri in self.modules:
            package, module = self.modules[symbol.uri]
            names = [module, *own["around"], own["name"]]
            at = symbol.at if symbol.line == symbol.end_line else (symbol.uri, WHOLE, 0)
            found.identifiers[at] = package, ".".join(filter(None, names))
        if own["text"]:
            found.hovers[symbol] = {"kind": "plaintext", "value": own["text"]}
        for kind, kept in (("more", found.further), ("declared", found.declared)):
            if own.get(kind):
                kept[symbol] = [place(one) for one in own[kind]]
        for base in own.get("over", ()):
            over = found.implementations.setdefault(place(base), [])
            if symbol not in over:
                over.append(symbol)

    def mind_copies(self) -> None:
        """Says which files of the folder may be answered from an installed copy."""
        tails = dict[str, str]()
        for uri in self.uris:
            path = path_of(uri, []) or ""
            parts = os.path.relpath(path, self.given.folder).split("/")
            tails |= {"/".join(parts[number:]): path for number in range(len(parts))}
        for uri, below in sorted(self.copies.items()):
            if below in tails:
                self.given.mind(f"{path_of(uri, [])} is led to, and {tails[below]} has its name")


def answers(given: Given, kept: Kept) -> tuple[Answers, Kept]:
    """What is answered of a folder's files, with what is kept of it. Raises BadCall where the process
    doesn't start."""
    log, asking = os.path.join(given.work, "python.log"), Asking(given, kept)
    if asking.again:
        try:
            with (
                open(log, "wb") as out,
                Team(ServerKind(LINE), given, {"kept": given.work}, out) as talk,
            ):
                asking.documents(talk)
        except BadCall as fault:
            raise BadCall(": ".join(filter(None, [str(fault), tail_of(log)]))) from None
    asking.take_all()
    return asking.found, asking.after
