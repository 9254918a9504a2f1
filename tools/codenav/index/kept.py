"""What servers answered of a folder before, in a file beside its dump."""

import hashlib
import json
import os
from dataclasses import dataclass, field
from typing import Any, BinaryIO, Iterable, Iterator, Optional

from codenav import VERSION
from codenav.faults import BadCall
from codenav.index.answers import Answers, At, Name, Place
from codenav.index.packages import text_in
from codenav.texts.decoded import body_of
from codenav.texts.places import path_of

FORM = f"codenav index {VERSION}, 3"


@dataclass(slots=True)
class Known:
    """What was answered of a document: the digest of its text, its words and where they lead, the names
    that it declares, the errors that the server found in it, the digest of what others hold by, whether
    its words were answered, of which of them it wasn't where they lead, and the files that it includes.
    """

    digest: str
    words: list[Place] = field(default_factory=list)
    leads: dict[Place, list[Place]] = field(default_factory=dict)
    names: dict[At, Name] = field(default_factory=dict)
    errors: list[str] = field(default_factory=list)
    surface: str = ""
    is_whole: bool = True
    missing: list[Place] = field(default_factory=list)
    includes: list[str] = field(default_factory=list)


@dataclass(slots=True)
class Asked:
    """What was answered of a symbol, and the word that it was asked at."""

    word: Place
    hover: Optional[Any] = None
    implementations: list[Place] = field(default_factory=list)


@dataclass(slots=True)
class Said:
    """What a pass answered of a document, as JSON, which is empty where it's to be asked again: by the
    digest of its file, the addresses of the files that it read for that, and the names of those
    that it looked for."""

    digest: str
    read: list[str] = field(default_factory=list)
    names: list[str] = field(default_factory=list)
    body: bytes = b""


@dataclass(slots=True)
class Kept:
    """What was answered, which holds as long as its key is the same: of documents of the folder, of
    those outside by the stamps of their files, and of symbols; what a pass said of documents, and what
    is to be minded of it."""

    key: str = ""
    documents: dict[str, Known] = field(default_factory=dict)
    outside: dict[str, Known] = field(default_factory=dict)
    symbols: dict[Place, Asked] = field(default_factory=dict)
    said: dict[str, Said] = field(default_factory=dict)
    minds: list[str] = field(default_factory=list)

    def add_to(self, found: Answers, uris: Iterable[str]) -> None:
        """Adds to answers what is known of documents."""
        for uri in uris:
            known = self.documents[uri]
            found.words |= {word.at: word for word in known.words}
            found.leads |= known.leads
            found.names |= known.names
            found.empty += len(known.words) - len(known.leads)


def digest_of(text: str) -> str:
    """The digest of a text."""
    return hashlib.sha256(text.encode("utf-8", "surrogatepass")).hexdigest()


def digest_of_file(path: str) -> str:
    """The digest of a file's bytes; empty where it can't be read."""
    try:
        return hashlib.sha256(body_of(path)).hexdigest()
    except BadCall:
        return ""


def stamp_of(path: Optional[str]) -> str:
    """What is known of a file without reading it; empty where it isn't there."""
    try:
        found = os.stat(path or "")
    except OSError:
        return ""
    return f"{found.st_mtime_ns} {found.st_size}"


def key_of(folder: str, program: str, manifests: Iterable[str], *more: Any) -> str:
    """By what answers hold: the program, the manifests, and how it's asked."""
    texts = [(name, text_in(folder, name)) for name in manifests]
    path = os.path.realpath(program)
    return digest_of(json.dumps([FORM, path, stamp_of(path), texts, more]))


class Written:
    """A file of what is kept, on the way: an address is written once, and then has a number."""

    def __init__(self, out: BinaryIO) -> None:
        self.out, self.uris = out, dict[str, int]()
        self.line("form", FORM)

    def line(self, *parts: Any) -> None:
        """Writes a line."""
        self.out.write(json.dumps(parts, separators=(",", ":")).encode() + b"\n")

    def uri(self, uri: str) -> int:
        """An address by its number."""
        if uri not in self.uris:
            self.uris[uri] = len(self.uris)
            self.line("uri", uri)
        return self.uris[uri]

    def place(self, place: Place) -> list[int]:
        """A place by its numbers."""
        return [self.uri(place.uri), *place[1:]]

    def write(self, language: str, kept: Kept) -> None:
        """Writes what is kept of a language."""
        self.line("language", language, kept.key)
        for kind, documents in ("document", kept.documents), ("outside", kept.outside):
            for uri, one in documents.items():
                words = [word[1:] for word in one.words]
                leads = [
                    [list(word[1:]), [self.place(to) for to in places]]
                    for word, places in one.leads.items()
                ]
                names = [[*at[1:], *name] for at, name in one.names.items()]
                missing = [word[1:] for word in one.missing]
                included = list(map(self.uri, one.includes))
                more = one.errors, one.surface, one.is_whole, missing, included
                self.line(kind, uri, one.digest, words, leads, names, *more)
        for symbol, asked in kept.symbols.items():
            places = [self.place(to) for to in asked.implementations]
            own, word = self.place(symbol), self.place(asked.word)
            self.line("symbol", own, word, asked.hover, places)
        self.line("minds", *kept.minds)
        for uri, said in kept.said.items():
            self.line("said", uri, said.digest, list(map(self.uri, said.read)), said.names)
            self.out.write(said.body + b"\n")


def read(path: str) -> dict[str, Kept]:
    """What a file has, by the names of languages; nothing where there's none, or one of another form.
    Raises BadCall where it's no such file."""
    if not path:
        raise BadCall("--state '': no file is named")
    try:
        with open(path, "rb") as file:
            return dict(lines_of(file))
    except FileNotFoundError:
        return {}
    except OSError as fault:
        raise BadCall(f"{path}: {fault.strerror}") from None
    except (ValueError, TypeError, LookupError, RecursionError):
        raise BadCall(f"{path}: it's no file of what is kept") from None


def lines_of(file: BinaryIO) -> Iterator[tuple[str, Kept]]:
    """What a file has, language by language."""
    uris, kept, language = list[str](), Kept(), ""

    def place(numbers: list[int]) -> Place:
        return Place(uris[numbers[0]], *numbers[1:])

    for number, line in enumerate(file):
        kind, *parts = json.loads(line)
        if number == 0 and (kind != "form" or parts != [FORM]):
            if kind != "form":
                raise ValueError
            return
        if kind == "uri":
            uris += parts
        elif kind == "language":
            if language:
                yield language, kept
            language, kept = parts[0], Kept(parts[1])
        elif kind == "symbol":
            own, word, hover, places = parts
            kept.symbols[place(own)] = Asked(place(word), hover, list(map(place, places)))
        elif kind == "minds":
            kept.minds = parts
        elif kind == "said":
            uri, digest, read_for, names = parts
            body = next(file, b"").removesuffix(b"\n")
            kept.said[uri] = Said(digest, [uris[number] for number in read_for], names, body)
        elif kind != "form":
            uri, digest, words, leads, names, errors, surface, is_whole, missing, included = parts
            documents = kept.documents if kind == "document" else kept.outside
            documents[uri] = Known(
                digest,
                [Place(uri, *word) for word in words],
                {Place(uri, *word): list(map(place, places)) for word, places in leads},
                {
                    (uri, at, start): Name(tuple(around), name, number, (size[0], size[1]), *more)
                    for at, start, around, name, number, size, *more in names
                },
                errors,
                surface,
                is_whole,
                [Place(uri, *word) for word in missing],
                [uris[number] for number in included],
            )
    if language:
        yield language, kept


def outside_of(uris: Iterable[str], found: Answers) -> dict[str, Known]:
    """What is kept of documents outside."""
    known = {uri: Known(stamp_of(path_of(uri, []))) for uri in uris}
    for at, name in found.names.items():
        if at[0] in known:
            known[at[0]].names[at] = name
    return known
