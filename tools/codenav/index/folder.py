"""Makes a dump of a folder by what answers of its languages where no indexer is."""

import os
import tempfile
from contextlib import nullcontext
from dataclasses import dataclass, field
from itertools import takewhile
from typing import BinaryIO, Optional, Sequence

from codenav import VERSION
from codenav.dumps.dump import opened_dump
from codenav.dumps.lsif.reading import Source
from codenav.dumps.prepare.plan import Options
from codenav.dumps.prepare.prepare import prepare
from codenav.faults import BadCall
from codenav.files import whole_file
from codenav.index.answers import Answers, Place
from codenav.index.building import above
from codenav.index.documents import Lines, documents_in
from codenav.index.given import Document, Given, Limits
from codenav.index.grouped import Grouped
from codenav.index.kept import Kept, Written, read
from codenav.index.languages import LANGUAGES, Language, Pass, Way, installed, is_header
from codenav.index.monikers import Monikers, Packages
from codenav.index.packages import Package, told, usual
from codenav.index.server import Server
from codenav.index.written import DumpWriter
from codenav.outcome import Note, Notes, Outcome
from codenav.progress import Shows
from codenav.texts.places import path_of, uri_of

TO_MIND = "to mind"
"""The kind of notes on what may be answered otherwise than is meant."""


@dataclass(slots=True)
class How:
    """How a folder is indexed: by the server that a line calls in place of the known one, as that
    package in place of its manifest's; `on_server` are the names of packages that the code navigation
    server has. A file keeps what was answered, so that only what changed is asked of the servers the
    next time."""

    server: Optional[str] = None
    package: Optional[str] = None
    state: Optional[str] = None
    on_server: list[str] = field(default_factory=list)
    limits: Limits = Limits()


class NoLanguage(BadCall):
    """A folder without a file of a known language."""


class NoAnswers(BadCall):
    """A folder of whose words none leads anywhere, so that there's no index of it."""


def ways_of(
    folder: str, documents: dict[str, list[Document]], line: Optional[str], notes: Notes
) -> list[tuple[Language, Way]]:
    """The languages, and what answers of each; one of which nothing that answers is installed is left
    out. Raises NoLanguage, or BadCall where that's all."""
    if not documents:
        raise NoLanguage(f"{folder}: no file of a language that is known here")
    if line is not None and len(documents) > 1:
        raise BadCall(f"--server is asked of one language, and here are {' and '.join(documents)}")
    found, faults = list[tuple[Language, Way]](), list[BadCall]()
    for language in LANGUAGES:
        if language.name in documents:
            try:
                found.append((language, installed(language, line)))
            except BadCall as fault:
                faults.append(fault)
                notes.leave_out(str(fault), folder)
    if not found:
        raise faults[0]
    return found


def own_packages(
    folder: str, languages: Sequence[Language], given: Optional[str]
) -> dict[str, Optional[Package]]:
    """The package that a folder is of for each language: by its manifest, or the one that is given
    for those with its manager, which are all where there's none."""
    own = {one.name: one.package_of(folder) for one in languages}
    if given is not None:
        package = told(given)
        of_it = [one.name for one in languages if one.manager == package.manager]
        own |= dict.fromkeys(of_it or own, package)
    return own


class Indexing:
    """A folder on the way to its dump."""

    def __init__(self, folder: str, how: How, shows: Shows) -> None:
        """Raises BadCall where there's no folder, no language, or nothing that answers of one."""
        if not os.path.isdir(folder):
            raise BadCall(f"{folder}: no folder")
        self.folder, self.how, self.shows = os.path.realpath(folder), how, shows
        self.notes, self.found, self.minds = Notes(), Answers(), list[Note]()
        self.documents = documents_in(self.folder, self.notes)
        self.ways = ways_of(self.folder, self.documents, how.server, self.notes)
        languages = [language for language, _ in self.ways]
        self.own = own_packages(self.folder, languages, how.package)
        own = [one for many in self.documents.values() for one in many]
        self.uris, self.lines = {one.uri for one in own}, Lines(own)
        self.before, self.after = {} if how.state is None else read(how.state), dict[str, Kept]()

    def mind(self, text: str) -> None:
        """Notes what may be answered otherwise than is meant."""
        self.minds.append(Note(TO_MIND, text))

    def write(self, path: str, work: str, state: Optional[BinaryIO] = None) -> Outcome:
        """Asks all, and writes the dump, and what is kept of it; what is made on the way stays in a
        folder. Raises NoAnswers."""
        on_server = [*self.how.on_server, *map(usual, self.how.on_server)]
        packages = Packages(self.folder, self.own, on_server)
        packages.known = self.found.packages
        for language, way in self.ways:
            try:
                found = self.answers(language, way, self.given(language, work), packages)
            except BadCall as fault:
                if len(self.ways) == 1:
                    raise
                self.notes.leave_out(f"{language.name}: {fault}", self.folder)
                continue
            if found.words and not found.leads:
                self.notes.leave_out("a language of whose words none leads anywhere", language.name)
            self.found.add(found)
        if not self.found.leads:
            whys = [str(note) for note in self.notes.all()]
            of = f"{self.folder}: of {len(self.found.words)} words none leads anywhere"
            raise NoAnswers("; ".join([of, *whys]))
        grouped = Grouped(self.found)
        monikers = Monikers(packages, self.found, self.lines, self.notes)
        with whole_file(path) as out:
            writer = DumpWriter(out, grouped, monikers, self.notes)
            writer.write(uri_of(self.folder, []), sorted(self.uris), VERSION)
        if state is not None:
            kept = Written(state)
            for name, one in self.after.items():
                kept.write(name, one)
        self.mind_copies(grouped.symbols)
        for name, own in self.own.items():
            if own is None:
                self.mind(
                    f"no package with its version is known of {name} (--package of `codenav index`), so other projects don't lead here"
                )
        files, words = len(self.uris), len(self.found.words)
        said = f"{files} files, {words} words, {self.found.empty} of them without a definition"
        return Outcome(said, {}, (*self.minds, *self.notes.all()))

    def answers(self, language: Language, way: Way, given: Given, packages: Packages) -> Answers:
        """What is answered of a language. Raises BadCall."""
        before = self.before.get(language.name, Kept())
        if isinstance(way, Pass):
            found, self.after[language.name] = way.answers(given, before)
            return found
        server = Server(language, way, given, packages, self.lines, before)
        found = server.answers()
        self.after[language.name] = server.after
        return found

    def given(self, language: Language, work: str) -> Given:
        """What is given of a language's documents."""
        folders = {self.folder, *(above(self.folder) if language.building.names else ())}
        for one in self.documents[language.name]:
            own = takewhile(lambda at: at not in folders, above(path_of(one.uri, []) or ""))
            folders.update(own)
        manifests = [os.path.join(at, name) for at in folders for name in language.manifests]
        if manifests and not any(map(os.path.exists, manifests)):
            self.mind(language.without)
        how = self.how
        return Given(
            self.folder,
            self.own[language.name],
            self.documents[language.name],
            how.on_server,
            how.limits,
            tempfile.mkdtemp(dir=work),
            self.notes,
            self.mind,
            self.shows,
        )

    def mind_copies(self, symbols: Sequence[Place]) -> None:
        """Says which headers of the folder may be answered from an installed copy."""
        names = {os.path.basename(uri): uri for uri in sorted(self.uris) if is_header(uri)}
        for uri in sorted({symbol.uri for symbol in symbols} - self.uris):
            own = names.get(os.path.basename(uri))
            if own:
                self.mind(f"{path_of(uri, [])} is led to, and {path_of(own, [])} has its name")


def index(folder: str, out: str, how: How, shows: Shows) -> Outcome:
    """Writes the dump of a folder, prepared for the server, into a file. Raises BadCall."""
    if how.state is not None and os.path.realpath(how.state) == os.path.realpath(out):
        raise BadCall(f"{out}: it's named for the dump and for --state")
    with (
        tempfile.TemporaryDirectory(prefix="codenav-index-", ignore_cleanup_errors=True) as work,
        whole_file(out) as file,
        nullcontext() if how.state is None else whole_file(how.state) as state,
    ):
        raw = os.path.join(work, "raw.lsif")
        said = Indexing(folder, how, shows).write(raw, work, state)
        with opened_dump(raw) as source:
            assert isinstance(source, Source)
            made = prepare(source, file, Options(strip=True, profile="2"), shows)
    return Outcome(said.said, made.counts, (*said.notes, *made.notes), made.over)
