"""A language server's answers of a folder's documents of one language, of which what hasn't changed
is kept."""

import os
import shlex
import shutil
from typing import Any, Iterable, Mapping

from codenav.faults import BadCall
from codenav.index.again import declared, declaring, includes, words_of
from codenav.index.answers import Answers, Place
from codenav.index.asked import Asking
from codenav.index.documents import Lines
from codenav.index.given import Given
from codenav.index.grouped import Grouped
from codenav.index.indexers import tail_of
from codenav.index.kept import Asked, Kept, Known, digest_of, key_of, outside_of, stamp_of
from codenav.index.languages import Language, ServerKind, language_of
from codenav.index.monikers import Packages
from codenav.index.shifted import shift, shifted_in
from codenav.index.team import Team
from codenav.texts.places import path_of


BACKSLASH = "%5C"


def told_apart(given: Given) -> tuple[Given, set[str]]:
    """What is given to a server that takes a backslash in a path for a slash, without files with such;
    and the addresses of others by which it may mean one that's included."""
    left = [one for one in given.documents if BACKSLASH in one.uri]
    included = set[str]().union(*includes(given.documents if left else ()).values())
    for one in left:
        what = "a file whose path has a backslash, which the server takes for a slash"
        given.notes.leave_out(what, path_of(one.uri, []) or "")
    own = [one for one in given.documents if BACKSLASH not in one.uri]
    return given._replace(documents=own), {
        one.uri.replace(BACKSLASH, "/")
        for one in left
        if os.path.basename(path_of(one.uri, []) or "") in included
    }


class Server:
    """A language server that is asked of documents."""

    def __init__(
        self,
        language: Language,
        kind: ServerKind,
        given: Given,
        packages: Packages,
        lines: Lines,
        kept: Kept,
    ) -> None:
        given, self.unsure = told_apart(given) if kind.is_slashed else (given, set[str]())
        self.language, self.kind, self.given = language, kind, given
        self.packages, self.lines = packages, lines
        self.documents = {one.uri: one for one in given.documents}
        self.identifiers = {one.language for one in given.documents}
        self.settings = kind.settings_of(given.folder, given.documents)
        program = shutil.which(shlex.split(kind.line)[0]) or ""
        how = kind.line, self.settings, sorted(self.identifiers), sorted(given.on_server)
        built, paths = language.building, [path_of(uri, []) or "" for uri in self.documents]
        files = built.files(given.folder, paths, kind.line)
        key = key_of(given.folder, program, files, *how, built.around(given.folder))
        self.before = kept if kept.key == key else Kept(key)
        self.after = Kept(key)
        digests = {uri: digest_of(one.text) for uri, one in self.documents.items()}
        known = self.before.documents
        self.changed = {
            uri for uri, digest in digests.items() if known.get(uri, Known("")).digest != digest
        }
        held = {uri: known[uri] for uri in digests.keys() - self.changed}
        self.missing = {word for one in held.values() for word in one.missing}
        self.faulty = {uri for uri, one in held.items() if one.errors or not one.is_whole}
        self.moved = self.changed | (known.keys() - digests.keys())
        for uri, one in self.before.outside.items():
            if one.digest != stamp_of(path_of(uri, [])):
                self.moved.add(uri)
        self.again, self.differs = set[str](), False
        self.told_of, self.is_ready = set[Place](), True
        texts = given.documents if self.changed else ()
        included = set[str]().union(*includes(texts).values())
        for uri, digest in digests.items():
            own = known[uri].surface if uri not in self.changed else ""
            if not own and os.path.basename(path_of(uri, []) or "") in included:
                own = digest
            own = own or digest_of(language.surface(self.documents[uri]))
            self.after.documents[uri] = Known(digest, surface=own)

    def answers(self) -> Answers:
        """All that it answers. Raises BadCall, with what it said itself, where it can't be asked."""
        found = Answers()
        if not self.moved and not self.faulty and not self.missing:
            self.before.add_to(found, self.documents)
            for one in self.before.outside.values():
                found.names |= one.names
            tags = Grouped(found).tags()
            if all(self.is_kept(symbol, word) for symbol, word in tags.items()):
                self.given.shows.begin(f"kept of {self.kind.line}", len(self.documents), "")
                self.given.shows.end(f"{len(self.documents)} files, none changed")
                self.keep_symbols(found, tags)
                self.keep(found, {})
                return found
        said = os.path.join(self.given.work, "server.log")
        given = self.given
        try:
            with (
                open(said, "wb") as log,
                Team(self.kind, given, self.settings, log) as talk,
            ):
                return self.ask(talk)
        except BadCall as fault:
            raise BadCall(": ".join(filter(None, [str(fault), tail_of(said)]))) from None

    def open(self, talk: Team, uris: Iterable[str]) -> None:
        """Opens documents that aren't open yet, and waits until they're read."""
        new = [uri for uri in sorted(uris) if uri not in talk.first.opened]
        if not new and talk.first.opened:
            return
        notes, shows = self.given.notes, self.given.shows
        shows.begin(f"opened by {talk.kind.line}", len(new), "")
        for uri in new:
            talk.open(*self.documents[uri])
        if not talk.settle():
            self.is_ready = False
            what = "the server wasn't ready, and was asked all the same"
            said = f", and says: {talk.first.fault}" if talk.first.fault else ""
            notes.leave_out(what, f"{self.given.folder}{said}")
        shows.end(f"{len(new)} files")

    def ask(self, talk: Team) -> Answers:
        """Asks what isn't kept."""
        self.open(talk, self.changed if self.before.documents else self.documents)
        asking = Asking(talk, self.lines, self.given.notes, self.given.shows, self.unsure)
        found = asking.found
        if self.before.documents:
            self.widen(talk, asking)
        else:
            self.again = set(self.documents)
        asking.documents(sorted(self.again))
        if self.language.has_includes:
            asking.includes(sorted(self.again))
        self.before.add_to(found, self.documents.keys() - self.again)
        found.empty -= len(self.missing)
        asking.definitions(sorted(self.missing))
        self.ask_outside(asking)
        self.ask_symbols(talk, asking)
        if talk.restarts:
            text = f"the server was started again, {talk.restarts} times: {talk.kind.line}"
            self.given.mind(text)
        for uri in self.again:
            self.after.documents[uri].errors = talk.first.errors.get(uri, [])[:1]
            self.after.documents[uri].includes = found.includes.get(uri, [])
        self.keep(found, asking.faulty)
        return found

    def widen(self, talk: Team, asking: Asking) -> None:
        """Finds which documents are asked again, and opens these and those that may define what is
        used there."""
        asking.outlines("names of what changed", sorted(self.changed))
        shifted = shifted_in(self.changed, self.before, self.after, asking.found.names)
        moved, before = self.moved - shifted.keys(), self.before.documents
        again = self.language.depends(self.before, self.given.documents, moved)
        again = (again | self.faulty) & self.documents.keys() - self.changed
        self.missing |= shift(self.before, shifted)
        self.open(talk, again)
        asking.outlines("names of what depends on that", sorted(again))
        names, self.differs = declared(asking.found.names, self.before, moved)
        same = {
            uri for uri in self.faulty if talk.first.errors.get(uri, [])[:1] == before[uri].errors
        }
        names |= declared(asking.found.names, self.before, again - same)[0]
        texts = {uri: words_of(one.text) for uri, one in self.documents.items()}
        again |= self.changed | {uri for uri, words in texts.items() if words & names}
        kept = self.documents.keys() - again
        self.missing = {word for word in self.missing if word.uri in kept}
        self.again, used = again, {word for uri in again for word in texts[uri]}
        used.update(map(self.lines.text, self.missing))
        for uri in self.moved & before.keys():
            used |= {word for name in before[uri].names.values() for word in words_of(name.name)}
        needed = set() if self.kind.reads_folder else declaring(self.before, used)
        needed |= {word.uri for word in self.missing}
        self.open(talk, again | (needed & self.documents.keys()))

    def ask_outside(self, asking: Asking) -> None:
        """Asks for the names in documents of other packages that are on the server."""
        led = {place.uri for places in asking.found.leads.values() for place in places}
        for uri in sorted(led - self.documents.keys()):
            self.after.outside[uri] = Known("")
        outside = [uri for uri in self.after.outside if self.packages.is_elsewhere(uri)]
        kept = [uri for uri in outside if uri in self.before.outside and uri not in self.moved]
        for uri in kept:
            asking.found.names |= self.before.outside[uri].names
        new = [uri for uri in outside if uri not in kept]
        for uri in new:
            known = language_of(uri)
            asking.talk.open(uri, known[1] if known else "c", "\n".join(self.lines.of(uri)))
        if new:
            asking.outlines("names outside", new)
        for uri in new:
            asking.talk.close(uri)

    def is_kept(self, symbol: Place, word: Place) -> bool:
        """Whether what is said of a symbol is known still: it was asked at the same word, in a document
        that isn't asked again."""
        before = self.before.symbols.get(symbol)
        again = self.again | self.moved
        is_same = before is not None and before.word == word and symbol not in self.told_of
        return is_same and not again & {word.uri, symbol.uri}

    def is_kept_implemented(self, symbol: Place, word: Place) -> bool:
        """Whether what implements a symbol is known still."""
        if not self.is_kept(symbol, word) or self.differs or not self.language.is_structural:
            return False
        again = self.again | self.moved
        places = self.before.symbols[symbol].implementations
        return not any(place.uri in again for place in places)

    def ask_symbols(self, talk: Team, asking: Asking) -> None:
        """Asks what isn't kept of symbols. Nothing of C implements anything."""
        tags = Grouped(asking.found).tags()
        if self.language.has_includes:
            names = self.named_in_moved(asking.found)
            self.told_of = {symbol for symbol in tags if self.lines.text(symbol) in names}
        is_plain = self.kind in self.language.ways and self.identifiers == {"c"}
        new = {symbol: word for symbol, word in tags.items() if not self.is_kept(symbol, word)}
        able = {
            symbol: word
            for symbol, word in tags.items()
            if not is_plain
            and asking.may_be_implemented(symbol)
            and not self.is_kept_implemented(symbol, word)
        }
        self.keep_symbols(asking.found, {s: w for s, w in tags.items() if s not in new})
        for symbol in able:
            asking.found.implementations.pop(symbol, None)
        self.open(talk, {word.uri for word in (*new.values(), *able.values())})
        asking.hovers(new)
        asking.implementations(able)
        for symbol in tags.keys() - asking.faulty["hover"] - asking.faulty["implementation"]:
            self.after.symbols[symbol] = Asked(tags[symbol])

    def named_in_moved(self, found: Answers) -> set[str]:
        """The names that documents declare, or did, that aren't as before."""
        known = [self.before.documents.get(uri, Known("")) for uri in self.moved]
        names = [name.name for one in known for name in one.names.values()]
        names += [name.name for at, name in found.names.items() if at[0] in self.moved]
        return {word for name in names for word in words_of(name)}

    def keep_symbols(self, found: Answers, tags: dict[Place, Place]) -> None:
        """Has what was known of symbols hold still."""
        for symbol, word in tags.items():
            before = self.before.symbols[symbol]
            self.after.symbols[symbol] = Asked(word)
            if before.hover is not None:
                found.hovers[symbol] = before.hover
            if before.implementations:
                found.implementations[symbol] = before.implementations

    def keep(self, found: Answers, faulty: Mapping[str, set[Any]]) -> None:
        """Keeps what is known now, and what wasn't answered of what was asked."""
        for uri, one in self.after.documents.items():
            if uri not in self.again:
                one.errors = self.before.documents[uri].errors
                one.includes = self.before.documents[uri].includes
            for text in one.errors:
                where = f"{path_of(uri, []) or uri}: {text}"
                what = "what errors in a file hide from the server"
                self.given.notes.leave_out(what, where)
        for word in found.words.values():
            self.after.documents[word.uri].words.append(word)
        for word, places in found.leads.items():
            self.after.documents[word.uri].leads[word] = places
        outside = {to.uri for places in found.leads.values() for to in places}
        outside |= {uri for one in self.after.documents.values() for uri in one.includes}
        self.after.outside = outside_of(sorted(outside - self.documents.keys()), found)
        for at, name in found.names.items():
            if at[0] in self.after.documents:
                self.after.documents[at[0]].names[at] = name
        for word in sorted(faulty.get("definition", ())):
            self.after.documents[word.uri].missing.append(word)
        unsure = set[str]() if self.is_ready else set(self.again)
        for method in "semanticTokens/full", "documentLink":
            unsure |= faulty.get(method, set())
        for uri in unsure:
            self.after.documents[uri].is_whole = False
        for uri in faulty.get("documentSymbol", ()):
            self.after.documents.pop(uri, None)
            if uri in self.after.outside:
                self.after.outside[uri].digest = ""
        for symbol, asked in self.after.symbols.items():
            asked.hover = found.hovers.get(symbol)
            asked.implementations = found.implementations.get(symbol, [])
