"""What a language server answers of files: at each word for which it has a token itself, where that is
defined, and at the places of definitions what is said of them.

What a server answers at a word without a token is a guess by the name: in code that isn't compiled,
in the body of a macro, in a text. So nothing is asked there.
"""

import re
import sys
from collections import Counter, defaultdict
from typing import Any, Callable, Container, Iterable, Iterator

from codenav.addresses import spelled
from codenav.faults import BadCall
from codenav.index.answers import Answers, Name, Place
from codenav.index.documents import Lines
from codenav.index.languages import is_c
from codenav.index.questions import Question
from codenav.index.team import Team
from codenav.kinds import hover_text
from codenav.outcome import Notes
from codenav.progress import Shows

NO_NAMES = set(
    "comment keyword string number regexp operator modifier boolean angle arithmetic attributeBracket "
    "bitwise brace bracket character colon comma comparison dot escapeSequence formatSpecifier logical "
    "macroBang parenthesis punctuation semicolon".split()
)
"""Types of tokens that are no names: the protocol's, and rust-analyzer's."""
IMPLEMENTED = {5, 6, 10, 11, 12, 23}
"""Kinds of symbols that may have implementations: class, method, enum, interface, function, struct."""
CALLED = {6, 9, 12}
"""Kinds of symbols that are called: method, constructor, function."""
BODIED = {5, 10, 12, 23}
"""Kinds of symbols that have a body where they're defined: class, enum, function, struct."""
MACRO = 15
"""As what kind clangd lists the use of a macro that makes names: it has no kind for one."""
UNDEF = re.compile(r"\s*#\s*undef\b")
"""A line of C at whose name clangd guesses where the macro isn't known there."""
NO_ANSWER = ("no object found", "no identifier found", "not a type name", "no type info")
"""How errors begin or go on that mean that there's nothing at a place: they have no code of their
own."""


FORMLESS = (KeyError, TypeError, ValueError, IndexError, AttributeError)
"""What reading an answer raises that hasn't the protocol's form."""


def place_in(uri: str, span: Any) -> Place:
    """A range of the protocol as a place. Raises KeyError, TypeError or ValueError where it's none."""
    start, end = span["start"], span["end"]
    numbers = (start["line"], start["character"], end["line"], end["character"])
    return Place(spelled(uri), *map(int, numbers))


def places_in(result: Any) -> list[Place]:
    """The places that an answer names, each once, in order."""
    found = result if isinstance(result, list) else [result] if result else []
    return sorted(
        {
            place_in(
                one.get("targetUri") or one["uri"],
                one.get("targetSelectionRange") or one["range"],
            )
            for one in found
        }
    )


def words_in(
    uri: str, data: list[int], types: list[str], is_keyword: Callable[[Place], bool]
) -> Iterator[Place]:
    """The words of a document by the server's tokens, each of which says how far behind the one
    before it begins; of other tokens than names those that are keywords that the server is asked of.
    """
    line = start = 0
    for at in range(0, len(data) - 4, 5):
        lines, characters, length, kind = data[at : at + 4]
        line, start = line + lines, characters if lines else start + characters
        word = Place(uri, line, start, line, start + length)
        if length > 0 and (types[kind] not in NO_NAMES or is_keyword(word)):
            yield word


def unwrapped(found: Iterable[Any]) -> Iterator[Any]:
    """The names of a tree's level, with what macros make in place of them."""
    for one in found:
        is_macro = one["kind"] == MACRO and one.get("children")
        yield from unwrapped(one["children"]) if is_macro else (one,)


def is_definition(kind: int, text: str) -> bool:
    """Whether what declares a name in C defines it, by its text: a function and a type have a body then,
    and a variable isn't said to be elsewhere."""
    return text.endswith("}") if kind in BODIED else not text.startswith("extern")


def names_in(
    uri: str, found: Any, text_of: Callable[[Place], str], around: tuple[str, ...] = ()
) -> Iterator[tuple[Place, Name]]:
    """The names that a document declares, by the protocol's tree or list. Of several with one name
    side by side those that are called have their types too, as a server says them, and all but
    the first of what is still the same have a number. The use of a macro is none, but what it makes.
    Whether it's defined there is known by the texts of declarations where these are given.
    """
    found, seen = list(unwrapped(found or ())), Counter[str]()
    named = Counter(one["name"] for one in found)
    for one in found:
        place = place_in(uri, one.get("selectionRange") or one["location"]["range"])
        whole = place_in(uri, one["range"]) if "range" in one else place
        name = one["name"]
        if named[name] > 1 and one["kind"] in CALLED and one.get("detail"):
            name = f"{name} {one['detail']}"
        seen[name] += 1
        if seen[name] > 1:
            name = f"{name}#{seen[name]}"
        lines = whole.end_line - whole.line
        size = lines, whole.end - (0 if lines else whole.start)
        is_defined = is_definition(one["kind"], text_of(whole))
        own = Name(around, name, one["kind"], size, str(one.get("detail") or ""), is_defined)
        yield place, own
        yield from names_in(uri, one.get("children"), text_of, (*around, name))


def at(place: Place) -> dict[str, Any]:
    """The parameters of a question at a place."""
    position = {"line": place.line, "character": place.start}
    return {"textDocument": {"uri": place.uri}, "position": position}


class Asking:
    """Asks a server of documents that are open in it. What isn't answered for a fault is noted, and kept
    by what it was asked; and so are places by whose addresses the server may mean others."""

    def __init__(
        self, talk: Team, lines: Lines, notes: Notes, shows: Shows, unsure: Container[str] = ()
    ) -> None:
        """Raises BadCall where the server has no tokens."""
        self.talk, self.lines, self.notes, self.shows = talk, lines, notes, shows
        self.unsure = unsure
        self.found, self.faulty = Answers(), defaultdict[str, set[Any]](set)
        legend = (talk.first.offers.get("semanticTokensProvider") or {}).get("legend") or {}
        self.types: list[str] = legend.get("tokenTypes") or []
        if not self.types and not talk.first.shown:
            text = (
                "it has no semantic tokens, by which the words are known that it doesn't guess at"
            )
            raise BadCall(f"{talk.kind.line}: {text}")

    def may(self, offer: str) -> bool:
        """Whether a server may be asked something, by what it offers: true, or options, if empty ones."""
        return self.talk.first.offers.get(offer, False) not in (None, False)

    def ask(
        self, what: str, method: str, asked: dict[Any, Any], take: Callable[[Any, Any], None]
    ) -> None:
        """Asks something of each tag with its parameters; what is answered is taken."""
        if not asked:
            return
        self.shows.begin(what, len(asked), "")
        count = empty = 0
        questions = (
            Question(tag, f"textDocument/{method}", params) for tag, params in asked.items()
        )
        for tag, result, fault in self.talk.answers(questions):
            count += 1
            self.shows.at(count)
            why = ""
            if fault and not any(text in fault for text in NO_ANSWER):
                why = fault.replace(asked[tag]["textDocument"]["uri"], "this")
            elif fault or not result:
                empty += 1
            else:
                try:
                    take(tag, result)
                except FORMLESS:
                    why = "an answer without the protocol's form"
            if why:
                self.notes.leave_out(f"{what}: {why}", str(tag))
                self.faulty[method].add(tag)
        self.shows.end(f"{count} asked, {empty} empty")

    def documents(self, uris: list[str]) -> None:
        """Asks for the words of documents and for the names that they declare, and where each word
        leads, one document after the other: a server keeps few of them ready."""
        words = list[Place]()

        def take(uri: str, result: Any) -> None:
            words.extend(words_in(uri, result["data"], self.types, self.is_keyword))

        if self.types:
            whole = {uri: {"textDocument": {"uri": uri}} for uri in uris}
            self.ask("words", "semanticTokens/full", whole, take)
        for uri in [] if self.types else uris:
            shown = {place_in(uri, span) for span in self.talk.first.shown.get(uri, ())}
            words += [word for word in sorted(shown) if word.line == word.end_line]
        self.outlines("names", uris)
        self.found.words |= {word.at: word for word in words}
        self.definitions(words)

    def definitions(self, words: Iterable[Place]) -> None:
        """Asks where words lead."""
        asked, before = {word: at(word) for word in words}, len(self.found.leads)
        self.ask("definitions", "definition", asked, self.take_places(self.found.leads))
        self.found.empty += len(asked) - len(self.found.leads) + before

    def is_keyword(self, word: Place) -> bool:
        """Whether a word is a keyword that is a name."""
        keywords = self.talk.kind.keywords
        return bool(keywords) and self.lines.text(word) in keywords

    def outlines(self, what: str, uris: Iterable[str]) -> None:
        """Asks for the names that documents declare."""

        def take(uri: str, result: Any) -> None:
            for place, name in names_in(uri, result, self.declaration):
                self.found.names.setdefault(place.at, name)

        whole = {uri: {"textDocument": {"uri": uri}} for uri in uris}
        self.ask(what, "documentSymbol", whole, take)

    def includes(self, uris: Iterable[str]) -> None:
        """Asks which files documents include."""

        def take(uri: str, result: Any) -> None:
            links = {str(one.get("target")) for one in result}
            self.found.includes[uri] = sorted(spelled(to) for to in links if to.startswith("file:"))

        if self.may("documentLinkProvider"):
            asked = {uri: {"textDocument": {"uri": uri}} for uri in uris}
            self.ask("includes", "documentLink", asked, take)

    def declaration(self, place: Place) -> str:
        """The first line of what declares a name of C, and how it ends; a body of another language."""
        if not is_c(place.uri):
            return "}"
        ends = Place(place.uri, place.end_line, max(place.end - 1, 0), place.end_line, place.end)
        return self.lines.text(place._replace(end=sys.maxsize)) + self.lines.text(ends)

    def take_places(self, found: dict[Place, list[Place]]) -> Callable[[Place, Any], None]:
        """What keeps the places of answers."""

        def take(word: Place, result: Any) -> None:
            if UNDEF.match(self.lines.line(word.uri, word.line)):
                return
            name, own = self.lines.text(word), map(self.lines.unmarked, places_in(result))
            places = sorted({self.lines.named(place, name) for place in own})
            sure = [place for place in places if place.uri not in self.unsure]
            if sure:
                found[word] = sure
            if len(sure) < len(places):
                self.notes.leave_out(
                    "a place by whose address the server may mean another", str(word)
                )

        return take

    def hovers(self, tags: dict[Place, Place]) -> None:
        """Asks what is said of symbols, each at a word that leads to it."""

        def take(symbol: Place, result: Any) -> None:
            if hover_text(result["contents"]):
                self.found.hovers[symbol] = result["contents"]

        if self.may("hoverProvider"):
            asked = {symbol: at(word) for symbol, word in tags.items()}
            self.ask("hovers", "hover", asked, take)

    def implementations(self, tags: dict[Place, Place]) -> None:
        """Asks what implements symbols, each at a word that leads to it."""
        if self.may("implementationProvider"):
            keep = self.take_places(self.found.implementations)
            asked = {symbol: at(word) for symbol, word in tags.items()}
            self.ask("implementations", "implementation", asked, keep)

    def may_be_implemented(self, symbol: Place) -> bool:
        """Whether a symbol is of a kind that may be."""
        name = self.found.names.get(symbol.at)
        return name is not None and name.kind in IMPLEMENTED
