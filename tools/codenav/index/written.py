"""Writes the dump of what a language server answered."""

from collections import defaultdict
from typing import IO, Any, Iterable, Optional

from codenav.dumps.scip.elements import Writer
from codenav.index.answers import Place
from codenav.index.grouped import Grouped
from codenav.index.languages import language_of
from codenav.index.monikers import Monikers
from codenav.outcome import Notes

Sets = tuple[int, int]
"""A result set and its reference result."""


class DumpWriter(Writer):
    """Writes the elements of symbols: each has a result set, to which the words that lead to it do."""

    def __init__(self, out: IO[bytes], grouped: Grouped, monikers: Monikers, notes: Notes) -> None:
        super().__init__(out)
        self.grouped, self.monikers, self.notes = grouped, monikers, notes
        self.ranges, self.documents = dict[Place, int](), dict[str, int]()
        self.sets, self.joints = dict[Place, Sets](), dict[tuple[Place, ...], int]()
        self.hovers: dict[str, int] = {}
        self.written: dict[Any, int] = {}

    def write(self, root: str, uris: Iterable[str], version: str) -> None:
        """Writes all of it, with documents of these addresses at least."""
        self.vertex(
            "metaData",
            version="0.6.0",
            positionEncoding="utf-16",
            projectRoot=root,
            toolInfo={"name": "codenav index", "version": version},
        )
        self.put_ranges(uris)
        for place in self.ranges:
            self.lead(place)
        for symbol, (_, references) in self.sets.items():
            own = [symbol, *self.grouped.further[symbol], *self.grouped.declared[symbol]]
            self.put_items(references, own, "definitions")
            self.put_items(references, self.grouped.uses[symbol], "references")

    def put_ranges(self, uris: Iterable[str]) -> None:
        """Writes documents and their ranges: the words that lead somewhere, and what is led to."""
        by_uri: dict[str, set[Place]] = {uri: set() for uri in uris}
        grouped = self.grouped
        implemented = [
            place
            for symbol in sorted(grouped.found.implementations)
            for place in grouped.implementing(symbol)
        ]
        several = [*grouped.declared.values(), *grouped.further.values()]
        more = [place for places in several for place in places]
        for place in [*grouped.leads, *grouped.symbols, *implemented, *more]:
            by_uri.setdefault(place.uri, set()).add(place)
        for uri, places in by_uri.items():
            if self.monikers.packages.is_elsewhere(uri):
                continue
            found = language_of(uri)
            language = found[1] if found else "plaintext"
            self.documents[uri] = self.vertex("document", uri=uri, languageId=language)
            own = [self.put_range(place) for place in self.apart(places)]
            if own:
                self.edges("contains", self.documents[uri], own)

    def apart(self, places: set[Place]) -> list[Place]:
        """The places of a document but for those that cross another, of which a word stays."""
        covering, kept = list[Place](), dict[Place, None]()
        words = {place for place in places if self.grouped.found.words.get(place.at) == place}
        for place in sorted(places, key=lambda one: (one.line, one.start, -one.end_line, -one.end)):
            while covering and covering[-1][3:] <= place[1:3]:
                covering.pop()
            kept[place] = None
            while covering and covering[-1][3:] < place[3:] and place in kept:
                crossing = place if covering[-1] in words or place not in words else covering.pop()
                self.notes.leave_out("a place that crosses another", str(crossing))
                del kept[crossing]
            covering += [place] if place in kept else []
        return list(kept)

    def put_range(self, place: Place) -> int:
        """Writes a range."""
        start, end = (place.line << 31) | place.start, (place.end_line << 31) | place.end
        self.ranges[place] = self.range(start, end)
        return self.ranges[place]

    def put_items(self, result: int, places: Iterable[Place], role: str = "") -> bool:
        """Writes the places of a result that have ranges; says whether there are any."""
        groups = defaultdict[str, list[int]](list)
        for place in places:
            if place in self.ranges:
                groups[place.uri].append(self.ranges[place])
        for uri, found in groups.items():
            self.items(result, found, self.documents[uri], role)
        return bool(groups)

    def lead(self, place: Place) -> None:
        """Writes where a range leads: to its symbol, or to all of several. One over lines, which is a
        module's, leads nowhere, for it would answer for each word in it."""
        if place.line != place.end_line:
            return
        heads = self.grouped.leads.get(place, [place])
        if len(heads) == 1:
            self.edge("next", self.ranges[place], self.set_of(heads[0])[0])
        else:
            self.edge("next", self.ranges[place], self.joint(tuple(heads)))

    def listed(self, kind: str, own: int, places: list[Place]) -> None:
        """Writes the result of a kind of question, where it has places."""
        if any(place in self.ranges for place in places):
            result = self.vertex(f"{kind}Result")
            self.edge(f"textDocument/{kind}", own, result)
            self.put_items(result, places)

    def joint(self, heads: tuple[Place, ...]) -> int:
        """The result set of several symbols, of which the first gives what is said."""
        if heads not in self.joints:
            parts = [self.set_of(head) for head in heads]
            own, references = self.vertex("resultSet"), self.vertex("referenceResult")
            self.joints[heads] = own
            self.edge("next", own, parts[0][0])
            self.listed("definition", own, list(heads))
            self.edge("textDocument/references", own, references)
            shard = min(self.documents.values())
            self.items(references, [part[1] for part in parts], shard, "referenceResults")
            for head in heads[1:]:
                self.moniker(own, head)
        return self.joints[heads]

    def set_of(self, symbol: Place) -> Sets:
        """The result set and the reference result of a symbol."""
        if symbol not in self.sets:
            own, references = self.vertex("resultSet"), self.vertex("referenceResult")
            self.sets[symbol] = own, references
            self.edge("textDocument/references", own, references)
            self.listed("definition", own, [symbol, *self.grouped.further[symbol]])
            self.listed("declaration", own, self.grouped.declared[symbol])
            self.listed("implementation", own, self.grouped.implementing(symbol))
            self.hover(own, self.grouped.found.hovers.get(symbol))
            self.moniker(own, symbol)
        return self.sets[symbol]

    def hover(self, own: int, contents: Optional[Any]) -> None:
        """Writes what is said of a symbol, each text once."""
        if contents is None:
            return
        text = repr(contents)
        if text not in self.hovers:
            self.hovers[text] = self.vertex("hoverResult", result={"contents": contents})
        self.edge("textDocument/hover", own, self.hovers[text])

    def moniker(self, own: int, symbol: Place) -> None:
        """Writes by what name other packages know a symbol."""
        found = self.monikers.of(symbol, self.grouped.declared[symbol])
        if found is None:
            return
        if found not in self.written:
            self.written[found] = self.vertex(
                "moniker", scheme="lsp", identifier=found.identifier, kind=found.kind
            )
            package = found.package
            if package not in self.written:
                self.written[package] = self.vertex("packageInformation", **package._asdict())
            self.edge("packageInformation", self.written[found], self.written[package])
        self.edge("moniker", own, self.written[found])
