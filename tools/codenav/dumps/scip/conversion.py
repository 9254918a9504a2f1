"""Converts a SCIP index into the dump of it: a document for each of its documents, a range for each
place where a symbol occurs, and for each symbol its definitions, declarations, implementations,
references, hover and moniker. The index is read twice, one document at a time, so memory grows with
the global symbols and the largest document.

A symbol has a resultSet, or where it occurs once the range itself has its results. Symbols that
occur at one place together have a joint resultSet, with the definitions of each and a reference
result that leads to each one's; docs/inside/DECISIONS.md says how it's chained.
"""

from dataclasses import replace
from typing import BinaryIO

from codenav.dumps.prepare.vertices import VERSION
from codenav.dumps.scip.documents import Documents, Texts
from codenav.dumps.scip.elements import Writer
from codenav.dumps.scip.meanings import Meanings
from codenav.dumps.scip.messages import IndexFile
from codenav.dumps.scip.occurrences import DEFINED, FORWARD, USED, Occurrences, Span, Stay, key_of
from codenav.dumps.scip.options import ScipOptions
from codenav.dumps.scip.scip_pb2 import Document, SymbolInformation
from codenav.dumps.scip.survey import SEVERAL, Survey
from codenav.dumps.scip.symbols import markdown
from codenav.outcome import Notes, Outcome
from codenav.progress import Shows

Places = dict[int, dict[int, None]]

COUNTED = ("documents", "ranges", "occurrences", "crossed")


class Conversion:
    """Writes the dump of an index, document by document."""

    def __init__(self, writer: Writer, survey: Survey, documents: Documents) -> None:
        self.writer = writer
        self.meanings = Meanings(writer, survey)
        self.counts = dict.fromkeys(COUNTED, 0)
        self.hovers: dict[str, int] = {}
        writer.vertex(
            "metaData",
            version=VERSION,
            projectRoot=documents.root,
            positionEncoding="utf-16",
            toolInfo=documents.tool_info,
        )

    def document(self, uri: str, document: Document, stay: Stay) -> None:
        """Writes a document with its ranges, and what they add to the results of symbols."""
        home = self.writer.vertex("document", uri=uri, languageId=document.language.lower())
        self.hovers = {}
        self.meanings.begin(uri, document, stay, home)
        ranges = self.ranges(stay)
        found = 1, len(ranges), len(stay.occurrences) + stay.crossed, stay.crossed
        for what, count in zip(COUNTED, found):
            self.counts[what] += count
        if ranges:
            self.writer.edges("contains", home, list(ranges.values()))
        places: dict[str, Places] = {}
        for span, key, role, _ in stay.occurrences:
            places.setdefault(key, {}).setdefault(role, {})[ranges[span]] = None
        for key, of_role in places.items():
            self.items(key, of_role, home)
        for information in document.symbols:
            self.information(information, uri)

    def ranges(self, stay: Stay) -> dict[Span, int]:
        """Writes the ranges of a document, and where each leads. One around the whole document is a
        place, and isn't asked."""
        said: dict[Span, str] = {}
        for span, _, _, text in stay.occurrences:
            if text:
                said.setdefault(span, text)
        ranges = {}
        for span, keys in stay.symbols.items():
            ranges[span] = self.writer.range(*span)
            if span != stay.around:
                self.lead(ranges[span], keys, said.get(span, ""))
        return ranges

    def lead(self, own: int, keys: tuple[str, ...], said: str) -> None:
        """Writes where a range leads: to the vertex of its symbol, which it is itself where the
        symbol occurs just here, or to a joint one."""
        meanings = self.meanings
        if len(keys) > 1:
            self.writer.edge("next", own, meanings.joint(keys))
        else:
            known = meanings.look(keys[0])
            if not known.vertex and not known.bits & SEVERAL and not said:
                meanings.bind(keys[0], known, own)
            else:
                self.writer.edge("next", own, meanings.of(keys[0]).vertex)
        if said:
            self.writer.edge("textDocument/hover", own, self.hover(said))

    def items(self, key: str, places: Places, home: int) -> None:
        """Writes what the ranges of a symbol in a document add to its results, and to those of the
        symbols that it's related to."""
        meanings = self.meanings
        definitions, declarations, references = (
            places.get(role, {}) for role in (DEFINED, FORWARD, USED)
        )
        own = meanings.own_references(key)
        for role, found in (
            ("definitions", {**definitions, **declarations}),
            ("references", references),
        ):
            if found:
                self.writer.items(own, list(found), home, role)
        defined = definitions if meanings.look(key).bits & DEFINED else declarations
        results = [(to, defined) for to in meanings.defined(key)] if defined else []
        if declarations:
            results += [(to, declarations) for to in meanings.targets(key, "declaration")]
        for result, found in results:
            meanings.spend(len(found))
            self.writer.items(result, list(found), home)

    def information(self, information: SymbolInformation, uri: str) -> None:
        """Writes what is said of a symbol that occurs, where nothing was said before."""
        key = key_of(information.symbol, uri)
        if self.meanings.is_used(key) and not self.meanings.look(key).hover:
            text = markdown(information)
            if text:
                self.meanings.tell(key, self.hover(text))

    def hover(self, text: str) -> int:
        """Hover contents; those of one text in a document are written once."""
        own = self.hovers.get(text)
        if own is None:
            own = self.hovers[text] = self.writer.vertex(
                "hoverResult", result={"contents": {"kind": "markdown", "value": text}}
            )
        return own

    def finish(self) -> None:
        """Writes what is known only at the end."""
        self.meanings.finish()
        self.counts["symbols"] = self.meanings.written


def surveyed(index: IndexFile, occurrences: Occurrences) -> Survey:
    """What the first reading of an index learns. Documents whose text can't be read are left out of
    it for the second. Raises BadCall where none can be read."""
    survey = Survey()
    for uri, document in index.documents():
        stay = occurrences.of(uri, document)
        if stay is None:
            del index.pieces[uri]
            continue
        survey.learn(uri, document, stay)
    occurrences.texts.finish()
    survey.finish(index.external_symbols())
    return survey


def converted(index: IndexFile, writer: Writer, options: ScipOptions, shows: Shows) -> Outcome:
    """Hands on the elements of an index; answers what came of it."""
    notes = Notes()
    documents, keeps = (
        Documents(index, options.root, options.without, notes),
        options.keep_file_ranges,
    )
    given = documents, options.source, options.encoding
    texts, others = Texts(*given, notes), Notes()
    first = Occurrences(documents, texts, notes, keeps)
    second = Occurrences(documents, Texts(*given, others, texts.unread), others, keeps)
    index.find(documents.uri_of)
    documents.finish()
    shows.begin("prepared", 2 * index.size)
    index.watch = shows.at
    survey = surveyed(index, first)
    index.watch = lambda read: shows.at(index.size + read)
    conversion = Conversion(writer, survey, documents)
    for uri, document in index.documents():
        stay = second.of(uri, document)
        if stay is not None:
            conversion.document(uri, document, stay)
    for information in index.external_symbols():
        conversion.information(information, "")
    conversion.finish()
    counts = {**conversion.counts, "elements": writer.elements}
    counts["merged"] = counts["occurrences"] - counts["crossed"] - counts["ranges"]
    said = (
        f"documents {counts['documents']}; symbols {counts['symbols']}; occurrences {counts['occurrences']}, of which {counts['merged']} at a place "
        f"that has a range already, {counts['crossed']} left out for they overlap another; elements {counts['elements']}"
    )
    shows.end(said)
    return Outcome(said, counts, notes.all())


def convert(index: IndexFile, out: BinaryIO, options: ScipOptions, shows: Shows) -> Outcome:
    """Writes the dump of an index. Raises NotADump or BadCall where it can't be made."""
    writer = Writer(out)
    outcome = converted(index, writer, options, shows)
    return replace(outcome, over=writer.excesses())
