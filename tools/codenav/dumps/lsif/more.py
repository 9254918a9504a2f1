"""What a dump says beside what the server answers: of places the types of symbols and their
monikers, and of documents what can be folded and what is a link."""

from collections import defaultdict
from dataclasses import dataclass, field
from typing import Any, Iterator

from codenav.addresses import spelled
from codenav.dumps.lsif.elements import Element, Id, Span, span_of, targets_of
from codenav.dumps.lsif.reading import Source

MOST_STEPS = 100
MOST_TYPES, MOST_MONIKERS = 20, 20
UNIQUE = {"workspace": "group"}
LEVELS = ("document", "project", "group", "scheme", "global")
KINDS = ("import", "export", "local")
OF_DOCUMENTS = {"foldingRange": "folds", "documentLink": "links"}


@dataclass
class More:
    """Of a document: what can be folded, its links, and of its places, by their spans, the types and
    the monikers."""

    folds: list[Any] = field(default_factory=list)
    links: list[Any] = field(default_factory=list)
    places: dict[Span, dict[str, list[Any]]] = field(default_factory=dict)


@dataclass
class Tables:
    """What's read of a dump, by ids."""

    documents: dict[Id, str] = field(default_factory=dict)
    spans: dict[Id, Span] = field(default_factory=dict)
    homes: dict[Id, Id] = field(default_factory=dict)
    following: dict[Id, Id] = field(default_factory=dict)
    types: dict[Id, Id] = field(default_factory=dict)
    items: dict[Id, list[Id]] = field(default_factory=dict)
    monikers: dict[Id, dict[str, str]] = field(default_factory=dict)
    having: defaultdict[Id, list[Id]] = field(default_factory=lambda: defaultdict(list))
    beside: defaultdict[Id, list[Id]] = field(default_factory=lambda: defaultdict(list))
    lists: dict[Id, list[Any]] = field(default_factory=dict)
    owned: list[tuple[str, Id, Id]] = field(default_factory=list)

    def vertex(self, own: Id, element: Element) -> None:
        """Takes a vertex."""
        label = element["label"]
        if label == "document" and isinstance(element.get("uri"), str):
            self.documents[own] = spelled(element["uri"])
        elif label == "range" and (span := span_of(element)) is not None:
            self.spans[own] = span
        elif label == "typeDefinitionResult":
            self.items[own] = []
        elif label == "moniker":
            self.monikers[own] = moniker_of(element)
        elif label.removesuffix("Result") in OF_DOCUMENTS:
            result = element.get("result")
            self.lists[own] = result if isinstance(result, list) else []

    def edge(self, own: Id, element: Element) -> None:
        """Takes an edge."""
        label, ends = element["label"], targets_of(element)
        if label == "contains" and own in self.documents:
            self.homes.update(dict.fromkeys(ends, own))
        elif label == "next":
            self.following.update({own: one for one in ends[:1]})
        elif label == "textDocument/typeDefinition":
            self.types.update({own: one for one in ends[:1]})
        elif label == "item" and own in self.items:
            self.items[own] += ends
        elif label == "moniker":
            self.having[own] += ends
        elif label in ("attach", "nextMoniker"):
            for end in ends:
                self.beside[own].append(end)
                self.beside[end].append(own)
        elif label.removeprefix("textDocument/") in OF_DOCUMENTS:
            what = OF_DOCUMENTS[label.removeprefix("textDocument/")]
            self.owned += [(what, own, end) for end in ends]


def moniker_of(element: Element) -> dict[str, str]:
    """A moniker as the Language Server Protocol 3.17 has it; nothing where it can't be one."""
    scheme, identifier, kind = (element.get(one) for one in ("scheme", "identifier", "kind"))
    if not isinstance(scheme, str) or not isinstance(identifier, str):
        return {}
    said = element.get("unique")
    unique = UNIQUE.get(said, said) if isinstance(said, str) else None
    if unique not in LEVELS:
        unique = "document" if kind == "local" else "scheme"
    own = {"scheme": scheme, "identifier": identifier, "unique": str(unique)}
    return {**own, "kind": kind} if kind in KINDS else own


def read_more(source: Source) -> dict[str, More]:
    """What a dump says, by the addresses of documents. Raises NotADump."""
    tables = Tables()
    for row in source.rows():
        element = row.element
        if element["type"] == "vertex":
            tables.vertex(element["id"], element)
        elif "outV" in element:
            tables.edge(element["outV"], element)
    found: defaultdict[str, More] = defaultdict(More)
    for what, document, result in tables.owned:
        if document in tables.documents:
            own = getattr(found[tables.documents[document]], what)
            own += tables.lists.get(result, [])
    for place, span in tables.spans.items():
        home = tables.homes.get(place)
        facts = facts_of(tables, place) if home is not None else {}
        if home is not None and facts:
            found[tables.documents[home]].places[span] = facts
    return dict(found)


def chain(tables: Tables, own: Id) -> Iterator[Id]:
    """A vertex, and those that `next` leads to."""
    for _ in range(MOST_STEPS):
        yield own
        if own not in tables.following:
            return
        own = tables.following[own]


def facts_of(tables: Tables, place: Id) -> dict[str, list[Any]]:
    """The types and the monikers of a place: the first result on the way along `next`, and all
    monikers there, with those beside them."""
    way, types, monikers = list(chain(tables, place)), list[Any](), dict[Id, None]()
    result = next((tables.types[own] for own in way if own in tables.types), None)
    for end in tables.items.get(result, []) if result is not None else []:
        home = tables.homes.get(end)
        if home is not None and end in tables.spans and len(types) < MOST_TYPES:
            types.append([tables.documents[home], *tables.spans[end]])
    for own in way:
        todo = list(tables.having.get(own, ()))
        while todo and len(monikers) < MOST_MONIKERS:
            one = todo.pop(0)
            if one not in monikers:
                monikers[one] = None
                todo += tables.beside.get(one, ())
    named = [tables.monikers[one] for one in monikers if tables.monikers.get(one)]
    facts = {"types": types, "monikers": named}
    return {what: found for what, found in facts.items() if found}
