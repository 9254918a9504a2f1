"""What a raw dump means, as indexers write it: the answer to each question, by the words of
docs/TOOLS.md, "Dumps of other indexers", read off the elements in one pass and joined by plain sets.

A vertex is here its id. What a request finds at a vertex are results, and a result's places are those
that its items lead to. Nothing is rewritten: so it says what a prepared dump has to answer.
"""

from typing import Any, Iterable, Iterator, Optional

from tests.dump_walks import LABELS, Element, Question

Position = tuple[int, int]
Span = tuple[Position, Position]
Bearer = tuple[bool, int, Any]
"""A vertex that has a moniker, behind whether it imports only and which moniker edge is its first."""
NARROW = ("document", "project", "group", "workspace")
ROLES = {"declarations": "definitions", None: "references"}
"""The role of an item of a reference result that's written otherwise."""


def ends(edge: Element) -> list[Any]:
    """What an edge leads to."""
    return list(edge.get("inVs", ())) + ([edge["inV"]] if "inV" in edge else [])


def span_of(vertex: Element) -> Span:
    """The start and the end of a range."""
    start, end = ((vertex[n]["line"], vertex[n]["character"]) for n in ("start", "end"))
    return start, end


def crosses(one: Span, other: Span) -> bool:
    """Whether two spans overlap and aren't nested."""
    (start, end), (begin, stop) = sorted(
        (one, other), key=lambda span: (span[0], [-n for n in span[1]])
    )
    return start < end and begin < stop and begin < end < stop


def size(span: Span) -> tuple[int, int]:
    """How large a span is, by its lines and then its characters."""
    (line, start), (last, end) = span
    return last - line, end if last > line else end - start


def merged(sets: Iterable[set[Any]]) -> list[set[Any]]:
    """Sets of which those that have a member in common are one."""
    found: list[set[Any]] = []
    for one in sets:
        apart = [other for other in found if not other & one]
        found = [*apart, one.union(*(other for other in found if other & one))]
    return found


class Model:
    """A raw dump, and what it means."""

    def __init__(self, elements: Iterable[Element]) -> None:
        self.vertices: dict[Any, Element] = {}
        self.edges: list[Element] = []
        for one in elements:
            if one["type"] == "vertex":
                self.vertices[one["id"]] = one
            else:
                self.edges.append(one)
        self.home = dict(
            (end, own) for own, end in self.pairs("contains") if self.is_a(own, "document")
        )
        self.project = dict(
            (end, own) for own, end in self.pairs("contains") if self.is_a(own, "project")
        )
        self.places = self.kept_places()
        self.unasked = self.ranges_that_are_not_asked()
        self.nexts = self.listed("next")
        self.bound = {request: self.listed(f"textDocument/{request}") for request in LABELS}
        self.monikers = self.listed("moniker")
        self.attached = merged(
            {own, end} for label in ("attach", "nextMoniker") for own, end in self.pairs(label)
        )
        self.package = dict(self.pairs("packageInformation"))
        self.items, self.links = self.items_of_results()
        named = self.symbols()
        self.classes = {request: self.joined(request, named) for request in LABELS}

    def is_a(self, own: Any, label: str) -> bool:
        """Whether a vertex is of a label."""
        return bool(self.vertices[own]["label"] == label)

    def pairs(self, label: str) -> Iterator[tuple[Any, Any]]:
        """The ends of the edges of a label."""
        for edge in self.edges:
            if edge["label"] == label:
                yield from ((edge["outV"], end) for end in ends(edge))

    def listed(self, label: str) -> dict[Any, list[Any]]:
        """What the edges of a label lead to, by what they leave, each once."""
        found: dict[Any, dict[Any, None]] = {}
        for own, end in self.pairs(label):
            found.setdefault(own, {})[end] = None
        return {own: list(those) for own, those in found.items()}

    # Documents, and the places in them.

    def root(self) -> str:
        """The address that documents are below: `workspaceRoot` of the source, as of LSIF 0.6, or
        `projectRoot` of the metaData, as before."""
        for label, member in (("source", "workspaceRoot"), ("metaData", "projectRoot")):
            for one in self.vertices.values():
                if one["label"] == label and member in one:
                    return str(one[member])
        return ""

    def address(self, document: Any) -> str:
        """The address of a document."""
        uri = str(self.vertices[document]["uri"])
        return uri if ":" in uri else f"{self.root()}/{uri}"

    def kept_places(self) -> dict[str, dict[Span, list[Any]]]:
        """The places of each address with the ranges there: of those that overlap and aren't nested
        the smaller."""
        found: dict[str, dict[Span, list[Any]]] = {}
        for own, vertex in self.vertices.items():
            if vertex["label"] == "range":
                places = found.setdefault(self.address(self.home[own]), {})
                places.setdefault(span_of(vertex), []).append(own)
        for places in found.values():
            stay: list[Span] = []
            for span in sorted(places, key=lambda span: (size(span), span)):
                if any(crosses(span, other) for other in stay):
                    del places[span]
                else:
                    stay.append(span)
        return found

    def ranges_that_are_not_asked(self) -> set[Any]:
        """The ranges that are gone, and those over the whole of a file of several lines."""
        asked = set()
        for places in self.places.values():
            last = max(end for _, end in places)
            for (start, end), ranges in places.items():
                if start > (0, 0) or end < max(last, (1, 0)):
                    asked.update(ranges)
        return set(self.home) - asked

    # Results, and the places that they lead to.

    def items_of_results(self) -> tuple[dict[Any, list[Any]], dict[Any, list[Any]]]:
        """The places of each result with their roles, and the results that it leads to."""
        items: dict[Any, list[Any]] = {}
        links: dict[Any, list[Any]] = {}
        for own, role, end in self.all_items():
            is_reference = self.is_a(own, "referenceResult")
            if is_reference:
                role = ROLES.get(role, role)
            elif role in ("definitions", "declarations"):
                role = None
            if role == "referenceResults":
                links.setdefault(own, []).append(end)
            elif role in ("definitions", "references") if is_reference else role is None:
                address, span = self.address(self.home[end]), span_of(self.vertices[end])
                if span in self.places[address]:
                    items.setdefault(own, []).append((role or "definitions", (address, *span)))
        return items, links

    def all_items(self) -> Iterator[tuple[Any, Optional[str], Any]]:
        """The items of results, by edges, and within them as before version 0.4."""
        for edge in self.edges:
            if edge["label"] == "item":
                yield from ((edge["outV"], edge.get("property"), end) for end in ends(edge))
        for own, vertex in self.vertices.items():
            if vertex["label"] in LABELS.values() and vertex["label"] != "hoverResult":
                for member in ("result", "definitions", "references", "referenceResults"):
                    role = None if member == "result" else member
                    yield from ((own, role, end) for end in vertex.get(member, ()))

    def places_of(self, results: Iterable[Any], roles: tuple[str, ...]) -> set[Any]:
        """The places of results, and of those that they lead to."""
        todo = list(results)
        for own in todo:
            todo += [end for end in self.links.get(own, ()) if end not in todo]
        return {place for own in todo for role, place in self.items.get(own, ()) if role in roles}

    # Symbols: what monikers of one name are of.

    def group(self, moniker: Any) -> set[Any]:
        """A moniker, and those that are attached to it."""
        return next((one for one in self.attached if moniker in one), {moniker})

    def name(self, moniker: Any, projects: set[Any]) -> Optional[tuple[Any, ...]]:
        """What a moniker names, of vertices of these projects; None where it names nothing beside
        them."""
        vertex, package = self.vertices[moniker], self.vertices.get(self.package.get(moniker), {})
        unique = vertex.get("unique")
        only: tuple[Any, ...] = ()
        if vertex.get("kind") not in ("import", "export") or unique == "document":
            return None
        if unique == "project":
            if len(projects) != 1:
                return None
            only = tuple(projects)
        of_package = tuple(package.get(part) for part in ("manager", "name", "version"))
        return (vertex["scheme"], vertex["identifier"], of_package, only)

    def projects(self, own: Any) -> set[Any]:
        """The projects of the ranges that lead to a vertex; all are one where there's one at most."""
        if sum(self.is_a(one, "project") for one in self.vertices) < 2:
            return {None}
        return {
            self.project.get(home)
            for end, home in self.home.items()
            if end not in self.unasked and own in self.chain(end)
        }

    def chain(self, own: Any) -> list[Any]:
        """A vertex, and those that `next` edges lead to, the first of each."""
        following = self.nexts.get(own)
        return [own] if following is None else [own, *self.chain(following[0])]

    def symbols(self) -> list[set[Bearer]]:
        """The vertices of each symbol that has a name in several projects, or is imported and
        exported by one name."""
        groups: dict[frozenset[Any], dict[Any, int]] = {}
        for order, (own, moniker) in enumerate(self.pairs("moniker")):
            if own not in self.unasked:
                groups.setdefault(frozenset(self.group(moniker)), {}).setdefault(own, order)
        kinds: dict[Any, set[Any]] = {}
        projects: dict[Any, set[Any]] = {}
        named: dict[Any, set[Any]] = {}
        exporting = set()
        for group, bearers in groups.items():
            of_group: set[Any] = set().union(*map(self.projects, bearers))
            for moniker in group:
                name, kind = self.name(moniker, of_group), self.vertices[moniker].get("kind")
                if name is not None:
                    kinds.setdefault(name, set()).add(kind)
                    projects.setdefault(name, set()).update(of_group)
                    named.setdefault(name, set()).add(group)
                    exporting |= {group} if kind == "export" else set()
        joined = [named[name] for name in named if len(projects[name]) > 1 or len(kinds[name]) > 1]
        return [
            {
                (group not in exporting, order, own)
                for group in one
                for own, order in groups[group].items()
            }
            for one in merged(joined)
        ]

    def joined(self, request: str, symbols: list[set[Bearer]]) -> list[list[Any]]:
        """The vertices that have the results of one symbol: of each that has its name the one along
        its chain that has a result, or itself. What exports it comes first."""
        rows = [{(*rank, self.holder(request, own)) for *rank, own in one} for one in symbols]
        return [
            [own for *_, own in sorted(set().union(*rows)) if own in one]
            for one in merged({own for *_, own in row} for row in rows)
        ]

    def holder(self, request: str, own: Any) -> Any:
        """The vertex along a chain that has a result, or the first."""
        return next((one for one in self.chain(own) if one in self.bound[request]), own)

    # Answers.

    def results(self, request: str, own: Any) -> list[Any]:
        """The results that a request finds at a vertex."""
        bound = self.bound[request]
        symbol: list[Any] = next((one for one in self.classes[request] if own in one), [])
        found = [result for one in symbol for result in bound.get(one, ())]
        if request == "hover":
            found = bound.get(own) or found
        found = found or bound.get(own, [])
        return found or [
            one for end in self.nexts.get(own, ()) for one in self.results(request, end)
        ]

    def kinds(self, own: Any) -> set[str]:
        """The kinds of the monikers of a vertex by which other projects are asked."""
        return {
            str(self.vertices[one].get("kind"))
            for moniker in self.monikers.get(own, ())
            for one in self.group(moniker)
            if self.vertices[one].get("unique") not in NARROW
        }.union(*(self.kinds(end) for end in self.nexts.get(own, ())))

    def answer(self, question: Question) -> Any:
        """What is found at a position: places, or the contents of a hover."""
        request, (uri, position) = question.request, (question.uri, question.position)
        asking = {"import", "export"} if request == "references" else {"import"}
        places = self.places.get(uri, {})
        covering = [span for span in places if span[0] <= position < span[1]]
        for span in sorted(
            covering, key=lambda span: (span[0], [-n for n in span[1]]), reverse=True
        ):
            ranges = [own for own in places[span] if own not in self.unasked]
            found = [result for own in ranges for result in self.results(request, own)]
            if found or any(self.kinds(own) & asking for own in ranges):
                if request == "hover":
                    return self.vertices[found[0]]["result"]["contents"] if found else None
                roles: tuple[str, ...] = ("definitions",)
                if request == "references":
                    roles = (
                        ("definitions", "references") if question.declaration else ("references",)
                    )
                return self.places_of(found, roles)
        return None if request == "hover" else set()
