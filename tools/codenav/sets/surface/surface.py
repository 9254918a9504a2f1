"""Writes the surface of a prepared dump: what other projects can find of it, as a dump of its own.

On a server that hasn't the project its surface stands in its place for all that are joined to it:
they find the same places and hovers in it as in the whole. Its documents have the addresses of the
project's, and those ranges alone that are places of what others find. No range in them has results
or monikers, so a question that is asked there is answered by nothing. A surface over the server's
limits is split as a dump is.
"""

from array import array
from itertools import groupby
from typing import BinaryIO, Collection

from codenav.dumps.closure import reached
from codenav.dumps.tables.graph import HOVER, NONE, PLACE, REFERENCES, RESULTS, Graph
from codenav.dumps.tables.reader import read_graph
from codenav.faults import NotADump
from codenav.files import whole_file
from codenav.progress import Shows
from codenav.sets.split.lines import ROLE_NAMES, Lines
from codenav.sets.surface.found import EXPORT, Bearer, bearers, kinds_of_monikers


class Surface:
    """The surface of a dump, which is written element by element. It has nothing of what is imported
    of packages of the names `apart` alone."""

    def __init__(
        self, graph: Graph, dump: BinaryIO, out: BinaryIO, apart: Collection[str] = ()
    ) -> None:
        self.graph, self.dump, self.out = graph, dump, out
        self.lines = Lines(graph, dump)
        self.bytes, self.longest = 0, 0
        self.apart, self.kinds = set(apart), kinds_of_monikers(graph)
        self.bearers = [own for own in bearers(graph) if not self.is_apart(own)]
        shown = {result for bearer in self.bearers for _, result in bearer.results}
        self.results = set(reached(graph.leads, shown)[0])
        self.items = sorted({item for item in graph.items if item >> 33 in self.results})
        self.ranges = array("i", [0]) * len(graph.start)
        self.own_results: dict[int, int] = {}
        self.monikers: dict[int, int] = {}

    def packages_of(self, bearer: Bearer) -> set[int]:
        """The packages of the keys that a vertex is found by, or NONE."""
        found = reached(self.graph.attached, bearer.monikers)[0]
        return {self.graph.package_of[moniker] for moniker in found}

    def is_apart(self, bearer: Bearer) -> bool:
        """Whether a vertex exports nothing, and imports of packages alone that are apart."""
        if any(self.kinds[moniker] == EXPORT for moniker in bearer.monikers):
            return False
        return all(
            own != NONE and self.graph.packages[own][1] in self.apart
            for own in self.packages_of(bearer)
        )

    def apart_packages(self) -> tuple[str, ...]:
        """Those of the packages below of which the surface has nothing, for they are apart."""
        packages = self.graph.packages
        there = {
            packages[own] for found in map(self.packages_of, self.bearers) for own in found - {NONE}
        }
        apart = {" ".join(own) for own in packages if own[1] in self.apart and own not in there}
        return tuple(own for own in self.joined_packages() if own in apart)

    def joined_packages(self) -> tuple[str, ...]:
        """The packages that the dump imports or exports something of, an empty text where a key has
        none."""
        graph = self.graph
        numbers = {
            number
            for number, (_, _, kind) in zip(graph.package_of, graph.monikers)
            if kind != "local"
        }
        texts = {"" if own == NONE else " ".join(graph.packages[own]) for own in numbers}
        return tuple(sorted(texts))

    def write(self) -> None:
        """Writes the surface."""
        self.lines.vertex("metaData", ',"version":"0.6.0","positionEncoding":"utf-16"')
        self.project = self.lines.vertex("project", ',"kind":"surface"')
        self.write_documents()
        self.write_results()
        self.write_leads()
        self.write_monikers()
        for bearer in self.bearers:
            self.write_bearer(bearer)
            self.flush()
        self.flush()

    def flush(self) -> None:
        """Hands the lines on to the file."""
        body = "".join(line + "\n" for line in self.lines.lines).encode("utf-8", "surrogatepass")
        self.longest = max(self.longest, max(map(len, body.split(b"\n"))))
        self.bytes += len(body)
        self.out.write(body)
        self.lines.lines.clear()

    def write_documents(self) -> None:
        """The documents that have a place, each with these ranges."""
        home = self.graph.home
        places = sorted({item & PLACE for item in self.items}, key=lambda own: (home[own], own))
        for document, group in groupby(places, key=home.__getitem__):
            if document == NONE:
                raise NotADump("a range is contained in no document (E01)")
            ranges = list(group)
            first = self.lines.document(self.graph.uris[document], ranges)
            for number, place in enumerate(ranges, first):
                self.ranges[place] = number
            self.flush()

    def write_results(self) -> None:
        """The results, with their places."""
        for result in sorted(self.results):
            request = self.graph.request_of[result]
            if request == HOVER:
                self.own_results[result] = self.lines.hover(result)
            else:
                self.own_results[result] = self.lines.vertex(RESULTS[request])
            self.flush()
        for slot, group in groupby(self.items, key=lambda item: item >> 32):
            result, role = divmod(slot, 2)
            more = f',"shard":{self.project}'
            if self.graph.request_of[result] == REFERENCES:
                more = f',"property":"{ROLE_NAMES[role]}"{more}'
            ends = [self.ranges[item & PLACE] for item in group]
            self.lines.edges("item", self.own_results[result], ends, more)
            self.flush()

    def write_leads(self) -> None:
        """Which results have the places of others too."""
        more = f',"property":"referenceResults","shard":{self.project}'
        for result in sorted(self.results & self.graph.leads.keys()):
            ends = [self.own_results[other] for other in dict.fromkeys(self.graph.leads[result])]
            self.lines.edges("item", self.own_results[result], ends, more)
            self.flush()

    def write_monikers(self) -> None:
        """The monikers of what others find, and those that are joined to them."""
        starts = (own for bearer in self.bearers for own in bearer.monikers)
        found = sorted(reached(self.graph.attached, starts)[0])
        for own in found:
            self.write_moniker(own)
        for own in found:
            for other in dict.fromkeys(self.graph.attached.get(own, ())):
                if own < other:
                    self.lines.edge("attach", self.monikers[own], self.monikers[other])
            self.flush()

    def write_moniker(self, own: int) -> None:
        """A moniker with its package."""
        scheme, identifier, kind = self.graph.monikers[own]
        package = self.graph.package_of[own]
        key = scheme, identifier, None if package == NONE else self.graph.packages[package]
        self.monikers[own] = self.lines.moniker(kind, key)

    def write_bearer(self, bearer: Bearer) -> None:
        """A result set, on no range's chain, that others find in a vertex's place."""
        results = [(request, self.own_results[result]) for request, result in bearer.results]
        self.lines.result_set(results, [self.monikers[own] for own in bearer.monikers])


def write_surface(
    path: str, profile: str, target: str, shows: Shows, apart: Collection[str] = ()
) -> tuple[int, Surface]:
    """Writes the surface of the prepared dump in a file into another; answers how many elements the
    dump has, and the surface. Raises NotADump."""
    with open(path, "rb") as source:
        graph = read_graph(source, path, profile, shows)
        shows.begin("surface")
        with whole_file(target) as out:
            surface = Surface(graph, source, out, apart)
            surface.write()
        shows.end(f"elements {surface.lines.count}")
    return graph.elements, surface
