"""Writes a part of a dump: its documents and ranges, what the ranges mean, and what other parts and
projects find in it.

A range goes on to one result set with the results of its meaning that the part has, cut to the
places in the part. The monikers by which others are to find these results stand on that set. All
others stand on a set behind it, which has no results: found by others, it gives nothing.
"""

from __future__ import annotations

import json
from array import array
from typing import Any, Callable, Iterable, Optional, Sequence

from codenav.dumps.tables.graph import BY_IMPORT, HOVER, NONE, REFERENCES, RESULTS, Key
from codenav.sets.split.crossing import Cut
from codenav.sets.split.lines import ROLE_NAMES, Bound, Counter, Lines, hover_contents

SCHEME = "codenav-set"
SetMark = tuple[bool, str]


class Part:
    """One part of a cut, and where its elements go."""

    def __init__(self, cut: Cut, part: int, out: Counter) -> None:
        self.cut, self.flat, self.part, self.out = cut, cut.flat, part, out
        self.low, self.high = cut.borders[part], cut.borders[part + 1]
        self.own = array("i", [0]) * (self.high - self.low)
        self.copies: dict[int, int] = {}
        self.made: dict[Any, Optional[int]] = {}
        self.shown: set[tuple[int, int]] = set()
        self.project = 0

    def write(self) -> None:
        """Writes the part."""
        self.out.vertex("metaData", ',"version":"0.6.0","positionEncoding":"utf-16"')
        self.project = self.out.vertex("project")
        self.documents()
        self.copied_documents()
        after = {own: self.meaning(own) for own in self.cut.used[self.part]}
        pairs = []
        for own, meaning in zip(self.own, self.cut.meaning[self.low : self.high]):
            target = after.get(meaning)
            if target is not None:
                pairs.append((own, target))
        self.out.nexts(pairs)
        self.found_by_mark()
        self.found_by_name()

    def documents(self) -> None:
        """Its documents, each with those of its ranges that mean something or are places."""
        flat = self.flat
        for document in range(self.cut.cuts[self.part], self.cut.cuts[self.part + 1]):
            low, high = flat.first[document], flat.first[document + 1]
            rows = zip(self.cut.meaning[low:high], flat.is_place[low:high])
            ranks = [
                rank
                for rank, (meaning, is_place) in enumerate(rows, low)
                if meaning != NONE or is_place
            ]
            first = self.out.document(flat.written[document], ranks)
            for own, rank in enumerate(ranks, first):
                self.own[rank - self.low] = own

    def copied_documents(self) -> None:
        """The documents of other parts with copies of their places, for definitions that are
        written whole."""
        ranks: dict[int, None] = {}
        for own in self.cut.used[self.part]:
            firsts, _, is_whole = self.cut.meanings[own]
            for request in BY_IMPORT if is_whole else ():
                result = self.flat.firsts[firsts][request]
                if result != NONE:
                    ranks.update(dict.fromkeys(self.flat.places_of(result, 0)))
        by_document: dict[int, list[int]] = {}
        for rank in sorted(ranks):
            if not self.low <= rank < self.high:
                by_document.setdefault(self.flat.document_of(rank), []).append(rank)
        for document, copied in by_document.items():
            first = self.out.document(self.flat.written[document], copied)
            self.copies.update({rank: own for own, rank in enumerate(copied, first)})

    def ids(self, ranks: Iterable[int]) -> list[int]:
        """The ids of ranges."""
        low, high, own = self.low, self.high, self.own
        return [own[rank - low] if low <= rank < high else self.copies[rank] for rank in ranks]

    def items(self, own: int, request: int, roles: Sequence[Sequence[int]]) -> None:
        """The items of a result."""
        shard = f',"shard":{self.project}'
        for name, ranks in zip(ROLE_NAMES, roles):
            if ranks:
                more = f',"property":"{name}"{shard}' if request == REFERENCES else shard
                self.out.edges("item", own, self.ids(ranks), more)

    def once(self, what: Any, make: Callable[[], Optional[int]]) -> Optional[int]:
        """What was made before, else what is made now."""
        if what not in self.made:
            self.made[what] = make()
        return self.made[what]

    def here(self, request: int, result: int) -> Optional[int]:
        """A result with its places in this part, or None where it has none here."""

        def make() -> Optional[int]:
            flat, roles = self.flat, []
            for role in (0, 1) if request == REFERENCES else (0,):
                begin, end = flat.bounds(result, role, self.low, self.high)
                roles.append(flat.places[begin:end])
            own = self.out.vertex(RESULTS[request]) if any(roles) else None
            if own is not None:
                self.items(own, request, roles)
            return own

        return self.once((request, result), make)

    def whole(self, request: int, result: int) -> Optional[int]:
        """A result with all its places."""

        def make() -> int:
            own = self.out.vertex(RESULTS[request])
            self.items(own, request, [self.flat.places_of(result, 0)])
            return own

        return self.once(("whole", request, result), make)

    def empty(self, request: int) -> Optional[int]:
        """A result without places."""
        return self.once(("empty", request), lambda: self.out.vertex(RESULTS[request]))

    def hover(self, result: int) -> Optional[int]:
        """A hover."""
        return self.once(("hover", result), lambda: self.out.hover(result))

    def moniker(self, is_export: bool, key: Key) -> int:
        """A moniker with its package."""
        kind = "export" if is_export else "import"
        what = ("moniker", is_export, key)
        return self.once(what, lambda: self.out.moniker(kind, key)) or 0

    def own_monikers(self, marks: Iterable[int]) -> list[int]:
        """The monikers of marks of the dump."""
        return [self.moniker(bool(mark & 1), self.flat.keys[mark >> 1]) for mark in sorted(marks)]

    def without_results(self, marks: frozenset[int], names: frozenset[SetMark]) -> Optional[int]:
        """A result set that has monikers alone, or None where there is none."""

        def make() -> int:
            monikers = self.own_monikers(marks)
            monikers += [self.moniker(out, (SCHEME, name, None)) for out, name in sorted(names)]
            return self.out.result_set([], monikers)

        return self.once(("alone", marks, names), make) if marks or names else None

    def meaning(self, own: int) -> Optional[int]:
        """The result set that ranges of a meaning go on to, or None where they need none."""
        firsts, marks, is_whole = self.cut.meanings[own]
        before, results, names = self.results_of(firsts, marks, is_whole)
        every = self.flat.marks[marks]
        shown = {mark for mark in every if results and self.is_shown(firsts, mark)}
        after = self.without_results(every - shown, frozenset(names))
        if results:
            self.shown |= {(firsts, mark) for mark in shown}
            after = self.out.result_set(results, self.own_monikers(shown), after)
        return self.out.result_set(before, [], after) if before else after

    def is_shown(self, firsts: int, mark: int) -> bool:
        """Whether others find these results by this mark in the whole dump, and may in a part."""
        hidden = self.cut.shared.hidden
        return (firsts, mark) in self.flat.bearers and mark >> 1 not in hidden

    def results_of(
        self, firsts: int, marks: int, is_whole: bool
    ) -> tuple[Bound, Bound, set[SetMark]]:
        """The results of a meaning: those that stand before its monikers, those that stand with
        them, and the names by which others are asked.

        An empty result speaks, so it's written where no moniker speaks in its place.
        """
        before: Bound = []
        results: Bound = []
        names: set[SetMark] = set()
        for request, result in enumerate(self.flat.firsts[firsts]):
            if result == NONE:
                continue
            own = self.hover(result) if request == HOVER else self.here(request, result)
            far = self.cut.far(result, self.part) if request != HOVER else 0
            speaks = False
            if request in BY_IMPORT and far and is_whole:
                before.append((request, self.whole(request, result) or 0))
                speaks = True
            elif request in BY_IMPORT and far:
                names.add((False, self.cut.names[request, result]))
                speaks = True
            elif request == REFERENCES and self.cut.shared.is_covered(result, marks):
                speaks = True
            elif request == REFERENCES and far:
                names.add((True, self.cut.names[request, result]))
                speaks = True
            if own is not None:
                results.append((request, own))
            elif not speaks:
                results.append((request, self.empty(request) or 0))
        return before, results, names

    def found_by_mark(self) -> None:
        """What others find by a mark of the dump, where no range of the part has just that: a
        result set on no range's chain."""
        bare: dict[int, list[int]] = {}
        for firsts, mark in self.cut.shown[self.part]:
            if (firsts, mark) not in self.shown:
                bare.setdefault(firsts, []).append(mark)
        for firsts, marks in sorted(bare.items(), key=lambda pair: self.order(*pair)):
            results: Bound = []
            for request, result in enumerate(self.flat.firsts[firsts]):
                if result != NONE:
                    own = self.hover(result) if request == HOVER else self.here(request, result)
                    if own is not None:
                        results.append((request, own))
            self.out.result_set(results, self.own_monikers(marks))

    def order(self, firsts: int, marks: list[int]) -> tuple[Any, ...]:
        """The order of such a set among others, by all that it has, so that it doesn't depend on
        the order of the dump."""
        places: list[list[int]] = []
        hover = ""
        for request, result in enumerate(self.flat.firsts[firsts]):
            if request == HOVER:
                hover = self.hover_order(result)
            for role in (0, 1) if request == REFERENCES else (0,):
                begin, end = (0, 0)
                if result != NONE and request != HOVER:
                    begin, end = self.flat.bounds(result, role, self.low, self.high)
                places.append(self.flat.places[begin:end].tolist())
        return sorted(marks), places, [result != NONE for result in self.flat.firsts[firsts]], hover

    def hover_order(self, result: int) -> str:
        """The contents of a hover as they are ordered; a counter needs no order."""
        if result == NONE or not isinstance(self.out, Lines):
            return ""
        return json.dumps(hover_contents(self.flat, self.out.dump, result), sort_keys=True)

    def found_by_name(self) -> None:
        """What others find by a name of the set: a result set of its own with just one result, so
        that a join for one request leads to no other."""
        for name, request, result in self.cut.found[self.part]:
            moniker = self.moniker(True, (SCHEME, name, None))
            own = self.here(request, result)
            if own is not None:
                self.out.result_set([(request, own)], [moniker])
