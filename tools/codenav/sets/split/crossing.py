"""What crosses the borders of parts: which results have places in parts other than those that ask
for them, and how the parts find them.

A part writes the places that lie in it. A range whose definition has places elsewhere imports a key
of the set, which the parts with these places export; where its references have places elsewhere it
exports one, and they do too.

An import makes a range speak for every request. So where a larger range would have answered another
request, its result is copied onto the range; where that range answers by monikers, which can't be
copied, the definition is written whole, with copies of the places elsewhere.
"""

from bisect import bisect_left, bisect_right
from typing import Iterator, Optional

from codenav.dumps.tables.graph import BY_IMPORT, HOVER, NONE, REFERENCES, REQUESTS, WITH_PLACES
from codenav.sets.split.flat import ROLES, Flat
from codenav.sets.split.keys import Crossing, conflicted, names_of, reference_keys

Meaning = tuple[int, int, bool]
Outer = tuple[Optional[tuple[int, bool]], ...]
NO_OUTER: Outer = (None,) * len(REQUESTS)


def bits(mask: int) -> Iterator[int]:
    """The numbers of the bits that are set."""
    while mask:
        least = mask & -mask
        yield least.bit_length() - 1
        mask ^= least


class Shared:
    """What all cuts of a dump have in common: the hidden keys, and the keys that references are
    found by."""

    def __init__(self, flat: Flat, profile_requests: int) -> None:
        self.flat = flat
        self.asked = profile_requests
        self.hidden = conflicted(flat)
        self.reference_keys = reference_keys(flat, self.hidden)

    def is_covered(self, result: int, marks: int) -> bool:
        """Whether the references of a result are joined by the dump's own keys, where a range has
        these marks."""
        keys = self.reference_keys.get(result)
        return keys is not None and any(mark >> 1 in keys for mark in self.flat.marks[marks])


class Cut:
    """A dump cut into parts: part p has the documents from `cuts[p]` to before `cuts[p + 1]`.

    `meaning[rank]` is what a range means in its part; `used[p]` are the meanings of part p in the
    order of their first ranges; `found[p]` what others find in part p by a name of the set,
    `shown[p]` by a mark of the dump.
    """

    def __init__(self, shared: Shared, cuts: list[int], set_name: str) -> None:
        self.shared, self.flat, self.cuts = shared, shared.flat, cuts
        self.borders = [self.flat.first[document] for document in cuts]
        self.masks: dict[int, int] = {}
        self.meanings: list[Meaning] = []
        self.numbers: dict[Meaning, int] = {}
        self.meaning = self.flat.column("i")
        self.outers: list[Outer] = [NO_OUTER]
        self.outer_numbers: dict[Outer, int] = {NO_OUTER: 0}
        self.here: dict[tuple[int, int], int] = {}
        for part in range(self.parts):
            self.take_part(part)
        self.used = [self.used_in(part) for part in range(self.parts)]
        self.needs = self.needed()
        self.names = names_of(self.flat, set(self.needs), set_name)
        self.found = self.found_by_name()
        self.shown = self.shown_by_mark()

    @property
    def parts(self) -> int:
        """How many parts there are."""
        return len(self.cuts) - 1

    def part_of(self, rank: int) -> int:
        """The part that has a range."""
        return bisect_right(self.borders, rank, 0, self.parts) - 1

    def mask(self, result: int) -> int:
        """The parts that have places of a result, as bits."""
        mask = self.masks.get(result)
        if mask is None:
            mask = 0
            for role in range(ROLES):
                mask |= self.mask_of_role(result * ROLES + role)
            self.masks[result] = mask
        return mask

    def mask_of_role(self, slot: int) -> int:
        """The parts that have places of a result in one role."""
        places, mask = self.flat.places, 0
        at, last = self.flat.first_place[slot], self.flat.first_place[slot + 1]
        while at < last:
            part = self.part_of(places[at])
            mask |= 1 << part
            at = bisect_left(places, self.borders[part + 1], at, last)
        return mask

    def far(self, result: int, part: int) -> int:
        """The other parts that have places of a result."""
        return self.mask(result) & ~(1 << part)

    def take_part(self, part: int) -> None:
        """Finds what the ranges of a part mean in it."""
        crosses: dict[int, bool] = {}
        for document in range(self.cuts[part], self.cuts[part + 1]):
            self.take_document(document, part, crosses)

    def take_document(self, document: int, part: int, crosses: dict[int, bool]) -> None:
        """Finds what the ranges of a document mean, from the larger to the smaller ones within."""
        flat = self.flat
        ends: list[int] = []
        outers = [0]
        first, last = flat.first[document], flat.first[document + 1]
        rows = (column[first:last] for column in (flat.meaning, flat.start, flat.end))
        for own, start, end in zip(*rows):
            while ends and ends[-1] < end:
                ends.pop()
                outers.pop()
            is_crossing = crosses.get(own)
            if is_crossing is None:
                is_crossing = crosses[own] = self.crosses(own, part)
            self.meaning.append(
                self.number(own, outers[-1] if is_crossing and start < end else NONE)
            )
            if start < end:
                ends.append(end)
                outers.append(outers[-1] if own == NONE else self.within(own, outers[-1]))

    def crosses(self, own: int, part: int) -> bool:
        """Whether a range of this meaning imports a key of the set in this part."""
        if own == NONE:
            return False
        firsts = self.flat.firsts[self.flat.meanings[own][0]]
        return any(
            firsts[request] != NONE and self.far(firsts[request], part) for request in BY_IMPORT
        )

    def within(self, own: int, outer: int) -> int:
        """What answers where a range within one of this meaning doesn't speak: for each request its
        result, and whether its monikers answer too."""
        number = self.here.get((own, outer))
        if number is None:
            firsts, marks = self.flat.meanings[own]
            answers = []
            for request, result in enumerate(self.flat.firsts[firsts]):
                speaks = self.flat.speaks_by(request, marks)
                is_asked = result != NONE or speaks
                answers.append((result, speaks) if is_asked else self.outers[outer][request])
            found = tuple(answers)
            number = self.outer_numbers.setdefault(found, len(self.outers))
            if number == len(self.outers):
                self.outers.append(found)
            self.here[own, outer] = number
        return number

    def number(self, own: int, outer: int) -> int:
        """The number of what a range means in its part; `outer` is what is around it where it
        imports a key of the set, else NONE."""
        if own == NONE:
            return NONE
        firsts, marks = self.flat.meanings[own]
        meaning = (firsts, marks, False)
        if outer != NONE:
            meaning = self.with_outer(firsts, marks, self.outers[outer])
        number = self.numbers.setdefault(meaning, len(self.meanings))
        if number == len(self.meanings):
            self.meanings.append(meaning)
        return number

    def with_outer(self, firsts: int, marks: int, outer: Outer) -> Meaning:
        """The meaning with results copied from the ranges around it."""
        results = list(self.flat.firsts[firsts])
        for request in range(self.shared.asked):
            around = outer[request]
            if results[request] != NONE or around is None or self.flat.speaks_by(request, marks):
                continue
            if around[1]:
                return firsts, marks, True
            results[request] = around[0]
        return self.flat.firsts_number(tuple(results)), marks, False

    def used_in(self, part: int) -> list[int]:
        """The meanings of a part, in the order of their first ranges."""
        ranks = self.meaning[self.borders[part] : self.borders[part + 1]]
        return [own for own in dict.fromkeys(ranks) if own != NONE]

    def needed(self) -> dict[Crossing, int]:
        """The results that have to be found by a name of the set, with the parts that ask."""
        needs: dict[Crossing, int] = {}
        for part in range(self.parts):
            for own in self.used[part]:
                firsts, marks, is_whole = self.meanings[own]
                for request in WITH_PLACES:
                    result = self.flat.firsts[firsts][request]
                    if result == NONE or is_whole and request in BY_IMPORT:
                        continue
                    if request == REFERENCES and self.shared.is_covered(result, marks):
                        continue
                    if self.far(result, part):
                        needs[request, result] = needs.get((request, result), 0) | 1 << part
        return needs

    def found_by_name(self) -> list[list[tuple[str, int, int]]]:
        """For each part what others find in it by a name of the set: the name, the request and the
        result, each name once."""
        found: list[dict[tuple[str, int], int]] = [{} for _ in range(self.parts)]
        for (request, result), asking in self.needs.items():
            for part in bits(self.mask(result)):
                if asking & ~(1 << part):
                    found[part][self.names[request, result], request] = result
        return [
            [(name, request, result) for (name, request), result in sorted(names.items())]
            for names in found
        ]

    def shown_by_mark(self) -> list[list[tuple[int, int]]]:
        """For each part what others have to find in it by a mark of the dump: the first results and
        the mark."""
        shown: list[list[tuple[int, int]]] = [[] for _ in range(self.parts)]
        first_range: dict[int, int] = {}
        for rank, own in enumerate(self.flat.meaning):
            if own != NONE:
                first_range.setdefault(self.flat.meanings[own][0], rank)
        for firsts, mark in self.flat.bearers:
            if mark >> 1 in self.shared.hidden:
                continue
            results = self.flat.firsts[firsts]
            requests = WITH_PLACES if mark & 1 else (REFERENCES,)
            mask = 0
            for request in requests:
                mask |= self.mask(results[request]) if results[request] != NONE else 0
            if mark & 1 and not mask and results[HOVER] != NONE:
                mask = 1 << self.part_of(first_range.get(firsts, 0))
            for part in bits(mask):
                shown[part].append((firsts, mark))
        return shown
