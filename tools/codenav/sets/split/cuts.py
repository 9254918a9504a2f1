"""Where a dump is cut into parts: between documents in the order of their addresses, each part
within the server's limits.

Cuts of the last time are kept while their parts fit, so that a document that grows changes its own
part alone. Others are made where the documents on both sides have few folders in common.
"""

import hashlib
import math
from bisect import bisect_left
from collections import Counter as Occurrences
from dataclasses import dataclass
from typing import Iterable, Optional, Sequence

from codenav.dumps.tables.graph import HOVER, NONE, REQUESTS
from codenav.dumps.tables.rows import MOST_ROWS, TEXT_BYTES
from codenav.limits import MOST_BODY_BYTES, MOST_ELEMENTS
from codenav.sets.split.crossing import Cut, Shared
from codenav.sets.split.flat import Flat
from codenav.sets.split.lines import Counter
from codenav.sets.split.part import Part

LOW, HIGH = 0.6, 0.85
HALF = 0.5
JOINED = 0.97
DOCUMENT_WEIGHT = 3
BYTES_AN_ELEMENT = 110


@dataclass(frozen=True)
class Size:
    """How large a part is: its elements, and at most its bytes and the rows of a kind that the
    server makes of it."""

    elements: int
    bytes: int
    rows: int

    def fits(self, most: int) -> bool:
        """Whether the server takes the part, where a dump may have so many elements."""
        return self.elements <= most and self.bytes <= MOST_BODY_BYTES and self.rows <= MOST_ROWS

    def share(self, most: int) -> float:
        """How full the part is, as a share of the limit that it's nearest to."""
        return max(self.elements / most, self.bytes / MOST_BODY_BYTES, self.rows / MOST_ROWS)

    def said(self, most: int) -> str:
        """What it has more of than the server takes."""
        if self.elements > most:
            return f"{self.elements} elements"
        return f"{self.bytes} bytes" if self.bytes > MOST_BODY_BYTES else f"{self.rows} rows"


class TooLarge(Exception):
    """Documents that are over the limits by themselves, each with what it has too much of."""

    def __init__(self, documents: list[tuple[str, str]]) -> None:
        super().__init__(documents)
        self.documents = documents


class Weights:
    """About how many elements the documents of a dump make in a part."""

    def __init__(self, flat: Flat) -> None:
        self.flat = flat

    def meanings_of(self, document: int) -> tuple[int, list[int]]:
        """What a document weighs by itself, and what its ranges mean."""
        flat = self.flat
        ranks = flat.meaning[flat.first[document] : flat.first[document + 1]]
        return DOCUMENT_WEIGHT + 2 * len(ranks), [own for own in set(ranks) if own != NONE]

    def meaning(self, own: int) -> tuple[int, int]:
        """What a meaning weighs in elements and in bytes."""
        flat = self.flat
        firsts, marks = flat.meanings[own]
        elements, size = 3 + 3 * len(flat.marks[marks]), 0
        for request, result in enumerate(flat.firsts[firsts]):
            if result != NONE:
                elements += 2 if request == HOVER else 4
                size += flat.hover_sizes[result]
        return elements, size

    def growth(self, first: int, last: int, most: int, full: float) -> list[float]:
        """How full a part is after each document, from one to before another, as a share of the
        limits; up to one after which it's full."""
        seen: set[int] = set()
        elements, size, shares = 0, 0, []
        for document in range(first, last):
            weight, meanings = self.meanings_of(document)
            elements += weight
            for own in meanings:
                if own not in seen:
                    seen.add(own)
                    more, length = self.meaning(own)
                    elements, size = elements + more, size + length
            used = BYTES_AN_ELEMENT * elements + size
            shares.append(max(elements / most, used / MOST_BODY_BYTES))
            if shares[-1] > full:
                break
        return shares


def suits(uris: Sequence[str], document: int) -> tuple[int, bytes]:
    """How well a cut before a document suits, the less the better: the folders that both sides have
    in common; else by chance."""
    before, after = uris[document - 1].split("/")[:-1], uris[document].split("/")[:-1]
    common = 0
    while common < min(len(before), len(after)) and before[common] == after[common]:
        common += 1
    return common, hashlib.sha256(uris[document].encode("utf-8", "surrogatepass")).digest()


def filled(weights: Weights, first: int, last: int, most: int) -> list[int]:
    """Cuts from a document to before another, so that each part but the last is filled to a share
    of the limits; the first and the last are among them."""
    cuts = [first]
    while True:
        shares = weights.growth(cuts[-1], last, most, 1.0)
        if not shares or shares[-1] <= HIGH:
            break
        window = [at for at, share in enumerate(shares[:-1], 1) if LOW <= share <= HIGH]
        under = [at for at, share in enumerate(shares[:-1], 1) if share <= HIGH]
        choices = window or under[-1:] or [1]
        if cuts[-1] + choices[0] >= last:
            break
        cuts.append(
            min((cuts[-1] + at for at in choices), key=lambda at: suits(weights.flat.uris, at))
        )
    return [*cuts, last]


def kept_cuts(uris: Sequence[str], firsts: Iterable[str]) -> list[int]:
    """The cuts of the last time among the documents of this time; `firsts` are the addresses that
    each part began with."""
    ordered = [uri.encode() for uri in uris]
    inner = {bisect_left(ordered, first.encode()) for first in firsts} - {0, len(uris)}
    return [0, *sorted(inner), len(uris)]


def halved(weights: Weights, first: int, last: int, most: int) -> int:
    """A cut between two documents, in the middle third of what is between."""
    shares = weights.growth(first, last, most, math.inf)
    total = shares[-1]
    middle = [
        at for at, share in enumerate(shares[:-1], 1) if total / 3 <= share <= total * 2 / 3
    ] or [min(range(1, last - first), key=lambda at: abs(shares[at - 1] - total / 2))]
    return min((first + at for at in middle), key=lambda at: suits(weights.flat.uris, at))


def mark_rows(cut: Cut, part: int) -> int:
    """How many rows of marks the server makes of a part at most."""
    flat, count = cut.flat, 0
    ranks = cut.meaning[cut.borders[part] : cut.borders[part + 1]]
    for own, ranges in Occurrences(ranks).items():
        if own != NONE:
            keys = [flat.keys[mark >> 1] for mark in flat.marks[cut.meanings[own][1]]]
            count += ranges * (len(REQUESTS) + sum(1 + len(str(key)) // TEXT_BYTES for key in keys))
    return count


def sizes_of(cut: Cut) -> list[Size]:
    """How large each part is."""
    sizes = []
    for part in range(cut.parts):
        counter = Counter(cut.flat)
        Part(cut, part, counter).write()
        longest = max(map(len, cut.flat.uris[cut.cuts[part] : cut.cuts[part + 1]]))
        rows = max(counter.items, counter.count) * (1 + longest // TEXT_BYTES)
        sizes.append(Size(counter.count, counter.bytes, max(rows, mark_rows(cut, part))))
    return sizes


def refuse_large(flat: Flat, most: int) -> None:
    """Raises TooLarge where documents have more ranges than a part may have elements."""
    counts = [(uri, flat.first[at + 1] - flat.first[at]) for at, uri in enumerate(flat.uris)]
    large = [(uri, f"{count} elements") for uri, count in counts if count > most]
    if large:
        raise TooLarge(large)


def joined(cuts: list[int], sizes: Sequence[Size], most: int) -> list[int]:
    """The cuts without some between neighbours that have room for each other, where parts are less
    than half full on average."""
    shares = [size.share(most) for size in sizes]
    cuts = list(cuts)
    while len(shares) > 1 and sum(shares) < HALF * len(shares):
        together = [one + other for one, other in zip(shares, shares[1:])]
        least = min(range(len(together)), key=lambda at: together[at])
        if together[least] > JOINED:
            break
        shares[least : least + 2] = [together[least]]
        del cuts[least + 1]
    return cuts


def split_over(cut: Cut, sizes: Sequence[Size], weights: Weights, most: int) -> list[int]:
    """The cuts with one more in each part that is over the limits; raises TooLarge where that's one
    document."""
    cuts, alone = list(cut.cuts), []
    for part in reversed(range(cut.parts)):
        first, last = cut.cuts[part], cut.cuts[part + 1]
        if sizes[part].fits(most):
            continue
        if last - first > 1:
            cuts.insert(part + 1, halved(weights, first, last, most))
        else:
            alone.append((cut.flat.uris[first], sizes[part].said(most)))
    if alone:
        raise TooLarge(alone[::-1])
    return cuts


def planned(
    shared: Shared,
    set_name: str,
    before: Optional[Sequence[str]] = None,
    most: int = MOST_ELEMENTS,
) -> tuple[Cut, list[Size]]:
    """A cut of a dump whose parts fit; `before` are the addresses that the parts began with the
    last time."""
    flat = shared.flat
    refuse_large(flat, most)
    weights = Weights(flat)
    cuts = (
        filled(weights, 0, len(flat.uris), most) if before is None else kept_cuts(flat.uris, before)
    )
    may_join = True
    while True:
        cut = Cut(shared, cuts, set_name)
        sizes = sizes_of(cut)
        if not all(size.fits(most) for size in sizes):
            cuts = split_over(cut, sizes, weights, most)
            continue
        fewer = joined(cuts, sizes, most) if may_join else cuts
        if fewer == cuts:
            return cut, sizes
        cuts, may_join = fewer, False
