"""Makes large inputs, for measurements: dumps and tags files of any size from nothing, which other
scripts take, and by its own words copies of real dumps, or ones that say more.

of IN OUT BYTES: copies of a dump with numbers as ids, or of a SCIP index, whose name ends with
.scip, up to so many bytes, each with documents, ids and symbols of its own.

joined OUT COPIES SHARE DUMP..: of each prepared dump so many copies, with addresses, keys and ids
of its own, and a share of the references of later ones led to symbols of earlier ones, half of them
to few symbols that many use. Each dump is read once, into texts in which the ids are left open; a
copy fills them in. `make_text` makes dumps that are joined with each other: each is made of the
same smaller ones, under names of its own, and a share of its references leads to symbols of the
next dump, the last one's to the first. There it imports a key that the other one exports, for one
result alone: of others a set hides the key. The text is made once, with names that begin by the
number of the dump, so that each dump is a copy of it with other numbers.

implementations IN OUT: a SCIP index of rust-analyzer with what its symbols say and its
relationships don't: which method of a trait each method of an `impl` block implements. A method
that is implemented so is declared where the trait has it. So a dump that's made of it has
implementations and declarations, for profile 2.
"""

import argparse
import json
import os
import random
import re
import tempfile
from collections import Counter
from typing import IO, Any, BinaryIO, Callable, Iterator, NamedTuple, TypeVar

import servers  # noqa: F401  (the path of the checks and of the tools)
from watched import Lines


def function(own: Lines, file: int, line: int) -> list[int]:
    """A function that is defined in a line, and named three times in the next two; answers its
    ranges."""
    number, both = own.last, own.vertex("resultSet")
    ranges = []
    for at, first in (line, 3), (line + 1, 8), (line + 1, 20), (line + 2, 12):
        ranges.append(own.range(at, first, at, first + 8))
        own.edge("next", ranges[-1], both)
    own.item(own.result("definition", both), ranges[:1], file)
    references = own.result("references", both)
    own.item(references, ranges[:1], file, "definitions")
    own.item(references, ranges[1:], file, "references")
    value = f"\\n```rust\\nfn name_{number}(first: u32) -> u32\\n```\\n\\nThe number of this name."
    own.result("hover", both, f',"result":{{"contents":{{"kind":"markdown","value":"{value}"}}}}')
    return ranges


def dump(count: int) -> bytes:
    """A dump of so many elements: documents of some 450 elements, each with a range over the whole
    document and functions that are named four times; result sets that nothing names make up the
    number."""
    own = Lines()
    own.meta_data()
    project, files = own.vertex("project", ',"kind":"rust"'), []
    while own.last + 22 < count:
        files.append(own.document(own.last))
        targets = [own.range(0, 0, 200, 0)]
        for line in range(0, 200, 8):
            if own.last + 20 < count:
                targets += function(own, files[-1], line)
        own.contains(files[-1], targets)
    while own.last + 1 < count:
        own.vertex("resultSet")
    own.contains(project, files)
    return own.text()


def of_ranges(edges: int, places: Iterator[tuple[int, int, int, int]]) -> bytes:
    """A dump of one document with these ranges, which so many edges contain, each of them one range
    in so many."""
    own = Lines()
    own.meta_data()
    file = own.document(0)
    ids = [own.range(*place) for place in places]
    for first in range(edges):
        own.contains(file, ids[first::edges])
    return own.text()


def ranges(count: int, edges: int, order: str) -> bytes:
    """Ranges, four a line, three of them in the fourth, from the first on or from the last."""

    def places() -> Iterator[tuple[int, int, int, int]]:
        for place in range(count) if order == "rising" else reversed(range(count)):
            line, column = place // 4, 10 * (place % 4)
            yield line, column, line, column + 8 if column else 40

    return of_ranges(edges, places())


def nested(count: int, edges: int, order: str, all_nest: bool = False) -> bytes:
    """Ranges of which the first half lie in each other and the others beside them, behind, or of
    which all lie in each other; in rising order, in falling order, or in turn from both ends
    (mixed)."""
    deep = count if all_nest else count // 2

    def places() -> Iterator[tuple[int, int, int, int]]:
        for n in range(count):
            from_end = n if order == "falling" else n // 2
            is_behind = order == "falling" or order == "mixed" and n % 2
            place = n if order == "rising" else count - 1 - from_end if is_behind else n // 2
            if place < deep:
                yield place, 0, 2 * count - place, 0
            else:
                yield 2 * count + place, 0, 2 * count + place, 8

    return of_ranges(edges, places())


def texts(count: int) -> bytes:
    """Result sets whose ids are texts of 48 bytes, which differ in the last few alone."""
    head = '","type":"vertex","label":"metaData","version":"0.6.0","positionEncoding":"utf-16"}'
    lines = [f'{{"id":"{0:048}{head}']
    for n in range(1, count):
        lines.append(f'{{"id":"{n * 7919 % 1000003:048}","type":"vertex","label":"resultSet"}}')
    return "".join(f"{line}\n" for line in lines).encode()


def items(edges: int, own: str) -> bytes:
    """A dump of one range with this id, a number or a text in quotes, and of so many `item` edges
    of half a megabyte each, which name the range over and over."""
    ends = '"start":{"line":0,"character":0},"end":{"line":0,"character":8}'
    lines = [
        '{"id":1,"type":"vertex","label":"metaData","version":"0.6.0","positionEncoding":"utf-16"}',
        '{"id":2,"type":"vertex","label":"document","uri":"file:///src/part.rs","languageId":"rust"}',
        '{"id":3,"type":"vertex","label":"definitionResult"}',
        f'{{"id":{own},"type":"vertex","label":"range",{ends}}}',
        f'{{"id":5,"type":"edge","label":"contains","inVs":[{own}],"outV":2}}',
    ]
    targets = own
    while 2 * len(targets) < 1048000:
        targets = f"{targets},{targets}"
    rest = f'"type":"edge","label":"item","document":2,"inVs":[{targets}],"outV":3}}'
    lines += [f'{{"id":{10 + n},{rest}' for n in range(edges)]
    return "".join(f"{line}\n" for line in lines).encode()


def chain(count: int, order: str) -> bytes:
    """Result sets in one chain of `next` edges, which begins to be joined at its end where the
    order falls."""
    own = Lines()
    own.meta_data()
    sets = [own.vertex("resultSet") for _ in range(count)]
    for at in sets[:-1] if order == "rising" else sets[-2::-1]:
        own.edge("next", at, at + 1)
    return own.text()


def hovers(documents: int, each: int, length: int) -> bytes:
    """Documents with so many ranges each, which have hovers of some such length."""
    own = Lines()
    own.vertex("metaData", ',"version":"0.6.0","positionEncoding":"utf-16"')
    for number in range(documents):
        file, targets = own.document(number), []
        for line in range(each):
            targets.append(own.range(line, 4, line, 9))
            said = f',"result":{{"contents":"{"x" * length}{line}"}}'
            own.result("hover", targets[-1], said)
        own.contains(file, targets)
    return own.text()


def tags(count: int) -> bytes:
    """So many tags of some 60 bytes, in order of their names."""
    head = "!_TAG_FILE_FORMAT\t2\t//\n!_TAG_FILE_SORTED\t1\t//\n"
    return (
        head
        + "".join(
            f'name_{n:06}\tsrc/part_{n % 500:03}.c\t/^int name_{n:06}(void)$/;"\tf\tline:{n}\n'
            for n in range(1, count + 1)
        )
    ).encode()


Element = dict[str, Any]
Symbol = tuple[int, int]
WITHOUT = ("foldingRange", "documentSymbol", "documentLink", "diagnostic", "metaData")
IDS = ("id", "outV", "inV", "inVs", "shard", "document")
OPEN, PREFIX = "\x01", "\x02"
OF_TRAIT = re.compile(r"(?:^|[/ ])(\w+)#(\w+)\(\)\.$")
OF_IMPL = re.compile(r"impl#.*\[`?(?:.*::)?(\w+)[^\]]*`?\](\w+)\(\)\.$")


def as_text(element: Element) -> str:
    """An element as a line."""
    return json.dumps(element, separators=(",", ":"), ensure_ascii=False) + "\n"


def opened(element: Element, folder: str) -> tuple[str, tuple[int, ...]]:
    """An element as a text in which its ids are left open, and these; what a copy calls otherwise
    has a prefix, addresses one with a folder."""
    ids: list[int] = []
    one = dict(element)
    for member in filter(IDS.__contains__, element):
        ends = element[member] if member == "inVs" else [element[member]]
        one[member] = [OPEN] * len(ends) if member == "inVs" else OPEN
        ids += ends
    if one["type"] == "vertex" and one["label"] == "document":
        one["uri"] = one["uri"].replace("file:///", f"file:///ws/{PREFIX}-{folder}/")
    elif one["type"] == "vertex" and one["label"] == "moniker":
        one["identifier"] = f"{PREFIX}::{one['identifier']}"
    elif one["type"] == "vertex" and one["label"] == "packageInformation":
        one["name"] = f"{PREFIX}-{one['name']}"
    text = as_text(one).replace("%", "%%").replace(f'"{json.dumps(OPEN)[1:-1]}"', "%d")
    return text.replace(json.dumps(PREFIX)[1:-1], PREFIX), tuple(ids)


class Smaller:
    """One of the smaller dumps: the lines of its elements, which of its ranges may lead elsewhere,
    and its result sets that have a moniker, with their references."""

    def __init__(self, path: str, without: tuple[str, ...] = WITHOUT) -> None:
        self.name = os.path.basename(path).split(".")[0]
        self.lines: list[tuple[str, tuple[int, ...]]] = []
        self.last = 0
        self.documents: set[int] = set()
        self.home: dict[int, int] = {}
        self.references: dict[int, int] = {}
        self.next_at: dict[int, int] = {}
        self.items: dict[int, Element] = {}
        self.used_at: dict[int, list[int]] = {}
        with_moniker: set[int] = set()
        definitions: set[int] = set()
        with open(path, encoding="utf-8") as file:
            for one in map(json.loads, file):
                if not any(word in one["label"] for word in without):
                    self.learn(one, with_moniker, definitions)
                    self.lines.append(opened(one, self.name))
                    self.last = max(self.last, one["id"])
        own = sorted(with_moniker & self.references.keys())
        self.symbols = [(bearer, self.references[bearer]) for bearer in own]
        self.movable = [own for own in self.next_at if own in self.home and own not in definitions]

    def learn(self, one: Element, with_moniker: set[int], definitions: set[int]) -> None:
        """Learns of an element what has to be known of the dump."""
        label, at = one["label"], len(self.lines)
        if one["type"] == "vertex":
            if label == "document":
                self.documents.add(one["id"])
        elif label == "contains" and one["outV"] in self.documents:
            self.home.update(dict.fromkeys(one["inVs"], one["outV"]))
        elif label == "next":
            self.next_at[one["outV"]] = at
        elif label == "textDocument/references":
            self.references[one["outV"]] = one["inV"]
        elif label == "moniker":
            with_moniker.add(one["outV"])
        elif label == "item" and one.get("property") == "references":
            self.items[at] = one
            for end in one["inVs"]:
                self.used_at.setdefault(end, []).append(at)
        elif label == "item":
            definitions.update(one["inVs"])

    def copied(self, base: int, prefix: str, other: dict[int, str]) -> Iterator[str]:
        """The lines of a copy whose ids begin at a number, some of them other ones."""
        for at, (text, ids) in enumerate(self.lines):
            if at in other:
                yield other[at]
            else:
                if PREFIX in text:
                    text = text.replace(PREFIX, prefix)
                yield text % tuple([own + base for own in ids])

    def led_away(self, base: int, away: dict[int, Symbol], later: IO[str]) -> dict[int, str]:
        """The lines that are other ones in a copy some of whose ranges lead to symbols of earlier
        copies: the edges to these go to `later`."""
        other: dict[int, str] = {}
        rest: dict[int, list[int]] = {}
        for own, (symbol, references) in away.items():
            other[self.next_at[own]] = ""
            edge = {"type": "edge", "label": "next", "outV": own + base, "inV": symbol}
            later.write(as_text(edge))
            for at in self.used_at.get(own, ()):
                ends = rest.setdefault(at, list(self.items[at]["inVs"]))
                ends.remove(own)
                item = {"type": "edge", "label": "item", "outV": references, "inVs": [own + base]}
                home = {"shard": self.home[own] + base, "property": "references"}
                later.write(as_text({**item, **home}))
        for at, ends in rest.items():
            text, ids = opened({**self.items[at], "inVs": ends}, self.name)
            other[at] = text % tuple([own + base for own in ids]) if ends else ""
        return other


def away_of(
    dump: Smaller, rng: random.Random, share: float, symbols: list[Symbol]
) -> dict[int, Symbol]:
    """The ranges of a copy that lead to symbols of earlier ones."""
    found = {}
    for own in dump.movable if symbols else ():
        if rng.random() < share:
            at = min(int(rng.paretovariate(0.6)) - 1, len(symbols) - 1)
            found[own] = symbols[at if rng.random() < 0.5 else rng.randrange(len(symbols))]
    return found


def put_copies(
    out: IO[str], later: IO[str], copies: int, share: float, paths: list[str]
) -> tuple[int, int, int]:
    """Writes the copies of dumps, and edges between them to `later`; answers the last id, and how
    many elements and symbols there are."""
    rng, dumps = random.Random(7), [Smaller(path) for path in paths]
    symbols: list[Symbol] = []
    last, count = 0, 1
    out.write(as_text({"id": 0, "type": "vertex", "label": "metaData", "version": "0.6.0"}))
    for number in range(copies):
        for dump in dumps:
            base = last + 1
            other = dump.led_away(base, away_of(dump, rng, share, symbols), later)
            out.writelines(dump.copied(base, f"c{number:03d}", other))
            count += len(dump.lines) - sum(not text for text in other.values())
            last = base + dump.last
            more = [(own + base, references + base) for own, references in dump.symbols]
            rng.shuffle(more)
            symbols += more
    return last, count, len(symbols)


Made = TypeVar("Made")


def with_later(path: str, put: Callable[[IO[str], IO[str]], tuple[int, Made]]) -> tuple[int, Made]:
    """Writes a dump, and behind it the elements that `put` wrote apart, which have no ids yet;
    answers how many these are, and what `put` made."""
    led = 0
    with open(path, "w", encoding="utf-8") as out, tempfile.TemporaryFile(
        "w+", encoding="utf-8"
    ) as later:
        last, made = put(out, later)
        later.seek(0)
        for led, line in enumerate(later, 1):
            out.write(f'{{"id":{last + led},{line[1:]}')
    return led, made


def write_joined(path: str, copies: int, share: float, paths: list[str]) -> None:
    """Writes copies of dumps that lead to each other."""

    def put(out: IO[str], later: IO[str]) -> tuple[int, tuple[int, int]]:
        last, count, symbols = put_copies(out, later, copies, share, paths)
        return last, (count, symbols)

    led, (count, symbols) = with_later(path, put)
    print(f"elements {count + led}, edges led elsewhere {led}, symbols {symbols}")


def write_dumps(source: str, out: BinaryIO, size: int) -> int:
    """Writes copies of a dump up to so many bytes; answers how many elements there are."""
    own, count, copy = Smaller(source, ("metaData",)), 1, 0
    with open(source, "rb") as file:
        out.write(file.readline())
    while out.tell() < size:
        for text in own.copied(1 + copy * (own.last + 1), f"copy{copy}", {}):
            out.write(text.encode())
        count, copy = count + len(own.lines), copy + 1
    return count


def field(number: int, body: bytes) -> bytes:
    """A field of a message, with its bytes behind their number."""
    return bytes([number << 3 | 2]) + varint(len(body)) + body


def varint(number: int) -> bytes:
    """A number as the wire format has it."""
    found = b""
    while number > 127:
        found += bytes([number & 127 | 128])
        number >>= 7
    return found + bytes([number])


def copies(index: Any, copy: int) -> Iterator[bytes]:
    """The documents of a copy of an index, as fields of it; the symbols of its own package are
    those of the copy."""
    defined = {
        information.symbol for document in index.documents for information in document.symbols
    }

    def own(symbol: str) -> str:
        return (
            symbol
            if symbol.startswith("local ") or symbol not in defined
            else f"{symbol}copy{copy}#"
        )

    for before in index.documents:
        document = type(before)()
        document.CopyFrom(before)
        document.relative_path = f"copy{copy}/{document.relative_path}"
        for occurrence in document.occurrences:
            occurrence.symbol = own(occurrence.symbol)
        for information in document.symbols:
            information.symbol = own(information.symbol)
            for relation in information.relationships:
                relation.symbol = own(relation.symbol)
        yield field(2, document.SerializeToString())


def write_indexes(source: str, out: BinaryIO, size: int) -> int:
    """Writes copies of an index up to so many bytes; answers how many occurrences there are."""
    from codenav.dumps.scip.scip_pb2 import Index

    index = Index()
    with open(source, "rb") as file:
        index.ParseFromString(file.read())
    out.write(field(1, index.metadata.SerializeToString()))
    for information in index.external_symbols:
        out.write(field(3, information.SerializeToString()))
    count, copy = 0, 0
    while out.tell() < size:
        for piece in copies(index, copy):
            out.write(piece)
        count, copy = (
            count + sum(len(document.occurrences) for document in index.documents),
            copy + 1,
        )
    return count


def write_implementations(source: str, target: str) -> None:
    """Writes an index that says what implements what."""
    from codenav.dumps.scip.scip_pb2 import Index, Relationship, SymbolRole

    role = SymbolRole.Value("Definition") | SymbolRole.Value("ForwardDefinition")
    index, added = Index(), 0
    with open(source, "rb") as file:
        index.ParseFromString(file.read())
    traits: dict[tuple[str, str], str] = {}
    for document in index.documents:
        for own in document.symbols:
            found = OF_TRAIT.search(own.symbol)
            if found is not None and "impl#" not in own.symbol:
                traits.setdefault((found[1], found[2]), own.symbol)
    implemented = set()
    for document in index.documents:
        for own in document.symbols:
            found = OF_IMPL.search(own.symbol)
            other = traits.get((found[1], found[2])) if found is not None else None
            if other is not None:
                relation = Relationship()
                relation.symbol, relation.is_implementation = other, True
                own.relationships.append(relation)
                implemented.add(other)
                added += 1
    for document in index.documents:
        for place in document.occurrences:
            if place.symbol in implemented and place.symbol_roles & SymbolRole.Value("Definition"):
                place.symbol_roles ^= role
    with open(target, "wb") as out:
        out.write(index.SerializeToString())
    print(f"methods that implement another {added}, of {len(implemented)} traits' methods")


def write_of(source: str, target: str, size: int) -> None:
    """Writes copies of a dump or an index."""
    is_index = source.endswith(".scip")
    with open(target, "wb") as out:
        count = (write_indexes if is_index else write_dumps)(source, out, size)
    what = "occurrences" if is_index else "elements"
    print(f"{target}: {os.path.getsize(target)} bytes, {count} {what}")


SHARE = 0.05
NAME = re.compile(r"\bs([0-9]+)_c(?=[0-9]{3})")
KEPT = ("document", "range", "moniker", "packageInformation")
MOST_PLACES = 4000
BLOCK = 1 << 20
FIRST = 1_000_000_000
"""The first id of what is written when all else is known: no dump has so many elements."""

Place = tuple[str, int, int]


class Ring(NamedTuple):
    """What was made: the number of elements, and places of references that lead to other dumps."""

    elements: int
    places: list[Place]


class Key(NamedTuple):
    """An exported key: its moniker and its package, with the names of a copy."""

    moniker: Element
    package: Element


class Marked(Smaller):
    """A smaller dump within the text, of which is also known where its ranges are, and which result
    sets export what."""

    def __init__(self, path: str) -> None:
        self.kept: dict[int, Element] = {}
        self.keys: dict[int, int] = {}
        self.package: dict[int, int] = {}
        self.led_to: dict[int, int] = {}
        super().__init__(path)

    def learn(self, one: Element, with_moniker: set[int], definitions: set[int]) -> None:
        """Learns of an element what has to be known of the dump."""
        super().learn(one, with_moniker, definitions)
        label = one["label"]
        if one["type"] == "vertex":
            if label in KEPT:
                self.kept[one["id"]] = one
        elif label == "next":
            self.led_to[one["outV"]] = one["inV"]
        elif label == "moniker" and self.kept[one["inV"]]["kind"] == "export":
            self.keys[one["outV"]] = one["inV"]
        elif label == "packageInformation":
            self.package[one["outV"]] = one["inV"]

    def exports(self, base: int, prefix: str, single: set[str]) -> Iterator[tuple[Symbol, Key]]:
        """The symbols of a copy that have an exported key of these, each with the key."""
        led_to = {to for own, to in self.led_to.items() if own not in self.home}
        for own, number in self.keys.items():
            moniker = self.kept[number]
            is_single = moniker["identifier"] in single and own not in led_to
            if is_single and own in self.references and number in self.package:
                package = self.kept[self.package[number]]
                identifier = f"{prefix}::{moniker['identifier']}"
                name = f"{prefix}-{package['name']}"
                yield (own + base, self.references[own] + base), Key(
                    {**moniker, "identifier": identifier}, {**package, "name": name}
                )

    def places(self, prefix: str, ranges: dict[int, Symbol]) -> Iterator[Place]:
        """The places of ranges in a copy."""
        for own in ranges:
            uri, start = self.kept[self.home[own]]["uri"], self.kept[own]["start"]
            uri = uri.replace("file:///", f"file:///ws/{prefix}-{self.name}/")
            yield uri, start["line"], start["character"]


class Imports:
    """The result sets that import keys of the next dump, which are written when they are known."""

    def __init__(self) -> None:
        self.symbols: dict[Symbol, Symbol] = {}

    def of(self, symbol: Symbol) -> Symbol:
        """The import of a symbol of the next dump."""
        number = FIRST + 2 * len(self.symbols)
        return self.symbols.setdefault(symbol, (number, number + 1))

    def written(self, keys: dict[Symbol, Key], first: int) -> Iterator[Element]:
        """The elements of the imports, which have ids from `first` on but for the result sets and
        results."""
        for symbol, (own, references) in self.symbols.items():
            moniker, package = keys[symbol]
            identifier, name = renamed(moniker["identifier"], 1), renamed(package["name"], 1)
            yield {"id": own, "type": "vertex", "label": "resultSet"}
            yield {"id": references, "type": "vertex", "label": "referenceResult"}
            yield {**moniker, "id": first, "kind": "import", "identifier": identifier}
            yield {**package, "id": first + 1, "name": name}
            for label, ends in (
                ("packageInformation", (first, first + 1)),
                ("moniker", (own, first)),
                ("textDocument/references", (own, references)),
            ):
                edge = {"type": "edge", "label": label, "outV": ends[0], "inV": ends[1]}
                yield {"id": first + 2, **edge}
                first += 1
            first += 2


def single_keys(dumps: list[str]) -> set[str]:
    """The identifiers that one vertex of all dumps has."""
    found: Counter[str] = Counter()
    for dump in dumps:
        identifiers: dict[int, str] = {}
        with open(dump, encoding="utf-8") as file:
            for one in (json.loads(line) for line in file if '"label":"moniker"' in line):
                if one["type"] == "vertex":
                    identifiers[one["id"]] = one["identifier"]
                else:
                    found[identifiers[one["inV"]]] += 1
    return {identifier for identifier, count in found.items() if count == 1}


def put_ring(
    out: IO[str], later: IO[str], copies: int, dumps: list[str]
) -> tuple[int, int, list[Place]]:
    """Writes the copies and what they import, and edges between them to `later`; answers the last
    id, how many elements there are, and the places that lead to the next dump."""
    rng, imports, single = random.Random(5), Imports(), single_keys(dumps)
    symbols: list[Symbol] = []
    keys: dict[Symbol, Key] = {}
    places: list[Place] = []
    last, count = 0, 1
    out.write(as_text({"id": 0, "type": "vertex", "label": "metaData", "version": "0.6.0"}))
    marked = [Marked(path) for path in dumps]
    for number in range(copies):
        for dump in marked:
            base, prefix = last + 1, f"s0_c{number:03d}"
            away = away_of(dump, rng, SHARE, symbols)
            # all of the copies so far are in the next dump too
            abroad = away_of(dump, rng, SHARE, list(keys))
            led = {own: imports.of(to) for own, to in abroad.items()}
            places += dump.places(prefix, led)
            other = dump.led_away(base, {**away, **led}, later)
            out.writelines(dump.copied(base, prefix, other))
            count += len(dump.lines) - sum(not text for text in other.values())
            last = base + dump.last
            symbols += [(own + base, references + base) for own, references in dump.symbols]
            keys.update(dump.exports(base, prefix, single))
    for one in imports.written(keys, last + 1):
        out.write(as_text(one))
        count += 1
    rng.shuffle(places)
    return last + 5 * len(imports.symbols), count, places


def make_text(path: str, copies: int, dumps: list[str]) -> Ring:
    """Writes the text of which all dumps are copies."""

    def put(out: IO[str], later: IO[str]) -> tuple[int, tuple[int, list[Place]]]:
        last, count, places = put_ring(out, later, copies, dumps)
        return last, (count, places)

    led, (count, places) = with_later(path, put)
    return Ring(count + led, places[:MOST_PLACES])


def renamed(text: str, by: int, count: int = 0) -> str:
    """A text of the dump so many on, of `count` in a ring where there's such a number."""

    def name(found: re.Match[str]) -> str:
        number = int(found[1]) + by
        return f"s{number % count if count else number}_c"

    return NAME.sub(name, text)


def write_renamed(path: str, out: str, by: int, count: int) -> None:
    """Writes the text of a file as that of the dump so many on, of `count`."""
    with open(path, encoding="utf-8") as text, open(out, "w", encoding="utf-8") as file:
        while lines := text.readlines(BLOCK):
            file.write(renamed("".join(lines), by, count))


def main() -> None:
    options = argparse.ArgumentParser(
        description=__doc__, formatter_class=argparse.RawDescriptionHelpFormatter
    )
    parts = options.add_subparsers(required=True, dest="part")
    of, joined, more = (parts.add_parser(name) for name in ("of", "joined", "implementations"))
    for own in of, more:
        own.add_argument("source", metavar="IN")
    for own in of, joined, more:
        own.add_argument("target", metavar="OUT")
    of.add_argument("size", metavar="BYTES", type=int)
    joined.add_argument("copies", metavar="COPIES", type=int)
    joined.add_argument("share", metavar="SHARE", type=float, help="as 0.05")
    joined.add_argument("dumps", metavar="DUMP", nargs="+")
    given = options.parse_args()
    if given.part == "of":
        write_of(given.source, given.target, given.size)
    elif given.part == "joined":
        write_joined(given.target, given.copies, given.share, given.dumps)
    else:
        write_implementations(given.source, given.target)


if __name__ == "__main__":
    main()
