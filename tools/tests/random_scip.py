"""Random SCIP indexes: a few symbols at a few places of some documents, related in any way."""

from typing import Any

from codenav.dumps.scip.scip_pb2 import Index

SYMBOLS = [
    *(f"scip-x npm app 1.0.0 {name}#" for name in "ab"),
    "scip-x npm lib . c#",
    "s . . . d#",
    "local 0",
    "local 1",
]
LINES = ["a\u00e9\U0001f600bcd", "", "abcdef"]
CODECS = {1: ("utf-8", 1), 2: ("utf-16-le", 2), 3: ("utf-32-le", 4)}
# characters of LINES: nested, equal, crossing, empty, over lines, around all, and beyond an end
SPANS = [
    (0, 0, 0, 3),
    (0, 0, 0, 3),
    (0, 3, 0, 5),
    (0, 0, 0, 6),
    (2, 0, 2, 2),
    (2, 0, 2, 4),
    (2, 1, 2, 5),
    (0, 2, 0, 2),
    (0, 5, 2, 1),
    (0, 0, 2, 6),
    (2, 4, 2, 7),
]
RELATIONS = ["is_reference", "is_implementation", "is_definition"]


def column(line: int, character: int, encoding: int) -> int:
    """A character of a line as a document counts it; one beyond the end stays beyond it."""
    codec, size = CODECS[encoding]
    before = len(LINES[line][:character].encode(codec)) // size
    return before + max(0, character - len(LINES[line]))


class Drawn:
    """Draws the parts of an index, by hypothesis."""

    def __init__(self, draw: Any, strategies: Any) -> None:
        self.draw, self.st = draw, strategies

    def one_of(self, values: Any) -> Any:
        """One of some values."""
        return self.draw(self.st.sampled_from(values))

    def seldom(self) -> bool:
        """True now and then."""
        return bool(self.one_of(range(10)) == 9)

    def count(self, least: int, most: int) -> range:
        """As many as there are to be."""
        return range(self.draw(self.st.integers(least, most)))

    def occurrence(self, encoding: int, symbols: list[str]) -> dict[str, Any]:
        """An occurrence."""
        line, start, last, end = self.one_of(SPANS)
        ends = column(line, start, encoding), column(last, end, encoding)
        short = line == last and self.one_of([True, False])
        symbol = self.one_of(symbols)
        return {
            "range": [line, ends[0], ends[1]] if short else [line, ends[0], last, ends[1]],
            "symbol": "bad" if self.seldom() and self.seldom() else symbol,
            "symbol_roles": self.one_of([0, 0, 1, 1, 8, 64, 64, 65]),
            "override_documentation": ["Just here."] if self.seldom() else [],
        }

    def information(self, symbols: list[str]) -> dict[str, Any]:
        """What is said of a symbol."""
        symbol = self.one_of(symbols)
        return {
            "symbol": symbol,
            "documentation": self.one_of([[], [f"Of {symbol}."], ["Some", "more."]]),
            "relationships": [
                {"symbol": self.one_of(symbols), **{self.one_of(RELATIONS): True}}
                for _ in self.count(0, 2)
            ],
        }

    def index(self, root: str) -> Any:
        """An index of two to four documents, of which some may be one in several messages."""
        symbols = self.draw(self.st.permutations(SYMBOLS))[: self.one_of(range(2, 6))]
        encodings = {name: self.one_of([1, 2, 2, 3]) for name in "abc"}
        index: Any = Index()
        index.metadata.project_root = root
        index.metadata.tool_info.name = "scip-x"
        for name in self.draw(self.st.lists(self.st.sampled_from("abc"), min_size=2, max_size=4)):
            encoding = encodings[name]
            own = index.documents.add(relative_path=f"{name}.ts", position_encoding=encoding)
            own.text = "\n".join(LINES)
            for _ in self.count(0, 8):
                own.occurrences.add(**self.occurrence(encoding, symbols))
            for _ in self.count(0, 3):
                own.symbols.add(**self.information(symbols))
        for _ in self.count(0, 1):
            index.external_symbols.add(**self.information(symbols[:2]))
        return index


def indexes(strategies: Any, root: str = "file:///work/app") -> Any:
    """The strategy of indexes."""
    return strategies.composite(lambda draw: Drawn(draw, strategies).index(root))()
