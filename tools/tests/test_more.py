"""Tests of what `publish --more` keeps beside a dump, and an editor asks for: against a model of the
raw dump, which follows its edges one by one."""

import json
import os
import random
import unittest
from typing import Any, Iterator
from unittest import mock

from codenav import limits
from codenav.cli.publish import PUBLISH
from codenav.publishing import more
from codenav.settings.found import FILE
from codenav.texts.places import uri_of
from tests.in_process import InProcess
from tests.lsp_shapes import RESULTS, fault_in
from tests.packages import needs
from tests.randomly import check_cases
from tests.repository import InRepository
from tests.servers import TOP, OnServer
from tests.test_kept_revision import quietly

NAMES = ("a.py", "b.py")
WORDS, LINES = 4, 5
"""Of each line, and of each file."""
TEXT = "\n".join(["abc def ghi jkl"] * LINES)
Span = tuple[int, int, int, int]


class RawDump:
    """A random dump of the two files: each word is a range, some lead to sets, and these, or the
    ranges themselves, to types and monikers."""

    def __init__(self, chance: random.Random, folder: str) -> None:
        self.chance, self.rows = chance, list[dict[str, Any]]()
        self.uris = {name: uri_of(os.path.join(folder, name), []) for name in NAMES}
        self.vertex(
            "metaData", version="0.6.0", positionEncoding="utf-16", projectRoot=uri_of(folder, [])
        )
        documents = [
            self.vertex("document", uri=uri, languageId="python") for uri in self.uris.values()
        ]
        words = [
            [self.word(line, at) for line in range(LINES) for at in range(WORDS)] for _ in NAMES
        ]
        sets = [self.vertex("resultSet") for _ in range(4)]
        types = [self.vertex("typeDefinitionResult") for _ in range(3)]
        monikers = [self.moniker(number) for number in range(5)]
        for document, own in zip(documents, words):
            self.edge("contains", document, inVs=own)
        every = [one for own in words for one in own]
        for one in every:
            if chance.random() < 0.6:
                self.edge("next", one, inV=chance.choice(sets))
        for number, one in enumerate(sets[:-1]):
            if chance.random() < 0.5:
                self.edge("next", one, inV=chance.choice(sets[number + 1 :]))
        for one in [*sets, *chance.sample(every, 4)]:
            if chance.random() < 0.6:
                self.edge("textDocument/typeDefinition", one, inV=chance.choice(types))
            for moniker in chance.sample(monikers, chance.randrange(3)):
                self.edge("moniker", one, inV=moniker)
        for one, other in chance.sample([(a, b) for a in monikers for b in monikers if a != b], 2):
            self.edge(chance.choice(["attach", "nextMoniker"]), one, inV=other)
        for result in types:
            for document, inside in zip(documents, words):
                ends = chance.sample(inside, chance.randrange(3))
                if ends:
                    self.edge("item", result, inVs=ends, shard=document)
        self.folds, self.links = dict[str, list[Any]](), dict[str, list[Any]]()
        for name, document in zip(NAMES, documents):
            self.folds[name] = [self.fold() for _ in range(chance.randrange(3))]
            self.links[name] = [self.link() for _ in range(chance.randrange(3))]
            for what, found in ("foldingRange", self.folds), ("documentLink", self.links):
                if found[name]:
                    result = self.vertex(f"{what}Result", result=found[name])
                    self.edge(f"textDocument/{what}", document, inV=result)

    def add(self, **members: Any) -> int:
        """Adds an element, and answers its id."""
        self.rows.append({"id": len(self.rows) + 1, **members})
        return len(self.rows)

    def vertex(self, label: str, **members: Any) -> int:
        """Adds a vertex."""
        return self.add(type="vertex", label=label, **members)

    def edge(self, label: str, own: int, **members: Any) -> None:
        """Adds an edge."""
        self.add(type="edge", label=label, outV=own, **members)

    def word(self, line: int, number: int) -> int:
        """Adds the range of a word."""
        ends = [{"line": line, "character": 4 * number + at} for at in (0, 3)]
        return self.vertex("range", start=ends[0], end=ends[1])

    def moniker(self, number: int) -> int:
        """Adds a moniker."""
        unique = self.chance.choice(["document", "workspace", "scheme", "global", None])
        kind = self.chance.choice(["import", "export", "local", None])
        own = {"unique": unique, "kind": kind}
        said = {name: text for name, text in own.items() if text is not None}
        return self.vertex("moniker", scheme="s", identifier=f"m{number}", **said)

    def fold(self) -> dict[str, Any]:
        """What can be folded."""
        start = self.chance.randrange(LINES - 1)
        own: dict[str, Any] = {"startLine": start, "endLine": self.chance.randrange(start, LINES)}
        if self.chance.random() < 0.5:
            own.update(startCharacter=1, endCharacter=3)
        return {**own, **({"kind": "comment"} if self.chance.random() < 0.5 else {})}

    def link(self) -> dict[str, Any]:
        """A link."""
        line = self.chance.randrange(LINES)
        ends = [{"line": line, "character": at} for at in (4, 7)]
        own = {"range": {"start": ends[0], "end": ends[1]}, "target": "http://h/a%20b"}
        return {**own, **({"tooltip": "a \u4e00"} if self.chance.random() < 0.5 else {})}

    def out(self, own: int, *labels: str) -> Iterator[int]:
        """What edges lead to from a vertex."""
        for row in self.rows:
            if row["type"] == "edge" and row["label"] in labels and row["outV"] == own:
                yield from row.get("inVs") or [row["inV"]]

    def way(self, own: int) -> list[int]:
        """A range, and the sets that it leads to."""
        return [own, *(end for one in self.out(own, "next") for end in self.way(one))]

    def place(self, own: int) -> dict[str, Any]:
        """A range as a place."""
        row = self.rows[own - 1]
        [document] = [
            one for one in self.rows if own in one.get("inVs", ()) and one["label"] == "contains"
        ]
        span = {"start": row["start"], "end": row["end"]}
        return {"uri": self.rows[document["outV"] - 1]["uri"], "range": span}

    def types(self, own: int) -> list[dict[str, Any]]:
        """The type definitions of a range: of the first on its way that has a result."""
        for one in self.way(own):
            for result in self.out(one, "textDocument/typeDefinition"):
                return [self.place(end) for end in self.out(result, "item")]
        return []

    def monikers(self, own: int) -> list[dict[str, Any]]:
        """The monikers of a range: all on its way, and those that are beside these."""
        found = {end for one in self.way(own) for end in self.out(one, "moniker")}
        while True:
            labels = ("attach", "nextMoniker")
            beside = {end for one in found for end in self.out(one, *labels)}
            beside |= {
                row["id"]
                for row in self.rows
                if row["label"] == "moniker"
                and row["type"] == "vertex"
                and found & set(self.out(row["id"], *labels))
            }
            if beside <= found:
                break
            found |= beside
        return [self.rows[one - 1] for one in found]


def as_sent(moniker: dict[str, Any]) -> tuple[Any, ...]:
    """A moniker as the protocol has it."""
    kind, unique = moniker.get("kind"), moniker.get("unique")
    unique = {"workspace": "group", None: "document" if kind == "local" else "scheme"}.get(
        unique, unique
    )
    return moniker["scheme"], moniker["identifier"], unique, kind


class Kept(OnServer, InRepository):
    """A dump that is published from a checkout, and an editor on it."""

    def setUp(self) -> None:
        OnServer.setUp(self)
        InRepository.setUp(self)
        for name in NAMES:
            self.write(name, TEXT)
        self.write(FILE, f'server = "{self.url}"\nproject = "app"\n')
        self.commit()

    def published(self, raw: RawDump, *words: str) -> tuple[int, str, str]:
        """Publishes a dump."""
        path = os.path.join(self.home, "raw.lsif")
        with open(path, "w", encoding="utf-8") as file:
            file.writelines(json.dumps(row) + "\n" for row in raw.rows)
        return quietly(PUBLISH.main, "--no-tags", *words, "--dump", path, self.url, "app", self.top)

    def begin(self) -> None:
        """Starts an editor."""
        self.editor = self.enterContext(InProcess(None))
        self.ask("initialize", rootUri=uri_of(self.top, []), capabilities={})

    def ask(self, method: str, **params: Any) -> Any:
        """What a request is answered."""
        result = self.editor.answer({"id": 1, "method": method, "params": params})["result"]
        self.assertEqual(fault_in(result, RESULTS[method]), "")
        return result

    def check(self, number: int, down: int = 0) -> None:
        """Compares the answers of a random dump with the model, in files that are so many lines
        further down than when they were indexed."""
        raw = RawDump(random.Random(number), self.top)
        status, _, said = self.published(raw, "--more")
        self.assertEqual(status, 0, said)
        for name in NAMES if down else ():
            self.write(name, "new = 0\n" * down + TEXT)
        self.begin()

        def moved(span: Any) -> Any:
            return {end: {**at, "line": at["line"] + down} for end, at in span.items()}

        for own, row in enumerate(raw.rows, 1):
            if row["label"] != "range":
                continue
            place = raw.place(own)
            document = {"uri": place["uri"]}
            at = {"line": row["start"]["line"] + down, "character": row["start"]["character"] + 1}
            where: dict[str, Any] = {"textDocument": document, "position": at}
            with self.subTest(number, place=place):
                self.assertCountEqual(
                    self.ask("textDocument/typeDefinition", **where),
                    [{**one, "range": moved(one["range"])} for one in raw.types(own)],
                )
                monikers = self.ask("textDocument/moniker", **where) or []
                self.assertCountEqual(map(as_sent, monikers), map(as_sent, raw.monikers(own)))
        for name in NAMES:
            document = {"uri": raw.uris[name]}
            with self.subTest(number, name=name):
                folds = self.ask("textDocument/foldingRange", textDocument=document)
                shown = [
                    {**one, "startLine": one["startLine"] + down, "endLine": one["endLine"] + down}
                    for one in raw.folds[name]
                ]
                self.assertEqual(folds, shown)
                links = self.ask("textDocument/documentLink", textDocument=document)
                shown = [{**one, "range": moved(one["range"])} for one in raw.links[name]]
                self.assertEqual(links, shown)
        said_now = [one for one in self.editor.sent if one.get("method") == "window/showMessage"]
        self.assertEqual(said_now, [])

    def test_random_dumps(self) -> None:
        def check(number: int) -> None:
            self.check(number)

        check_cases(self, 4, lambda strategies: {"number": strategies.integers(0, 10**6)}, check)

    def test_what_has_no_room(self) -> None:
        """It's left out, and said: of a dump at a limit, of a set and of a SCIP index."""
        raw = RawDump(random.Random(7), self.top)
        scip = os.path.join(TOP, "demo", "crate.scip")
        rows: list[tuple[list[str], str, str, int]] = [
            (["--more"], "of a SCIP index", scip, more.SPARE),
            (["--more"], "over the limits: ", "", limits.MOST_ELEMENTS),
            (["--more"], "", "", more.SPARE),
            ([], "", "", more.SPARE),
            (["--more", "--set"], "not kept with sets", "", more.SPARE),
        ]
        for words, left, path, spare in rows:
            with self.subTest(words, left=left), mock.patch.object(more, "SPARE", spare):
                if path:
                    needs("google.protobuf", "python3-protobuf")
                    demo = os.path.join(TOP, "demo", "crate")
                    given = ["--no-tags", *words, "--dump", path, self.url, "crate", demo]
                    status, out, said = quietly(PUBLISH.main, *given)
                else:
                    status, out, said = self.published(raw, *words)
                self.assertEqual(status, 0, said)
                is_kept = "--more" in words and not left
                self.assertEqual("no effect" in out, not path and not is_kept, out)
                found = [
                    line.split("links")[1].strip() for line in out.split("\n") if "folds" in line
                ]
                self.assertEqual(
                    [one[: len(left.strip())] for one in found], [left.strip()] * bool(left)
                )

    def test_changed_texts(self) -> None:
        """Places are those of today."""
        self.check(7, 3)


if __name__ == "__main__":
    unittest.main()
