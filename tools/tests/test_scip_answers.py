"""Tests of what dumps of SCIP indexes answer, by walks over the dumps, beside a plain model of what
the indexes say."""

import io
import json
import os
import tempfile
import unittest
from contextlib import redirect_stderr
from typing import Any

from tests.packages import needs

needs("google.protobuf", "python3-protobuf")

from codenav.cli.prepare import PREPARE
from codenav.dumps.scip.scip_pb2 import Index
from tests.accepted import fault
from tests.dump_walks import LABELS, Question, Walk, answered
from tests.random_scip import LINES, indexes
from tests.randomly import check_cases
from tests.scip_model import Model
from tests.test_scip import APP, document, information, metadata, occurrence

USE, DEFINE, FORWARD = 0, 1, 64
NAME, OTHER, THIRD, LOCAL = APP + "name.", APP + "other.", APP + "third.", "local 0"
RELATIONS = {"is_reference": 2, "is_implementation": 3, "is_definition": 5}
SHORT = [(0, LOCAL, DEFINE), (1, LOCAL, USE), (1, NAME, USE)]
# documents with (line, symbol, roles), what is related, (document, line, request), and the answer
ROWS: list[tuple[str, dict[str, Any], list[Any], tuple[str, int, str], list[str]]] = [
    (
        "a local symbol and a global one that is defined in other documents",
        {"a": SHORT, "b": [(0, NAME, DEFINE)], "c": [(4, NAME, DEFINE), (9, NAME, USE)]},
        [],
        ("a", 1, "definition"),
        ["a 0", "b 0", "c 4"],
    ),
    (
        "the same, declared forward: defined there",
        {"a": SHORT, "b": [(0, NAME, FORWARD)]},
        [],
        ("a", 1, "definition"),
        ["a 0", "b 0"],
    ),
    (
        "the same, declared forward by both",
        {"a": [*SHORT, (2, LOCAL, FORWARD)], "b": [(0, NAME, FORWARD)]},
        [],
        ("a", 1, "declaration"),
        ["a 2", "b 0"],
    ),
    (
        "the same, the local symbol of another name by a relationship",
        {"a": SHORT, "b": [(0, NAME, DEFINE)], "c": [(3, OTHER, DEFINE)]},
        [("a", NAME, "is_definition", OTHER)],
        ("a", 1, "definition"),
        ["a 0", "b 0", "c 3"],
    ),
    (
        "two local symbols, of which one is defined where a global one is",
        {"a": [(0, LOCAL, DEFINE), (0, "local 1", USE)], "b": [(3, NAME, DEFINE)]},
        [("a", LOCAL, "is_definition", NAME)],
        ("a", 0, "definition"),
        ["a 0", "b 3"],
    ),
    (
        "an implementation that is a local symbol's, of another document's",
        {"a": [(0, LOCAL, USE)], "b": [(0, NAME, DEFINE)]},
        [("a", NAME, "is_implementation", LOCAL)],
        ("a", 0, "implementation"),
        ["b 0"],
    ),
    (
        "an implementation that is only declared forward",
        {"a": [(0, NAME, DEFINE)], "b": [(0, OTHER, FORWARD)]},
        [("b", OTHER, "is_implementation", NAME)],
        ("a", 0, "implementation"),
        ["b 0"],
    ),
    (
        "defined where another is, which is only declared forward",
        {"a": [(0, NAME, USE)], "b": [(0, OTHER, FORWARD)]},
        [("a", NAME, "is_definition", OTHER)],
        ("a", 0, "definition"),
        ["b 0"],
    ),
    (
        "an implementation that is defined where a third one is",
        {"a": [(0, NAME, DEFINE)], "b": [(0, OTHER, USE)], "c": [(0, THIRD, DEFINE)]},
        [("b", OTHER, "is_implementation", NAME), ("b", OTHER, "is_definition", THIRD)],
        ("a", 0, "implementation"),
        ["c 0"],
    ),
]


def index_of(documents: dict[str, Any], related: list[Any]) -> Any:
    """An index, each of whose occurrences is the first four characters of a line."""
    found = Index()
    body = metadata()
    for name, occurrences in documents.items():
        fields = [occurrence([line, 0, 4], *more) for line, *more in occurrences]
        for home, symbol, relation, other in related:
            if home == name:
                fields.append(information(3, symbol, related={other: RELATIONS[relation]}))
        body += document(name, *fields)
    found.ParseFromString(body)
    return found


def positions() -> list[tuple[int, int]]:
    """Every position of the text, and one beyond each line."""
    return [
        (line, character)
        for line, text in enumerate(LINES)
        for character in range(len(text.encode("utf-16-le")) // 2 + 2)
    ]


def questions(uris: Any) -> list[Question]:
    """Every request at every position of documents."""
    return [
        Question(request, uri, position, declaration)
        for uri in uris
        for position in positions()
        for request in LABELS
        for declaration in ((True, False) if request == "references" else (True,))
    ]


def is_said(found: Any, said: Any, question: Question) -> bool:
    """Whether the answer of walks is that of a model."""
    if question.request == "hover":
        return found["value"] in said if found else not said
    return bool({tuple(place[1:]) for place in found} == said)


class Answers(unittest.TestCase):
    def setUp(self) -> None:
        self.folder = self.enterContext(tempfile.TemporaryDirectory())
        self.index = os.path.join(self.folder, "index.scip")
        self.dump = os.path.join(self.folder, "dump.lsif")

    def converted(self, index: Any, *words: str) -> bytes:
        """The dump of an index."""
        with open(self.index, "wb") as out:
            out.write(index.SerializeToString())
        with redirect_stderr(io.StringIO()) as said:
            status = PREPARE.main(["--lenient", *words, self.index, self.dump])
        self.assertEqual(status, 0, said.getvalue())
        with open(self.dump, "rb") as file:
            return file.read()

    def test_rows(self) -> None:
        """Small indexes, whose documents come in either order."""
        for name, documents, related, (home, line, request), places in ROWS:
            for order in (list(documents), list(documents)[::-1]):
                with self.subTest(name, order=order):
                    index = index_of({own: documents[own] for own in order}, related)
                    walk = Walk(map(json.loads, self.converted(index).splitlines()), "2")
                    uri = f"{index.metadata.project_root}{home}"
                    found = answered({"": walk}, "", Question(request, uri, (line, 0)))
                    said = sorted(f"{of[1][-1:]} {of[2][0]}" for of in found)
                    self.assertEqual(said, places)

    def answers(self, index: Any, keeps: bool) -> None:
        """The dump is accepted, and answers each request at each position as the model does."""
        body = self.converted(index, *(["--keep-file-ranges"] if keeps else []))
        for profile in ("1", "2"):
            self.assertIsNone(fault(body, profile))
        walk, model = Walk(map(json.loads, body.splitlines()), "2"), Model(index, keeps)
        for question in questions(model.at):
            found, said = answered({"": walk}, "", question), model.ask(question)
            self.assertTrue(is_said(found, said, question), (question, found, said))

    def test_random_indexes(self) -> None:
        check_cases(
            self, 100, lambda st: {"index": indexes(st), "keeps": st.booleans()}, self.answers
        )

    def joined(self, index: Any, library: Any) -> None:
        """The dumps of two indexes answer together."""
        indexes_of = {"app": index, "lib": library}
        every = {
            name: Walk(map(json.loads, self.converted(own).splitlines()), "2")
            for name, own in indexes_of.items()
        }
        model, other = Model(index), Model(library)
        for question in questions(model.at):
            found, said = answered(every, "app", question), model.ask(question, other)
            self.assertTrue(is_said(found, said, question), (question, found, said))

    def test_two_projects(self) -> None:
        def drawn(st: Any) -> Any:
            return {"index": indexes(st), "library": indexes(st, "file:///work/lib")}

        check_cases(self, 40, drawn, self.joined)


if __name__ == "__main__":
    unittest.main()
