"""Random raw dumps: `prepare-lsif` writes of each one that the server accepts in both profiles, and
that answers each question as the raw dump means it, whatever its ids are; and the same of an array in
any layout."""

import io
import json
import os
import random
import re
import tempfile
import unittest
from contextlib import redirect_stderr

from codenav.cli.prepare import PREPARE
from tests.accepted import fault
from tests.dump_walks import LABELS, Element, Walk, answered, body_of, questions
from tests.lsif_model import Model
from tests.randomly import check_cases
from tests.raw_dumps import RawDump, arrays, renamed
from tests.test_prepared import dumps

LAYOUT = re.compile(r"line \d+|codenav prepare: read: .*\n|/tmp/.*/in")
"""What is said of a dump's layout."""

PLACES = [{"line": line, "character": 4} for line in (0, 1, 2)]


def prepared(body: bytes) -> tuple[int, bytes, str]:
    """The status, the prepared dump, and what was said."""
    with tempfile.TemporaryDirectory() as folder:
        source, out = os.path.join(folder, "in"), os.path.join(folder, "out")
        with open(source, "wb") as file:
            file.write(body)
        with redirect_stderr(io.StringIO()) as said:
            status = PREPARE.main([source, out])
        with open(out if os.path.exists(out) else os.devnull, "rb") as file:
            return status, file.read(), said.getvalue()


class RawDumps(unittest.TestCase):
    def check(self, chance: random.Random) -> None:
        """A random dump answers as the raw one means it."""
        elements = RawDump(chance).make()
        others = renamed(elements, chance)
        self.compare(elements)
        self.compare(others)
        self.check_arrays(chance.choice((elements, others)))

    def compare(self, elements: list[Element]) -> None:
        """What is written of a dump is accepted, and answers as the raw one means it."""
        status, body, said = prepared(body_of(elements))
        self.assertEqual(status, 0, f"{said}, of\n{body_of(elements).decode()}")
        for profile in ("1", "2"):
            self.assertIsNone(fault(body, profile), said)
        walk, model = Walk(map(json.loads, body.splitlines()), "2"), Model(elements)
        for question in questions(walk, list(LABELS)):
            found = answered({"p": walk}, "p", question)
            if question.request != "hover":
                found = {place[1:] for place in found}
            self.assertEqual(
                found, model.answer(question), f"{question}, of\n{body_of(elements).decode()}"
            )

    def check_arrays(self, elements: list[Element]) -> None:
        """What is written of arrays, and said of them, is what is of lines."""
        status, body, said = prepared(body_of(elements))
        for layout, array in arrays(elements).items():
            found = prepared(array)
            self.assertEqual((status, LAYOUT.sub("", said)), (found[0], LAYOUT.sub("", found[2])))
            lines, others = (
                [json.loads(line) for line in b.splitlines()] for b in (body, found[1])
            )
            self.assertEqual(lines, others, layout)

    def test_samples_as_arrays(self) -> None:
        for name, elements in dumps().items():
            with self.subTest(name):
                self.check_arrays(elements)

    def test_two_ways_behind_one_of_two_ways(self) -> None:
        """A range leads to two result sets, of which the second leads to the first and to one that
        has the references."""
        vertices: list[Element] = [
            {"label": "metaData", "version": "0.6.0", "projectRoot": "file:///src"},
            {"label": "document", "uri": "a.ts", "languageId": "x"},
            *({"label": "range", "start": PLACES[at], "end": PLACES[at + 1]} for at in (0, 1)),
            *({"label": "resultSet"} for _ in range(3)),
            {"label": "referenceResult"},
        ]
        edges: list[Element] = [
            {"label": "contains", "outV": 1, "inVs": [2, 3]},
            *(
                {"label": "next", "outV": own, "inV": to}
                for own, to in ((2, 4), (2, 5), (5, 4), (5, 6))
            ),
            {"label": "textDocument/references", "outV": 6, "inV": 7},
            {"label": "item", "outV": 7, "inVs": [3], "property": "references", "shard": 1},
        ]
        elements = [{"type": "vertex", **one} for one in vertices]
        elements += [{"type": "edge", **one} for one in edges]
        self.compare([{"id": own, **one} for own, one in enumerate(elements)])

    def test_they_answer_as_they_mean(self) -> None:
        check_cases(self, 60, lambda draw: {"chance": draw.randoms()}, self.check)


if __name__ == "__main__":
    unittest.main()
