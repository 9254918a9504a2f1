"""Tests of splitting a SCIP index: the parts are those of its dump, byte for byte, and memory
doesn't grow with the occurrences."""

import io
import os
import random
import tempfile
import tracemalloc
import unittest
from contextlib import redirect_stderr
from typing import IO, Any
from unittest import mock

from tests.packages import needs

needs("google.protobuf", "python3-protobuf")

from google.protobuf import json_format

from codenav.cli.prepare import PREPARE
from codenav.dumps.scip.messages import IndexFile
from codenav.dumps.scip.options import ScipOptions
from codenav.dumps.scip.scip_pb2 import Index
from codenav.dumps.tables import disk_arrays as stored
from codenav.dumps.tables import graph
from codenav.dumps.tables import of_scip as scip_graph
from codenav.faults import NotADump
from codenav.progress import Quiet
from codenav.sets.split.crossing import Cut, Shared
from codenav.sets.split.flat import Flat
from codenav.sets.split.flattening import flattened
from tests.dump_walks import answered
from tests.random_scip import indexes
from tests.randomly import check_cases
from tests.scip_model import Model
from tests.servers import TOP
from tests.split_files import split_file, split_index
from tests.test_samples import SAMPLES, groups
from tests.test_scip import APP, DEFINITION, document, information, metadata, occurrence
from tests.test_scip_answers import is_said, questions
from tests.test_sets import bodies_of, flat_of, walks

INDEX = os.path.join(TOP, "demo", "crate.scip")
SOURCE = os.path.join(TOP, "demo", "crate")
SYMBOLS, DOCUMENTS, USES = 800, 40, 90


def bodies(flat: Flat, hovers: str, profile: str) -> list[bytes]:
    """The bodies of the parts where each document is one."""
    cut = Cut(Shared(flat, graph.ASKED[profile]), [*range(len(flat.uris) + 1)], "set")
    return bodies_of(cut, hovers)


def options_of(*words: str) -> ScipOptions:
    """How words of `prepare` have an index read."""
    call = PREPARE.read([*words, "in", "out"])
    return ScipOptions(
        call.source, call.encoding, call.root, tuple(call.without), call.keep_file_ranges
    )


def repeated(symbols: int, documents: int) -> bytes:
    """An index in which each document uses each symbol of the first."""
    names = [f"{APP}s{number}#" for number in range(symbols)]
    places = [[number, 0, 5] for number in range(symbols)]
    first = [occurrence(at, name, DEFINITION) for at, name in zip(places, names)]
    said = [information(3, name, f"The text of {name}") for name in names]
    uses = [occurrence(at, name) for at, name in zip(places, names)]
    others = [document(f"src/{number}.ts", *uses) for number in range(documents)]
    return metadata() + document("src/all.ts", *first, *said) + b"".join(others)


def large(chance: random.Random) -> bytes:
    """An index of many documents, whose symbols are defined in one and used in some, here and there
    two at one place."""
    names = [f"{APP}s{number}#" for number in range(SYMBOLS)]
    found = []
    for own in range(DOCUMENTS):
        defined = names[own::DOCUMENTS]
        fields = [occurrence([line, 0, 4], name, DEFINITION) for line, name in enumerate(defined)]
        fields += [
            occurrence([chance.randrange(9, 99), at * 6, at * 6 + 4], chance.choice(names))
            for at in chance.choices(range(9), k=USES)
        ]
        for name in defined:
            related = {chance.choice(names): chance.choice([2, 3, 5])}
            some = related if chance.random() < 0.05 else None
            fields.append(information(3, name, f"The text of {name}.", related=some))
        found.append(document(f"src/{own % 7}/{own}.ts", *fields))
    return metadata() + b"".join(found)


class SplitIndex(unittest.TestCase):
    """That an index is split as its dump is."""

    def setUp(self) -> None:
        self.folder = self.enterContext(tempfile.TemporaryDirectory())
        self.index = os.path.join(self.folder, "index.scip")
        self.dump = os.path.join(self.folder, "dump.lsif")

    def put(self, body: bytes) -> None:
        """Writes the index."""
        with open(self.index, "wb") as out:
            out.write(body)

    def flat(self, hovers: IO[bytes], profile: str, *words: str) -> Flat:
        """The flat tables of the index, without the dump."""
        with open(self.index, "rb") as file:
            index = IndexFile(file, self.index)
            made, _ = scip_graph.read_index(index, hovers, profile, options_of(*words), Quiet())
        return flattened(made)

    def compare(self, what: object, *words: str) -> None:
        """Compares the parts of the index with those of its dump, in both profiles."""
        with redirect_stderr(io.StringIO()) as said:
            status = PREPARE.main(["--lenient", *words, self.index, self.dump])
        self.assertEqual(status, 0, f"{what}: {said.getvalue()}")
        for profile in ("1", "2"):
            expected = bodies(flat_of(self.dump, profile), self.dump, profile)
            with tempfile.NamedTemporaryFile() as hovers:
                found = bodies(self.flat(hovers, profile, *words), hovers.name, profile)
            self.assertEqual(found, expected, f"{what}, profile {profile}")

    def answers(self, index: Any) -> None:
        """The parts are those of the dump, and answer as the model does."""
        self.put(index.SerializeToString())
        self.compare("a random index")
        with tempfile.NamedTemporaryFile() as hovers, redirect_stderr(io.StringIO()):
            flat = self.flat(hovers, "2")
            parts = [f"set-{own:016x}" for own in range(len(flat.uris))]
            every = walks(dict(zip(parts, bodies(flat, hovers.name, "2"))), {}, "2")
        model, holder = Model(index), dict(zip(flat.uris, parts))
        for question in questions(model.at):
            found, said = answered(every, holder[question.uri], question), model.ask(question)
            self.assertTrue(is_said(found, said, question), (question, found, said))

    def test_random_indexes(self) -> None:
        check_cases(self, 40, lambda st: {"index": indexes(st)}, self.answers)

    def test_samples(self) -> None:
        """The samples of indexers."""
        count = 0
        for sample in (sample for group in groups() for sample in group):
            home = os.path.join(SAMPLES, sample["sample"])
            source = os.path.join(home, "index.json")
            if os.path.exists(source):
                with open(source, encoding="utf-8") as text:
                    index = json_format.Parse(text.read(), Index())
                self.put(index.SerializeToString())
                words = [home if word == "." else word for word in sample.get("prepare", [])]
                self.compare(sample["sample"], *(word for word in words if word != "--lenient"))
                count += 1
        self.assertGreater(count, 8)

    def test_a_large_one(self) -> None:
        """Many documents by the tools' calls: the same files in both folders."""
        self.put(large(random.Random(1)))
        with redirect_stderr(io.StringIO()):
            PREPARE.main([self.index, self.dump])
        files: list[dict[str, bytes]] = []
        folders = [os.path.join(self.folder, name) for name in ("of_dump", "of_index")]
        split_file(self.dump, folders[0], "code", elements=4000)
        split_index(self.index, folders[1], "code", elements=4000)
        for folder in folders:
            files.append({})
            for name in os.listdir(folder):
                with open(os.path.join(folder, name), "rb") as file:
                    files[-1][name] = file.read()
        self.assertEqual(*files)
        self.assertGreater(len(files[0]), 4)

    def test_memory(self) -> None:
        """Ten times as many occurrences of as many symbols take little more memory."""
        peaks = []
        with mock.patch.multiple(stored, BLOCK=64, MOST_BLOCKS=4, RUN=500):
            for documents in (20, 200):
                self.put(repeated(100, documents))
                with tempfile.NamedTemporaryFile() as hovers:
                    self.flat(hovers, "1")
                    tracemalloc.start()
                    flat = self.flat(hovers, "1")
                    peaks.append(tracemalloc.get_traced_memory()[1])
                    tracemalloc.stop()
                self.assertEqual(len(flat.start), 100 * (documents + 1))
        self.assertLess(peaks[1], 2 * peaks[0])

    def test_said_once(self) -> None:
        """Flaws are said once, however often the index is read since documents are left out."""
        out = os.path.join(self.folder, "out")
        large = [occurrence([line, 0, 5], APP + "b#") for line in range(100)]
        small = [occurrence([0, 5], APP + "a#"), occurrence([0, 0, 5], APP + "a#", DEFINITION)]
        self.put(metadata() + document("a.ts", *small) + document("b.ts", *large))
        lines = split_index(self.index, out, "code", elements=60, is_lenient=True).lines()
        flaws = [line for line in lines if "occurrence without a range: 1," in line]
        left_out = [line for line in lines if line.startswith("left out: file:")]
        self.assertEqual((len(flaws), len(left_out)), (1, 1), lines)

    def test_refused(self) -> None:
        """A flaw is named; what is no index is refused."""
        out = os.path.join(self.folder, "out")
        self.put(metadata() + document("a.ts", occurrence([0, 5], APP + "a#")))
        made = split_index(self.index, out, "code")
        self.assertIn(
            "left out: occurrence without a range: 1, the first at", "\n".join(made.lines())
        )
        self.assertEqual(
            [made.reading.is_whole(lenient) for lenient in (False, True)], [False, True]
        )
        self.put(metadata()[:-1])
        with self.assertRaisesRegex(NotADump, "no SCIP index, or cut off, at byte"):
            split_index(self.index, os.path.join(self.folder, "none"), "code")
        self.assertFalse(os.path.exists(os.path.join(self.folder, "none")))


if __name__ == "__main__":
    unittest.main()
