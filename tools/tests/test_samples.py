"""The samples in tools/tests/samples go through the tools: each is prepared, accepted in both
profiles, and what is asked of it is answered as it was written down from its sources. With a built
program they're uploaded to a server, and asked there.
"""

import io
import json
import os
import tempfile
import unittest
from contextlib import redirect_stderr, redirect_stdout
from typing import Any

from tests.packages import needs

needs("google.protobuf", "python3-protobuf")

from google.protobuf import json_format

from codenav.cli.ask import ASK
from codenav.cli.prepare import PREPARE
from codenav.cli.upload import UPLOAD
from codenav.dumps.scip.scip_pb2 import Index
from codenav.program import Program
from tests.accepted import fault
from tests.servers import program

TOP = os.path.dirname(os.path.dirname(os.path.dirname(os.path.abspath(__file__))))
SAMPLES = os.path.join(TOP, "tools", "tests", "samples")
Sample = dict[str, Any]


def groups() -> list[list[Sample]]:
    """The samples, in groups whose samples are uploaded to one server."""
    with open(os.path.join(SAMPLES, "questions.json"), encoding="utf-8") as file:
        found: list[list[Sample]] = json.load(file)
    return found


def called(tool: Any, words: list[str], *part: str) -> tuple[int, str, str]:
    """The status of a tool, and what it printed."""
    with redirect_stdout(io.StringIO()) as out, redirect_stderr(io.StringIO()) as said:
        status = tool.main(*part, words)
    return status, out.getvalue(), said.getvalue()


def prepared(sample: Sample, folder: str) -> tuple[int, str, str]:
    """The status of preparing a sample, the path of the dump, and what was said."""
    home, out = os.path.join(SAMPLES, sample["sample"]), os.path.join(folder, "prepared.lsif")
    words = [home if word == "." else word for word in sample.get("prepare", [])]
    source = os.path.join(home, "index.json")
    if os.path.exists(source):
        index = os.path.join(folder, "index.scip")
        with open(source, encoding="utf-8") as text, open(index, "wb") as file:
            file.write(json_format.ParseDict(json.load(text), Index()).SerializeToString())
        status, _, said = called(PREPARE, [*words, index, out])
    else:
        dump = next(name for name in os.listdir(home) if name.startswith("dump."))
        status, _, said = called(PREPARE, [*words, os.path.join(home, dump), out])
    return status, out, said


class Samples(unittest.TestCase):
    def accept(self, sample: Sample, folder: str) -> str:
        """The path of a prepared sample, which is accepted in both profiles."""
        status, out, said = prepared(sample, folder)
        self.assertEqual(status, 0, said)
        with open(out, "rb") as file:
            body = file.read()
        for profile in ("1", "2"):
            self.assertIsNone(fault(body, profile), said)
        return out

    def test_each_is_accepted(self) -> None:
        seen = set()
        for sample in (sample for group in groups() for sample in group):
            with self.subTest(sample["sample"]), tempfile.TemporaryDirectory() as folder:
                self.accept(sample, folder)
                seen.add(sample["sample"])
        self.assertEqual(seen, set(os.listdir(SAMPLES)) - {"questions.json"})

    def test_the_answers_of_a_server(self) -> None:
        for group in groups():
            with tempfile.TemporaryDirectory() as folder, Program(program()).serve() as server:
                url = server.url
                for sample in group:
                    out = self.accept(sample, folder)
                    words = ["--profile", "2", url, project_of(sample), out]
                    self.assertEqual(called(UPLOAD, words)[0], 0, sample["sample"])
                for sample in group:
                    for question in sample["questions"]:
                        with self.subTest(sample["sample"], **question):
                            self.ask(url, sample, question)

    def ask(self, url: str, sample: Sample, question: dict[str, Any]) -> None:
        """Asks a question, and compares the answer."""
        home = os.path.join(SAMPLES, sample["sample"])
        path, line, column = question["at"].rsplit(":", 2)
        maps = [f"file:///samples={SAMPLES}", f"file:///c%3A/samples={SAMPLES}"]
        status, out, said = called(
            ASK,
            [
                *(word for text in sorted(maps, key=first_of(sample)) for word in ("--map", text)),
                *(url, project_of(sample), question["ask"]),
                *question.get("words", []),
                *(os.path.join(home, path), line, column),
            ],
        )
        self.assertIn(status, (0, 1), said)
        found = out.splitlines()
        if question["ask"] == "hover":
            self.assertEqual(found, question["expect"])
        else:
            shown = [os.path.relpath(os.path.abspath(text), home) for text in found]
            self.assertEqual(sorted(shown), sorted(question["expect"]))


def first_of(sample: Sample) -> Any:
    """Which map comes first: that of the sample's own root."""
    drive = "root" in sample
    return lambda text: ("c%3A" in text) != drive


def project_of(sample: Sample) -> str:
    """The name of a sample's project."""
    return str(sample["sample"]).replace(".", "-")


if __name__ == "__main__":
    unittest.main()
