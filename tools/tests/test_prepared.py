"""Property tests of `prepare-lsif`: whatever is done to a dump, what it writes with status 0 is
accepted in both profiles; anything else is refused by one line."""

import glob
import io
import json
import os
import random
import subprocess
import tempfile
import unittest
from contextlib import redirect_stderr, suppress
from typing import Any, Optional

from codenav.cli.prepare import PREPARE
from tests.accepted import fault
from tests.servers import TOP, built_program

SAMPLES = os.path.join(TOP, "tools", "tests", "samples")
ROUNDS = int(os.environ.get("CODENAV_ROUNDS", "6"))
Element = dict[str, Any]


def dumps() -> dict[str, list[Element]]:
    """The elements of the samples and of the demo dumps, by name."""
    found = {}
    for path in sorted(glob.glob(os.path.join(SAMPLES, "*", "dump.lsif"))) + sorted(
        glob.glob(os.path.join(TOP, "demo", "*.raw.lsif"))
    ):
        with open(path, "rb") as file:
            body = file.read()
        found[os.path.relpath(path, TOP)] = [json.loads(line) for line in body.splitlines()]
    return found


def vertex_of(elements: list[Element], chance: random.Random, label: str) -> Optional[Element]:
    """A vertex of a label."""
    found = [e for e in elements if (e.get("type"), e.get("label")) == ("vertex", label)]
    return chance.choice(found) if found else None


def exchange(elements: list[Element], chance: random.Random) -> None:
    """Exchanges two elements."""
    one, other = (chance.randrange(len(elements)) for _ in range(2))
    elements[one], elements[other] = elements[other], elements[one]


def remove(elements: list[Element], chance: random.Random) -> None:
    """Removes an element."""
    del elements[chance.randrange(len(elements))]


def repeat(elements: list[Element], chance: random.Random) -> None:
    """Writes an element once more, with an id of its own."""
    own = dict(chance.choice(elements))
    own["id"] = f"again{len(elements)}"
    elements.insert(chance.randrange(len(elements) + 1), own)


def redirect(elements: list[Element], chance: random.Random) -> None:
    """Lets an edge lead elsewhere."""
    edges = [e for e in elements if e.get("type") == "edge"]
    vertices = [e for e in elements if e.get("type") == "vertex" and "id" in e]
    if edges and vertices:
        edge, own = chance.choice(edges), chance.choice(vertices)["id"]
        name = chance.choice([n for n in ("outV", "inV", "inVs", "shard") if n in edge] or ["outV"])
        edge[name] = [*edge[name][:-1], own] if name == "inVs" else own


def move(elements: list[Element], chance: random.Random) -> None:
    """Gives a range the place of another, or one that overlaps it."""
    one, other = (vertex_of(elements, chance, "range") for _ in range(2))
    if one and other:
        one["start"] = json.loads(json.dumps(other.get("start")))
        one["end"] = json.loads(json.dumps(other.get("end")))
        if (
            chance.random() < 0.5
            and isinstance(one["end"], dict)
            and isinstance(one["start"], dict)
        ):
            one["end"]["line"] += chance.randrange(3)
            one["start"]["character"] += chance.randrange(-1, 3)


def twist(elements: list[Element], chance: random.Random) -> None:
    """Gives a member another value."""
    own = chance.choice(elements)
    name = chance.choice(sorted(own))
    if name not in ("id", "type", "label"):
        own[name] = chance.choice(
            [None, 1.0, -1, "", "x", [], {}, own["id"], [own["id"]], "\ud800", "a\0b"]
        )


def lose(elements: list[Element], chance: random.Random) -> None:
    """Removes a member."""
    own = chance.choice(elements)
    own.pop(chance.choice(sorted(own)), None)


def relabel(elements: list[Element], chance: random.Random) -> None:
    """Gives an element the label of another."""
    chance.choice(elements)["label"] = chance.choice(elements).get("label", "x")


def renumber(elements: list[Element], chance: random.Random) -> None:
    """Numbers the edges apart."""
    for number, edge in enumerate((e for e in elements if e.get("type") == "edge"), 1):
        edge["id"] = number


def single(elements: list[Element], chance: random.Random) -> None:
    """Writes `inV` for `inVs`, and the other way round."""
    for edge in elements:
        if edge.get("type") == "edge" and chance.random() < 0.3:
            if len(edge.get("inVs", ())) == 1:
                edge["inV"] = edge.pop("inVs")[0]
            elif "inV" in edge:
                edge["inVs"] = [edge.pop("inV")]


MUTATIONS = (exchange, remove, repeat, redirect, move, twist, lose, relabel, renumber, single)


class Mutated(unittest.TestCase):
    def prepared(self, body: bytes, words: list[str]) -> tuple[int, bytes | None, str]:
        with tempfile.TemporaryDirectory() as folder:
            source, out = os.path.join(folder, "in"), os.path.join(folder, "out")
            with open(source, "wb") as file:
                file.write(body)
            said = io.StringIO()
            with redirect_stderr(said):
                status = PREPARE.main([*words, source, out])
            left = os.listdir(folder)
            self.assertLessEqual(set(left), {"in", "out"})
            if not os.path.exists(out):
                return status, None, said.getvalue()
            with open(out, "rb") as file:
                return status, file.read(), said.getvalue()

    def check(self, body: bytes, profile: str) -> Optional[str]:
        """What refuses a dump: the definitions in Python, and the built program where there is
        one."""
        found = fault(body, profile)
        built = built_program()
        if found is None and built is not None:
            with tempfile.NamedTemporaryFile() as file:
                file.write(body)
                file.flush()
                ran = subprocess.run(
                    [built, "check-lsif", file.name, "--profile", profile],
                    capture_output=True,
                    text=True,
                )
                return None if ran.returncode == 0 else ran.stdout
        return found

    def test_the_samples_and_what_becomes_of_them(self) -> None:
        statuses = {0: 0, 1: 0, 2: 0}
        for name, elements in dumps().items():
            for seed in range(ROUNDS):
                chance = random.Random(f"{name} {seed}")
                changed = [json.loads(json.dumps(element)) for element in elements]
                done = [chance.choice(MUTATIONS) for _ in range(min(seed, 8))]
                for mutate in done:
                    with suppress(
                        KeyError, TypeError, AttributeError, IndexError
                    ):  # an element that was changed before may not do
                        mutate(changed, chance)
                body = "".join(json.dumps(element) + "\n" for element in changed).encode()
                words = [
                    w
                    for w in ("--strip", "--keep-file-ranges", "--keep-unique", "--lenient")
                    if chance.random() < 0.3
                ]
                status, out, said = self.prepared(body, words)
                statuses[status] += 1
                told = f"{name} {seed} {[m.__name__ for m in done]} {words}: {said}"
                if status == 2:
                    self.assertEqual((out, said.count("\n")), (None, 1), told)
                    continue
                for profile in ("1", "2"):
                    self.assertIsNone(self.check(out or b"", profile), told)
        self.assertGreater(min(statuses.values()), 0, statuses)


if __name__ == "__main__":
    unittest.main()
