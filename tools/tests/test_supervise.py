"""Tests of what a supervisor asks the front: a front that holds writes, or asks another side, is put
right, and a turn is due where few requests are left."""

import unittest
from typing import Optional, Union
from unittest import mock

from codenav.progress import Quiet
from codenav.program import Program
from codenav.service.front import NoFront, State
from codenav.service.supervise import SPENT, Supervisor
from codenav.service.turning import How

REQUESTS = 1_000
Said = Union[State, NoFront, None]


def state(side: str = "a", held: bool = False, asked: int = 0) -> State:
    """What a front says."""
    return State(side, held, False, 0, asked)


class Asked(unittest.TestCase):
    def due(self, *states: Said, before: int = -1) -> tuple[bool, list[str]]:
        """Whether a turn is due where the front says these states, and what it was told."""
        how = How(Program("/no/program"), (1, 2), REQUESTS)
        supervisor = Supervisor("/no/folder", how, "http://front", Quiet())
        supervisor.side, supervisor.asked_before, told = "a", before, list[str]()
        supervisor.looked = float("-inf")
        said = iter(states)

        def tell(url: str, command: str) -> Optional[State]:
            told.append(command)
            found = next(said)
            if isinstance(found, NoFront):
                raise found
            return found

        with mock.patch("codenav.service.supervise.told", tell):
            return supervisor.is_due(), told

    def test_each(self) -> None:
        use = "/use?side=a"
        rows: list[tuple[list[Said], list[str]]] = [
            ([state()], ["/state"]),
            ([state("b"), state()], ["/state", use]),
            ([state(held=True), state()], ["/state", "/release"]),
            ([state("b", True), state("b"), state()], ["/state", "/release", use]),
            ([state("b"), None], ["/state", use]),
            ([None], ["/state"]),
            ([NoFront("away")], ["/state"]),
        ]
        for states, told in rows:
            with self.subTest(told, states=states):
                self.assertEqual(self.due(*states), (False, told))

    def test_requests(self) -> None:
        most = int(SPENT * REQUESTS)
        for before, asked, is_due in (
            (0, most, False),
            (0, most + 1, True),
            (500, 500 + most, False),
            (500, 501 + most, True),
            (-1, 5 * REQUESTS, False),
            (5 * REQUESTS, 7, False),
        ):
            with self.subTest(before=before, asked=asked):
                found, _ = self.due(state(asked=asked), before=before)
                self.assertEqual(found, is_due)


if __name__ == "__main__":
    unittest.main()
