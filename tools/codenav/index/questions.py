"""Questions on their way to a language server, and back."""

from collections import deque
from typing import Any, Iterable, Iterator, NamedTuple, Optional


class Question(NamedTuple):
    """A request, and whose it is."""

    tag: Any
    method: str
    params: dict[str, Any]


class Answer(NamedTuple):
    """The answer to a question, or why there's none."""

    tag: Any
    result: Any
    fault: str = ""


class Job:
    """A question on its way: how often it was asked again, and how often the server was lost over it
    alone."""

    def __init__(self, question: Question) -> None:
        self.question, self.again, self.lost = question, 0, 0

    def answer(self, result: Any, fault: str = "") -> Answer:
        """Its answer."""
        return Answer(self.question.tag, result, fault)


class Work:
    """Questions: those under way by their numbers, those that are asked one by one, and the rest."""

    def __init__(self, questions: Iterable[Question]) -> None:
        self.rest, self.careful = deque(map(Job, questions)), deque[Job]()
        self.flying: dict[int, Job] = {}

    def next(self, window: int) -> Optional[Job]:
        """The next one to ask where there's room."""
        if self.careful:
            return None if self.flying else self.careful.popleft()
        is_alone = any(job.lost for job in self.flying.values())
        room = self.rest and len(self.flying) < window and not is_alone
        return self.rest.popleft() if room else None

    def lost(self, why: str) -> Iterator[Answer]:
        """Has those under way be asked one by one; what lost the server alone twice isn't."""
        jobs, self.flying = list(self.flying.values()), {}
        for job in jobs:
            job.lost += len(jobs) == 1
            if job.lost > 1:
                yield job.answer(None, f"{why}, twice")
            else:
                self.careful.append(job)

    def all(self) -> list[Job]:
        """All that have no answer."""
        return [*self.flying.values(), *self.careful, *self.rest]
