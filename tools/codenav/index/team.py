"""Several processes of one language server, each of which is asked of a share of the documents."""

import queue
import threading
from typing import Any, BinaryIO, Iterable, Iterator, Optional, Union
from zlib import crc32

from codenav.index.conversation import Conversation
from codenav.index.given import Given
from codenav.index.languages import ServerKind
from codenav.index.questions import Answer, Question

Said = Union[Answer, BaseException, None]


class Team:
    """Conversations with servers that have the same documents open. It's of use in a `with`, at whose
    end nothing of them runs."""

    def __init__(
        self,
        kind: ServerKind,
        given: Given,
        settings: dict[str, Any],
        log: BinaryIO,
    ) -> None:
        self.kind, jobs = kind, given.limits.jobs
        self.talks = [Conversation(kind, given, settings, log) for _ in range(jobs)]

    def __enter__(self) -> "Team":
        try:
            for talk in self.talks:
                talk.__enter__()
        except BaseException:
            self.__exit__()
            raise
        return self

    def __exit__(self, *_: object) -> None:
        for talk in self.talks:
            talk.__exit__()

    @property
    def first(self) -> Conversation:
        """The one that speaks for all."""
        return self.talks[0]

    @property
    def restarts(self) -> int:
        """How often one was started again."""
        return sum(talk.restarts for talk in self.talks)

    def open(self, uri: str, language: str, text: str) -> None:
        """Opens a document."""
        for talk in self.talks:
            talk.open(uri, language, text)

    def close(self, uri: str) -> None:
        """Closes a document."""
        for talk in self.talks:
            talk.close(uri)

    def settle(self) -> bool:
        """Waits until all have read what is open; says whether they came to that."""
        return all([talk.settle() for talk in self.talks])

    def answers(self, questions: Iterable[Question]) -> Iterator[Answer]:
        """Asks all, those of a document of the same process."""
        if len(self.talks) == 1:
            yield from self.first.answers(questions)
            return
        shares: list[list[Question]] = [[] for _ in self.talks]
        for one in questions:
            uri = one.params["textDocument"]["uri"]
            shares[crc32(uri.encode()) % len(shares)].append(one)
        said: queue.SimpleQueue[Said] = queue.SimpleQueue()

        def work(talk: Conversation, share: list[Question]) -> None:
            end: Optional[BaseException] = None
            try:
                for answer in talk.answers(share):
                    said.put(answer)
            except BaseException as fault:
                end = fault
            said.put(end)

        for talk, share in zip(self.talks, shares):
            threading.Thread(target=work, args=(talk, share), daemon=True).start()
        left = len(self.talks)
        while left:
            one_said = said.get()
            if isinstance(one_said, BaseException):
                raise one_said
            if one_said is None:
                left -= 1
            else:
                yield one_said
