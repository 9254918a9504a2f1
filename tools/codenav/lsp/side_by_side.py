"""Requests that are answered side by side: one computes at a time, and while it waits for a server
or a process, others go on.

A request that is cancelled, or that a `shutdown` overtakes, is answered at once. Its thread ends
when what it waits for comes, and nothing of it is sent.
"""

import threading
from contextlib import contextmanager
from queue import SimpleQueue
from typing import Any, Callable, Iterator, NamedTuple, Optional, Union

Own = Union[int, str]
MOST_THREADS = 512
"""Requests that may wait at once; more wait for their turn."""


class Dropped(Exception):
    """The request of this thread has its answer already."""


class Request(NamedTuple):
    """A request, by its id."""

    own: Own
    method: str
    params: Any


class Requests:
    """The requests that have no answer yet. `answer` is called with each, by a thread that holds the
    lock, and sends the answer unless it raises Dropped."""

    def __init__(self, answer: Callable[[Request], None]) -> None:
        self.answer = answer
        self.lock = threading.Lock()
        self.pending: dict[Own, Request] = {}
        self.queue: SimpleQueue[Request] = SimpleQueue()
        self.threads, self.free = 0, 0
        self.local = threading.local()

    def add(self, request: Request) -> None:
        """Has a thread answer a request, whose id no other has that waits."""
        self.pending[request.own] = request
        self.queue.put(request)
        self.free -= 1
        if self.free < 0 and self.threads < MOST_THREADS:
            self.threads, self.free = self.threads + 1, self.free + 1
            threading.Thread(target=self.work, daemon=True).start()

    def take(self, own: Own) -> Optional[Request]:
        """Takes out a request that waits; None where none of this id does."""
        return self.pending.pop(own, None)

    def is_pending(self, request: Request) -> bool:
        """Whether a request still waits for its answer."""
        return self.pending.get(request.own) is request

    def work(self) -> None:
        """Answers one request after the other."""
        while True:
            request = self.queue.get()
            with self.lock:
                self.local.request = request
                try:
                    self.check()
                    self.answer(request)
                except (Dropped, BrokenPipeError):
                    pass  # of an editor that is gone the next message or the input's end says it
                finally:
                    self.free += 1

    def check(self) -> None:
        """Raises Dropped where this thread's request has its answer."""
        request = getattr(self.local, "request", None)
        if request is not None and not self.is_pending(request):
            raise Dropped

    def finish(self) -> None:
        """Takes out the request of this thread, if it has one, since its answer is sent now."""
        request = getattr(self.local, "request", None)
        if request is not None:
            self.take(request.own)

    @contextmanager
    def waiting(self) -> Iterator[None]:
        """Has others go on while this thread waits. Raises Dropped where the answer isn't wanted any
        more."""
        self.lock.release()
        try:
            yield
        finally:
            self.lock.acquire()
            self.check()


class Apart:
    """What asks a server, as another does that is given, without the lock."""

    def __init__(self, fetch: Callable[..., Any], requests: Requests) -> None:
        self.fetch, self.requests = fetch, requests

    def __call__(self, path: str, parameters: dict[str, Any], member: str) -> Any:
        with self.requests.waiting():
            return self.fetch(path, parameters, member)

    def within(self, seconds: float) -> "Apart":
        """The same with another time limit, where that is less."""
        within = getattr(self.fetch, "within", None)
        return Apart(within(seconds), self.requests) if within else self
