"""The bridge to an editor in the process of a test, which can be waited for by its answers."""

import io
import json
import threading
import time
from typing import Any, Optional

from codenav.lsp.bridge import Bridge
from codenav.lsp.jsonrpc import read_body
from codenav.settings.found import Settings

SECONDS = 120


class InProcess:
    """An editor's end of a bridge. `sent` are the messages that came of it, in order."""

    def __init__(self, given: Optional[Settings]) -> None:
        self.sent: list[dict[str, Any]] = []
        self.arrived = threading.Condition()
        self.bridge = Bridge(given, self, lambda way, body: None)  # type: ignore[arg-type]

    def __enter__(self) -> "InProcess":
        return self

    def __exit__(self, *_: object) -> None:
        with self.bridge.requests.lock:
            self.bridge.end()

    def write(self, body: bytes) -> None:
        """Takes a message of the bridge."""
        message = json.loads(read_body(io.BytesIO(body)) or b"")
        assert message.pop("jsonrpc") == "2.0"
        with self.arrived:
            self.sent.append(message)
            self.arrived.notify_all()

    def flush(self) -> None:
        """There is nothing to do."""

    def take(self, message: dict[str, Any]) -> None:
        """Sends a message."""
        with self.bridge.requests.lock:
            self.bridge.take(message)

    def answers(self, count: int) -> list[dict[str, Any]]:
        """The answers, as soon as there are so many."""

        def found() -> list[dict[str, Any]]:
            return [one for one in self.sent if "id" in one]

        with self.arrived:
            assert self.arrived.wait_for(lambda: len(found()) >= count, SECONDS), self.sent
            return found()

    def is_idle(self) -> bool:
        """Whether nothing is under way."""
        return self.bridge.requests.free == self.bridge.requests.threads

    def settle(self) -> None:
        """Waits until nothing is under way."""
        end = time.monotonic() + SECONDS
        while not self.is_idle():
            assert time.monotonic() < end, self.sent
            time.sleep(0.001)

    def answer(self, message: dict[str, Any]) -> dict[str, Any]:
        """What a request is answered."""
        count = len(self.answers(0))
        self.take(message)
        return self.answers(count + 1)[-1]
