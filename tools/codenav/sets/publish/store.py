"""The requests of a publish to a server."""

import io
import re
import secrets
from contextlib import contextmanager
from typing import Any, Iterator, Optional

from codenav.client.http import (
    AGAIN,
    SECONDS,
    Answer,
    address,
    found_in,
    refusal_of,
    reply_in,
    request,
    request_again,
)
from codenav.faults import NO_DUMP, NoReply
from codenav.names import PARTS
from codenav.sets.manifest import ABOUT, Head, head_of, mark_in


class Silent(NoReply):
    """A request that no answer of the server came to."""


def answered(answer: Answer) -> Answer:
    """An answer that the server gave; raises Silent where it gave none."""
    if not answer.status or answer.status in AGAIN and "fault" not in (reply_in(answer) or {}):
        raise Silent(refusal_of(answer))
    return answer


class Store:
    """The requests of a publish to a server."""

    def __init__(self, server: str, retry: bool = True, seconds: float = SECONDS) -> None:
        self.server, self.retry, self.seconds = server, retry, seconds

    def ask(self, method: str, path: str, parameters: dict[str, Any], body: bytes = b"") -> Answer:
        """Sends a request, and a change again where no answer comes."""
        url = address(self.server, path, parameters)
        if method == "GET":
            return request(url, seconds=self.seconds)
        content = io.BytesIO(body) if method == "PUT" else None
        return request_again(url, method, content, self.retry)

    def found(self, path: str, parameters: dict[str, Any], member: str) -> Any:
        """What a query finds. Raises Silent where no answer comes within the time limit."""
        return found_in(answered(self.ask("GET", path, parameters)), member)

    def change(self, method: str, path: str, parameters: dict[str, Any], body: bytes) -> None:
        """Makes a change; raises NoReply where it isn't made, and a repeated one is made once."""
        answer = answered(self.ask(method, path, parameters, body))
        if answer.status != 200:
            raise NoReply(refusal_of(answer))

    def put(self, project: str, part: str, body: bytes, key: str, profile: str = "1") -> None:
        """Puts the dump or the tags of a project."""
        parameters = {"key": key, **({"profile": profile} if profile != "1" else {})}
        self.change("PUT", f"/projects/{project}/{part}", parameters, body)

    def remove(self, project: str, key: str = "") -> None:
        """Removes a project, under a key of its own where none is given."""
        own = {"key": key or secrets.token_hex(16)}
        self.change("DELETE", f"/projects/{project}", own, b"")

    def is_used(self, project: str, key: str) -> bool:
        """Whether a key was used for a project: a faulty body under it is answered as before then,
        and otherwise refused, and nothing is kept."""
        try:
            self.change("PUT", f"/projects/{project}/tags", {"key": key}, b"?")
        except NoReply as fault:
            if not re.search(r"\bT04 ", str(fault)):
                raise
            return False
        return True

    def projects(self) -> dict[str, set[str]]:
        """The projects of the server, each with the parts that it has: `lsif`, `tags`."""
        with self.understood():
            return {
                one["name"]: {
                    part for part, there in (("lsif", one["dump"]), ("tags", one["tags"])) if there
                }
                for one in self.found("/projects", {}, "projects")
            }

    @contextmanager
    def understood(self) -> Iterator[None]:
        """Has a reply without what is looked for in it be a fault of the server."""
        try:
            yield
        except (KeyError, TypeError, AttributeError):
            text = f"{self.server}: not a reply of codenav as these tools know it"
            raise NoReply(text) from None

    def has_dump(self, project: str) -> bool:
        """Whether a project has a dump."""
        try:
            self.found(f"/projects/{project}/profile", {}, "profile")
        except NoReply as fault:
            if fault.code() != NO_DUMP:
                raise
            return False
        return True

    def tags(self, project: str, prefix: str) -> list[dict[str, Any]]:
        """The tags of a project whose names begin with a text."""
        return list(self.found("/names", {"prefix": prefix, "project": project}, "tags"))

    def head(self, name: str) -> Optional[Head]:
        """What the manifest of a set says, of the format of before too, or None where there is
        none; raises NotAManifest."""
        return head_of(self.tags(name + PARTS, ABOUT), name + PARTS, with_old=True)

    def mark(self, name: str) -> Optional[str]:
        """The mark of the manifest of a set, or None where there is none."""
        return mark_in(self.tags(name + PARTS, f"{ABOUT}set"))
