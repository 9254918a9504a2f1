"""The projects of a server: which there are, putting the dump or the tags of one, and removing one.

The server keeps the key of each change with its reply: the same key again gets that reply, and
nothing changes. So each call has a key of its own, which all its retries share.
"""

import hashlib
import os
from typing import IO, Any, Callable, Optional

from codenav.client.http import Answer, address, found_in, request, request_again
from codenav.faults import NoReply

RANDOM_BYTES = 16
DIGITS = 32
PIECE = 1 << 20


def fresh_key(kind: str) -> str:
    """A key that no other call has: what is done, and 128 random bits."""
    return f"{kind}-{os.urandom(RANDOM_BYTES).hex()}"


def once_key(part: str, body: IO[bytes], profile: str) -> str:
    """The key that each upload of a body as this part and in this profile has: they, and 128 bits
    of the body's SHA-256."""
    digest = hashlib.sha256()
    body.seek(0)
    for piece in iter(lambda: body.read(PIECE), b""):
        digest.update(piece)
    kind = f"{part}-{profile}" if part == "lsif" else part
    return f"{kind}-{digest.hexdigest()[:DIGITS]}"


def listed(server: str) -> list[dict[str, Any]]:
    """The projects of a server, in the order of their names: each with its `name`, and whether it
    has a `dump` and `tags`."""
    found = found_in(request(address(server, "/projects", {})), "projects")
    if not isinstance(found, list) or not all(
        isinstance(project, dict) and isinstance(project.get("name"), str) for project in found
    ):
        raise NoReply(f"{server}: not a list of projects")
    return found


def put(
    server: str,
    project: str,
    part: str,
    body: IO[bytes],
    key: str,
    profile: Optional[str] = None,
    retry: bool = False,
    is_final: Callable[[Answer], bool] = lambda answer: False,
) -> Answer:
    """Puts the dump (`lsif`) or the tags (`tags`) of a project; a dump is read in a profile."""
    parameters = {"key": key} if profile is None else {"key": key, "profile": profile}
    url = address(server, f"/projects/{project}/{part}", parameters)
    return request_again(url, "PUT", body, retry, is_final)


def removed(server: str, project: str, retry: bool = False) -> bool:
    """Removes a project; answers whether there was a dump or tags."""
    url = address(server, f"/projects/{project}", {"key": fresh_key("remove")})
    return found_in(request_again(url, "DELETE", retry=retry), "removed") is True
