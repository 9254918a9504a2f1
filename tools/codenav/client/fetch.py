"""What asks a server by a path and parameters, whose answers have the shape that its replies have."""

from typing import Any, Callable

from codenav.client.http import address, found_in, request
from codenav.faults import NoReply

Fetch = Callable[[str, dict[str, Any], str], Any]
MOST_NUMBER = 2147483647


class Fetcher:
    """What asks a server: by a path, parameters and the member of the reply. Raises NoReply."""

    def __init__(self, server: str, seconds: float, most: int) -> None:
        self.server, self.seconds, self.most = server, seconds, most

    def __call__(self, path: str, parameters: dict[str, Any], member: str) -> Any:
        url = address(self.server, path, parameters)
        found = found_in(request(url, seconds=self.seconds, most=self.most), member)
        if member in SHAPES and not SHAPES[member](found):
            raise NoReply(f"not the {member} of codenav")
        return found

    def within(self, seconds: float) -> "Fetcher":
        """The same with another time limit, where that is less."""
        return Fetcher(self.server, min(seconds, self.seconds), self.most)


def fetch_from(server: str, seconds: float, most: int = 1 << 30) -> Fetch:
    """What asks a server."""
    return Fetcher(server, seconds, most)


def is_place(value: Any) -> bool:
    """Whether a value has the members of a place."""
    return (
        isinstance(value, dict)
        and all(type(value.get(name)) is str for name in ("project", "uri"))
        and all(is_position(value.get(name)) for name in ("start", "end"))
    )


def is_position(value: Any) -> bool:
    """Whether a value has the members of a position."""
    numbers = [value.get(name) for name in ("line", "character")] if isinstance(value, dict) else []
    return bool(numbers) and all(type(one) is int and 0 <= one <= MOST_NUMBER for one in numbers)


def is_tag(value: Any) -> bool:
    """Whether a value has the members of a tag, whose kind may be null."""
    return (
        isinstance(value, dict)
        and all(type(value.get(name)) is str for name in ("project", "name", "file", "address"))
        and type(value.get("kind")) in (str, type(None))
        and type(value.get("line")) is int
        and type(value.get("fields")) is list
        and all(
            type(one) is list and [type(part) for part in one] == [str, str]
            for one in value["fields"]
        )
    )


def is_hover(value: Any) -> bool:
    """Whether a value is hover contents, or null: a text, one of a kind or in a language, or a list
    of texts, some of them in languages."""
    if type(value) is list:
        return all(is_text(part, "language") for part in value)
    return value is None or is_text(value, "language") or is_text(value, "kind")


def is_text(value: Any, of: str) -> bool:
    """Whether a value is a text, or one with a member that says what it's of."""
    members = [value.get("value"), value.get(of)] if type(value) is dict else [value]
    return all(type(member) is str for member in members)


def is_list(value: Any, is_one: Callable[[Any], bool]) -> bool:
    """Whether a value is a list of values that are such."""
    return type(value) is list and all(map(is_one, value))


SHAPES: dict[str, Callable[[Any], bool]] = {
    "places": lambda found: is_list(found, is_place),
    "tags": lambda found: is_list(found, is_tag),
    "contents": is_hover,
}
