"""Names over several servers: each is asked for those of all its projects, and the lists are merged
in the order that one server's has, by name, project and line.

A project or a set is shown as its home has it. Where its home hasn't it, since a server was added or
it was put elsewhere by hand, it's shown as the others have it, equal tags once.
"""

from contextlib import contextmanager
from typing import Any, Callable, Iterator, Sequence

from codenav.asking.by_name import has_dump, has_tags
from codenav.asking.index import Found, Index, order_of_tag
from codenav.client.fetch import Fetch
from codenav.faults import NoReply
from codenav.names import stored_name
from codenav.sets.ring import Ring

LETTERS = "zqjxyvkwuhgnolbmdfirteapcs"
BEGINNINGS = f"{LETTERS}_{LETTERS.upper()}"
"""With what names begin, what is rarer first: little is answered then."""


def has_other_tags(index: Index) -> bool:
    """Whether a project has tags whose names begin with a letter or `_`: those that don't say
    themselves that they're there can't be asked for otherwise but by listing all projects."""
    own = {"project": index.name}
    return any(index.sets.fetch("/names", {**own, "prefix": one}, "tags") for one in BEGINNINGS)


@contextmanager
def named(server: str) -> Iterator[None]:
    """Names a server in its faults."""
    try:
        yield
    except NoReply as fault:
        text = str(fault)
        raise NoReply(text if text.startswith(server) else f"{server}: {text}") from None


def names_of_all(
    servers: Sequence[str],
    name: str,
    parameters: dict[str, Any],
    fetch_from: Callable[[str], Fetch],
) -> list[Found]:
    """The tags of all projects on servers, where a project or a set is asked; raises NoReply where
    one of them doesn't answer, since the list wouldn't be whole."""
    holders: dict[str, dict[str, list[Found]]] = {}
    for url in servers:
        with named(url):
            tags = Index(name, fetch_from(url)).names(parameters, True)
        for tag in tags:
            holders.setdefault(tag["project"], {}).setdefault(url, []).append(tag)
    kept, ring = [], Ring(servers)
    for project, own in holders.items():
        home = ring.home(stored_name(project))
        if home not in own:
            # it may have come there since its home was asked
            index = Index(project, fetch_from(home))
            with named(home):
                tags = index.names(parameters, False)
                if tags or has_dump(index) or has_tags(index) or has_other_tags(index):
                    own[home] = tags
        if home in own:
            kept += own[home]
        else:
            kept += list({str(tag): tag for tags in own.values() for tag in tags}.values())
    return sorted(kept, key=order_of_tag)
