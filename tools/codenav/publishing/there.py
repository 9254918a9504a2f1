"""What a server has by the name of what would be published."""

from typing import Mapping, NamedTuple

from codenav.faults import NoReply
from codenav.names import PARTS, stored_name
from codenav.publishing.made import Made
from codenav.publishing.target import Target
from codenav.sets.listed import set_of
from codenav.sets.publish.store import Store

BRIEF = 60.0
"""For so long the server is waited for."""
CALLED = {"lsif": "a dump", "tags": "tags"}


class There(NamedTuple):
    """The projects of a server, each with the parts that it has; or why they aren't known."""

    projects: Mapping[str, set[str]] = {}
    fault: str = ""

    def changed(self, made: Made, target: Target) -> str:
        """What becomes of it where something is put there."""
        if self.fault:
            return f"in place of what isn't known: {self.fault}"
        own = stored_name(target.project)
        has = self.projects.get(own, set())
        puts = {body.part for body in made.bodies} if made.files is None else set(CALLED)
        gone = [text for part, text in CALLED.items() if part in has & puts]
        stays = [text for part, text in CALLED.items() if part in has - puts]
        if own + PARTS in self.projects:
            gone.append(f"a set of {[*map(set_of, self.projects)].count(own)} parts")
        said = [
            f"{how} {' and '.join(what)}"
            for how, what in (("in place of", gone), ("beside", stays))
            if what
        ]
        return ", ".join(said) or "where there is nothing yet"


def there_at(target: Target) -> There:
    """What the server that gets a target has, by one look."""
    try:
        return There(Store(target.home, seconds=BRIEF).projects())
    except NoReply as fault:
        return There(fault=str(fault))
