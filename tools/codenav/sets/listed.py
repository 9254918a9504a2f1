"""The projects of a server as its users name them: a set, which is many projects, as one."""

from collections import Counter
from typing import Any, Iterable

from codenav.names import PART, PARTS, shown_name
from codenav.sets.manifest import SURFACE


def set_of(project: str) -> str:
    """The set that a project has the name of a part of, or nothing."""
    found = PART.fullmatch(project)
    return found["set"] if found else ""


def by_names(projects: Iterable[dict[str, Any]]) -> list[tuple[str, str]]:
    """Names with what each has, of projects as a server lists them. A set has a manifest and parts;
    of one on another server there may be a surface."""
    listed = {one["name"]: one for one in projects}
    sets = {}
    for name, count in Counter(map(set_of, listed)).items():
        if name and name + PARTS in listed:
            sets[name] = shown_name(name), f"a set, parts {count}"
        elif name.endswith(SURFACE):
            shown = shown_name(name.removesuffix(SURFACE))
            sets[name] = shown, f"the surface of a set elsewhere, parts {count}"
    own = {name + PARTS for name in sets}
    rows = [
        (name, " and ".join(part for part in ("dump", "tags") if one.get(part)))
        for name, one in listed.items()
        if name not in own and set_of(name) not in sets
    ]
    return sorted([*rows, *sets.values()])
