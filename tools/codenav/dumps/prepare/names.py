"""Which vertices of a dump are of one symbol, by their monikers.

A name is a scheme, an identifier and a package. What has one name in different projects of the dump
is one symbol, and so is what imports it and what exports it. Two exports of a name in one project
stay apart: some indexers give two things one name. A moniker that is unique in its document names
nothing beside it, and one that is unique in its project nothing beside that.
"""

from array import array
from dataclasses import dataclass, field
from typing import Iterable, Iterator, NamedTuple

from codenav.dumps.prepare.labels import DOCUMENT, PROJECT, RANGE
from codenav.dumps.prepare.numbers import NONE
from codenav.dumps.prepare.plan import KEPT, Plan
from codenav.dumps.prepare.survey import EXPORT, IMPORT, OF_PROJECT

SEVERAL, OUTSIDE = -2, -3
"""What stands for the project of what is in several, and in none."""

Bearers = dict[int, dict[int, int]]
"""The vertices that have a moniker of a group, with the places of the edges among those of their
label."""


class Bearer(NamedTuple):
    """A vertex with a moniker. In order, what exports comes first, and then the places of
    edges."""

    is_import: bool
    place: int
    own: int


class Groups:
    """Numbers in groups. Two groups become one where a number of each is joined."""

    def __init__(self) -> None:
        self.above: dict[int, int] = {}

    def of(self, own: int) -> int:
        """The number that the group of a number is known by."""
        above = self.above
        while (over := above.setdefault(own, own)) != own:
            above[own] = own = above[over]
        return own

    def join(self, one: int, other: int) -> None:
        """Makes the groups of two numbers one."""
        self.above[self.of(one)] = self.of(other)


@dataclass
class Name:
    """How a name is used: as which kinds, in which project, and by which groups of monikers."""

    kinds: int = 0
    project: int = NONE
    groups: list[int] = field(default_factory=list)

    def is_joined(self) -> bool:
        """Whether what has the name is one symbol."""
        return self.project == SEVERAL or self.kinds == IMPORT | EXPORT


def symbols(plan: Plan) -> Iterator[list[Bearer]]:
    """The vertices of each symbol that several may be."""
    if not plan.survey.names:
        return
    attached = attached_monikers(plan)
    bearers = bearers_of(plan, attached)
    exporting: set[int] = set()
    joined = Groups()
    for name in names_of(plan, attached, bearers, exporting):
        for group in name.groups if name.is_joined() else ():
            joined.join(name.groups[0], group)
    found: dict[int, list[int]] = {}
    for group in list(joined.above):
        found.setdefault(joined.of(group), []).append(group)
    for groups in found.values():
        yield [
            Bearer(group not in exporting, place, own)
            for group in groups
            for own, place in bearers[group].items()
        ]


def attached_monikers(plan: Plan) -> Groups:
    """The monikers in groups of those that are attached to each other."""
    groups = Groups()
    for source, target, _ in plan.survey.edges["attach"].all():
        if plan.state[source] == plan.state[target] == KEPT and plan.fits("attach", source, target):
            groups.join(source, target)
    return groups


def bearers_of(plan: Plan, attached: Groups) -> Bearers:
    """The vertices that have a moniker, by its group."""
    found: Bearers = {}
    for place, (source, target, _) in enumerate(plan.survey.edges["moniker"].all()):
        if plan.is_asked(source) and plan.state[target] == KEPT:
            if plan.fits("moniker", source, target):
                found.setdefault(attached.of(target), {}).setdefault(source, place)
    return found


def names_of(plan: Plan, attached: Groups, bearers: Bearers, exporting: set[int]) -> Iterable[Name]:
    """The names of what has a moniker. Which groups have one that exports is added to
    `exporting`."""
    owners, packages = owners_of(plan), plan.survey.packages
    projects: dict[int, int] = {}
    for group, those in bearers.items():
        for own in those:
            projects[group] = either(projects.get(group, NONE), owners[own])
    names: dict[bytes, Name] = {}
    for own, key in plan.survey.names.items():
        group = attached.of(own)
        if group not in bearers or plan.state[own] != KEPT:
            continue
        package, project = plan.final["packageInformation"][own], projects[group]
        key, kinds = key[1:] + (b"" if package == NONE else packages[package]), key[0]
        if kinds & OF_PROJECT:
            if project in (NONE, SEVERAL):
                continue
            key += str(project).encode()
        name = names.setdefault(key, Name())
        name.kinds |= kinds & (IMPORT | EXPORT)
        name.project = either(name.project, project)
        name.groups.append(group)
        if kinds & EXPORT:
            exporting.add(group)
    return names.values()


def either(one: int, other: int) -> int:
    """The project of what is in two."""
    if one == NONE or one == other:
        return other
    return one if other == NONE else SEVERAL


def owners_of(plan: Plan) -> "array[int]":
    """The project of each vertex that ranges lead to. Where a dump has one at most, all is in one."""
    kinds, following = plan.kinds, plan.final["next"]
    if kinds.count(PROJECT) < 2:
        return array("i", [OUTSIDE]) * len(kinds)
    contained = plan.survey.edges["contains"]
    project = {end: own for own, end, _ in contained.all() if kinds[own] == PROJECT}
    owners = array("i", [NONE]) * len(kinds)
    for document, own, _ in contained.all():
        if kinds[document] == DOCUMENT and kinds[own] == RANGE and plan.is_asked(own):
            owner = project.get(document, OUTSIDE)
            while own != NONE and (both := either(owners[own], owner)) != owners[own]:
                owners[own] = both
                own = following[own]
    return owners
