"""Puts a set that was split on a server: the parts that it doesn't have, then the manifest, then it
removes what isn't named any more.

Whoever asks meanwhile is answered from the old set, and from the one put of the manifest on from the
new one. A publish may stop at any point, for as long as it may, and any number may go on at a time:
the first one whose manifest comes acts, and the others find that it was faster.
"""

import os
import secrets
from dataclasses import dataclass, field
from typing import Mapping

from codenav.faults import BadCall, NoReply
from codenav.names import PARTS
from codenav.sets.files import MANIFEST, files_of, manifest_of, put_file, read_documents, read_head
from codenav.sets.manifest import (
    DOCUMENT,
    DocumentEntry,
    NotAManifest,
    content_digest,
    document_lines,
    head_lines,
    is_same,
    tags_text,
)
from codenav.sets.publish.base import Base, Late, read_base
from codenav.sets.publish.plan import Files, Plan, Report, There
from codenav.sets.publish.store import Store

NO_ROOM = ("S01", "S02")
TRIES = 5
LOOKED_AT = 50
"""After so many parts it's looked whether another publish was faster."""
NEVER_PUT = "-ffffffffffffffff"
"""Of a set's name it makes that of a part that is never put: keys are used up there."""
BEGUN, SWEPT = "begun", "swept"
"""What is noted of a base: that parts may have been put for it; and that nothing was left beside
it."""


@dataclass
class Publish:
    """A publish of the set in a folder to a server. `there` is what was on each server before it
    began, and what it put and removed since."""

    store: Store
    folder: str
    in_place_of_project: bool = False
    report: Report = field(default_factory=Report)
    there: dict[Store, There] = field(default_factory=dict)
    is_switched: bool = False
    has_made_room: bool = False
    mark: str = ""

    def __post_init__(self) -> None:
        path = os.path.join(self.folder, MANIFEST)
        self.head = read_head(path)
        self.files = {own.project: files_of(self.folder, own.project) for own in self.head.parts}
        self.documents = read_documents(path, self.head)

    def run(self) -> Report:
        """Publishes the set; raises NoReply, Late or NotAManifest where it can't, and then the old
        set answers on."""
        for left in reversed(range(TRIES)):
            try:
                if self.is_done():
                    break
            except NotAManifest:
                # one that came between the reading and the list is looked at again
                if not left:
                    raise
        self.report.parts = len(self.head.projects())
        self.report.kept = max(self.report.parts - self.report.new, 0)
        return self.report

    def is_done(self) -> bool:
        """Publishes the set for what is there now; answers whether it's done."""
        base = read_base(self.store, self.head.name)
        if self.is_unchanged(base):
            return True
        self.there = self.listed()
        there = self.there[self.store]
        self.refuse_others(base, there)
        plan = self.planned(base, there)
        if not self.has_made_room and plan.is_crowded(there):
            self.make_room(plan)
            return False
        self.note(BEGUN, base)
        try:
            self.put_parts(plan)
            self.put_manifest(plan)
        except Late:
            self.sweep()
            raise
        except NoReply as fault:
            has_room = not any(f"{code} " in str(fault) for code in NO_ROOM)
            if has_room or self.has_made_room or not self.make_room(plan):
                raise
            return False
        self.sweep()
        return True

    def is_unchanged(self, base: Base) -> bool:
        """Whether the set is there as it's to be published, with nothing of another one. It's found
        without a list of the projects, which may be many."""
        head = base.head
        return (
            head is not None
            and is_same(head, self.head)
            and self.is_noted(self.front_or_home, SWEPT, base)
            and not self.is_noted(self.store, BEGUN, base)
            and not self.store.has_dump(base.name)
            and all(self.store.has_dump(part.project) for part in head.parts)
            and all(self.store.tags(one.project, DOCUMENT + one.first) for one in head.lists)
        )

    def note(self, what: str, base: Base) -> None:
        """Notes something of what is there, by a key that is used up."""
        self.store.remove(base.name + NEVER_PUT, f"{what}-{base.key}")

    def is_noted(self, store: Store, what: str, base: Base) -> bool:
        """Whether that was noted, as a server says."""
        return store.is_used(base.name + NEVER_PUT, f"{what}-{base.key}")

    @property
    def front_or_home(self) -> Store:
        """The server that all ask."""
        return self.store

    def listed(self) -> dict[Store, There]:
        """The projects of the servers."""
        return {self.store: self.store.projects()}

    def refuse_others(self, base: Base, there: There) -> None:
        """Refuses what stands in the set's place on the server and isn't a set: a manifest that
        somebody else wrote, or a project of its name."""
        if base.head is None and base.name + PARTS in there:
            text = "isn't the manifest of a set: somebody else wrote it"
            raise NotAManifest(f"{base.name}{PARTS} {text}")
        if base.name in there and not self.in_place_of_project:
            raise BadCall(
                f"a project {base.name} is on the server, which is asked in the set's place: `codenav remove` removes it"
            )

    def known_names(self, base: Base) -> Mapping[str, str]:
        """The names of contents that are kept, by their digests."""
        return base.head.names() if base.head else {}

    def next_version(self, base: Base) -> int:
        """The number of the next manifest."""
        return base.version + 1

    def planned(self, base: Base, there: There) -> Plan:
        """The set as it's put for a base where this is there: a content keeps its name where that
        is there, and has a new one of the base else."""
        known, taken = self.known_names(base), dict[str, str]()

        def named(of_set: str, digest: str, parts: set[str]) -> str:
            found = known.get(digest)
            if found is None or not parts <= there.get(found, set()):
                found = base.named(of_set, digest, taken)
            taken[found] = digest
            return found

        names = {
            own.digest: named(base.name, own.digest, set(self.files[own.project]))
            for own in self.head.parts
        }
        for own in self.head.surface:
            names[own.digest] = named(own.project.rpartition("-")[0], own.digest, set())
        projects = {own.project: names[own.digest] for own in self.head.parts}
        mark, version = secrets.token_hex(16), self.next_version(base)
        head = self.head.with_names(names)._replace(lists=(), mark=mark, version=version)
        documents = [own._replace(project=projects[own.project]) for own in self.documents]
        made = manifest_of(head, documents, lambda digest: named(base.name, digest, {"tags"}))
        files: dict[str, Files] = {projects[one]: own for one, own in self.files.items()}
        return Plan(base, made[0], made[2], files, made[1])

    def put_parts(self, plan: Plan) -> None:
        """Puts what isn't there."""
        there = self.there[self.store]
        self.report.new += self.put_files(plan, self.store, plan.files)
        for project in sorted(plan.lists.keys() - there.keys()):
            there[project] = {"tags"}
            self.store.put(project, "tags", plan.lists[project], secrets.token_hex(16))
            self.report.new += 1

    def put_files(self, plan: Plan, store: Store, files: Mapping[str, Files]) -> int:
        """Puts the files of projects that a server hasn't; answers of how many projects. Raises
        Late where another publish was faster."""
        count, digests, there = 0, plan.head.digests(), self.there[store]
        for project, own in files.items():
            missing = [part for part in own if part not in there.get(project, ())]
            bodies = self.bodies_of(own, digests[project]) if missing else {}
            for part in missing:
                there.setdefault(project, set()).add(part)
                profile = self.head.profile if part == "lsif" else "1"
                store.put(project, part, bodies[part], secrets.token_hex(16), profile)
            count += bool(missing)
            if (
                missing
                and count % LOOKED_AT == 0
                and self.store.mark(plan.base.name) != plan.base.mark
            ):
                raise Late(plan.base.name)
        return count

    def bodies_of(self, files: Files, digest: str) -> dict[str, bytes]:
        """What the files of a part have; raises BadCall where that isn't of the digest."""
        bodies = {}
        for part, path in files.items():
            with open(path, "rb") as file:
                bodies[part] = file.read()
        lsif, tags = (bodies.get(part, b"") for part in ("lsif", "tags"))
        if digest != content_digest(lsif, self.head.profile if lsif else "1", tags):
            raise BadCall(
                f"{', '.join(files.values())}: damaged, since the digest isn't the manifest's"
            )
        return bodies

    def put_manifest(self, plan: Plan) -> None:
        """Puts the manifest, which is the switch; raises Late where another one came before."""
        name = plan.base.name
        self.store.put(name + PARTS, "tags", plan.body, plan.base.key)
        if self.store.mark(name) != plan.head.mark:
            raise Late(name)
        self.is_switched, self.mark = True, plan.head.mark

    def make_room(self, plan: Plan) -> bool:
        """Removes what other publishes left at the home; answers whether there was something."""
        self.has_made_room, before = True, self.report.removed
        if plan.others(self.there[self.store]):
            self.fence(plan.base)
        self.sweep()
        return self.report.removed > before

    def fence(self, base: Base) -> None:
        """Has the manifest that is there be another one, so that what was put to follow it can't be
        named any more."""
        name = base.name + PARTS
        if base.head is None:
            self.store.remove(name, base.key)
        else:
            documents = [
                DocumentEntry(tag["name"][1:], tag["file"])
                for tag in self.store.tags(name, DOCUMENT)
            ]
            head = base.head._replace(mark=secrets.token_hex(16), version=base.version + 1)
            body = tags_text([*head_lines(head), *document_lines(documents)])
            self.store.put(name, "tags", body, base.key)

    def sweep(self) -> None:
        """Removes what can't be named any more, of what was listed before the base is read; where
        the set that was published is still the one that's there, it's noted that nothing else is.
        """
        base = read_base(self.store, self.head.name)
        if self.is_all_swept(base) and self.is_switched and base.mark == self.mark:
            self.note(SWEPT, base)

    def is_all_swept(self, base: Base) -> bool:
        """Does it at each server; answers whether all could be asked."""
        self.sweep_at(self.store, base)
        return True

    def sweep_at(self, store: Store, base: Base) -> None:
        """The same of one server."""
        there = self.there[store]
        todo = base.garbage(there, [base.name], base.names())
        for project in todo:
            store.remove(project)
        self.report.removed += len(todo)
        if self.in_place_of_project and self.is_switched and base.name in there:
            store.remove(base.name)


def fetch_cuts(store: Store, name: str, folder: str) -> None:
    """Writes what the server's manifest says of a set's parts into a folder without a manifest, so
    that a split there keeps the cuts."""
    path = os.path.join(folder, MANIFEST)
    head = None if os.path.exists(path) else store.head(name)
    if head is not None:
        os.makedirs(folder, exist_ok=True)
        put_file(path, tags_text(head_lines(head)))
