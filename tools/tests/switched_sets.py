"""Random sets that are published in memory, and what has to be answered meanwhile, by walks over
whole dumps: `code`, of which there are three revisions, a set `user` and a project `other` that are
joined to it."""

import functools
import os
import random
from typing import Any, Iterator, NamedTuple, Optional

from codenav.dumps.tables import graph
from codenav.names import PART, PARTS
from codenav.progress import Quiet
from codenav.sets.files import MANIFEST, read_head
from codenav.sets.manifest import fields_of
from codenav.sets.publish.base import remove_set
from codenav.sets.publish.publish import Publish
from codenav.sets.publish.spread import Spread
from codenav.sets.split.crossing import Shared
from codenav.sets.surface.made import keep_surface, made_surface
from tests.dump_walks import OF_PROFILE, Maker, Question, Walk, answered, body_of, questions
from tests.in_memory import FRONT, Kept, Killed, Moment, Servers, tags_of, walk_of
from tests.split_files import said_of_split
from tests.test_sets import flat_of

CODE, USER, OTHER = "code", "user", "other"
REVISIONS = 3
NAMES = ["run", "rum", "rob"]
Act = tuple[str, int, int]
"""What is done to the set `code`: `set` and `project` publish a revision, a small one too as a set
where there is one, and `remove` removes it; and after how many changes it's killed, -1 where it
isn't."""


def split_into(folder: str, name: str, body: bytes, tags: bytes, profile: str) -> set[Any]:
    """Splits a dump and tags into a folder, in as many parts as there can be; answers the hidden
    keys."""
    os.makedirs(folder)
    whole, beside = (os.path.join(folder, file) for file in ("whole", "beside"))
    for path, content in (whole, body), (beside, tags):
        with open(path, "wb") as out:
            out.write(content)
    options: dict[str, Any] = {"profile": profile, "tags": beside, "tags_folder": "/tags"}
    options["maps"] = (f"file:///{name}=/tags",)
    for most in range(40, 1000, 20):
        status, said = said_of_split(whole, folder, name, elements=most, **options)
        if status == 0:
            break
    else:
        raise AssertionError(said)
    flat = flat_of(whole, profile)
    return {flat.keys[key] for key in Shared(flat, graph.ASKED[profile]).hidden}


class Content(NamedTuple):
    """A dump, and the tags beside it."""

    body: bytes
    tags: bytes


class Scene:
    """Random dumps on one server, split in folders."""

    servers = ["http://one"]
    names: tuple[str, ...] = (CODE, USER, OTHER)

    def __init__(self, seed: int, folder: str) -> None:
        self.folder = folder
        rng = self.rng = random.Random(seed)
        self.profiles = {name: rng.choice("12") for name in self.names}
        self.keys = rng.choice([12, 30])
        self.code = self.revisions()
        self.others = {
            name: self.made(name, "abc" if name == USER else "a", rng.randrange(1 << 30))
            for name in self.names[1:]
        }
        self.hidden = {
            CODE: set().union(*(self.split(CODE, n, own) for n, own in enumerate(self.code))),
            USER: self.split(USER, 0, self.others[USER]),
        }
        every = [
            (name, question)
            for name in self.names
            for question in sorted(set(self.questions(name)), key=repr)
        ]
        differing = [one for one in every if self.differs(*one)]
        self.asked = [*differing, *every[:: len(every) // (len(differing) // 4 + 1) + 1]]

    def made(self, name: str, letters: str, seed: int, added: int = 0) -> Content:
        """A dump of a document for each letter, the first one with some lines more at its top, and
        with tags."""
        rng = random.Random(seed)
        uris = [f"file:///{name}/{letter}" for letter in letters]
        maker = Maker(rng, self.profiles[name], uris, self.keys)
        elements = maker.make()
        first = next(own["id"] for own in elements if own.get("uri") == uris[0])
        inside = {
            end
            for own in elements
            if own["label"] == "contains" and own["outV"] == first
            for end in own["inVs"]
        }
        for own in elements:
            if own["id"] in inside and own["type"] == "vertex":
                for end in ("start", "end"):
                    own[end] = {**own[end], "line": own[end]["line"] + added}
        lines = {f"{rng.choice(NAMES)}\t{rng.choice(letters)}\t{added + 1}\n" for _ in range(3)}
        return Content(body_of(elements), "".join(sorted(lines)).encode())

    def revisions(self) -> list[Content]:
        """Revisions of the set: one that has a line more in a document than another, or others."""
        seed = self.rng.randrange(1 << 30)
        found = [self.made(CODE, "abcde", seed)]
        for at in range(1, REVISIONS):
            if self.rng.random() < 0.5:
                found.append(self.made(CODE, "abcde", seed, at))
            else:
                letters = self.rng.choice(["abcde", "bcd", "abcdefg"])
                found.append(self.made(CODE, letters, self.rng.randrange(1 << 30)))
        return found

    def split(self, name: str, number: int, content: Content) -> set[Any]:
        """Splits a set; answers its hidden keys."""
        folder = self.folder_of(name, number)
        return split_into(folder, name, *content, self.profiles[name])

    def folder_of(self, name: str, number: int) -> str:
        """The folder of a revision of a set."""
        return os.path.join(self.folder, f"{name}-{number}")

    def walks_of(self, name: str) -> list[Walk]:
        """The walks of the revisions of a project or set."""
        own = self.code if name == CODE else [self.others[name]]
        return [walk_of(one.body, self.profiles[name]) for one in own]

    def questions(self, name: str) -> Iterator[Question]:
        """The questions that are answered in parts as of the whole dump in every revision: those
        that don't join by a hidden key of a set, nor to several hovers."""
        hidden = {key for other, keys in self.hidden.items() if other != name for key in keys}
        walks = self.walks_of(name)
        for walk in walks:
            for question in questions(walk, OF_PROFILE[self.profiles[name]]):
                keys = set[Any]().union(*(keys_at(own, question) for own in walks))
                if not hidden & keys and (
                    question.request != "hover" or len(self.hovers_of(name, keys)) < 2
                ):
                    yield question

    def hovers_of(self, name: str, keys: set[Any]) -> set[str]:
        """The hovers that others than a project or set export of keys."""
        return {
            repr(walk.vertices[walk.first(own, "hover")]["result"])
            for other in self.names
            for walk in self.walks_of(other)
            for own in (own for key in keys for own in walk.bearers("export", key))
            if other != name and walk.first(own, "hover") is not None
        }

    def differs(self, name: str, question: Question) -> bool:
        """Whether an answer isn't the same in all revisions."""
        answers = [self.answer(revision, name, question) for revision in range(REVISIONS)]
        return any(answer != answers[0] for answer in answers)

    def whole(self, revision: Optional[int]) -> dict[str, Walk]:
        """The walks of all, with a revision of the set or without."""
        found = {name: self.walks_of(name)[0] for name in self.others}
        if revision is not None:
            found[CODE] = self.walks_of(CODE)[revision]
        return found

    @functools.cache
    def answer(self, revision: Optional[int], name: str, question: Question) -> Any:
        """What has to be answered of a revision."""
        walks = self.whole(revision)
        if name not in walks:
            return "D01"
        if not any(one.get("uri") == question.uri for one in walks[name].vertices.values()):
            return "D02"
        return answered(walks, name, question)

    @functools.cache
    def tags_found(self, revision: Optional[int], name: str, text: str, every: bool) -> Any:
        """The tags that have to be found of a revision, in order."""
        own = {other: content.tags for other, content in self.others.items()}
        if revision is not None:
            own[CODE] = self.code[revision].tags
        found = set()
        for project, tags in own.items():
            for line in tags.decode().splitlines() if every or project == name else ():
                tag, file, _ = line.split("\t")
                if tag.startswith(text):
                    found.add((tag, project, file))
        return sorted(found)

    def is_joined_hover(self, name: str, question: Question) -> bool:
        """Whether a hover may come from another project, by a join."""
        return question.request == "hover" and any(
            at is not None and walk.first(at, "hover") is None
            for walk in self.walks_of(name)
            for at in [walk.pick(question)]
        )

    def run(self, acts: tuple[Act, ...]) -> "History":
        """What becomes of the servers where the acts are done one after the other."""
        servers = Servers(self.servers)
        self.publish(servers, USER, 0)
        if OTHER in self.others:
            self.put(servers, OTHER, self.others[OTHER])
        begin = len(servers.moments) - 1
        for what, revision, left in acts:
            servers.left = left
            try:
                self.act(servers, what, revision)
            except Killed:
                pass
        del servers.moments[:begin]
        return History(self, servers)

    def act(self, servers: Servers, what: str, revision: int) -> None:
        """Does something to the set."""
        store = Kept(servers, self.servers[0])
        if what == "set" or what == "project" and store.mark(CODE) is not None:
            self.publish(servers, CODE, revision)
        elif what == "project":
            self.put(servers, CODE, self.code[revision])
        else:
            store.remove(CODE)
            remove_set(store, CODE)

    def publish(self, servers: Servers, name: str, number: int) -> None:
        """Publishes a set."""
        store = Kept(servers, self.servers[0])
        Publish(store, self.folder_of(name, number), in_place_of_project=True).run()

    def put(self, servers: Servers, name: str, content: Content) -> None:
        """Puts a project."""
        store = Kept(servers, self.servers[0])
        for part, body in ("lsif", content.body), ("tags", content.tags):
            key = f"{len(servers.moments)}"
            store.put(name, part, body, key, self.profiles[name] if part == "lsif" else "1")


class SpreadScene(Scene):
    """Random dumps of two sets, each at a home of its own of three servers and with its surface on
    the others."""

    servers = [f"http://{number}" for number in range(3)]
    names = (CODE, USER)

    def split(self, name: str, number: int, content: Content) -> set[Any]:
        hidden = super().split(name, number, content)
        folder = self.folder_of(name, number)
        whole, own = os.path.join(folder, "whole"), os.path.join(folder, "surface")
        keep_surface(folder, made_surface(whole, name, self.profiles[name], own, Quiet()))
        return hidden

    def publish(self, servers: Servers, name: str, number: int) -> None:
        home, folder = servers.ring.home(name), self.folder_of(name, number)
        Spread(
            Kept(servers, home),
            folder,
            others=[Kept(servers, server) for server in self.servers if server != home],
            surface=os.path.join(folder, "surface"),
            front=Kept(servers, FRONT),
            at_once=1,
        ).run()


def keys_at(walk: Walk, question: Question) -> set[Any]:
    """The keys that a question may be joined by."""
    at = walk.pick(question)
    return set() if at is None else {key for _, key in walk.marks(at)}


class History:
    """The states that servers went through, and of which revisions of `code` each is."""

    def __init__(self, scene: Scene, servers: Servers) -> None:
        self.scene, self.servers = scene, servers
        manifests = [os.path.join(scene.folder_of(CODE, n), MANIFEST) for n in range(REVISIONS)]
        heads = enumerate(map(read_head, manifests))
        self.of_parts = {frozenset(part.digest for part in head.parts): n for n, head in heads}
        self.revisions = {
            part: [self.revisions_of(at, part) for at in range(len(servers.moments))]
            for part in ("dump", "tags")
        }
        self.is_unnamed = [has_unnamed(moment) for moment in servers.moments]

    def revisions_of(self, at: int, part: str) -> set[Optional[int]]:
        """The revisions that may be answered from at a moment: that of the set's manifest, where
        the front asks for it, and of a project of the set's name, which are both there while one
        comes for the other."""
        found: set[Optional[int]] = set()
        home = self.servers.ring_at(at).home(CODE)
        for server, state in self.servers.moments[at].items():
            if server == home and CODE + PARTS in state:
                tags = state[CODE + PARTS].tags or ()
                parts = [fields_of(tag)["digest"] for tag in tags if tag["name"] == "\x02part"]
                found.add(self.of_parts[frozenset(parts)])
            own = getattr(state.get(CODE), part, None)
            if own is not None:
                found.update(self.of_project(own))
        return found or {None}

    def of_project(self, own: Any) -> set[int]:
        """The revisions that have a dump or tags."""
        walks = self.scene.walks_of(CODE)
        tags = [tags_of(content.tags) for content in self.scene.code]
        return {n for n in range(REVISIONS) if own in (walks[n], tags[n])}

    def between(self, first: int, last: int, part: str) -> set[Optional[int]]:
        """The revisions that may be answered from to a question that begins and ends so."""
        return set().union(*self.revisions[part][first : last + 1])


def has_unnamed(moment: Moment) -> bool:
    """Whether servers have parts of the set that no manifest names, or a project of its name beside
    it."""
    own = {project for state in moment.values() for project in state if project != OTHER}
    named = {
        tag["file"]
        for state in moment.values()
        for project, one in state.items()
        if project.endswith(PARTS)
        for tag in one.tags or ()
        if tag["name"] in ("\x02part", "\x02surface")
    }
    parts = {project for project in own if PART.fullmatch(project)}
    return bool(parts - named) or CODE in own and CODE + PARTS in own
