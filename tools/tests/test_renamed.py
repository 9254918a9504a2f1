"""Tests that files which were renamed since they were indexed are asked by the addresses that they
had, and answers lead to the names of today, whatever --map says of their folders: as they were
called when they were indexed, or as they are today."""

import os
from random import Random

from codenav.texts.revisions import Checkout
from codenav.texts.places import Place, asked_path, maps_of
from codenav.texts.today import Today
from tests.repository import InRepository

NAMES = ["a/x.rs", "a/y.rs", "a/in/z.rs", "b/x.rs", "b/deep/er/v.rs", "t.rs"]
FILES = ["n.rs", "a/n.rs", "b/n.rs", "c/n.rs", "a/in/m.rs"]
FOLDERS = [("a", "c"), ("a", "d/e"), ("a", "b/q"), ("a/in", "c"), ("b", "c"), ("b/deep", "a/q")]
ROOT = "file:///indexed"


def text_of(name: str) -> str:
    """The text of a file, like that of no other."""
    own = name.replace("/", "_").replace(".", "_")
    return "".join(f"fn {own}_{number}() {{}}\n" for number in range(8))


class Renamed(InRepository):
    def moved(self, random: Random) -> dict[str, str]:
        """Renames files and folders at random; answers how each file is called then."""
        called = {name: name for name in NAMES}
        moves = [(random.choice(NAMES), random.choice(FILES)) for _ in range(random.randrange(3))]
        moves += random.sample(FOLDERS, random.randrange(2))
        for old, new in moves:
            new_path = os.path.join(self.top, new)
            is_there = any(own == old or own.startswith(f"{old}/") for own in called.values())
            if not is_there or os.path.lexists(new_path):
                continue
            os.makedirs(os.path.dirname(new_path), exist_ok=True)
            os.rename(os.path.join(self.top, old), new_path)
            for name, own in called.items():
                if own == old or own.startswith(f"{old}/"):
                    called[name] = new + own[len(old) :]
        if random.random() < 0.5:
            self.git("add", "-A")
        return called

    def folder_of_today(self, folder: str, called: dict[str, str]) -> str:
        """What a folder is called by all of its files that were moved with it."""
        inside = {name: name[len(folder) :] for name in NAMES if name.startswith(f"{folder}/")}
        kept = [name for name in inside if called[name].endswith(inside[name])]
        found = {called[name][: -len(inside[name])] for name in kept}
        return found.pop() if len(found) == 1 else ""

    def test_at_random(self) -> None:
        for seed in range(15):
            random = Random(seed)
            with self.subTest(seed=seed):
                self.setUp()
                for name in NAMES:
                    self.write(name, text_of(name))
                commit = self.commit()
                called = self.moved(random)
                old = [(f"{ROOT}/{one}", f"{self.top}/{one}") for one in "ab"]
                new = [(f"{ROOT}/{one}", self.folder_of_today(one, called)) for one in "ab"]
                kinds = [[(ROOT, self.top)], old, [old[0], (ROOT, self.top)]]
                if all(folder for _, folder in new):
                    kinds.append([(uri, f"{self.top}/{folder}") for uri, folder in new])
                for maps in kinds:
                    self.judge(commit, called, [f"{uri}={folder}" for uri, folder in maps])

    def judge(self, commit: str, called: dict[str, str], words: list[str]) -> None:
        """Asks at a place of each file, and answers with one."""
        maps, said = maps_of(words), list[str]()
        today = Today({"app": Checkout(commit)}, maps, said.append)
        own = {"line": 2, "character": 3}
        for name in NAMES:
            if name == "t.rs" and not any(word.startswith(f"{ROOT}=") for word in words):
                continue
            uri, path = f"{ROOT}/{name}", os.path.join(self.top, called[name])
            asked = today.to_index("app", Place(asked_path(path, maps), 2, 3))
            self.assertEqual((asked.uri, asked.line, asked.fault), (uri, 2, ""), words)
            place = {"project": "app", "uri": uri, "start": own, "end": {**own, "character": 4}}
            self.assertEqual([one["path"] for one in today.from_index([place])], [path], words)
        self.assertEqual(said, [])
        today.end()
