"""Tests of which tags are the manifest of a set: one that names the set, of a format that's known,
with parts of its own, each once."""

import unittest
from typing import Any, Optional

from codenav.sets.manifest import ABOUT, FORMAT, OLD_FORMAT, NotAManifest, head_of

PARTS = "code-0000aaaaaaaaaaaa", "code-0000bbbbbbbbbbbb"
Tag = dict[str, Any]


def tag(name: str, file: str, **fields: str) -> Tag:
    """A tag of a manifest."""
    return {"name": f"{ABOUT}{name}", "file": file, "fields": [list(one) for one in fields.items()]}


def about(file: str = "code", form: str = FORMAT) -> Tag:
    """What a manifest says of its set."""
    return tag("set", file, format=form, documents="2", mark="m")


def part(project: str) -> Tag:
    """What a manifest says of a part."""
    return tag("part", project, elements="9", first=f"file:///{project}", digest=project[-12:])


WHOLE = [about(), *map(part, PARTS)]
ROWS: list[tuple[list[Tag], Optional[str]]] = [
    (WHOLE, None),
    ([about()], None),
    ([*WHOLE, about()], "another set"),
    ([*WHOLE, about("other")], "another set"),
    ([about("other"), *WHOLE[1:]], "another set"),
    ([*WHOLE, part("other-0000cccccccccccc")], "another set"),
    ([*WHOLE, part(PARTS[0])], "another set"),
    ([about(), part("code")], "another set"),
    ([about(form="9"), *WHOLE[1:]], "another format"),
    ([about(form=OLD_FORMAT), *WHOLE[1:]], "older version"),
    (WHOLE[1:], "somebody else wrote it"),
    ([*WHOLE, tag("part", PARTS[0])], "somebody else wrote it"),
]


class Heads(unittest.TestCase):
    def test_each(self) -> None:
        self.assertIsNone(head_of([], "code-parts"))
        for tags, fault in ROWS:
            with self.subTest(tags=[(one["name"], one["file"]) for one in tags], fault=fault):
                if fault is not None:
                    with self.assertRaisesRegex(NotAManifest, fault):
                        head_of(tags, "code-parts")
                    continue
                head = head_of(tags, "code-parts")
                assert head is not None
                self.assertEqual((head.name, head.mark), ("code", "m"))
                self.assertEqual([*head.projects()], [one["file"] for one in tags[1:]])


if __name__ == "__main__":
    unittest.main()
