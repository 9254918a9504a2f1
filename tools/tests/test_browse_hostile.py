"""Tests that the pages of `browse` hold whatever a checkout has: names and messages are texts and
no HTML, links in the pages lead to what they name, and odd files and repositories have a page."""

import json
import os
import shutil
import unittest
from typing import Any, Iterator
from unittest import mock
from urllib.parse import quote

from codenav.browse import colours, folder
from codenav.browse.changes import changes
from codenav.browse.drawn import TURNS
from codenav.browse.pages import linked
from codenav.settings.found import Settings
from tests.packages import needs
from tests.randomly import check_cases
from tests.repository import InRepository
from tests.test_browse import Served
from tests.test_browse_history import Words

NAMES = [
    "<script>alert(1)<",
    "<img src=x onerror=alert(1)>",
    "\"onmouseover='x' a=\"",
    "a&amp;b&lt;",
    "turned\u202etxt.rs",
    "two\nlines",
    "carriage\rreturn",
    "\x1b[31mred\x07",
    "tab\there",
    "--help",
    "-n",
    ":(exclude)x",
    "$runs $content ${title}",
    "a b+c%20d;e=f#g?h",
    "%2e%2e",
    "ß\u0301 名前",
    "\udcff\udcfe.rs",
    "*?[a]",
    "C:\\x",
    "]]>-->",
]
MESSAGE = "<b>bold</b> \u202e & \x1b[31m \"quoted\" 'single' </td></script>"
ATTRIBUTES = {"href", "class", "id", "src", "type", "title", "role", "scope", "for", "tabindex"}
ADDED = {
    "width",
    "content",
    "name",
    "lang",
    "charset",
    "rel",
    "hidden",
    "value",
    "checked",
    "async",
}
OTHER = {
    "placeholder",
    "autocomplete",
    "autocapitalize",
    "spellcheck",
    "disabled",
    "action",
    "method",
}


class Hostile(Served, InRepository):
    def setUp(self) -> None:
        super().setUp()
        self.enterContext(mock.patch.object(folder, "SECONDS", 0.0))
        self.serve(Settings("http://127.0.0.1:1", "app", self.top))
        self.addCleanup(self.stop)

    def made(self, name: str, text: str = "fn one() {}\n") -> None:
        """Makes a file of any name."""
        with open(os.path.join(os.fsencode(self.top), os.fsencode(name)), "wb") as file:
            file.write(text.encode())

    def read(self, path: str, status: int = 200) -> Words:
        """A page that is well-formed: no element or attribute but the pages' own, and no link that
        leads elsewhere."""
        found, body, _ = self.got(path)
        self.assertEqual(found, status, path)
        page = Words(body)
        self.assertLessEqual(page.tags, self.plain, path)
        known = ATTRIBUTES | ADDED | OTHER | {"colspan"}
        own = {one for one in page.attributes if not one.startswith(("aria-", "data-"))}
        self.assertLessEqual(own, known, path)
        for link in page.links:
            self.assertIn(link[:1], "/?#", path)
        self.assertFalse(set(map(chr, TURNS)) & set(body))
        return page

    def test_names_and_messages(self) -> None:
        self.made("plain.rs")
        self.commit()
        pages = "files", "history", "blame", "compare"
        self.plain = set[str]({"h3", "h4", "mark", "section"})
        for page in pages:
            self.plain |= Words(self.got(f"/{page}/plain.rs")[1]).tags
        self.plain |= Words(self.got("/search?text=one")[1]).tags
        for name in NAMES:
            self.made(name)
        self.git("add", "-A")
        self.git("commit", "-qm", MESSAGE)
        for name in NAMES:
            self.made(name, "fn one() { two() }\n")
        links = set(self.read("/files/").links)
        found = {row["href"] for row in json.loads(self.got("/find?text=")[1])["names"]}
        texts = set(self.read("/search?text=two").links)
        for name in NAMES:
            address = next(
                link for link in links if link in (f"/files/{one}" for one in spelled(name))
            )
            own = address.removeprefix("/files/")
            self.assertIn(address, found, name)
            self.assertTrue(any(link.startswith(f"{address}#") for link in texts), name)
            shown = name.encode(errors="replace").decode().translate(TURNS)
            for page in pages:
                with self.subTest(name, page=page):
                    there = self.read(f"/{page}/{own}")
                    self.assertIn(" ".join(printed(shown).split()), there.text())
            self.assertIn("bold</b>", self.read(f"/history/{own}").text())
            path = own.replace("&", "%26").replace("+", "%2B").replace(";", "%3B")
            question = f"/ask?what=hover&line=0&character=3&path={path}"
            self.assertEqual(self.asked(question, {"contents": None})[0], 200, name)

    def test_odd_files(self) -> None:
        self.plain = set(Words("").tags)
        self.made("long.txt", "word " * 200_000)
        self.made("wide.txt", "wört " * 200_000)
        self.made("empty.txt", "")
        self.made("no-end.txt", "x")
        with open(os.path.join(self.top, "binary"), "wb") as file:
            file.write(bytes(range(256)) * 10)
        os.symlink("empty.txt", os.path.join(self.top, "link.txt"))
        os.symlink("gone", os.path.join(self.top, "broken"))
        os.symlink("loop", os.path.join(self.top, "loop"))
        for when in "before a commit", "behind it":
            for name, status in (
                ("long.txt", 200),
                ("wide.txt", 200),
                ("empty.txt", 200),
                ("no-end.txt", 200),
                ("link.txt", 200),
                ("binary", 403),
                ("broken", 404),
                ("loop", 404),
            ):
                self.assertEqual(self.got(f"/files/{name}")[0], status, f"{name} {when}")
                for page in "history", "blame", "compare":
                    found = self.got(f"/{page}/{name}")[0]
                    self.assertLess(found, 500, f"{page} {name} {when}")
            self.assertEqual(self.got("/search?text=word")[0], 200)
            if when == "before a commit":
                self.commit()

    def test_repositories_that_are_odd(self) -> None:
        """One without a commit, none at all, a broken one, and a submodule."""
        self.made("a.rs")
        for gone in "", ".git/HEAD", ".git":
            path = os.path.join(self.top, gone)
            if gone.endswith("HEAD"):
                os.unlink(path)
            elif gone:
                shutil.rmtree(path)
            self.assertEqual(self.got("/files/a.rs")[0], 200)
            for path in (
                "/history/a.rs",
                "/blame/a.rs",
                "/compare/a.rs",
                "/files/a.rs?revision=HEAD",
            ):
                self.assertEqual(self.got(path)[0], 404, path)
            body = self.got("/search?text=one")[1]
            self.assertIn("/files/a.rs#L1C4", Words(body).links)
        other = os.path.join(self.home, "other")
        os.mkdir(other)
        self.git("init", "-q", top=other)
        self.write("sub.rs", "fn sub() {}\n", top=other)
        self.commit(top=other)
        self.git("init", "-q")
        self.git("submodule", "add", "-q", other, "inner")
        self.commit()
        for path in (
            "/files/inner",
            "/files/inner/sub.rs",
            "/history/inner/sub.rs",
            "/blame/inner/sub.rs",
        ):
            self.assertEqual(self.got(path)[0], 200, path)
        found = json.loads(self.got("/find?text=sub")[1])["names"]
        self.assertEqual([row["name"] for row in found], ["inner/sub.rs"])

    def test_random_names(self) -> None:
        """Each name that a folder has is a text of its page and has a link that leads to it."""
        self.made("plain.rs")
        self.plain = Words(self.got("/files/")[1]).tags | Words(self.got("/files/plain.rs")[1]).tags

        def check(names: list[bytes]) -> None:
            with os.scandir(self.top) as entries:
                for entry in entries:
                    if entry.is_file(follow_symlinks=False):
                        os.unlink(entry)
            for name in names:
                self.made(os.fsdecode(name))
            links = self.read("/files/").links
            for name in names:
                own = [f"/files/{one}" for one in spelled(os.fsdecode(name))]
                address = next(link for link in links if link in own)
                self.assertIn("fn one", self.read(address).text().replace(" one", " one"))

        def drawn(st: Any) -> dict[str, Any]:
            odd = st.sampled_from(
                [*b"<>&\"'=$%#?;+\\ \n\r\t\x01\x1b\x7f\xff\xc3ab", 0xE2, 0x80, 0xAE]
            )
            name = st.lists(odd, min_size=1, max_size=12).map(bytes)
            kept = name.filter(lambda one: not one.startswith(b".") and b"/" not in one)
            return {"names": st.lists(kept, min_size=1, max_size=5, unique=True)}

        check_cases(self, 25, drawn, check)


def printed(text: str) -> str:
    """A text as a reader of HTML has it: line ends are line feeds."""
    return text.replace("\r\n", "\n").replace("\r", "\n")


def spelled(name: str) -> set[str]:
    """The ways to write a name in an address: with each sign of ASCII as it is, or not."""
    body = os.fsencode(name)
    kept = "".join(map(chr, range(33, 127)))
    return {quote(body, safe="".join(set(kept) - set('"#<>?^`{}%\\'))), quote(body, safe="")}


class LongLines(unittest.TestCase):
    def test_links_of_a_long_line(self) -> None:
        """In proportion to its length, in whatever letters."""
        for word in "a ", "ä ", "\U0001f600a ":
            text = linked(word * 100_000, 1, "?")
            self.assertEqual(text.count("<a "), 100_000)
            last = (len(word.encode("utf-16-le")) // 2) * 99_999 + (3 if len(word) == 3 else 1)
            self.assertIn(f'"?at=1.{last}"', text)

    def test_colours_of_long_texts(self) -> None:
        """A long line has none, and a long text has those of its beginning."""
        needs("pygments", "python3-pygments")
        lexer: Any = colours.lexer_of("a.rs")
        for text, most, known in (
            ("fn a() {}" * 120_000 + "\nfn a() {}\n", 50, [False, True, False]),
            ("fn a() {}\n" * 5_000, 10_000, [True] * 1000),
        ):
            read = 0

            def parts(text: str) -> Iterator[Any]:
                nonlocal read
                for part in lexer.get_tokens(text):
                    read += 1
                    yield part

            counting = mock.Mock(get_tokens=parts)
            with mock.patch.object(colours, "MOST_PARTS", 10_000):
                found = list(colours.coloured(counting, text))
            self.assertEqual([bool(line) for line in found[:1000]], known)
            self.assertLessEqual(read, most)

    def test_texts_that_have_nothing_alike(self) -> None:
        for old, new in ((["a"] * 49_000, ["b"] * 49_000), ([""] * 49_000, ["", "x"] * 24_500)):
            self.assertTrue(changes(old, new))


if __name__ == "__main__":
    unittest.main()
