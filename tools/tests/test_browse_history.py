"""Tests of the pages of `browse` over git: commits of a file, the commit of each line, what differs
between revisions, searches in texts, what isn't listed, and that nothing of a repository is written
or run."""

import contextlib
import json
import os
import shutil
import stat
import threading
import unittest
from html.parser import HTMLParser
from typing import Any
from unittest import mock
from urllib.parse import urlencode

from codenav.browse import folder, history, searched, turns
from codenav.browse.answers import Browser
from codenav.browse.changes import aligned, changes
from codenav.browse.folder import Folder
from codenav.asking.outlines import ends_of
from codenav.faults import BadCall
from codenav.settings.found import Settings
from codenav.texts import revisions
from codenav.texts.git import git
from codenav.texts.moved.matching import ShortestEdit
from tests.randomly import check_cases
from tests.repository import InRepository
from tests.test_browse import PLACE, Served

RUNS = "touch {}/ran; cat"
HOSTILE = """
[core]
\tfsmonitor = {0}
\tpager = {0}
[log]
\tshowSignature = true
[gpg]
\tprogram = {0}
[diff]
\texternal = {0}
\torderFile = /none
[diff "own"]
\ttextconv = {0}
\tcommand = {0}
[color]
\tui = always
[grep]
\tpatternType = perl
"""


class Words(HTMLParser):
    """The texts of a page, as a browser reads them, and the addresses of its links."""

    def __init__(self, body: str) -> None:
        super().__init__()
        self.texts: list[str] = []
        self.links: list[str] = []
        self.tags: set[str] = set()
        self.attributes: set[str] = set()
        self.feed(body)

    def handle_starttag(self, tag: str, attrs: list[tuple[str, Any]]) -> None:
        self.tags.add(tag)
        self.attributes |= {name for name, _ in attrs}
        self.links += [value for name, value in attrs if name == "href" and tag == "a"]

    def handle_data(self, data: str) -> None:
        self.texts.append(data)

    def text(self) -> str:
        """All texts, with single blanks."""
        return " ".join(" ".join(self.texts).split())


class OfHistory(Served, InRepository):
    def setUp(self) -> None:
        super().setUp()
        self.write("a.rs", "fn one() {}\nfn two() {}\n")
        self.first = self.commit()
        self.write("a.rs", "fn one() {}\nfn two() { one() }\n")
        self.second = self.commit_as("Has two <call> & one")
        self.git("mv", "a.rs", "b.rs")
        self.third = self.commit_as("renamed \u202e and \x1b[31m")
        self.write("b.rs", "// new\nfn one() {}\nfn two() { one() }\n")
        self.serve(Settings("http://127.0.0.1:1", "app", self.top, revisions=(self.first,)))
        self.addCleanup(self.stop)

    def commit_as(self, message: str) -> str:
        """Commits all files with a message, and answers the commit."""
        self.git("add", "-A")
        self.git("commit", "-qm", message)
        return self.git("rev-parse", "HEAD")

    def page(self, path: str, status: int = 200) -> str:
        """A page."""
        found, body, _ = self.got(path)
        self.assertEqual(found, status, body)
        return body

    def test_commits_of_a_file(self) -> None:
        """Also those under the name that it had before."""
        page = Words(self.page("/history/b.rs"))
        text = page.text()
        order = [text.index(one[:10]) for one in (self.third, self.second, self.first)]
        self.assertEqual(order, sorted(order))
        self.assertIn("Has two <call> & one", text)
        self.assertIn("renamed \ufffd and", text)
        for link in (
            f"/files/a.rs?revision={self.second}",
            f"/compare/a.rs?from={self.second}%5E&to={self.second}",
            f"/compare/b.rs?old=a.rs&from={self.third}%5E&to={self.third}",
        ):
            self.assertIn(link, page.links)
        for link in page.links:
            if link.startswith(("/compare", "/files")):
                self.assertEqual(self.got(link)[0], 200, link)

    def test_what_is_no_file_has_no_past(self) -> None:
        self.write("src/a.rs", "fn one() {}\n")
        self.write("src/b.rs", "fn one() {}\n")
        self.write("turned/a.rs", "fn turned() {}\n")
        self.write("turned/b.rs", "fn one() {}\n")
        folders = self.commit()
        shutil.rmtree(os.path.join(self.top, "turned"))
        self.write("turned", "fn now() {}\n")
        last = self.commit()
        os.symlink("src", os.path.join(self.top, "link"))
        for page in "history", "blame", "compare":
            for name in "", "src", "src/", "link":
                self.assertIn("403: not a file", self.page(f"/{page}/{name}", 403))
            self.assertIn("not a file", self.page(f"/{page}/?revision={last}", 403))
        for name in "src", "turned":
            self.assertIn("not a file", self.page(f"/history/{name}?revision={folders}", 403))
        for query in "", f"?revision={last}":
            text = Words(self.page(f"/history/turned{query}")).text()
            self.assertIn(last[:10], text)
            self.assertIn(folders[:10], text)

    def test_pages_of_commits(self) -> None:
        for number in range(70):
            self.write("many.rs", f"{number}\n")
            self.commit_as(f"change {number}.")
        first, rest = self.page("/history/many.rs"), self.page("/history/many.rs?skip=50")
        self.assertEqual((first.count(">change "), rest.count(">change ")), (50, 20))
        self.assertIn('href="/history/many.rs?skip=50">Earlier<', first)
        self.assertIn('href="/history/many.rs?skip=0">Later<', rest)
        self.assertNotIn(">Earlier<", rest)
        self.assertNotIn(">Later<", first)
        self.page("/history/many.rs?skip=x", 400)

    def test_the_commit_of_each_line(self) -> None:
        """Also of lines that moved in the text of today; as git says it of the revision."""
        body = self.page("/blame/b.rs")
        runs = [Words(part).text() for part in body.split('<div class="run">')[1:]]
        self.assertEqual(
            [run.split(" ")[0] for run in runs], ["not", self.first[:10], self.second[:10]]
        )
        self.assertTrue(runs[1].endswith("2 fn one () {}"), runs[1])
        self.assertIn('<a href="/files/b.rs?at=2.4">one</a>', body)
        old = self.page(f"/blame/a.rs?revision={self.second}")
        self.assertIn(f'<a href="/files/a.rs?revision={self.second}&amp;at=2.12">one</a>', old)
        self.page("/blame/none.rs", 404)

    def test_git_that_says_of_no_line_whose_it_is(self) -> None:
        """The page says that the file isn't there where that's so, and else what git says."""
        self.write("new.rs", "fn one() {}\n")
        self.assertIn(f"404: new.rs: not in {self.third[:12]}", self.page("/blame/new.rs", 404))
        self.assertIn("no commit has this file", self.page("/history/new.rs"))
        self.assertNotIn("no commit has this file", self.page("/history/b.rs"))
        self.git("config", "blame.ignoreRevsFile", "nosuchfile")
        body = self.page("/blame/b.rs", 500)
        self.assertRegex(body, "b.rs: fatal: .*nosuchfile")
        self.git("config", "--unset", "blame.ignoreRevsFile")
        self.assertIn(self.first[:10], self.page("/blame/b.rs"))
        blob = self.git("rev-parse", f"{self.second}:a.rs")
        os.unlink(os.path.join(self.top, ".git/objects", blob[:2], blob[2:]))
        self.assertRegex(self.page("/blame/b.rs", 500), "b.rs: .*fatal")

    def test_what_differs(self) -> None:
        """In the words of both sides, which lead on in the text that they are of."""
        cases: list[tuple[str, str, list[str]]] = [
            (
                f"old=a.rs&from={self.first}",
                "2 lines added, 1 line removed",
                [f"/files/a.rs?revision={self.first}&at=2.4", "/files/b.rs?at=3.12"],
            ),
            (f"from={self.third}", "1 line added, 0 lines removed", ["/files/b.rs?at=1.4"]),
            (f"from={self.third}&to={self.third}", "0 lines added, 0 lines removed", []),
            (f"from={self.first}", "3 lines added", []),
            ("", "1 line added", ["/files/b.rs?at=1.4"]),
        ]
        for query, said, links in cases:
            with self.subTest(query):
                page = Words(self.page(f"/compare/b.rs?{query}"))
                self.assertIn(said, page.text())
                self.assertLessEqual(set(links), set(page.links))
        root = Words(self.page(f"/compare/a.rs?from={self.first}%5E&to={self.first}")).text()
        self.assertIn("2 lines added", root)
        self.page("/compare/b.rs?from=none", 404)
        self.page("/compare/none.rs", 404)

    def test_of_which_revision_a_page_is(self) -> None:
        """What differs is shown on a page of the later one, and other pages know none of the two."""
        for path, revision in (
            (f"/compare/a.rs?from={self.first}&to={self.second}", self.second),
            (f"/compare/a.rs?from={self.first}&revision={self.second}", self.second),
            (f"/compare/b.rs?from={self.third}", ""),
            (f"/files/b.rs?from={self.first}&to={self.second}", ""),
            (f"/blame/a.rs?to={self.first}&revision={self.second}", self.second),
        ):
            name = path[path.index("/", 1) + 1 : path.index("?")]
            of = f"?revision={revision}" if revision else ""
            views = self.page(path).partition('<nav id="views"')[2].partition("</nav>")[0]
            self.assertEqual(
                Words(views).links,
                [f"/{page}/{name}{of}" for page in ("files", "blame", "history", "compare")],
                path,
            )

    def test_what_a_revision_has(self) -> None:
        """That it doesn't have a file is said of no other fault: a revision that comes later, a
        shallow clone and a partial one, a name with a line feed, and what is no text."""
        none = "have it"
        with mock.patch.object(revisions, "FRESH", 1e9):
            self.page("/compare/b.rs?from=zz&to=HEAD", 404)
            self.page("/files/b.rs?revision=zz", 404)
            self.git("branch", "zz")
            text = Words(self.page("/compare/b.rs?from=zz&to=HEAD")).text()
            self.page("/files/b.rs?revision=zz")
        self.assertIn("0 lines added, 0 lines removed", text)
        self.write("n\nl.rs", "fn one() {}\n")
        self.write("end\r", "fn one() {}\n")
        with open(os.path.join(self.top, "bin"), "wb") as file:
            file.write(b"\xff\0")
        self.commit()
        for name in "n%0Al.rs", "end%0D":
            text = Words(self.page(f"/compare/{name}")).text()
            self.assertIn("0 lines added, 0 lines removed", text)
            for link in Words(self.page(f"/history/{name}")).links:
                if link.startswith(("/compare/", f"/files/{name}?")):
                    self.page(link)
            self.page(f"/files/{name}?revision=HEAD")
        os.unlink(os.path.join(self.top, "bin"))
        self.assertIn("bin: not a text in HEAD", self.page("/compare/bin", 404))
        text = Words(self.page("/compare/b.rs?from=HEAD%5E&to=HEAD")).text()
        self.assertNotIn(none, text)

    def test_what_a_clone_does_not_have(self) -> None:
        self.git("add", "-A")
        self.git("commit", "-qm", "last")
        self.git("config", "uploadpack.allowFilter", "true")
        for name, words, said in (
            ("shallow", ("--depth", "1"), "a shallow clone without"),
            ("partial", ("--filter=blob:none",), "in a partial clone"),
        ):
            clone = os.path.join(self.home, name)
            self.git("clone", "-q", *words, f"file://{self.home}/work", clone)
            self.stop()
            self.top = clone
            self.serve(Settings("http://127.0.0.1:1", "app", clone))
            links = Words(self.page("/history/b.rs")).links if name == "shallow" else []
            links.append("/compare/b.rs?from=HEAD%5E&to=HEAD")
            for link in links:
                if link.startswith("/compare") and "from=" in link:
                    self.assertIn(said, self.page(link, 404))

    def test_a_word_of_an_old_text_leads_on(self) -> None:
        """A word that the page of what differs has, by the link there."""
        place = {**PLACE, "uri": f"file://{self.top}/a.rs", "start": {"line": 0, "character": 3}}
        link = f"/files/a.rs?revision={self.second}&at=1.4"
        page = Words(self.page(f"/compare/a.rs?from={self.first}&to={self.second}"))
        self.assertIn(link, page.links)
        with self.replies({"places": [place]}):
            status, _, headers = self.got(link)
        self.assertEqual(
            (status, headers["Location"]), (303, f"/files/a.rs?revision={self.second}#L1C4")
        )

    def test_texts_that_are_found(self) -> None:
        self.write("sub/c.txt", "One two\none.two\nso\u00df one\n")
        self.write("sub/bin", "one\0\n")
        self.write(".secret", "one\n")
        self.write("long.txt", "x" * 100_000 + " one " + "y" * 100_000 + "\n")
        self.write(".gitignore", "out/\n")
        self.write("out/made.rs", "one\n")
        cases: list[tuple[dict[str, str], list[str]]] = [
            ({"text": "one.two"}, ["sub/c.txt:2:1"]),
            ({"text": "one.two", "regex": "1"}, ["sub/c.txt:1:1", "sub/c.txt:2:1"]),
            ({"text": "One", "case": "1"}, ["sub/c.txt:1:1"]),
            ({"text": "one", "path": "C.T"}, ["sub/c.txt:1:1", "sub/c.txt:2:1", "sub/c.txt:3:5"]),
            ({"text": "one", "path": "b.rs"}, ["b.rs:2:4", "b.rs:3:12"]),
            ({"text": "one", "path": "LONG"}, ["long.txt:1:100002"]),
            ({"text": "-e"}, []),
            ({"text": "one", "path": "*"}, []),
            ({"text": "two", "revision": self.first}, ["a.rs:2:4"]),
            ({"text": "two", "revision": "none"}, []),
        ]
        for query, lines in cases:
            with self.subTest(query):
                body = self.page(f"/search?{urlencode(query)}")
                texts = body.partition("<h3>Texts")[2]
                of = f"?revision={query['revision']}" if "revision" in query else ""
                found = [link for link in Words(texts.partition("</main>")[0]).links]
                wanted = [
                    f"/files/{n}{of}#L{l}C{c}" for n, l, c in (one.split(":") for one in lines)
                ]
                self.assertEqual(found, wanted)
        for asked, links in ("c.t", ["/files/sub/c.txt"]), ("rs&regex=1", []), ("zz", []):
            with self.replies({"tags": []}):
                page = self.page(f"/search?text={asked}")
            files = page.partition("<h3>Files")[2].partition("</ul>")[0]
            self.assertEqual(Words(files).links, links)
        self.assertIn("not a regular expression", self.page("/search?text=(&regex=1"))
        self.assertNotIn("<h3>Texts", self.page("/search"))
        with mock.patch.object(searched, "MOST_FOUND", 2):
            self.assertIn("the first 2 lines", self.page("/search?text=one"))

    def test_the_texts_of_all_files_that_are_listed(self) -> None:
        """Of those that `.gitignore` names too, where git has them, and of checkouts inside; in a
        folder of a checkout, in one that git leaves out, and in one that is no checkout."""
        for top in self.top, os.path.join(self.top, "nested"), os.path.join(self.home, "no/in"):
            os.makedirs(top, exist_ok=True)
            self.git("init", "-q", top=top)
            self.write(".gitignore", "*.ign\nout/\nmade/\n", top=top)
            for name in "sub/y.ign", "out/deep/a.c", "plain.c":
                self.write(name, "sought\n", top=top)
            self.git("add", "-f", ".", top=top)
            self.git("commit", "-qm", "x", top=top)
            for name in "sub/z.ign", "out/deep/b.c", "made/b.c", "made/c.ign", "new.c":
                self.write(name, "sought\n", top=top)
        self.write("c.c", "sought\n", top=os.path.join(self.home, "no"))
        for name, count in (
            ("work", 8),
            ("work/sub", 1),
            ("work/out", 1),
            ("work/made", 2),
            ("no", 5),
            ("no/in", 4),
        ):
            shown = Folder(os.path.join(self.home, name))
            wanted = []
            for own in shown.files():
                with open(os.path.join(shown.top, own), encoding="utf-8") as file:
                    wanted += [own] * ("sought" in file.read())
            for is_regex, text in (False, "sought"), (True, "sough[t]"):
                with self.subTest(name, is_regex=is_regex):
                    query = searched.Wanted(text, is_regex=is_regex)
                    found = Browser(shown, Settings("", "app", shown.top)).texts(query, "")
                    self.assertEqual(sorted(one.file for one in found.rows), sorted(wanted))
                    self.assertEqual(len(wanted), count)

    def test_texts_that_are_not_searched(self) -> None:
        """The page says why it has nothing."""
        line = "Texts are searched by one line, without U+0000."
        name = "Names are searched by UTF-8, without U+0000."
        for query, said in (
            ("text=one%0Atwo", [line]),
            ("text=one%0A", [line]),
            ("text=%00", [name, line]),
            ("text=%00&regex=1", [line]),
            ("text=one&path=%00", [line]),
            ("text=%FF", [name]),
        ):
            with self.subTest(query):
                text = Words(self.page(f"/search?{query}")).text()
                self.assertEqual([one for one in (name, line) if one in text], said)
                self.assertNotIn("bad parameter", text)
        for name, body in ("wide.txt", "\ufeffsought".encode("utf-16-le")), ("nul", b"sought\0"):
            with open(os.path.join(self.top, name), "wb") as file:
                file.write(body)
            page = Words(self.page("/search?text=sought"))
            self.assertNotIn(f"/files/{name}#L1C1", page.links)
            self.assertIn(
                "Binary files, UTF-16 and files with U+0000 aren't searched.", page.text()
            )

    def test_a_search_in_a_revision_that_is_not_there(self) -> None:
        """The page says so, as the others do; of many repositories where none has it."""
        inner = os.path.join(self.top, "inner")
        os.mkdir(inner)
        self.git("init", "-q", top=inner)
        self.write("a.rs", "two\n", top=inner)
        self.commit(top=inner)
        self.git("branch", "own", top=inner)
        for revision in "nosuch", "-Ofoo", "HEAD^{tree}", self.first[:-1] + "g":
            query = urlencode({"text": "two", "revision": revision})
            text = Words(self.page(f"/search?{query}")).text()
            self.assertIn(f"git knows no revision {revision}", text)
            self.assertNotIn("0 lines", text)
        page = Words(self.page("/search?text=two&revision=own"))
        self.assertIn("/files/inner/a.rs?revision=own#L1C1", page.links)
        self.assertNotIn("git knows no", page.text())

    def test_a_search_that_takes_too_long(self) -> None:
        forever = ("sh", "-c", "exec sleep 100000")
        with mock.patch.object(searched, "SECONDS", 0.1):
            with mock.patch.object(searched, "CALL", forever):
                self.assertIn("what was found in 0.1 seconds", self.page("/search?text=one"))

    def test_what_a_search_can_not_read(self) -> None:
        """The page says how many files and folders that is."""
        path = self.write("closed/c.rs", "one\n")
        self.assertNotIn("be read", self.page("/search?text=one"))
        if os.geteuid():
            for name, said in (path, "1 path"), (os.path.dirname(path), "1 path"):
                os.chmod(name, 0)
                try:
                    text = Words(self.page("/search?text=one")).text()
                finally:
                    os.chmod(name, 0o700)
                self.assertIn(f"; {said} can't be read", text)
        script = r"printf 'error: \047a\047: Permission denied\nerror: \047b\047: x\n' >&2"
        with mock.patch.object(searched, "CALL", ("sh", "-c", script)):
            text = Words(self.page("/search?text=one")).text()
        self.assertIn("0 lines in 0 files; 2 paths can't be read", text)
        with mock.patch.object(searched, "git", mock.Mock(side_effect=BadCall("no answer"))):
            page = self.page("/search?text=one")
        self.assertIn('role="alert">no answer<', page)
        with mock.patch.object(searched, "CALL", ("sh", "-c", "echo fatal: some fault >&2")):
            text = Words(self.page("/search?text=one")).text()
        self.assertIn("git can't search: some fault", text)

    def test_who_asks_for_what_takes_long(self) -> None:
        """Others go on meanwhile: pages of the same files while git blames, and searches for texts
        while as many regular expressions as may be are searched for; one more is told to wait."""
        blaming, go_on = threading.Event(), threading.Event()

        def waiting(*words: Any, **named: Any) -> Any:
            if "blame" in words:
                blaming.set()
                go_on.wait(600)
            return git(*words, **named)

        statuses: list[int] = []
        with mock.patch.object(history, "git", waiting):
            reader = threading.Thread(target=lambda: statuses.append(self.got("/blame/b.rs")[0]))
            reader.start()
            try:
                self.assertTrue(blaming.wait(600))
                self.page("/files/b.rs")
            finally:
                go_on.set()
                reader.join()
        self.assertEqual(statuses, [200])
        with contextlib.ExitStack() as others:
            others.enter_context(mock.patch.object(turns, "SECONDS", 0.0))
            for _ in range(2):
                others.enter_context(searched.AT_ONCE[True].turn())
            self.assertIn("try again", self.page("/search?text=one&regex=1"))
            self.assertIn("/files/b.rs#L2C4", Words(self.page("/search?text=one")).links)
        self.assertIn("/files/b.rs#L2C4", Words(self.page("/search?text=one&regex=1")).links)
        with contextlib.ExitStack() as others:
            others.enter_context(mock.patch.object(turns, "SECONDS", 0.0))
            for _ in range(4):
                others.enter_context(history.AT_ONCE.turn())
            self.assertIn("try again", self.page("/blame/b.rs", 503))
        with mock.patch.object(folder, "MOST_BYTES", 10), mock.patch.object(history, "git") as run:
            self.page("/blame/b.rs", 403)
            self.assertFalse(run.called)

    def test_texts_that_are_no_utf8(self) -> None:
        """And the character U+0000, in each field of an address."""
        for path, status in (
            ("/search?text=%FF", 200),
            ("/search?text=one&path=%FF", 200),
            ("/search?text=one&revision=%FF", 200),
            ("/search?text=one&revision=%00", 200),
            ("/files/b.rs?revision=%FF", 404),
            ("/history/b.rs?revision=%00", 404),
            ("/blame/b.rs?revision=%FF", 404),
            ("/compare/b.rs?from=%FF", 404),
            ("/compare/b.rs?from=%00", 404),
            ("/compare/b.rs?to=%00", 404),
            ("/compare/b.rs?old=%00", 403),
            ("/files/%FF", 404),
            ("/history/%00", 403),
        ):
            self.assertEqual(self.got(path)[0], status, path)

    def test_files_that_git_leaves_out(self) -> None:
        for name in ".gitignore", "target/made.rs", "sub/notes.log", "sub/kept.rs", "tracked.log":
            self.write(name, "x\n")
        self.git("add", "-f", "tracked.log")
        self.write(".gitignore", "target/\n*.log\n")
        for path, listed in (
            ("/", ["sub", "b.rs", "tracked.log"]),
            ("/files/sub", ["sub/kept.rs"]),
        ):
            body = self.page(path).partition("<main")[2]
            self.assertEqual(
                [
                    one
                    for one in Words(body).links
                    if one.startswith("/files/") and one != "/files/"
                ],
                [f"/files/{name}" for name in listed],
            )
        found = json.loads(self.page("/find?text="))["names"]
        self.assertEqual(
            sorted(row["name"] for row in found), ["b.rs", "sub/kept.rs", "tracked.log"]
        )

    def test_names_that_begin_with_a_dot(self) -> None:
        """None is served, by whatever name leads to it."""
        self.write(".env", "secret\n")
        for link, to in ("plain", ".git/config"), ("env", ".env"), ("folder", ".git"):
            os.symlink(to, os.path.join(self.top, link))
        for name in (
            ".git/config",
            ".env",
            "plain",
            "env",
            "folder/config",
            "%2egit/config",
            "folder",
        ):
            for page in "files", "blame", "history", "compare":
                self.assertEqual(self.got(f"/{page}/{name}")[0], 403, f"{page} {name}")

    def test_nothing_of_a_repository_is_written_or_run(self) -> None:
        script = self.write("../run", f"#!/bin/sh\n{RUNS.format(self.home)}\n")
        os.chmod(script, 0o755)
        with open(os.path.join(self.top, ".git/config"), "a", encoding="utf-8") as file:
            file.write(HOSTILE.format(script))
        for name in os.listdir(os.path.join(self.top, ".git/hooks")):
            os.unlink(os.path.join(self.top, ".git/hooks", name))
        for name in "post-index-change", "post-checkout", "reference-transaction":
            shutil.copy(script, os.path.join(self.top, ".git/hooks", name))
        self.write(".gitattributes", "* diff=own\n")
        self.write("new.rs", "fn one() {}\n")
        before = snapshot(os.path.join(self.top, ".git"))
        place = {**PLACE, "uri": f"file://{self.top}/a.rs"}
        for path in (
            "/",
            "/files/b.rs",
            f"/files/a.rs?revision={self.first}",
            "/history/b.rs",
            "/blame/b.rs",
            "/compare/b.rs",
            f"/compare/b.rs?old=a.rs&from={self.first}&to={self.third}",
            "/search?text=one",
            f"/search?text=one&revision={self.first}",
            "/find?text=",
            "/address?path=b.rs&line=1&character=3",
            "/ask?what=hover&path=b.rs&line=1&character=3",
            f"/ask?what=references&path=a.rs&line=1&character=3&revision={self.first}",
        ):
            with self.replies({"places": [place], "contents": None}):
                self.assertEqual(self.got(path)[0], 200, path)
        self.assertEqual(snapshot(os.path.join(self.top, ".git")), before)
        self.assertFalse(os.path.exists(os.path.join(self.home, "ran")))


def snapshot(folder: str) -> dict[str, tuple[int, bytes]]:
    """When each file of a folder was written, and what it has; of a folder when it changed."""
    found = {}
    for at, _, names in os.walk(folder):
        for path in [at, *(os.path.join(at, name) for name in names)]:
            body = b""
            if stat.S_ISREG(os.lstat(path).st_mode):
                with open(path, "rb") as file:
                    body = file.read()
            found[path] = os.lstat(path).st_mtime_ns, body
    return found


class OfChanges(unittest.TestCase):
    def test_what_differs_is_what_git_says(self) -> None:
        """Each line once and in order, and none more than a shortest edit has, by random texts."""

        def check(old: list[str], new: list[str]) -> None:
            found = aligned(old, new)
            self.assertEqual([one.text for one in found if one.old], old)
            self.assertEqual([one.text for one in found if one.new], new)
            for side in "old", "new":
                numbers = [getattr(one, side) for one in found if getattr(one, side)]
                self.assertEqual(numbers, list(range(1, len(numbers) + 1)))
            least = len(ShortestEdit(10**6, 10**6).pairs(old, new))
            stayed = sum(1 for one in found if one.old and one.new)
            self.assertLessEqual(stayed, least)
            near = [one for one in changes(old, new) if not one.gap]
            self.assertLessEqual({one for one in found if not (one.old and one.new)}, set(near))
            gaps = sum(one.gap for one in changes(old, new))
            self.assertEqual(len(near) + gaps, len(found))

        def drawn(st: Any) -> dict[str, Any]:
            lines = st.lists(st.sampled_from(["a", "b", "c", "}", ""]), max_size=30)
            return {"old": lines, "new": lines}

        check_cases(self, 200, drawn, check)

    def test_many_lines(self) -> None:
        """As many as a text may have, in rising, falling and mixed order."""
        rising = [str(number) for number in range(49_000)]
        for new in rising[::-1], rising[::2], ["x"] * 49_000, rising[1::2] + rising[::2]:
            self.assertEqual(sum(1 for one in aligned(rising, new) if one.new), len(new))


class OfEnds(unittest.TestCase):
    def test_where_symbols_end(self) -> None:
        cases: list[tuple[str, list[int], list[int]]] = [
            ("fn a() {\n  x\n}\n\nfn b() {}\n", [0, 4], [2, 4]),
            ("int a()\n{\n  x;\n}\nint b;\n", [0, 4], [3, 4]),
            (
                "def a():\n  x\n\n\nclass B:\n  def c(\n    d,\n  ):\n    e\nf = 1\n",
                [0, 4, 5, 9],
                [1, 8, 8, 9],
            ),
            (
                "impl A\nwhere\n  B: C,\n{\n  fn d() {\n  }\n}\nfn e(\n) {\n  x\n}\n",
                [0, 4, 7],
                [6, 5, 10],
            ),
            ("fn a(\n  b: C,\n) -> D\nwhere\n  C: E,\n{\n  x\n}\nfn f(\n) -> D;\n", [0, 8], [7, 9]),
            ("mod a;\nstruct B;\n", [0, 1], [0, 1]),
            ("a\n", [0, 0], [0, 0]),
            ("a\n", [5], [5]),
            ("", [], []),
        ]
        for text, heads, ends in cases:
            with self.subTest(text):
                lines = text.split("\n")
                found = ends_of(lines, heads)
                self.assertEqual(found, ends)


if __name__ == "__main__":
    unittest.main()
