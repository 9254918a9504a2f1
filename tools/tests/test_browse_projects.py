"""Tests of `browse` for a team: many projects on one page, by checkouts and by repositories that are
listed, other names of the host, and many readers at once, of whom some are slow."""

import http.client
import io
import json
import os
import random
import shutil
import socket
import threading
import unittest
from contextlib import redirect_stderr
from typing import Any
from unittest import mock
from urllib.parse import urlencode

from codenav.browse import projects, start_page
from codenav.browse.answers import Browser
from codenav.browse.folder import Folder
from codenav.browse.projects import Listed, Repositories, checkouts_in, listed_in
from codenav.browse.server import Pages
from codenav.cli.browse import BROWSE, BrowseCall, browser_of
from codenav.client import fetch
from codenav.progress import Quiet
from codenav.settings.found import FILE, Settings
from tests.repository import InRepository
from tests.test_browse import PLACE, TAG, Served, by_prefix
from tests.test_browse_history import HOSTILE, Words, snapshot

READERS = 50


class OfProjects(Served, InRepository):
    def setUp(self) -> None:
        super().setUp()
        self.repositories = os.path.join(self.home, "git")
        self.add("tea", {"src/lib.rs": "fn pour() { boil() }\n", ".env": "x\n"})
        self.add(
            "kettle", {"lib.py": "def boil():\n    to_pour()\n", ".codenav.toml": self.settings()}
        )
        lines = [
            f'server = "http://127.0.0.1:1"\n[projects]\ntea = "{self.repositories}/tea.git"\n'
        ]
        self.path = self.write(FILE, f'{lines[0]}kettle = "../git/kettle.git#main"\n')
        self.made = Repositories(listed_in(self.path), Quiet())
        self.addCleanup(self.made.end)
        self.show(self.made.browser("", False))

    def show(self, browser: Browser, *hosts: str) -> None:
        """Serves what a browser shows up to the end of the test."""
        self.pages = Pages(browser, 0, hosts)
        self.port = self.pages.server_address[1]
        serve = self.pages.serve_forever
        self.thread = threading.Thread(target=serve, kwargs={"poll_interval": 0.01})
        self.thread.start()
        self.addCleanup(self.stop)

    def settings(self) -> str:
        """Settings of a repository that would have others be asked and read."""
        return (
            'server = "http://evil.example"\nproject = "kettle"\n[map]\n'
            '"file:///ci/kettle" = "."\n"file:///etc" = "/etc"\n[tags]\nevil = "/etc"\n'
        )

    def add(self, name: str, texts: dict[str, str]) -> None:
        """Makes a bare repository with a commit of some files."""
        work = os.path.join(self.home, "made", name)
        os.makedirs(work)
        self.git("init", "-q", "-b", "main", top=work)
        for file, text in texts.items():
            self.write(file, text, top=work)
        self.commit(top=work)
        where = os.path.join(self.repositories, f"{name}.git")
        self.git("clone", "-q", "--bare", work, where, top=self.home)

    def change(self, name: str, file: str, text: str) -> str:
        """Commits a change and pushes it, and answers the commit."""
        work = os.path.join(self.home, "made", name)
        self.write(file, text, top=work)
        commit = self.commit(top=work)
        where = os.path.join(self.repositories, f"{name}.git")
        self.git("push", "-q", where, "main", top=work)
        return commit

    def page(self, path: str, status: int = 200) -> str:
        """A page."""
        found, body, _ = self.got(path)
        self.assertEqual(found, status, body)
        return body

    def test_the_start_page(self) -> None:
        for path in "/", "/files/":
            page = Words(self.page(path))
            self.assertIn("2 projects", page.text())
            for name, language in ("tea", "Rust"), ("kettle", "Python"):
                commit = self.git("rev-parse", "main", top=f"{self.repositories}/{name}.git")
                self.assertRegex(page.text(), f"{name} main {commit[:10]} [0-9-]+ {language} 1")
                self.assertIn(f"/files/{name}", page.links)

    def test_odd_commits_on_the_start_page(self) -> None:
        """A commit without its fields, and what git writes in other letters: a row each, and the
        others are shown."""
        odd = os.path.join(self.home, "made", "odd")
        os.makedirs(odd)
        self.git("init", "-q", "-b", "main", top=odd)
        self.write("a.rs", "fn a() {}\n", top=odd)
        first = self.commit(top=odd)
        tree = self.git("write-tree", top=odd)
        for text in (
            f"tree {tree}\nparent {first}\n\nnoauthor",
            f"tree {tree}\nauthor a <a@a> x +0\ncommitter a <a@a> x +0\n\nx",
            f"tree {tree}\nauthor a <a@a> 1 +0\ncommitter a <a@a> 99999999999999999999 +0\n\nx",
            "",
        ):
            if text:
                path = self.write("commit", text, top=self.home)
                words = ("hash-object", "-t", "commit", "-w", "--literally", path)
                commit = self.git(*words, top=odd)
                self.git("update-ref", "refs/heads/main", commit, top=odd)
            else:
                commit = first
                self.git("update-ref", "refs/heads/main", first, top=odd)
                self.git("config", "i18n.logOutputEncoding", "UTF-16", top=odd)
            repositories = Repositories(
                [*self.made.listed.values(), Listed("odd", odd, "HEAD", "http://127.0.0.1:1")],
                Quiet(),
            )
            self.addCleanup(repositories.end)
            for browser in repositories.browser("", False), of_folder(odd):
                self.stop()
                self.show(browser)
                text = Words(self.page("/")).text()
                self.assertIn(commit[:10], text)
                for page in "history", "blame":
                    name = "odd/a.rs" if browser.projects else "a.rs"
                    self.assertLess(self.got(f"/{page}/{name}")[0], 500)
            self.assertIn("1 project", text)

    def test_files_of_projects(self) -> None:
        self.assertIn(">pour<", self.page("/files/tea/src/lib.rs"))
        self.assertIn("boil():", Words(self.page("/files/kettle/lib.py")).text().replace(" ", ""))
        found = json.loads(self.page("/find?text=lib"))["names"]
        self.assertEqual({row["name"] for row in found}, {"tea/src/lib.rs", "kettle/lib.py"})
        links = Words(self.page("/search?text=boil").partition("<h3>Texts")[2]).links
        self.assertEqual(set(links), {"/files/tea/src/lib.rs#L1C13", "/files/kettle/lib.py#L1C5"})
        for name in "tea/.env", "tea/.git/config", "kettle/.codenav.toml", "../secret":
            self.page(f"/files/{name}", 403)
        self.page("/history/tea/src/lib.rs")
        self.page("/blame/kettle/lib.py")
        self.assertIn('href="/files/tea?revision=main"', self.page("/files/tea?revision=main"))

    def test_a_definition_in_another_project(self) -> None:
        place = {
            **PLACE,
            "project": "kettle",
            "start": {"line": 0, "character": 4},
            "end": {"line": 0, "character": 8},
        }
        asked: list[str] = []
        for uri in f"file://{self.made.top}/kettle/lib.py", "file:///ci/kettle/lib.py":
            path = "/ask?what=definition&path=tea/src/lib.rs&line=0&character=12"
            with self.replies({"places": [{**place, "uri": uri}]}) as asked:
                _, body, _ = self.got(path)
                found = json.loads(body)["places"]
            own = None if uri.startswith("file:///ci/") else "/files/kettle/lib.py#L1C5"
            self.assertEqual([row["href"] for row in found], [own])
        self.assertTrue(all(one.startswith("http://127.0.0.1:1/") for one in asked))

    def test_links_at_words(self) -> None:
        """Without the script too they ask for the file's own project, as it is now."""
        place = {
            **PLACE,
            "project": "kettle",
            "uri": "file:///ci/kettle/lib.py",
            "start": {"line": 0, "character": 4},
            "end": {"line": 0, "character": 8},
        }
        for path, project in ("tea/src/lib.rs", "tea"), ("kettle/lib.py", "kettle"):
            links = [link for link in Words(self.page(f"/files/{path}")).links if "at=" in link]
            self.assertTrue(links)
            for link in links:
                with self.replies({"places": [place]}) as asked:
                    status, body, headers = self.got(f"/files/{path}{link}")
                self.assertEqual(status, 303, body)
                self.assertTrue(headers["Location"].startswith("/files/"))
                self.assertEqual(
                    {one.partition("/projects/")[2].split("/")[0] for one in asked}, {project}
                )
            if project == "kettle":
                self.assertEqual(headers["Location"], "/files/kettle/lib.py#L1C5")
        link = "/files/kettle/lib.py?at=2.5"
        with open(os.path.join(self.made.top, "kettle/lib.py"), "a", encoding="utf-8") as file:
            file.write("\n" * 50 + "def more():\n")
        end = {"start": {"line": 52, "character": 4}, "end": {"line": 52, "character": 8}}
        with self.replies({"places": [{**place, **end}]}):
            self.assertEqual(self.got(link)[2]["Location"], "/files/kettle/lib.py#L53C5")

    def test_what_a_repository_says_of_itself(self) -> None:
        """Its folders below it count; neither its server nor others do."""
        known = self.made.settings_of(self.made.listed["kettle"])
        own = os.path.join(self.made.top, "kettle")
        self.assertEqual((known.server, known.project), ("http://127.0.0.1:1", "kettle"))
        self.assertEqual((known.maps, known.tags), ([("file:///ci/kettle", own)], {}))
        path = "/ask?what=hover&path=kettle/lib.py&line=0&character=4"
        with self.replies({"contents": None}) as asked:
            self.assertEqual(self.got(path)[0], 200)
        self.assertTrue(all(one.startswith("http://127.0.0.1:1/") for one in asked), asked)

    def test_names_of_all_projects(self) -> None:
        tags = [
            {**TAG, "project": "tea", "name": "pour", "address": "1", "file": "src/lib.rs"},
            {**TAG, "project": "kettle", "name": "boil", "address": "1", "file": "lib.py"},
            {**TAG, "project": "kettle", "name": "to_pour", "address": "2", "file": "lib.py"},
        ]
        with mock.patch.object(fetch, "request", by_project(tags)):
            found = json.loads(self.page("/names?prefix=pour"))["names"]
        self.assertEqual([row["name"] for row in found], ["pour", "to_pour"])
        self.assertTrue(found[0]["href"].startswith("/files/tea/src/lib.rs#L1"))

    def test_only_paths_with_a_text(self) -> None:
        """They count for names, files and texts alike, from the folder that is shown on."""
        tags = [
            {**TAG, "project": "tea", "name": "boil", "address": "1", "file": "src/lib.rs"},
            {**TAG, "project": "kettle", "name": "boil", "address": "1", "file": "lib.py"},
            {**TAG, "project": "kettle", "name": "boil", "address": "1", "file": "lib.py"},
        ]
        files = "tea/src/lib.rs", "kettle/lib.py"
        parts = ["tea", "TEA/SRC", "a/src/l", "nowhere", "tea/", "*", "lib", "/", "ttle/l"]
        drawn = random.Random(7)
        for file in files * 8:
            start = drawn.randrange(len(file))
            parts.append(file[start : drawn.randrange(start + 1, len(file) + 1)])
        for path in parts:
            wanted = sorted(file for file in files if path.lower() in file)
            with self.subTest(path), mock.patch.object(fetch, "request", by_project(tags)):
                query = urlencode({"text": "boil", "path": path})
                page = self.page(f"/search?{query}").partition("<h3>Names")[2]
                page = page.partition("</main>")[0]
                texts = [link.partition("#")[0] for link in Words(page).links]
                wanted_twice = [f"/files/{name}" for name in wanted for _ in range(2)]
                self.assertEqual(sorted(texts), sorted(wanted_twice))
                query = urlencode({"text": "lib", "path": path})
                page = self.page(f"/search?{query}").partition("<h3>Files")[2]
                links = Words(page.partition("<h3>Texts")[0]).links
                self.assertEqual(sorted(links), sorted(f"/files/{name}" for name in wanted))

    def test_a_tag_of_a_link(self) -> None:
        """The place is listed once."""
        os.symlink("lib.py", os.path.join(self.made.top, "kettle/again.py"))
        tags = [
            {**TAG, "project": "kettle", "name": "boil", "address": "1", "file": name}
            for name in ("again.py", "lib.py")
        ]
        with mock.patch.object(fetch, "request", by_project(tags)):
            found = json.loads(self.page("/names?prefix=boil"))
        self.assertEqual([row["place"] for row in found["names"]], ["kettle/lib.py:1"])
        self.assertIn("1 name", found["said"])

    def test_a_revision_that_goes_on(self) -> None:
        commit = self.change("kettle", "lib.py", "def boil_more():\n    pass\n")
        with mock.patch.object(projects, "SECONDS", 0.0):
            self.assertIn("boil_more", self.page("/files/kettle/lib.py"))
        self.assertEqual(self.made.commits["kettle"], commit)
        shutil.rmtree(os.path.join(self.repositories, "kettle.git/refs"))
        with mock.patch.object(projects, "SECONDS", 0.0):
            self.page("/files/")

    def test_repositories_that_are_none(self) -> None:
        for text, said in (
            ('tea = "../none"', "../none"),
            ('tea = "../git/tea.git#none"', "git knows no revision none"),
            ('"../x" = "../git/tea.git"', "64 characters"),
            ("tea = 1", "the values of projects are texts"),
        ):
            with self.subTest(text):
                self.write(FILE, f'server = "http://127.0.0.1:1"\n[projects]\n{text}\n')
                with redirect_stderr(io.StringIO()) as warned:
                    self.assertEqual(BROWSE.main([self.top]), 2)
                self.assertIn(os.path.normpath(said).rpartition("/")[2], warned.getvalue())
                self.assertEqual(warned.getvalue().count("\n"), 1)

    def test_one_repository_that_is_not_shown(self) -> None:
        """The others are, and the first page says why it isn't, until it has what is asked for."""
        empty = os.path.join(self.home, "empty")
        for name in "empty", "plain":
            os.mkdir(os.path.join(self.home, name))
        self.git("init", "-q", "-b", "main", top=empty)
        with open(self.path, "a", encoding="utf-8") as file:
            file.write('empty = "../empty"\nplain = "../plain"\ngone = "../gone"\n')
            file.write('other = "../git/tea.git#none"\n')
        call = BrowseCall()
        call.words = [self.top]
        with redirect_stderr(io.StringIO()) as warned, browser_of(call) as browser:
            self.assertEqual(warned.getvalue().count("\n"), 4, warned.getvalue())
            self.stop()
            self.show(browser)
            text = Words(self.page("/")).text()
            for name, said in (
                ("empty", "no commit"),
                ("plain", "not a repository of git"),
                ("gone", "not a repository of git"),
                ("other", "git knows no revision none"),
            ):
                with self.subTest(name):
                    self.assertIn(f"{name} {said}", text)
                    self.assertIn(f"{self.home}/", warned.getvalue())
                    self.page(f"/files/{name}")
            self.assertNotIn(self.home, text)
            for path in "/files/tea/src/lib.rs", "/files/kettle/lib.py", "/search?text=boil":
                self.assertIn("boil", self.page(path))
            self.write("a.rs", "fn now() {}\n", top=empty)
            self.commit(top=empty)
            with mock.patch.object(projects, "SECONDS", 0.0):
                self.assertIn(">now<", self.page("/files/empty/a.rs"))

    def test_a_repository_that_is_gone(self) -> None:
        """Its files stay, and the first page says why it isn't followed, until it's there again."""
        where = os.path.join(self.repositories, "tea.git")
        os.rename(where, f"{where}.away")
        with mock.patch.object(projects, "SECONDS", 0.0), mock.patch.object(
            start_page, "SECONDS", 0.0
        ):
            page = Words(self.page("/"))
            self.assertIn("tea not a repository of git", page.text())
            self.assertIn("/files/tea", page.links)
            self.assertIn(">pour<", self.page("/files/tea/src/lib.rs"))
            self.page("/history/tea/src/lib.rs", 404)
            os.rename(f"{where}.away", where)
            self.assertRegex(Words(self.page("/")).text(), "tea main [0-9a-f]{10} ")
            self.page("/history/tea/src/lib.rs")

    def test_repositories_are_only_read(self) -> None:
        """Nothing of them changes, and nothing that they name is run, whatever they have."""
        where = os.path.join(self.repositories, "tea.git")
        script = self.write("../run", f"#!/bin/sh\ntouch {self.home}/ran; cat\n")
        os.chmod(script, 0o755)
        filters = f'[filter "own"]\n\tsmudge = {script}\n\tclean = {script}\n'
        with open(os.path.join(where, "config"), "a", encoding="utf-8") as file:
            file.write(HOSTILE.format(script) + filters)
        for name in "post-checkout", "post-index-change", "reference-transaction":
            shutil.copy(script, os.path.join(where, "hooks", name))
        self.change("tea", ".gitattributes", "* diff=own filter=own\n")
        self.change("tea", "src/lib.rs", "fn pour() { boil(2) }\n")
        if os.path.exists(os.path.join(self.home, "ran")):
            os.unlink(os.path.join(self.home, "ran"))
        before = snapshot(where)
        with mock.patch.object(projects, "SECONDS", 0.0):
            for path in (
                "/",
                "/files/tea/src/lib.rs",
                "/files/tea/src/lib.rs?revision=main",
                "/history/tea/src/lib.rs",
                "/blame/tea/src/lib.rs",
                "/search?text=boil",
                "/compare/tea/src/lib.rs?from=main%5E",
            ):
                with self.replies({"places": []}):
                    self.page(path)
        self.assertEqual(snapshot(where), before)
        self.assertFalse(os.path.exists(os.path.join(self.home, "ran")))

    def test_links_that_lead_out_of_a_project(self) -> None:
        """Those of a project show nothing of another one, whether listed or checked out."""
        work = os.path.join(self.home, "made", "tea")
        for name, target in (
            ("parent", ".."),
            ("folder", "../kettle"),
            ("file.py", "../kettle/lib.py"),
            ("whole.py", "../../made/kettle/lib.py"),
            ("own.rs", "src/lib.rs"),
            ("src/own", "../src"),
        ):
            os.symlink(target, os.path.join(work, name))
        self.change("tea", "more.rs", "fn more() {}\n")
        for name in "tea", "kettle":
            text = f'server = "http://127.0.0.1:1"\nproject = "{name}"\n'
            self.write(FILE, text, top=os.path.join(self.home, "made", name))
        for top in self.top, os.path.join(self.home, "made"):
            call = BrowseCall()
            call.words = [top]
            with self.subTest(top), browser_of(call) as browser:
                self.stop()
                self.show(browser)
                for path, status in (
                    ("parent", 403),
                    ("parent/kettle/lib.py", 403),
                    ("folder", 403),
                    ("folder/lib.py", 403),
                    ("file.py", 403),
                    ("whole.py", 403),
                    ("own.rs", 200),
                    ("src/own/lib.rs", 200),
                    ("src/lib.rs", 200),
                ):
                    self.page(f"/files/tea/{path}", status)
                listed = Words(self.page("/files/tea")).links
                for name in "parent", "folder", "file.py", "whole.py":
                    self.assertNotIn(f"/files/tea/{name}", listed)
                self.assertIn("/files/tea/own.rs", listed)
                found = json.loads(self.page("/find?text=py"))["names"]
                self.assertEqual([row["name"] for row in found], ["kettle/lib.py"])
                self.page("/files/kettle/lib.py")

    def test_checkouts_of_a_folder(self) -> None:
        """They're shown as they are, with what isn't committed."""
        made = os.path.join(self.home, "made")
        text = 'server = "http://127.0.0.1:1"\nproject = "{}"\n'
        for name in "tea", "kettle":
            self.write(FILE, text.format(name), top=os.path.join(made, name))
        self.write("new.py", "x = 1\n", top=os.path.join(made, "kettle"))
        known = checkouts_in(made)
        self.assertEqual([one.project for one in known.values()], ["kettle", "tea"])
        call = BrowseCall()
        call.words = [made]
        with browser_of(call) as browser:
            self.stop()
            self.show(browser)
            self.assertIn("2 projects", Words(self.page("/")).text())
            self.assertIn(">x<", self.page("/files/kettle/new.py"))

    def test_names_of_the_host(self) -> None:
        self.stop()
        self.show(self.made.browser("", False), "code.example", "localhost:9000", "Tunnel:80")
        for host, origin, status in (
            ("code.example", "", 200),
            ("CODE.example:8443", "", 200),
            ("code.example", "https://code.example", 200),
            ("code.example", "http://code.example", 200),
            ("code.example:8443", "https://code.example:8443", 200),
            ("localhost:9000", "http://localhost:9000", 200),
            ("tunnel:80", "", 200),
            (f"127.0.0.1:{self.port}", "", 200),
            ("localhost:9001", "", 403),
            ("tunnel", "", 403),
            ("tunnel:8080", "", 403),
            ("code.example.evil.example", "", 403),
            ("evil.example", "", 403),
            ("code.example:x", "", 403),
            ("code.example:", "", 403),
            ("code.example", "https://evil.example", 403),
            ("code.example", "https://code.example:1", 403),
            ("code.example", "null", 403),
            (f"127.0.0.1:{self.port}", f"https://127.0.0.1:{self.port}", 403),
        ):
            with self.subTest(host, origin=origin):
                headers = {"Origin": origin} if origin else {}
                self.assertEqual(self.got("/files/", host=host, **headers)[0], status)
        for bad in "", "a b", "http://x", "x:y", "x/":
            with redirect_stderr(io.StringIO()) as warned:
                words = ["--host", bad, self.top]
                self.assertEqual((BROWSE.main(words), bool(warned.getvalue())), (2, True))

    def test_many_readers(self) -> None:
        """Who doesn't read what it asked for, or asks for nothing, stops no other."""
        self.stop()
        self.write("big.data", "more words and more of them\n" * 300_000)
        self.show(Browser(Folder(self.top), Settings("http://127.0.0.1:1", "app", self.top)))
        request = f"GET /files/big.data HTTP/1.1\r\nHost: 127.0.0.1:{self.port}\r\n\r\n".encode()
        for number in range(READERS):
            slow = socket.create_connection(("127.0.0.1", self.port))
            self.addCleanup(slow.close)
            if number % 10 == 0:
                slow.sendall(request)
        self.write("small.txt", "a word\n")
        answers: list[int] = []
        lock = threading.Lock()

        def read() -> None:
            connection = http.client.HTTPConnection("127.0.0.1", self.port, timeout=600)
            connection.request("GET", "/files/small.txt")
            body = connection.getresponse().read()
            connection.close()
            with lock:
                answers.append(body.count(b"</html>"))

        readers = [threading.Thread(target=read) for _ in range(READERS)]
        for one_reader in readers:
            one_reader.start()
        for one_reader in readers:
            one_reader.join()
        self.assertEqual(answers, [1] * READERS)


def of_folder(folder: str) -> Browser:
    """What shows a folder of one project."""
    return Browser(Folder(folder), Settings("http://127.0.0.1:1", "app", folder))


def by_project(tags: list[dict[str, Any]]) -> Any:
    """A server that has the tags of several projects."""

    def request(url: str, **words: Any) -> Any:
        own = [tag for tag in tags if f"project={tag['project']}" in url]
        return by_prefix(own)(url, **words)

    return request


if __name__ == "__main__":
    unittest.main()
