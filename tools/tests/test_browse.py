"""Tests of `browse`: what is served and to whom, what is refused, and that names, texts and answers
of the index are put in as texts."""

import http.client
import io
import json
import os
import re
import tempfile
import threading
import unittest
from contextlib import contextmanager, redirect_stderr
from typing import Any, Iterator, Optional
from unittest import mock
from urllib.parse import parse_qsl, urlencode, urlsplit

from codenav.asking.tags import AWAY, GUESSED, SAID
from codenav.browse import answers, folder, pages
from codenav.browse.answers import Browser
from codenav.browse.finder import found as found_files
from codenav.browse.folder import Folder, Refused
from codenav.browse.markdown import ELEMENTS, tree_of
from codenav.browse.server import Pages
from codenav.cli.browse import BROWSE
from codenav.client import fetch
from codenav.client.http import Answer
from codenav.faults import BadCall
from codenav.settings.found import Settings
from tests.packages import needs
from tests.repository import InRepository, git_in
from tests.servers import replying

PLACE: dict[str, Any] = {
    "project": "app",
    "uri": "",
    "start": {"line": 1, "character": 3},
    "end": {"line": 1, "character": 6},
}
TAG: dict[str, Any] = {
    "project": "app",
    "name": "run",
    "file": "src/a.rs",
    "address": "/^fn run() {}$/",
    "fields": [],
    "kind": "f",
    "line": 9,
}


def unlinked(body: str) -> str:
    """A page without the links at the words of its text."""
    return re.sub(r'<a href="\?[^"]*at=\d+\.\d+">(.*?)</a>', r"\1", body)


def by_prefix(tags: list[dict[str, Any]]) -> Any:
    """A server that has some tags, and answers those whose names begin with a text."""

    def request(url: str, **_: Any) -> Answer:
        prefix = dict(parse_qsl(urlsplit(url).query)).get("prefix", "")
        found = [tag for tag in tags if tag["name"].startswith(prefix)]
        return Answer(url, 200, json.dumps({"tags": found}).encode())

    return request


class Served:
    """Tests of the pages of a folder, `top`."""

    top: str

    def serve(self, settings: Settings) -> None:
        """Serves the pages of the folder up to the end of the test."""
        self.pages = Pages(Browser(Folder(self.top), settings), 0)
        self.port = self.pages.server_address[1]
        self.thread = threading.Thread(
            target=self.pages.serve_forever, kwargs={"poll_interval": 0.01}
        )
        self.thread.start()

    def stop(self) -> None:
        """Ends that, with what reads texts."""
        self.pages.shutdown()
        self.thread.join()
        self.pages.server_close()
        for view in self.pages.RequestHandlerClass.browser.views.values():  # type: ignore[attr-defined]
            view.end()

    def got(
        self, path: str, method: str = "GET", host: Optional[str] = None, **headers: str
    ) -> tuple[int, str, dict[str, str]]:
        """The status, the body and the headers of an answer."""
        connection = http.client.HTTPConnection("127.0.0.1", self.port, timeout=120)
        connection.putrequest(method, path, skip_host=True)
        for name, value in {
            "Host": host or f"127.0.0.1:{self.port}",
            **{name.replace("_", "-"): value for name, value in headers.items()},
        }.items():
            connection.putheader(name, value)
        connection.endheaders()
        response = connection.getresponse()
        body = response.read().decode()
        connection.close()
        return response.status, body, dict(response.getheaders())

    def asked(self, path: str, reply: Any, status: int = 200) -> tuple[int, Any, Optional[str]]:
        """The status and the answer to a question that the server answers so, and the address that
        the server was asked by; of a record of the revision it has none."""
        with self.replies(reply, status) as asked:
            code, body, _ = self.got(path)
        return code, json.loads(body), asked[0] if asked else None

    @contextmanager
    def replies(self, reply: Any, status: int = 200) -> Iterator[list[str]]:
        """The addresses that the server is asked by, which answers so."""
        answer = Answer("http://127.0.0.1:1", status, json.dumps(reply).encode())
        asked: list[str] = []
        with mock.patch.object(fetch, "request", replying(answer, asked)):
            yield asked


class Browse(Served, unittest.TestCase):
    def setUp(self) -> None:
        self.home = tempfile.TemporaryDirectory()
        self.top = os.path.join(self.home.name, "shown")
        os.makedirs(os.path.join(self.top, "src", "deep"))
        self.write("src/a.rs", '// <script>alert(1)</script> & "x"\nfn run() {}\n')
        self.write("src/<b> & 'c'.rs", "x\n")
        self.write("../secret", "secret\n")
        os.symlink(os.path.join(self.home.name, "secret"), os.path.join(self.top, "out"))
        os.symlink(self.home.name, os.path.join(self.top, "up"))
        os.symlink("src/a.rs", os.path.join(self.top, "again.rs"))
        self.serve(Settings("http://127.0.0.1:1", "app", self.top))
        said = "app: no revision is kept with its index; its places aren't mapped"
        question = "/ask?what=hover&path=src/a.rs&line=0&character=0"
        first, again = (self.asked(question, {"contents": None})[1]["said"] for _ in range(2))
        self.assertEqual((first, again), (said, ""))

    def tearDown(self) -> None:
        self.stop()
        self.home.cleanup()

    def write(self, name: str, text: str) -> None:
        with open(os.path.join(self.top, name), "w", encoding="utf-8", newline="") as file:
            file.write(text)

    def uri(self, name: str) -> str:
        return f"file://{self.top}/{name}"

    def test_pages(self) -> None:
        for path in ("/", "/files/", "/files/src", "/files/src/"):
            status, body, headers = self.got(path)
            self.assertEqual(
                (status, headers["Content-Type"], "Choose a file" in body),
                (200, "text/html; charset=utf-8", True),
            )
            self.assertIn(
                "default-src 'none'; script-src 'self'", headers["Content-Security-Policy"]
            )
        status, body, headers = self.got("/files/src/a.rs")
        self.assertIn("\nfn run() {}\n</div></div>", unlinked(body))
        self.assertIn('<a href="/files/src/a.rs" aria-current="page">a.rs</a>', body)
        self.assertEqual(
            (status, body.rstrip()[-7:], self.got("/files/src/a.rs", "HEAD")[:2]),
            (200, "</html>", (200, "")),
        )
        listed = self.got("/files/")[1]
        self.assertEqual(
            [
                f'href="/files/{name}"' in listed
                for name in ("src", "again.rs", "out", "up", "src/a.rs")
            ],
            [True, True, False, False, False],
        )
        self.assertIn('data-path="again.rs"', self.got("/files/again.rs")[1])
        for path, kind in ("/page.css", "text/css; charset=utf-8"), (
            "/page.js",
            "text/javascript; charset=utf-8",
        ):
            self.assertEqual((self.got(path)[0], self.got(path)[2]["Content-Type"]), (200, kind))
            self.assertNotIn("http://", self.got(path)[1])

    def test_texts_and_names_are_escaped(self) -> None:
        body = self.got("/files/src/a.rs")[1]
        self.assertIn('>// &lt;script&gt;alert(1)&lt;/script&gt; &amp; "x"\n', unlinked(body))
        self.assertEqual(body.count("<script"), 1 + body.count('<script type="application/json"'))
        self.assertIn(
            '<a href="/files/src/%3Cb%3E%20&amp;%20&#x27;c&#x27;.rs">&lt;b&gt; &amp; &#x27;c&#x27;.rs</a>',
            body,
        )
        body = self.got("/files/src/%3Cb%3E%20&%20'c'.rs")[1]
        self.assertIn("<title>src/&lt;b&gt; &amp; &#x27;c&#x27;.rs</title>", body)
        self.assertIn('data-path="src/%3Cb%3E%20%26%20%27c%27.rs"', body)

    def test_a_name_that_is_not_utf8(self) -> None:
        with open(os.path.join(os.fsencode(self.top), b"\xff.rs"), "wb") as file:
            file.write(b"x\n")
        self.assertIn('<a href="/files/%FF.rs">', self.got("/files/")[1])
        self.assertEqual(self.got("/files/%FF.rs")[0], 200)

    def refused(self, path: str, status: int, fault: str) -> None:
        """Sees that a page says that it isn't there, and leads to those that are."""
        found, body, headers = self.got(path)
        self.assertEqual((found, headers["Content-Type"]), (status, "text/html; charset=utf-8"))
        self.assertIn(f"<h1>{status}: {fault}</h1>", body)
        self.assertIn('<a href="/files/">', body)

    def test_paths_outside_the_folder(self) -> None:
        for path in (
            "../secret",
            "src/../../secret",
            "%2e%2e/secret",
            "src/%2E%2E/%2e./secret",
            "..%2fsecret",
            "/etc/passwd",
            "%2Fetc/passwd",
            "src//a.rs",
            "out",
            "up/secret",
            "up",
            "src/./a.rs",
            "src/a.rs%00",
            f"{os.path.join(self.top, 'src/a.rs')}",
        ):
            with self.subTest(path):
                self.refused(f"/files/{path}", 403, "not a path in the folder")
                self.assertEqual(
                    self.asked(f"/ask?what=hover&line=0&character=0&path={path}", {})[::2],
                    (403, None),
                )
        for path, status in (
            ("files/no", 404),
            ("files/src/a.rs/x", 404),
            ("no", 404),
            ("page.html", 404),
            ("files", 404),
            ("page.js/../browse.py", 404),
        ):
            self.assertEqual(self.got(f"/{path}")[0], status, path)

    def test_files_that_are_not_shown(self) -> None:
        os.mkfifo(os.path.join(self.top, "pipe"))
        with open(os.path.join(self.top, "binary"), "wb") as file:
            file.write(b"\xe9\0\n")
        for path, fault in ("pipe", "not a file"), ("binary", "not a text"):
            self.refused(f"/files/{path}", 403, fault)
        with mock.patch.object(folder, "MOST_BYTES", 10):
            self.refused("/files/src/a.rs", 403, "a file of 47 bytes, and 10 are shown at most")

    def test_files_that_are_not_found(self) -> None:
        """What has no page isn't offered, in a checkout or elsewhere: each link leads to a text."""
        for name, target in ("a.loop", "b.loop"), ("b.loop", "a.loop"), ("gone", "nowhere"):
            os.symlink(target, os.path.join(self.top, name))
        os.mkfifo(os.path.join(self.top, "pipe"))
        texts = {
            "binary": b"\xff\0" * 9_000,
            "nul.txt": "\N{DEGREE SIGN}\0".encode() * 9_000,
            "wide.txt": "\ufeffwide\n".encode("utf-16-le"),
            "latin.txt": b"\xe9\n" * 9_000,
            "cut.txt": b"x" * 7_999 + "\N{DEGREE SIGN}".encode() + b"\0",
            "empty.txt": b"",
            "large.txt": b"x" * 50_000,
        }
        for name, body in texts.items():
            with open(os.path.join(self.top, name), "wb") as file:
                file.write(body)
        shown = {"again.rs", "src/a.rs", "src/<b> & 'c'.rs", "nul.txt", "wide.txt"}
        shown |= {"latin.txt", "cut.txt", "empty.txt"}
        for is_checkout in False, True:
            if is_checkout:
                git_in(self.top, "init", "-q")
                git_in(self.top, "add", "-A")
            browser = Browser(Folder(self.top), Settings("http://127.0.0.1:1", "app", self.top))
            with mock.patch.object(folder, "MOST_BYTES", 40_000):
                found = browser.files({"text": ""})
                links = {row["name"]: row["href"] for row in found["names"]}
                self.assertEqual((set(links), found["said"]), (shown, f"{len(shown)} files"))
                self.assertEqual({self.got(link)[0] for link in links.values()}, {200})
                listed = {entry.name for entry in browser.folder.entries("")}
            self.assertFalse(listed & {"a.loop", "b.loop", "gone", "pipe", "out", "up"})

    def test_revisions_that_are_not_there(self) -> None:
        git_in(self.top, "init", "-q")
        self.refused("/files/src/a.rs?revision=%00", 404, "no revision &#x27;\\x00&#x27;")
        for path in "/ask?what=hover&", "/address?":
            place = "path=src/a.rs&line=0&character=0&revision=%00"
            status, body, _ = self.got(path + place)
            self.assertEqual(status, 404)
            self.assertTrue(json.loads(body)["fault"].startswith("no revision '\\x00'"), body)

    def test_unexpected_faults(self) -> None:
        """They're one whole answer; behind the beginning of a page nothing more comes."""
        planted = mock.Mock(side_effect=KeyError("a\nb"))
        with mock.patch.object(Browser, "view", planted):
            self.refused("/files/src/a.rs", 500, "KeyError: &#x27;a\\nb&#x27;")
            status, body, _ = self.got("/outline?path=src/a.rs")
        self.assertEqual((status, json.loads(body)), (500, {"fault": "KeyError: 'a\\nb'"}))
        for fault in (KeyError("x"), BadCall("x"), Refused(404, "x"), OSError(5, "x")):
            with mock.patch.object(pages, "file_data", mock.Mock(side_effect=fault)):
                with mock.patch.object(Pages, "handle_error"):
                    status, body, _ = self.got("/files/src/a.rs")
            self.assertEqual((status, body.count("HTTP/1."), body.count("<html")), (200, 0, 1))

    def test_a_folder_of_texts_that_is_gone(self) -> None:
        """Of the settings of a folder below: the page is whole."""
        self.write("src/.codenav.toml", 'server = "http://h:1"\nproject = "b"\nindexed = "no"\n')
        body = self.got("/files/src/a.rs")[1]
        self.assertEqual((body.count("<html"), body[-8:]), (1, "</html>\n"))

    def test_hosts_and_origins(self) -> None:
        own = f"127.0.0.1:{self.port}"
        page, script, question = "/files/src/a.rs", "/page.js", "/names?prefix="
        link = {
            "Sec_Fetch_Site": "cross-site",
            "Sec_Fetch_Mode": "navigate",
            "Sec_Fetch_Dest": "document",
        }
        cases: list[tuple[str, str, dict[str, str], int]] = [
            (page, f"localhost:{self.port}", {}, 200),
            (page, f"LOCALHOST:{self.port}", {}, 200),
            (page, own, {"Origin": f"http://{own}"}, 200),
            (page, own, {"Sec_Fetch_Site": "same-origin"}, 200),
            (page, own, {"Sec_Fetch_Site": "none"}, 200),
            (page, own, link, 200),
            (page, "evil.example", {}, 403),
            (page, f"evil.example:{self.port}", {}, 403),
            (page, "127.0.0.1", {}, 403),
            (page, f"127.0.0.1:{self.port}1", {}, 403),
            (page, own, {"Origin": "http://evil.example"}, 403),
            (page, own, {"Origin": "null"}, 403),
            (page, own, {"Origin": f"https://{own}"}, 403),
            (page, own, {"Origin": f"http://localhost:{self.port}"}, 403),
            (page, own, {**link, "Sec_Fetch_Dest": "iframe"}, 403),
            (page, own, {**link, "Sec_Fetch_Mode": "no-cors"}, 403),
            (script, own, {"Sec_Fetch_Site": "same-site"}, 403),
            (script, own, link, 403),
            (question, own, link, 403),
            (question, own, {"Sec_Fetch_Site": "cross-site"}, 403),
        ]
        for path, host, headers, status in cases:
            with self.subTest(path, host=host, headers=headers):
                self.assertEqual(self.got(path, host=host, **headers)[0], status)
        self.assertEqual(
            [self.got(page, method)[0] for method in ("POST", "PUT", "OPTIONS")], [501] * 3
        )

    def test_places(self) -> None:
        path = "/ask?what=references&path=src/a.rs&line=1&character=3"
        places = [
            {**PLACE, "uri": self.uri("src/a.rs")},
            {**PLACE, "uri": self.uri("src/a.rs"), "project": "other"},
            {**PLACE, "uri": "file:///etc/passwd"},
            {**PLACE, "uri": self.uri("out")},
            {**PLACE, "uri": "urn:x"},
            {**PLACE, "uri": self.uri("src/%3Cb%3E%20&%20'c'.rs")},
        ]
        status, answer, asked = self.asked(path, {"places": places})
        self.assertEqual(
            (status, answer["said"], asked),
            (
                200,
                "5 references in 5 files",
                "http://127.0.0.1:1/projects/app/references?uri="
                + urlencode({"uri": self.uri("src/a.rs")})[4:]
                + "&line=1&character=3",
            ),
        )
        self.assertEqual(
            sorted(
                (place["file"], place["line"], place["href"], place["text"])
                for place in answer["places"]
            ),
            sorted(
                [
                    ("src/a.rs", 2, "/files/src/a.rs#L2C4", "fn run() {}"),
                    ("/etc/passwd", 2, None, "not in the folder that is shown"),
                    (f"{self.top}/out", 2, None, "not in the folder that is shown"),
                    ("urn:x", 2, None, "not in the folder that is shown"),
                    ("src/<b> & 'c'.rs", 2, "/files/src/%3Cb%3E%20&%20'c'.rs#L2C4", ""),
                ]
            ),
        )
        [own] = [place for place in answer["places"] if place["file"] == "src/a.rs"]
        self.assertEqual(
            (own["text"][own["start"] : own["end"]], own["is_definition"]), ("run", True)
        )
        answer = self.asked(path, {"places": []})[1]
        said = "The index has no references here."
        self.assertEqual((answer["places"], answer["count"], answer["said"]), ([], 0, said))

    def test_a_definition_that_is_the_whole_file(self) -> None:
        path = "/ask?what=definition&path=src/a.rs&line=1&character=3"
        whole = {
            **PLACE,
            "uri": self.uri("src/a.rs"),
            "start": {"line": 0, "character": 0},
            "end": {"line": 2, "character": 0},
        }
        self.assertEqual(
            self.asked(path, {"places": [whole]})[1],
            {"places": [], "said": "Nothing but a range over the whole file covers this place."},
        )
        self.assertEqual(
            len(
                self.asked(path.replace("a.rs", "%3Cb%3E%20%26%20'c'.rs"), {"places": [whole]})[1][
                    "places"
                ]
            ),
            1,
        )

    def test_hovers(self) -> None:
        needs("markdown_it", "python3-markdown-it")
        for contents, nodes in (
            (None, []),
            ("<b>x</b>", [["p", {}, ["<b>x</b>"]]]),
            ({"kind": "markdown", "value": "\n**x**\n"}, [["p", {}, [["strong", {}, ["x"]]]]]),
            ({"kind": "plaintext", "value": "**x**"}, [["pre", {}, ["**x**"]]]),
            (
                [{"language": "none", "value": "f"}, "d"],
                [["pre", {}, [["code", {}, ["f"]]]], ["p", {}, ["d"]]],
            ),
            (
                [{"language": "c", "value": "int"}],
                [["pre", {}, [["code", {}, [["span", {"class": "keyword"}, ["int"]]]]]]],
            ),
        ):
            question = "/ask?what=hover&path=src/a.rs&line=0&character=0"
            self.assertEqual(
                self.asked(question, {"contents": contents})[:2],
                (200, {"nodes": nodes, "said": ""}),
            )

    def test_hostile_hovers(self) -> None:
        for text in (
            "<script>alert(1)</script>",
            "<img src=x onerror=alert(1)>",
            "[a](javascript:alert(1))",
            "[a](JaVaScRiPt:alert(1))",
            "[a](data:text/html,<script>alert(1)</script>)",
            "[a]: vbscript:x\n\n[a]",
            "<javascript:alert(1)>",
            "![a](http://other.example/x.png)",
            "[a](//other.example/)",
            "[a](http://[)",
            "```<script>\nx\n```",
            "```html\n<script>alert(1)</script>\n```",
            "> " * 5000,
            "[" * 19_000,
            "*a " * 6000,
            "|" * 9000,
            "a\0b\ud800",
        ):
            with self.subTest(text[:40]):
                self.see_nodes(tree_of(text))

    def see_nodes(self, nodes: list[Any], depth: int = 0) -> None:
        """Sees that nodes are texts, or known elements with no attributes but links to web pages
        and the kinds of code."""
        self.assertLess(depth, 60)
        for node in nodes:
            if isinstance(node, str):
                continue
            name, attributes, below = node
            self.assertIn(name, {*ELEMENTS, "pre", "code", "span"})
            self.assertLessEqual(
                set(attributes), {"class"} if name == "span" else {"href"} if name == "a" else set()
            )
            self.assertRegex(attributes.get("href", "http://"), "^https?://")
            self.see_nodes(below, depth + 1)

    def test_names(self) -> None:
        tags = [
            TAG,
            {**TAG, "project": "other"},
            *(
                {**TAG, "file": file}
                for file in ("/etc/passwd", "../secret", "out", "no", "src", "a\0")
            ),
            {**TAG, "file": "again.rs", "address": "1"},
        ]
        status, answer, asked = self.asked("/names?prefix=r%26n", {"tags": tags})
        self.assertEqual(
            (status, asked), (200, "http://127.0.0.1:1/names?prefix=r%26n&project=app")
        )
        guessed, away = SAID[GUESSED].format(1, 4), SAID[AWAY].format(2, 4)
        self.assertEqual(
            answer,
            {
                "said": f"1 name; {guessed}; {away}",
                "names": [{"name": "run", "place": "src/a.rs:2", "href": "/files/src/a.rs#L2C4"}],
            },
        )

        with mock.patch.object(answers, "MOST_NAMES", 2):
            for count, said in ((2, "2 names"), (3, "the first 2 names")):
                tags = [{**TAG, "name": f"run-{number}"} for number in range(count)]
                self.assertEqual(self.asked("/names?prefix=r", {"tags": tags})[1]["said"], said)

    def test_names_that_have_a_text(self) -> None:
        """Anywhere and in any case; those that begin with it are first."""
        tags = [
            {**TAG, "name": name} for name in ("to_run", "Runner", "RUN", "other", "rerun", "run")
        ]
        for prefix, names in (
            ("run", ["run", "RUN", "Runner", "rerun", "to_run"]),
            ("_RUN", ["to_run"]),
            ("none", []),
        ):
            with self.subTest(prefix), mock.patch.object(fetch, "request", by_prefix(tags)):
                found = json.loads(self.got(f"/names?prefix={prefix}")[1])["names"]
                self.assertEqual([row["name"] for row in found], names)

    def test_replies_that_are_none(self) -> None:
        place = {**PLACE, "uri": self.uri("src/a.rs")}
        cases: list[tuple[str, list[Any]]] = [
            (
                "/ask?what=definition&path=src/a.rs&line=0&character=0",
                [
                    {},
                    [],
                    {"places": 1},
                    {"places": [1]},
                    {"places": [{}]},
                    {"places": [{**place, "uri": 1}]},
                    {"places": [{**place, "start": {"line": "1"}}]},
                    {"places": [{**place, "start": {"line": -1, "character": 0}}]},
                    {"places": [{**place, "start": {"line": 1, "character": True}}]},
                ],
            ),
            (
                "/ask?what=hover&path=src/a.rs&line=0&character=0",
                [
                    {},
                    {"contents": 1},
                    {"contents": {}},
                    {"contents": [{}]},
                    {"contents": {"value": 1}},
                ],
            ),
            (
                "/names?prefix=r",
                [
                    {},
                    {"tags": 1},
                    {"tags": [{}]},
                    {"tags": [{**TAG, "file": 1}]},
                    {"tags": [{**TAG, "address": 1}]},
                    {"tags": [{**TAG, "name": 1}]},
                ],
            ),
        ]
        for path, replies in cases:
            for reply in replies:
                with self.subTest(path, reply=reply):
                    status, answer, _ = self.asked(path, reply)
                    self.assertEqual((status, list(answer)), (502, ["fault"]))
        self.assertEqual(
            self.asked("/names?prefix=r", {"fault": "D01", "text": "project has no dump"}, 404)[:2],
            (502, {"fault": "the index: D01 project has no dump"}),
        )

    def test_words_of_a_file_that_is_not_in_the_index(self) -> None:
        """The link at one says so, and leads to the names that have it."""
        self.write("word.txt", "x \U0001f600 pour & x\n")
        for at, link in (
            ("1.6", "/search?text=pour"),
            ("1.9", "/search?text=pour"),
            ("1.1", "/search?text=x"),
            ("1.11", ""),
            ("9.1", ""),
            ("1.99", ""),
        ):
            with self.subTest(at):
                fault = {"fault": "D02", "text": "no such document"}
                with self.replies(fault, 404):
                    status, body, _ = self.got(f"/files/word.txt?at={at}")
                self.assertEqual(status, 404)
                self.assertIn("<h1>404: the index doesn&#x27;t have this file</h1>", body)
                self.assertEqual(re.findall('href="(/search[^"]*)"', body), [link] if link else [])
                self.assertNotIn(self.home.name, body)

    def test_questions_that_are_none(self) -> None:
        for path in (
            "/ask",
            "/ask?what=names&path=src/a.rs&line=0&character=0",
            "/ask?what=hover&path=src/a.rs&line=x&character=0",
            "/ask?what=hover&path=src/a.rs&line=0&character=2147483648",
            "/ask?what=hover&path=src/a.rs&line=0",
            "/names",
            "/names?prefix=",
            "/names?prefix=%00",
            "/names?prefix=%FF",
        ):
            self.assertEqual(self.asked(path, {})[::2], (400, None), path)

    def test_calls_that_are_refused(self) -> None:
        for words, said in (
            (["x", "app", self.top], "not the address of a server, as http://127.0.0.1:8080: 'x'"),
            (
                ["http://127.0.0.1:1", "No", self.top],
                "a project is 1 to 64 characters of a-z 0-9 _ -, not 'No'",
            ),
            (["http://127.0.0.1:1", "app", "no/folder"], "no/folder: not a folder"),
            (
                ["http://127.0.0.1:1", "app", self.top, "--port", str(self.port)],
                f"{self.port}: Address already in use",
            ),
            (
                ["http://127.0.0.1:1", "app", self.top, "--port", "99999"],
                "99999: bind(): port must be 0-65535.",
            ),
            (
                ["http://127.0.0.1:1", "app", self.top, "--map", "x"],
                "--map takes URI=FOLDER, neither of them empty",
            ),
            (
                ["http://127.0.0.1:1", "app", self.top, "--search", "http://h/?q="],
                "--search takes an address with {} in it, as http://localhost:6070/search?q={}",
            ),
        ):
            with redirect_stderr(io.StringIO()) as warned:
                self.assertEqual(
                    (BROWSE.main(words), warned.getvalue()), (2, f"codenav browse: {said}\n")
                )


class Trees(Served, unittest.TestCase):
    def setUp(self) -> None:
        self.top = self.enterContext(tempfile.TemporaryDirectory())
        os.mkdir(os.path.join(self.top, "many"))
        for number in range(1000):
            with open(
                os.path.join(self.top, "many", f"f{number:03}.txt"), "w", encoding="utf-8"
            ) as file:
                file.write("x\n")
        self.serve(Settings("http://127.0.0.1:1", "app", self.top))
        self.addCleanup(self.stop)

    def test_a_folder_of_many_files(self) -> None:
        body = self.got("/files/many/f500.txt")[1]
        shown = [number for number in range(1000) if f'href="/files/many/f{number:03}.txt"' in body]
        self.assertEqual(shown, list(range(400, 600)))
        self.assertIn(
            'data-path="many/" data-start="0" data-end="400" data-before="true">400 more<', body
        )
        self.assertIn(
            'data-path="many/" data-start="600" data-end="1000" data-before="false">400 more<', body
        )
        listed = json.loads(self.got("/list?path=many/&start=600&end=602")[1])
        self.assertEqual(
            listed["entries"],
            [{"name": f"f{one}.txt", "href": f"/files/many/f{one}.txt"} for one in (600, 601)],
        )
        for query in "path=..&start=0&end=1", "path=many/&start=x&end=1", "path=many/&start=0":
            self.assertIn(self.got(f"/list?{query}")[0], (400, 403))

    def test_finding_files(self) -> None:
        names = json.loads(self.got("/find?text=m500")[1])["names"]
        self.assertEqual([row["href"] for row in names], ["/files/many/f500.txt"])
        files = ["src/lib.rs", "src/list.rs", "tests/lib.rs", "src/a_long_item_bag.rs", "Lib.md"]
        for text, first in (
            ("lib", "Lib.md"),
            ("src lib", "src/lib.rs"),
            ("tlib", "tests/lib.rs"),
            ("list", "src/list.rs"),
            ("alib", "src/a_long_item_bag.rs"),
        ):
            self.assertEqual(found_files(files, text)[0], first, text)
        self.assertEqual(found_files(files, "xyz"), [])
        self.assertEqual(len(found_files(files, "")), 5)


class OfRevisions(Served, InRepository):
    def setUp(self) -> None:
        super().setUp()
        self.write("a.rs", "fn one() {}\nfn two() { one() }\n")
        self.commit_name = self.commit()
        self.write("a.rs", "use x;\nfn one() {}\nfn two() { one() }\n")
        self.serve(Settings("http://127.0.0.1:1", "app", self.top, revisions=(self.commit_name,)))
        self.addCleanup(self.stop)

    def data(self, body: str, own: str) -> Any:
        """The data of a page."""
        text = body.partition(f'<script type="application/json" id="{own}">')[2]
        return json.loads(text.partition("</script>")[0])

    def test_words_that_the_index_does_not_know(self) -> None:
        body = self.got("/files/a.rs")[1]
        found = self.data(body, "unknown")
        self.assertEqual(found, {"label": self.commit_name, "lines": [[0, 0, 3, 4, 1]]})
        self.assertEqual(self.data(body, "colours")["lines"][1][:3], [0, 2, 1])

    def test_the_text_of_a_revision(self) -> None:
        body = self.got(f"/files/a.rs?revision={self.commit_name}")[1]
        self.assertIn(">fn one() {}\nfn two()", unlinked(body))
        self.assertIn(f"as of {self.commit_name[:12]}", body)
        self.assertEqual(self.data(body, "unknown"), {"label": "", "lines": []})
        self.assertEqual(self.got("/files/a.rs?revision=none")[0], 404)
        self.assertEqual(self.got("/files/b.rs?revision=HEAD")[0], 404)

    def test_addresses_that_stay(self) -> None:
        status, body, _ = self.got("/address?path=a.rs&line=2&character=3")
        self.assertEqual(status, 200)
        href = f"/files/a.rs?revision={self.commit_name}#L2C4"
        self.assertEqual(json.loads(body)["href"], href)
        status, body, _ = self.got("/address?path=a.rs&line=0&character=0")
        self.assertEqual(status, 404)
        self.assertIn("commit it first", json.loads(body)["fault"])


if __name__ == "__main__":
    unittest.main()
