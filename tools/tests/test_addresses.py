"""Tests of the text that the URL Standard makes of an address, by which the server knows documents:
by the standard's own words, by node, and by the program."""

import contextlib
import json
import os
import re
import shutil
import subprocess
import tempfile
import time
import unittest
from typing import Any, Optional
from urllib.parse import quote

from codenav.addresses import spelled
from codenav.asking.index import Index
from codenav.client.fetch import fetch_from
from codenav.client.projects import fresh_key
from codenav.faults import BadCall, NoReply
from codenav.sets.publish.publish import Publish
from codenav.sets.publish.store import Store
from codenav.settings.found import settings_of
from codenav.texts.places import map_words, maps_of, path_of, uri_of
from codenav.texts.sources import sources_of
from codenav.urls import href
from tests.dump_walks import body_of
from tests.randomly import check_cases
from tests.servers import OnServer
from tests.split_files import split_file
from tests.test_split import made

NEWER = re.compile(r"\^|^[A-Za-z.+-]*:[^/\\].* [?#]")
"""What the standard changed since Debian's node: `^` in paths, spaces at an opaque path's end."""
SAME = (
    "untitled:Untitled-1",
    "jar:file:///x/rt.jar!/java/lang/String.class",
    "git:/repo/a.c?x",
    "urn:a:b",
    "vscode-notebook-cell:/a.ipynb#W0",
    "zipfile:///a.zip::b/c",
    "foo://h",
    "foo://",
    "foo:?x",
    "file:///a//b",
    "file:////a",
    "file:///C%7C/x",
    "file:///C:/",
    "jdt://contents/rt.jar/a.class?=x/%5C/b",
)
MADE: dict[str, Optional[str]] = {
    **{address: address for address in SAME},
    "foo:///a/./b": "foo:///a/b",
    "foo:/a/../b/%2E%2e": "foo:/",
    "foo:/..//b": "foo:/.//b",
    "foo:/a\\b": "foo:/a\\b",
    "foo:a b  #x": "foo:a b %20#x",
    'foo:/a^b|{}`"<>': "foo:/a%5Eb|%7B%7D%60%22%3C%3E",
    "foo:/a?'\"#`": "foo:/a?'%22#%60",
    "foo://u:p@h:/x": "foo://u:p@h/x",
    "foo://a%zz": "foo://a%zz",
    "foo://[1:0:0:2:0:0:0:3]": "foo://[1:0:0:2::3]",
    "foo://:80/": None,
    "foo://u@/x": None,
    "foo://a b/": None,
    "A.b-c:X": "a.b-c:X",
    " \tfile:///a\tb\n": "file:///ab",
    "file:a/b": "file:///a/b",
    "FILE:\\\\h\\x": "file://h/x",
    "file://localhost/x": "file:///x",
    "file://C|/x": "file:///C:/x",
    "file:///C|/x/../..": "file:///C:/",
    "file://h/..": "file://h/",
    "file://a:80/x": None,
    "file:///\U0001F600": "file:///%F0%9F%98%80",
    "http:a": "http://a/",
    "http:\\\\H.com\\a": "http://h.com/a",
    "http://a@b@c:81?'": "http://a%40b@c:81/?%27",
    "http://:@h:0080/": "http://h/",
    "https://h:443/": "https://h/",
    "http://h:65536/": None,
    "http://0x7f.1/": "http://127.0.0.1/",
    "http://1.2.3.4.": "http://1.2.3.4/",
    "http://256.1.1.1/": None,
    "http://a.1/": None,
    "http://1.2.3.4.0/": None,
    "http://1_0.2/": None,
    "http://[::ffff:1.2.3.4]/": "http://[::ffff:102:304]/",
    "http://[::1/": None,
    "http://a%41\u00e9/": "http://xn--aa-cja/",
    "http://fa\u00df.de/": "http://xn--fa-hia.de/",
    "http://a%zz/": None,
    "file:///a%2Eb/%2f%C3%A9": "file:///a%2Eb/%2f%C3%A9",
    "file:///a/%2e%2E/\u00e9 \u00e9": "file:///%C3%A9%20%C3%A9",
    "http://": None,
    "a": None,
    "": None,
}
HOSTS = "localhost LOCALHOST h.com 1.2.3.4 0x7f.1 1.2 [::1] u@h u:p@h h:80 h: a%41 %zz C: c| .. . h] wsl+ubuntu 09 256.1 1.2.3.4.0 1_0.2"
SEGMENTS = ".. . %2e %2E%2e .%2e C: c| C%3A [x] (1) @+,=& %\u00e9 %c3%a9 \\ a\\b a^b|{}` \"<> ' a:b rt.jar! ~ ; a%2Fb %00"
TAILS = "?x #y ?a#c ?' #` ?\"<> ?\u00e9#\u00e9 ?%zz #?x ? #"
SCHEMES = "file http https ws foo jar git untitled urn vscode-remote a+b A.b-c FILE HtTp"


def random_addresses(strategies: Any) -> Any:
    """Addresses of many shapes."""
    own = strategies.sampled_from
    segments = [*SEGMENTS.split(" "), "", "a", "b", "a b", "x\ty", "\x7f", "\U0001F600", " "]
    path = strategies.lists(strategies.tuples(own("///\\"), own(segments)).map("".join), max_size=4)
    return strategies.tuples(
        own(["", " "]),
        own(SCHEMES.split()).map(lambda scheme: f"{scheme}:"),
        own(["", "/", "//", "//", "//", "///", "////", "\\", "\\\\"]),
        own(["", "", "h", *HOSTS.split()]),
        path.map("".join),
        own(["", "", "", " ", "? ", " ?", "  #", *TAILS.split()]),
    ).map("".join)


class Maps(unittest.TestCase):
    """What `--map` and its like take."""

    def test_cuts(self) -> None:
        """Either side may have a `=`; the folder is one that's there, where one is."""
        top = os.path.realpath(self.enterContext(tempfile.TemporaryDirectory()))
        self.enterContext(contextlib.chdir(top))
        here, there = os.path.join(top, "x=y"), os.path.join(top, "z")
        for folder in here, there:
            os.mkdir(folder)
        for text, uri, folder in (
            ("file:///src=z", "file:///src", there),
            ("file:///a=b=z", "file:///a=b", there),
            ("file:///a=x=y", "file:///a", here),
            ("file:///a=b=x=y", "file:///a=b", here),
            ("file:///a%3Db=c=d", "file:///a=b", os.path.join(top, "c=d")),
            ("file:///no=a=b", "file:///no", os.path.join(top, "a=b")),
            ("file:///=z", "file:///", there),
            ("file:///src/=z", "file:///src", there),
            ("c:\\dir=z", "file:///c:/dir", there),
            ("C:/dir/=z", "file:///c:/dir", there),
            ("/src/a b=z", "file:///src/a%20b", there),
            ("\\\\host\\share=z", "file://host/share", there),
            ("vscode-remote://wsl%2Bubuntu/src=z", "vscode-remote://wsl%2Bubuntu/src", there),
        ):
            with self.subTest(text):
                maps = maps_of([text])
                self.assertEqual(maps, [(uri, folder)])
                document = f"{uri.removesuffix('/')}/a%20b/c.rs"
                path = os.path.join(folder, "a b", "c.rs")
                self.assertEqual(path_of(document, maps), path)
                self.assertEqual(uri_of(path, maps), document)
                self.assertEqual(maps_of([map_words(uri, folder)]), maps)
        for text in "", "a", "=z", "a=":
            self.assertRaises(BadCall, maps_of, [text])

    def test_settings(self) -> None:
        """A table of maps in `.codenav.toml` is read in the same way."""
        found = {"server": "http://h", "project": "app", "map": {"C:\\a=b/": "x"}}
        maps = settings_of(found, "/top").maps
        self.assertEqual(maps, [("file:///c:/a=b", "/top/x")])

    def test_revisions(self) -> None:
        """The revision of a project may have a `=`, as branches may."""
        for word, project, revision in (
            ("HEAD", "app", "HEAD"),
            ("lib=HEAD", "lib", "HEAD"),
            ("lib=a=b", "lib", "a=b"),
        ):
            found = sources_of([word], None, "app", os.curdir)
            self.assertEqual({name: one.label for name, one in found.items()}, {project: revision})


class Standard(unittest.TestCase):
    """The standard's parser and serializer."""

    def test_standard(self) -> None:
        for address, wanted in MADE.items():
            with self.subTest(address):
                self.assertEqual(href(address), wanted)

    def test_node(self) -> None:
        """What node's `URL` makes of each address."""
        if shutil.which("node") is None:
            self.skipTest("apt-get install nodejs")
        script = """
            const made = address => { try { return new URL(address).href } catch { return null } }
            console.log(JSON.stringify(JSON.parse(require("fs").readFileSync(0)).map(made)))"""
        known = [address for address in MADE if not NEWER.search(address)]
        done = subprocess.run(
            ["node", "-e", script],
            input=json.dumps(known).encode(),
            capture_output=True,
            check=True,
        )
        self.assertEqual(dict(zip(known, json.loads(done.stdout))), {a: MADE[a] for a in known})

    def test_long(self) -> None:
        """No address of hundreds of kilobytes takes long."""
        count = 200_000
        begun = time.process_time()
        for address in (
            "foo:/" + "a/../" * count,
            "foo://" + "[" * count,
            "foo://" + "[a]" * count + "x:y",
            "foo:/" + "\u00e9a" * count,
            "http://" + "@" * count + "h",
            "http://" + "1" * count,
            "http://" + "".join(chr(0x4E00 + own % 20000) for own in range(count)),
            "file://" + "/a" * count + "?",
        ):
            href(address)
        self.assertLess(time.process_time() - begun, 20)

    def test_once(self) -> None:
        """What was made once stays, and so does the one spelling of the tools, which the server
        knows a document by too."""

        def check(address: str) -> None:
            made, own = href(address), spelled(address)
            self.assertEqual(spelled(own), own)
            if made is not None:
                self.assertEqual(href(made), made)
            if href(own) is not None:
                self.assertEqual(href(own), own)

        check_cases(self, 2000, lambda strategies: {"address": random_addresses(strategies)}, check)


class Documents(OnServer):
    """Dumps with documents of random addresses."""

    def test_server(self) -> None:
        """The program knows each by the text that the standard makes of it."""

        def put(number: int, address: str) -> bytes:
            body = body_of(made({address: 1}))
            head = f"PUT /projects/p{number}/lsif?key=k HTTP/1.1\r\nContent-Length: {len(body)}"
            return head.encode() + b"\r\n\r\n" + body

        def get(number: int, address: str) -> bytes:
            at = f"uri={quote(address, safe='')}&line=0&character=0"
            return f"GET /projects/p{number}/definition?{at} HTTP/1.1\r\n\r\n".encode()

        def check(addresses: list[str]) -> None:
            addresses = list(dict.fromkeys(addresses))
            requests = [
                make(number, address)
                for number, address in enumerate(addresses)
                for make in (put, get)
            ]
            with tempfile.NamedTemporaryFile() as file:
                file.write(b"".join(requests))
                file.flush()
                replies = subprocess.run(
                    [self.program, "replay", ":memory:", file.name],
                    stdin=subprocess.DEVNULL,
                    capture_output=True,
                    check=True,
                )
            bodies = replies.stdout.split(b"HTTP/1.1 ")[2::2]
            found = [json.loads(body.partition(b"\r\n\r\n")[2]) for body in bodies]
            known = [body["places"][0]["uri"] if "places" in body else None for body in found]
            self.assertEqual(
                dict(zip(addresses, known)), {address: href(address) for address in addresses}
            )

        check(list(MADE))
        check_cases(
            self,
            100,
            lambda strategies: {
                "addresses": strategies.lists(random_addresses(strategies), min_size=1, max_size=30)
            },
            check,
        )

    def test_sets(self) -> None:
        """A set answers as the whole dump does, however an address is spelled."""
        fetch = fetch_from(self.url, 20)

        def check(addresses: list[str]) -> None:
            known = {href(address): address for address in addresses}
            known.pop(None, None)
            if not known:
                return
            body = body_of(made({address: 2 for address in known.values()}))
            Store(self.url).put("whole", "lsif", body, fresh_key("lsif"))
            with tempfile.TemporaryDirectory() as folder:
                path, parts = os.path.join(folder, "dump"), os.path.join(folder, "set")
                with open(path, "wb") as out:
                    out.write(body)
                split_file(path, parts, elements=30)
                Publish(Store(self.url), parts).run()
            for own in addresses:
                for address in (own, spelled(own), href(own) or own):
                    found = [answer(Index(name, fetch), address) for name in ("whole", "set")]
                    self.assertEqual(found[0], found[1], address)

        check_cases(
            self,
            10,
            lambda strategies: {
                "addresses": strategies.lists(random_addresses(strategies), min_size=1, max_size=12)
            },
            check,
        )


def answer(asked: Index, uri: str) -> Any:
    """The places of a definition, or the code of a fault."""
    try:
        found = asked.query("definition", {"uri": uri, "line": 1, "character": 1}, "places")
    except NoReply as fault:
        return str(fault)[:3]
    return [(place["uri"], place["start"], place["end"]) for place in found]
