"""Tests of the fronts over a real server: the server's own answers, the login, the limits, what
they say of themselves, and that no request is lost while the server is away."""

import io
import json
import os
import re
import shutil
import signal
import socket
import ssl
import subprocess
import tempfile
import threading
import time
import unittest
import warnings
from contextlib import ExitStack, suppress
from http.client import HTTPException
from typing import Callable, ClassVar, Optional

from codenav.client.http import request
from codenav.program import Program
from tests.fronts import NOBODY, OWNER, READER, UNLIMITED, USER, Front, fronted, host_of, lacking
from tests.servers import TOP, Relay, program
from tests.test_uploads import DUMP

NO_ROUTE = b'{"fault":"H06","text":"no such route"}'
H04 = {"fault": "H04", "text": "body too large"}
MOST_BYTES = 33_554_432
MOST_LINE = 32_768
SECONDS = 60
REPLY = re.compile(rb"HTTP/1\.1 (\d+)[^\n]*\r\n(?:[^\n]*\r\n)*?Content-Length: (\d+)\r\n\r\n")
HOVER = "/projects/app/hover?uri=file:///a&line=0&character=0"


def demo(name: str) -> bytes:
    with open(os.path.join(TOP, "demo", name), "rb") as file:
        return file.read()


def requests() -> list[tuple[str, str, Optional[bytes]]]:
    """The requests of demo/each_route.http."""
    stream, found = io.BytesIO(demo("each_route.http")), []
    while line := stream.readline():
        method, path, _ = line.decode().split(" ")
        length = -1
        while (name := stream.readline().strip().lower()) != b"":
            length = int(name.partition(b":")[2]) if name.startswith(b"content-l") else length
        found.append((method, path, stream.read(length) if length >= 0 else None))
    return found


def replies() -> list[tuple[int, bytes]]:
    """The status and the body of each of demo/each_route.replies."""
    text, at, found = demo("each_route.replies"), 0, []
    while head := REPLY.match(text, at):
        at = head.end() + int(head[2])
        found.append((int(head[1]), text[head.end() : at]))
    return found


class OfFront:
    """What holds of each front. The classes below run it."""

    class Tests(unittest.TestCase):
        """A front before a server in memory, for all tests of a class."""

        kind: ClassVar[str]
        front: ClassVar[Front]
        stack: ClassVar[ExitStack]

        @classmethod
        def setUpClass(cls) -> None:
            why = lacking(cls.kind)
            if why:
                raise unittest.SkipTest(why)
            cls.stack = ExitStack()
            folder = cls.stack.enter_context(tempfile.TemporaryDirectory())
            url = cls.stack.enter_context(Program(program()).serve()).url
            cls.front = cls.stack.enter_context(fronted(cls.kind, folder, [host_of(url)]))

        @classmethod
        def tearDownClass(cls) -> None:
            cls.stack.close()

        def fresh(
            self,
            servers: list[str],
            limits: tuple[str, str] = UNLIMITED,
            rights: Callable[[str], str] = str,
        ) -> Front:
            """A front of this test alone."""
            folder = self.enterContext(tempfile.TemporaryDirectory())
            front = fronted(self.kind, folder, servers, limits, rights=rights)
            return self.enterContext(front)

        def test_each_route(self) -> None:
            """By way of the front each request has the reply that the server gives."""
            expected = replies()
            self.assertEqual(len(expected), len(requests()))
            for (method, path, body), reply in zip(requests(), expected):
                status, fields, found = self.front.ask(method, path, body)
                self.assertEqual((status, found), reply, path)
                self.assertEqual(fields["Content-Type"], "application/json")

        def test_paths_and_methods(self) -> None:
            """A path goes on as it's written, and what the server refuses it refuses by its own
            words."""
            for method, path, status, code in (
                ("GET", "/projects/%61pp/profile", 400, "D03"),
                ("GET", "/none?a=%20", 404, "H06"),
                ("POST", "/projects", 405, "H07"),
                ("PATCH", "/projects", 405, "H07"),
            ):
                found, fields, body = self.front.ask(method, path)
                self.assertEqual((found, json.loads(body)["fault"]), (status, code), path)
                if code == "H07":
                    self.assertEqual(fields.get("Allow") or fields.get("allow"), "GET")
            self.assertEqual(self.front.ask("HEAD", "/projects")[0::2], (405, b""))

        def test_chunks_and_newer_versions(self) -> None:
            """A body whose length isn't said before, which the server doesn't take, is passed on
            whole; so is what comes from a client that speaks HTTP/2 too."""
            if not shutil.which("curl"):
                self.skipTest("curl isn't installed (Debian's curl)")
            login = ["-u", USER, "--cacert", f"{self.front.folder}/codenav/certificate.pem"]
            chunked = [
                "-H",
                "Transfer-Encoding: chunked",
                "-T",
                os.path.join(TOP, "demo/base.lsif"),
            ]
            for version in "--http1.1", "--http2":
                path = f"{self.front.url}/projects/chunks/lsif?key=k{version[6:7]}"
                words = ["curl", "-s", version, *login, *chunked, path]
                done = subprocess.run(words, capture_output=True, check=True)
                self.assertEqual(done.stdout, b'{"accepted":"lsif","count":11}', version)
            self.assertEqual(self.front.ask("DELETE", "/projects/chunks?key=gone")[0], 200)

        def test_login(self) -> None:
            for login in None, "ci:wrong":
                for method, path in ("PUT", "/projects/p/lsif?key=k"), (
                    "DELETE",
                    "/projects/p?key=k",
                ):
                    status, fields, body = self.front.ask(method, path, b"", login)
                    self.assertEqual((status, json.loads(body)["fault"]), (401, "front"))
                    self.assertIn("Basic", fields["WWW-Authenticate"])
            self.assertEqual(self.front.ask("GET", "/projects", login=None)[0], 200)

        def test_rights(self) -> None:
            """Who may read and write what, by the rights that are installed and one that's of one
            project."""
            own = '"~^alice write app$" yes;\n"~^alice write web-" yes;\n'
            front = self.fresh([self.own_server()], rights=lambda text: text + own)
            body = (DUMP % "one").encode()
            for login, project, status in (
                (None, "app", 401),
                (USER, "app", 200),
                (READER, "app", 403),
                ("reader:wrong", "app", 403),
                (OWNER, "app", 200),
                (OWNER, "app-parts", 200),
                (OWNER, "appendix", 403),
                (OWNER, "web-shop", 200),
                (OWNER, "web", 403),
                ("alice:wrong", "app", 401),
                ("nobody:secret", "app", 403),
                (":secret", "app", 401),
                (" read:secret", "app", 401),
            ):
                path = f"/projects/{project}/lsif?key=k&project=app"
                found = front.ask("PUT", path, body, login)
                self.assertEqual(found[0] == 200 or found[0], status == 200 or status, login)
                path = f"/projects/{project}?key=gone"
                self.assertEqual(front.ask("DELETE", path, login=login)[0], status, login)
                self.assertEqual(front.ask("GET", "/projects", login=login)[0], 200, login)

        def test_a_login_for_readers(self) -> None:
            """Where the first right is taken out, reading needs a login too."""
            front = self.fresh(
                [self.own_server()], rights=lambda text: text.replace('"~^ read " yes;\n', "")
            )
            for login, status in (
                (None, 401),
                (USER, 200),
                (READER, 200),
                ("reader:wrong", 401),
                ("nobody:secret", 401),
            ):
                self.assertEqual(front.ask("GET", "/projects", login=login)[0], status, login)
            self.assertEqual(front.ask("PUT", "/projects/p/lsif?key=k", b"", READER)[0], 403)

        def test_body_limit(self) -> None:
            path = "/projects/p/lsif?key=long"
            for count, status, fault in (MOST_BYTES, 422, "L01"), (MOST_BYTES + 1, 413, "H04"):
                found, _, body = self.front.ask("PUT", path, b"x" * count)
                self.assertEqual((found, json.loads(body)["fault"]), (status, fault))
            self.assertEqual(json.loads(body), H04)

        def test_large_replies(self) -> None:
            """A reply of several megabytes comes as the server gives it, and so does one of every
            size about the front's buffers."""
            server = self.own_server()
            front = self.fresh([server])
            for count in 400, 5_000, 30_000:
                rows = [f"name{number:05}{'x' * 40}\ta.c\t1\n" for number in range(count)]
                body = f"!_TAG_FILE_FORMAT\t2\t//\n!_TAG_FILE_SORTED\t1\t//\n{''.join(rows)}"
                path = f"/projects/large/tags?key=k{count}"
                self.assertEqual(front.ask("PUT", path, body.encode())[0], 200)
                path = f"/names?prefix=name&limit={count}"
                direct = request(f"http://{server}{path}", seconds=20)
                found = front.ask("GET", path, login=None)
                self.assertEqual((found[0], len(found[2])), (200, len(direct.body)))
                self.assertEqual(found[2], direct.body)
            self.assertGreater(len(direct.body), 3_000_000)

        def test_health(self) -> None:
            """It says that the server answers, and nothing of the index, whoever may read that."""
            server = self.own_server()
            body = (DUMP % "own").encode()
            to = f"http://{server}/projects/own/lsif?key=k"
            self.assertEqual(request(to, "PUT", io.BytesIO(body), seconds=SECONDS).status, 200)

            def without_readers(text: str) -> str:
                return text.replace('"~^ read " yes;\n', "")

            every: tuple[Callable[[str], str], ...] = (str, without_readers)
            for rights in every:
                front = self.fresh([server], rights=rights)
                for path in "/health", "/health?a=b", "/%68ealth", "//health":
                    for method, said in ("GET", b'{"health":"answers"}'), ("HEAD", b""):
                        status, fields, found = front.ask(method, path, login=None)
                        self.assertEqual((status, found), (200, said), path)
                        self.assertEqual(fields["Content-Type"], "application/json")

        def test_health_of_a_server_that_does_not_answer(self) -> None:
            """One that refuses, and one that says nothing, is 503."""
            slow = self.enterContext(socket.create_server(("127.0.0.1", 0)))
            refusing = self.enterContext(socket.create_server(("127.0.0.1", 0)))
            reply = b"HTTP/1.1 503 Service Unavailable\r\nContent-Length: 2\r\n\r\n{}"

            def refuse() -> None:
                with suppress(OSError):
                    while True:
                        with refusing.accept()[0] as client:
                            client.recv(65536)
                            client.sendall(reply)

            threading.Thread(target=refuse, daemon=True).start()
            for listener in slow, refusing:
                front = self.fresh([f"127.0.0.1:{listener.getsockname()[1]}"])
                status, _, body = front.ask("GET", "/health", login=None)
                self.assertEqual((status, json.loads(body)["fault"]), (503, "front"))

        def test_log_and_measures(self) -> None:
            self.front.ask("GET", "/names?name=logged")
            # it's logged when the reply is out
            stop, found = time.monotonic() + 10, False
            while not found and time.monotonic() < stop:
                with open(f"{self.front.folder}/access.log", encoding="utf-8") as log:
                    lines = [json.loads(line) for line in log]
                found = ("/names?name=logged", 200) in [
                    (one["uri"], one["status"]) for one in lines
                ]
            self.assertTrue(found)
            name = "codenav_waiting 0" if self.kind == "lua" else "haproxy_server_current_queue"
            self.assertIn(name, self.front.local_answer("/metrics").body.decode())

        def test_errors_of_nginx(self) -> None:
            """What nginx itself refuses is said as JSON too."""
            for method, path, status in (
                ("TRACE", "/projects", 405),
                ("GET", f"/{'x' * 9000}", 431),
                ("POST", "/health", 403),
            ):
                found, fields, body = self.front.ask(method, path)
                self.assertEqual((found, fields["Content-Type"]), (status, "application/json"))
                self.assertIn("fault", json.loads(body), path[:9])

        def test_paths_of_its_own(self) -> None:
            """From outside they're no routes, as any other path is none."""
            for name in "server", "projects", "unread", "any":
                for method in "GET", "DELETE":
                    status, fields, body = self.front.ask(method, f"/-{name}-?key=k")
                    self.assertEqual((status, body), (404, NO_ROUTE), name)
                    self.assertEqual(fields["Content-Type"], "application/json")

        def test_what_is_no_request(self) -> None:
            """It's refused by 400 and JSON, and the log of faults has no line of it."""
            host = b"Host: x\r\n"
            front = self.fresh([self.own_server()])
            texts = [
                b"\0\r\n\r\n",
                b"GET / and more\r\n\r\n",
                b"CONNECT a:443 HTTP/1.1\r\n%b\r\n" % host,
                b"OPTIONS * HTTP/1.1\r\n%b\r\n" % host,
                b"GET /projects HTTP/2.0\r\n%b\r\n" % host,
                b"GET /projects HTTP/1.1\r\n\r\n",
                # as much of a line as a buffer of nginx has, and no more, so that it reads all
                b"GET /".ljust(MOST_LINE, b"x"),
                b"GET /projects HTTP/1.1\r\n%b" % host + b"X: ".ljust(MOST_LINE, b"x"),
                b"PUT /projects HTTP/1.1\r\n%bTransfer-Encoding: gzip\r\n\r\n" % host,
                b"PUT /projects HTTP/1.1\r\n%bContent-Length: -1\r\n\r\n" % host,
            ]
            for target in b"x/projects/x?key=a", b"/%zz", b"/%00", b"/../x":
                texts.append(b"DELETE %b HTTP/1.1\r\n%b\r\n" % (target, host))
            for text in texts:
                head, _, body = self.told(front, text).partition(b"\r\n\r\n")
                self.assertEqual(json.loads(body)["fault"], "front", text[:40])
                self.assertIn(b"HTTP/1.1 400 ", head)
                self.assertIn(b"\r\nContent-Type: application/json\r\n", head)
            with open(f"{front.folder}/error.log", encoding="utf-8", errors="replace") as log:
                self.assertEqual([line for line in log if "[error]" in line], [])

        def told(self, front: Front, text: bytes) -> bytes:
            """All that a front says to so many bytes, before it closes."""
            reply = b""
            with socket.create_connection(("127.0.0.1", front.port), SECONDS) as peer:
                with front.context().wrap_socket(peer, server_hostname="127.0.0.1") as own:
                    own.sendall(text)
                    while part := own.recv(65536):
                        reply += part
            return reply

        def test_rate(self) -> None:
            """What's over the limit is refused, also of who may not do it, and isn't logged."""
            for login in None, READER:
                front = self.fresh([NOBODY], ("rate=1r/m", "burst=1"))
                front.ask("GET", "/health")
                found = [front.ask("PUT", "/-", b"", login) for _ in range(9)]
                self.assertEqual(found[-1][0], 429)
                self.assertEqual(json.loads(found[-1][2])["text"], "too many requests")
                self.assertEqual(found[-1][1]["Retry-After"], "1")
                self.until(lambda: len(self.logged(front)) > 2)
                refused = 403 if login else 401
                said = [line["status"] for line in self.logged(front)]
                self.assertEqual((said[0], set(said[1:])), (503, {refused}))

        def until(self, is_so: Callable[[], bool]) -> None:
            """Waits for something."""
            stop = time.monotonic() + SECONDS
            while not is_so():
                self.assertLess(time.monotonic(), stop)
                time.sleep(0.05)

        def logged(self, front: Front) -> list[dict[str, object]]:
            """The lines of the front's log."""
            with open(f"{front.folder}/access.log", encoding="utf-8") as log:
                return [json.loads(line) for line in log]

        def test_where_the_time_went(self) -> None:
            """The log says for how long a request waited for the server, and how long it took."""
            slow = self.enterContext(socket.create_server(("127.0.0.1", 0)))

            def serve() -> None:
                for _ in range(2):
                    client = slow.accept()[0]
                    with client, suppress(OSError):
                        client.recv(65536)
                        time.sleep(1)
                        client.sendall(b"HTTP/1.1 200 OK\r\nContent-Length: 2\r\n\r\n{}")

            threading.Thread(target=serve, daemon=True).start()
            front = self.fresh([f"127.0.0.1:{slow.getsockname()[1]}"])
            self.assertEqual(front.ask("GET", "/projects/own/hover")[2], b"{}")
            self.until(lambda: bool(self.logged(front)))
            (line,) = self.logged(front)
            self.assertEqual((line["kind"], line["project"]), ("hover", "own"))
            queue, server = (int(str(line[name])) for name in ("queue_ms", "server_ms"))
            self.assertGreaterEqual(server, 900)
            self.assertLessEqual(queue + server, float(str(line["seconds"])) * 1000 + 50)

        def test_tls_and_ipv6(self) -> None:
            """TLS 1.2 with forward secrecy, and 1.3; by IPv6 too."""
            for version, ciphers, is_taken in (
                (ssl.TLSVersion.TLSv1_3, "", True),
                (ssl.TLSVersion.TLSv1_2, "ECDHE+AESGCM", True),
                (ssl.TLSVersion.TLSv1_2, "AES256-GCM-SHA384:AES256-SHA", False),
                (ssl.TLSVersion.TLSv1_1, "ALL:@SECLEVEL=0", False),
            ):
                context = self.front.context()
                with warnings.catch_warnings(action="ignore"):
                    context.minimum_version = context.maximum_version = version
                if ciphers:
                    context.set_ciphers(ciphers)
                for host in "127.0.0.1", "::1":
                    with socket.create_connection((host, self.front.port), SECONDS) as peer:
                        try:
                            with context.wrap_socket(peer, server_hostname="127.0.0.1") as own:
                                found = own.version() is not None
                        except (ssl.SSLError, ConnectionError):
                            found = False
                    self.assertEqual(found, is_taken, (version, ciphers, host))

        def test_lost_replies(self) -> None:
            """A server that acts, and is gone before it answers, is asked again; the upload acts
            once."""
            url = f"http://{self.own_server()}"
            with Relay(url, lost=2) as relay:
                front = self.fresh([host_of(relay.url)])
                relay.lost += relay.taken
                body = (DUMP % "one").encode()
                reply = front.ask("PUT", "/projects/app/lsif?key=k", body)
                self.assertEqual((reply[0], reply[2]), (200, b'{"accepted":"lsif","count":6}'))
                self.assertEqual(front.ask("GET", HOVER)[2], b'{"contents":"one"}')

        def own_server(self) -> str:
            return host_of(self.enterContext(Program(program()).serve()).url)

        def test_away(self) -> None:
            """While the server is away, requests wait, and /health says so."""
            # taken, and refused by the system, so that no other server gets it meanwhile
            held = socket.socket()
            held.bind(("127.0.0.1", 0))
            port = held.getsockname()[1]
            front = self.fresh([f"127.0.0.1:{port}"])
            found: list[tuple[int, bytes]] = []

            def ask() -> None:
                found.append(front.ask("GET", "/projects")[0::2])

            waiting = threading.Thread(target=ask)
            waiting.start()
            status, _, body = front.ask("GET", "/health")
            self.assertEqual((status, json.loads(body)["fault"]), (503, "front"))
            self.assertEqual(found, [])
            held.close()
            self.enterContext(Program(program()).serve(port=port))
            waiting.join(20)
            self.assertEqual(found, [(200, b'{"projects":[]}')])


class Lua(OfFront.Tests):
    kind = "lua"

    def asked(self, front: Front, command: str) -> dict[str, object]:
        """What the front answers to a command."""
        answer = front.local_answer(command)
        self.assertEqual(answer.status, 200)
        found = json.loads(answer.body)
        return {name: found[name] for name in ("held", "side", "writes")}

    def test_writes_held(self) -> None:
        """Held writes wait and reads go on; then both go to the other side."""
        places = [self.own_server() for _ in range(2)]
        front = self.fresh(places)
        free = {"held": False, "side": "a", "writes": 0}
        self.assertEqual(self.asked(front, "/state"), free)
        self.assertEqual(self.asked(front, "/hold?seconds=30"), {**free, "held": True})
        found: list[Optional[int]] = []
        body = (DUMP % "two").encode()

        def put() -> None:
            found.append(front.ask("PUT", "/projects/app/lsif?key=k", body)[0])

        writing = threading.Thread(target=put)
        writing.start()
        time.sleep(0.3)
        self.assertEqual((front.ask("GET", HOVER)[0], found), (404, []))
        self.assertEqual(self.asked(front, "/use?side=b")["side"], "b")
        self.assertEqual(self.asked(front, "/release"), {**free, "side": "b"})
        writing.join(20)
        self.assertEqual((found, front.ask("GET", HOVER)[0]), ([200], 200))
        self.asked(front, "/use?side=a")
        self.assertEqual(front.ask("GET", HOVER)[0], 404)
        # it turns only where no write came since they were held
        self.assertEqual(front.local_answer("/turn?side=b").status, 409)
        self.assertEqual(front.ask("GET", HOVER)[0], 404)
        self.asked(front, "/hold?seconds=30")
        self.assertEqual(self.asked(front, "/turn?side=b"), {**free, "side": "b"})
        self.assertEqual(front.ask("GET", HOVER)[0], 200)
        for path in "/use?side=c", "/turn?side=c", "/use", "/none":
            self.assertEqual(front.local_answer(path).status, 404)

    def test_a_cut_reply(self) -> None:
        """A large reply that's cut is asked for again, and the client gets the whole one."""
        body = b'"' + bytes(range(32, 127)).replace(b'"', b"") * 30_000 + b'"'
        head = b"HTTP/1.1 200 OK\r\nConnection: close\r\nContent-Type: application/json\r\n"
        reply = b"%bContent-Length: %d\r\n\r\n%b" % (head, len(body), body)
        listener = self.enterContext(socket.create_server(("127.0.0.1", 0)))

        def serve() -> None:
            for sent in reply[:1_500_000], reply:
                client = listener.accept()[0]
                with client, suppress(OSError):
                    client.recv(65536)
                    client.sendall(sent)

        threading.Thread(target=serve, daemon=True).start()
        front = self.fresh([f"127.0.0.1:{listener.getsockname()[1]}"])
        status, _, found = front.ask("GET", "/projects")
        self.assertEqual((status, len(found)), (200, len(body)))
        self.assertEqual(found, body)

    def test_this_machine(self) -> None:
        """Who asks on this machine is asked for no login, and answered by the side in use."""
        front = self.fresh([self.own_server() for _ in range(2)])
        at, body = f"http://127.0.0.1:{front.asked}", io.BytesIO((DUMP % "own").encode())
        self.asked(front, "/use?side=b")
        answer = request(f"{at}/projects/app/lsif?key=k", "PUT", body, seconds=20)
        self.assertEqual(answer.status, 200)
        self.assertEqual(request(f"{at}{HOVER}", seconds=20).body, b'{"contents":"own"}')
        self.asked(front, "/use?side=a")
        self.assertEqual(request(f"{at}{HOVER}", seconds=20).status, 404)

    def test_a_killed_worker(self) -> None:
        """The writes of a worker of nginx that is killed aren't under way any more."""
        listener = self.enterContext(socket.create_server(("127.0.0.1", 0)))
        front = self.fresh([f"127.0.0.1:{listener.getsockname()[1]}"])

        def put() -> None:
            with suppress(OSError, HTTPException):
                front.ask("PUT", "/projects/app/lsif?key=k", b"x")

        writing = threading.Thread(target=put)
        writing.start()
        self.until(lambda: self.asked(front, "/state")["writes"] == 1)
        with open(f"{front.folder}/nginx.pid", encoding="utf-8") as file:
            master = file.read().strip()
        with open(f"/proc/{master}/task/{master}/children", encoding="utf-8") as file:
            for worker in file.read().split():
                os.kill(int(worker), signal.SIGKILL)
        writing.join(20)
        self.until(lambda: front.local_answer("/state").status == 200)
        self.assertEqual(self.asked(front, "/state")["writes"], 0)

    def test_what_is_logged(self) -> None:
        """While the server is away, as Debian's nginx logs, a few lines say so, however many wait;
        of a refused upload it's known by whom it came, why it was refused, and how long the server
        took."""
        held = socket.socket()
        held.bind(("127.0.0.1", 0))
        port = held.getsockname()[1]
        front = self.fresh([f"127.0.0.1:{port}"])
        waiting = [threading.Thread(target=front.ask, args=("GET", "/projects")) for _ in range(20)]
        for one in waiting:
            one.start()
        time.sleep(4)
        held.close()
        with Program(program()).serve(port=port):
            for one in waiting:
                one.join(20)
            front.ask("PUT", "/projects/app/lsif?key=k", b"x")
        with open(f"{front.folder}/error.log", encoding="utf-8") as log:
            lines = log.read()
        self.assertLessEqual(lines.count("connect() failed"), 60)
        self.assertIn("codenav: no whole reply, so sent again: /projects", lines)
        self.until(lambda: any(line["method"] == "PUT" for line in self.logged(front)))
        line = self.logged(front)[-1]
        wanted = {"user": "ci", "kind": "lsif", "project": "app", "status": 422, "fault": "L02"}
        self.assertEqual({name: line[name] for name in wanted}, wanted)

    def test_measures(self) -> None:
        """Requests by what they ask for and by status, uploads by the fault they were refused for,
        seconds, and what the service says of itself."""
        front = self.fresh([self.own_server()])
        with open(f"{front.folder}/codenav.prom", "w", encoding="utf-8") as out:
            out.write("codenav_turns_total 7\n")
        for method, path, body in (
            ("PUT", "/projects/app/lsif?key=k", b"x"),
            ("PUT", "/projects/app/lsif?key=l", (DUMP % "one").encode()),
            ("GET", HOVER, None),
            ("GET", HOVER, None),
            ("GET", "/names?name=a", None),
            ("DELETE", "/projects/app?key=k", None),
            ("GET", "/projects", None),
            ("GET", "/none", None),
        ):
            front.ask(method, path, body)
        wanted = {
            'codenav_requests_total{method="PUT",kind="lsif",status="422"}': 1,
            'codenav_requests_total{method="PUT",kind="lsif",status="200"}': 1,
            'codenav_faults_total{kind="lsif",fault="L02"}': 1,
            'codenav_requests_total{method="GET",kind="hover",status="200"}': 2,
            'codenav_requests_total{method="GET",kind="names",status="200"}': 1,
            'codenav_requests_total{method="DELETE",kind="project",status="200"}': 1,
            'codenav_requests_total{method="GET",kind="projects",status="200"}': 1,
            'codenav_requests_total{method="GET",kind="other",status="404"}': 1,
            'codenav_faults_total{kind="other",fault="H06"}': 1,
            "codenav_turns_total": 7,
        }
        self.until(lambda: wanted.items() <= self.measured(front).items())
        taken = self.measured(front)
        seconds = [
            taken[f"codenav_{name}_seconds_total"] for name in ("server", "queue", "request")
        ]
        self.assertGreater(seconds[0], 0)
        self.assertLessEqual(seconds[0] + seconds[1], seconds[2] + 0.1)

    def measured(self, front: Front) -> dict[str, float]:
        """What the front says of itself, as Prometheus reads it."""
        lines = front.local_answer("/metrics").body.decode().splitlines()
        return {name: float(value) for name, _, value in (line.rpartition(" ") for line in lines)}

    def test_several_servers(self) -> None:
        """Each project is on one of the servers, and found there by its path and by its name; the
        parts of a set are on one."""
        servers = [self.own_server() for _ in range(3)]
        front = self.fresh([*servers, NOBODY])
        names = [f"project_{number}" for number in range(8)]
        names += [f"set-{digit * 16}" for digit in "0123"] + ["set-parts"]
        for name in names:
            body = f"!_TAG_FILE_FORMAT\t2\t//\n!_TAG_FILE_SORTED\t1\t//\n{name}\ta.c\t1\n".encode()
            self.assertEqual(front.ask("PUT", f"/projects/{name}/tags?key=k", body)[0], 200)
            found = json.loads(front.ask("GET", f"/names?name={name}&project={name}")[2])
            self.assertEqual([tag["project"] for tag in found["tags"]], [name])
        held = [
            {project["name"] for project in json.loads(body)["projects"]}
            for body in (request(f"http://{server}/projects").body for server in servers)
        ]
        self.assertEqual(sorted(name for one in held for name in one), sorted(names))
        self.assertGreater(sum(1 for one in held if one), 1)
        self.assertEqual(sum(1 for one in held if any("set-" in name for name in one)), 1)

    def test_a_hold_ends(self) -> None:
        """Who held writes and went away doesn't hold them for ever."""
        front, body = self.fresh([self.own_server()]), (DUMP % "three").encode()
        begin = time.monotonic()
        self.asked(front, "/hold?seconds=0.5")
        self.assertEqual(front.ask("PUT", "/projects/app/lsif?key=k", body)[0], 200)
        self.assertGreater(time.monotonic() - begin, 0.4)


class HaProxy(OfFront.Tests):
    kind = "haproxy"


if __name__ == "__main__":
    unittest.main()
