"""Tests of requests over real sockets: what comes in place of a reply, logins, proxies and TLS.
Each peer is a thread that acts out one row."""

import base64
import io
import os
import shutil
import socket
import ssl
import subprocess
import tempfile
import threading
import time
import unittest
from contextlib import contextmanager
from typing import Callable, Iterator, Optional
from unittest import mock

from codenav.client import login
from codenav.client.http import found_in, refusal_of, request, request_again
from codenav.faults import BadCall, NoReply

Act = Callable[[socket.socket], object]
FOUND = b'HTTP/1.1 200 OK\r\nContent-Length: 12\r\n\r\n{"places":1}'


def head_of(peer: socket.socket) -> bytes:
    """What comes up to the end of a head."""
    text = b""
    while b"\r\n\r\n" not in text and (piece := peer.recv(4096)):
        text += piece
    return text


def sends(*pieces: bytes, wait: float = 0.0) -> Act:
    """Reads a head, and sends pieces with waits between them."""

    def act(peer: socket.socket) -> None:
        head_of(peer)
        for piece in pieces:
            peer.sendall(piece)
            time.sleep(wait)

    return act


def status(line: str, *fields: str, body: str = "") -> Act:
    """Answers with a status, fields and a body."""
    head = "\r\n".join([f"HTTP/1.1 {line}", *fields, f"Content-Length: {len(body)}", "", body])
    return sends(head.encode())


def reset(peer: socket.socket) -> None:
    """Cuts the connection so that the other side sees a reset."""
    head_of(peer)
    peer.setsockopt(socket.SOL_SOCKET, socket.SO_LINGER, b"\1\0\0\0\0\0\0\0")


class Peer:
    """Takes connections, one after the other, and plays for each the next act; it keeps the heads
    that it was sent."""

    def __init__(self, *acts: Act, tls: Optional[ssl.SSLContext] = None) -> None:
        self.acts, self.tls = acts, tls
        self.heads: list[str] = []
        self.listener = socket.create_server(("127.0.0.1", 0))
        self.listener.settimeout(10)
        self.port: int = self.listener.getsockname()[1]
        self.thread = threading.Thread(target=self.play, daemon=True)
        self.thread.start()

    def play(self) -> None:
        """Plays all acts."""
        for act in self.acts:
            try:
                with self.listener.accept()[0] as plain:
                    plain.settimeout(10)
                    with self.tls.wrap_socket(
                        plain, server_side=True
                    ) if self.tls else plain as peer:
                        self.heads.append(
                            peer.recv(4096, socket.MSG_PEEK).decode("latin-1")
                            if not self.tls
                            else ""
                        )
                        act(peer)
            except OSError:
                pass

    def __enter__(self) -> "Peer":
        return self

    def __exit__(self, *_: object) -> None:
        self.thread.join(10)
        self.listener.close()


@contextmanager
def environment(**variables: str) -> Iterator[None]:
    """An environment with these variables, and without those that a login or a proxy is taken
    from."""
    kept = {
        name: value
        for name, value in os.environ.items()
        if not name.startswith("CODENAV_") and not name.lower().endswith("_proxy")
    }
    with mock.patch.dict(os.environ, {**kept, "NETRC": "/no/netrc", **variables}, clear=True):
        yield


class Requests(unittest.TestCase):
    def test_what_comes_in_place_of_a_reply(self) -> None:
        """Why there's no answer, and whether it's worth asking again."""
        html = "<html><h1>It works!</h1></html>"
        for name, act, said, may_come in (
            ("closed", head_of, "the connection was cut before all of the answer came", True),
            ("reset", reset, "the connection was cut before all of the answer came", True),
            (
                "half a body",
                sends(FOUND[:-3]),
                "the connection was cut before all of the answer came",
                True,
            ),
            ("half a head", sends(FOUND[:20]), "not a reply of codenav, status 200", False),
            (
                "another protocol",
                sends(b"SSH-2.0-OpenSSH_9.2\r\n"),
                "it doesn't speak HTTP/1.1: 'SSH-2.0-OpenSSH_9.2\\r\\n'",
                False,
            ),
            ("drops", sends(*[b"x"] * 40, wait=0.05), "no answer within 1 seconds", True),
            (
                "an endless body",
                sends(b"HTTP/1.1 200 OK\r\n\r\n", *[b"x" * 65536] * 40),
                "a reply of over 1000000 bytes",
                False,
            ),
            ("a page", status("200 OK", body=html), "not a reply of codenav, status 200", False),
            (
                "another JSON",
                status("200 OK", body="[1]"),
                "not a reply of codenav, status 200",
                False,
            ),
            (
                "nested JSON",
                status("200 OK", body="[" * 100_000),
                "not a reply of codenav, status 200",
                False,
            ),
            (
                "not found",
                status("404 Not Found", body=html),
                "not a reply of codenav, status 404",
                False,
            ),
            (
                "moved",
                status("301 Moved", "Location: https://h/"),
                "not a reply of codenav, status 301, which leads to https://h/",
                False,
            ),
            (
                "login",
                status("401 Unauthorized", body=html),
                "not a reply of codenav, status 401, a login is asked for: CODENAV_TOKEN, CODENAV_USER or ~/.netrc has it",
                False,
            ),
            (
                "too large",
                status("413 Too Large", body=html),
                "not a reply of codenav, status 413, the proxy takes no body of this size: codenav takes 33554432 bytes",
                False,
            ),
            (
                "no upstream",
                status("502 Bad Gateway", body=html),
                "not a reply of codenav, status 502, the proxy has no answer of codenav",
                False,
            ),
            (
                "no service",
                status("503 Unavailable", body=html),
                "not a reply of codenav, status 503, the proxy has no answer of codenav",
                False,
            ),
        ):
            with self.subTest(name), environment(), Peer(act) as peer:
                server = f"http://127.0.0.1:{peer.port}"
                answer = request(f"{server}/projects", seconds=1, most=1_000_000)
                self.assertEqual(
                    (refusal_of(answer), answer.may_come), (f"{server}: {said}", may_come)
                )
                self.assertRaises(NoReply, found_in, answer, "places")

    def test_servers_that_are_not_there(self) -> None:
        with environment():
            refused = request("http://127.0.0.1:1/projects")
            self.assertEqual((refused.fault, refused.may_come), ("Connection refused", True))
            unknown = request("http://nobody.invalid/projects")
            self.assertEqual((unknown.status, unknown.may_come), (0, False))

    def test_a_reply_before_the_body_is_sent(self) -> None:
        body = io.BytesIO(b"x" * 20_000_000)
        refusal = b"HTTP/1.1 413 Too Large\r\nContent-Length: 2\r\n\r\n{}"
        with environment(), Peer(sends(refusal)) as peer:
            answer = request(f"http://127.0.0.1:{peer.port}/x", "PUT", body)
        self.assertEqual((answer.status, answer.body), (413, b"{}"))

    def test_the_head(self) -> None:
        with environment(), Peer(sends(FOUND)) as peer:
            answer = request(
                f"http://127.0.0.1:{peer.port}/a/b?c=d&e=%20", "PUT", io.BytesIO(b"abc")
            )
        self.assertEqual(found_in(answer, "places"), 1)
        lines = peer.heads[0].split("\r\n")
        self.assertEqual(lines[0], "PUT /a/b?c=d&e=%20 HTTP/1.1")
        self.assertIn(f"Host: 127.0.0.1:{peer.port}", lines)
        self.assertIn("Content-Length: 3", lines)

    def test_sending_again(self) -> None:
        """The body is sent again from its beginning."""
        with environment(), Peer(reset, head_of, sends(FOUND)) as peer, mock.patch("time.sleep"):
            answer = request_again(
                f"http://127.0.0.1:{peer.port}/", "PUT", io.BytesIO(b"abc"), True
            )
        self.assertEqual(
            (answer.status, [head.split("\r\n")[0] for head in peer.heads]),
            (200, ["PUT / HTTP/1.1"] * 3),
        )


NETRC = "machine 127.0.0.1 login n password p\n"
DEFAULT = "machine codenav.invalid login no password no\ndefault login n password p\n"
BASIC, BEARER = "Basic " + base64.b64encode(b"n:p").decode(), "Bearer t"
HERE, THERE = "http://127.0.0.1:{0}", "http://codenav.invalid"
TOKEN, USER = {"CODENAV_TOKEN": "t\n"}, {"CODENAV_USER": "n:p"}
LOGINS: list[tuple[str, str, str, dict[str, str], Optional[str]]] = [
    # the server that's asked, one that the command line names, a netrc file, and the environment
    (HERE, HERE, "", {}, None),
    (HERE, HERE, "", {**TOKEN, **USER}, BEARER),
    (HERE, "HTTP://127.0.0.1:{0}/", "", TOKEN, BEARER),
    (HERE, HERE, "", USER, BASIC),
    (HERE, THERE, "", TOKEN, None),
    (HERE, "https://127.0.0.1:{0}", "", TOKEN, None),
    (HERE, "http://127.0.0.1", "", USER, None),
    (HERE, "", "", TOKEN, None),
    (HERE, "", "", USER, None),
    (HERE, "", "", {"CODENAV_URL": HERE, **TOKEN}, BEARER),
    (HERE, "", "", {"CODENAV_URL": HERE + "/", **USER}, BASIC),
    (HERE, "", "", {"CODENAV_URL": THERE, **TOKEN}, None),
    (HERE, HERE, "", {"CODENAV_URL": THERE, **TOKEN}, None),
    (HERE, "", "", {"CODENAV_URL": "https://127.0.0.1:{0}", **USER}, None),
    (HERE, "", NETRC, {}, BASIC),
    (HERE, HERE, NETRC, TOKEN, BEARER),
    (HERE, "", NETRC, TOKEN, BASIC),
    (HERE, HERE, DEFAULT, {}, BASIC),
    (HERE, "", DEFAULT, {}, None),
    (HERE, "", DEFAULT, {"CODENAV_URL": HERE}, BASIC),
    (HERE, HERE, DEFAULT, {"CODENAV_URL": THERE}, None),
    ("http://n:p@127.0.0.1:{0}", "", "", TOKEN, BASIC),
]


class Logins(unittest.TestCase):
    def sent(self, at: str, by_call: str, netrc: str, variables: dict[str, str]) -> Optional[str]:
        """The login that a request carries."""
        with Peer(sends(FOUND)) as peer, tempfile.NamedTemporaryFile("w") as file:
            file.write(netrc)
            file.flush()
            values = {name: value.format(peer.port) for name, value in variables.items()}
            with environment(NETRC=file.name, **values), mock.patch.object(login, "NAMED", set()):
                login.named(by_call.format(peer.port))
                request(f"{at.format(peer.port)}/")
            fields = [line for line in peer.heads[0].split("\r\n") if line.startswith("Auth")]
            self.assertIn(f"Host: 127.0.0.1:{peer.port}", peer.heads[0].split("\r\n"))
        return fields[0].removeprefix("Authorization: ") if fields else None

    def test_where_logins_go(self) -> None:
        for *row, wanted in LOGINS:
            with self.subTest(row):
                self.assertEqual(self.sent(*row), wanted)  # type: ignore[arg-type]

    def test_a_server_that_leads_elsewhere(self) -> None:
        """Nothing is sent there, whatever login the first server was sent."""
        for code in "301 Moved", "302 Found", "303 See Other", "307 Again", "308 Moved":
            with self.subTest(code), Peer() as other, environment(CODENAV_TOKEN="t"):
                to = f"http://127.0.0.1:{other.port}/"
                with Peer(status(code, f"Location: {to}")) as peer:
                    url = f"http://127.0.0.1:{peer.port}"
                    answer = request(login.named(url) + "/projects")
                self.assertIn("Authorization: Bearer t", peer.heads[0])
                self.assertEqual((answer.leads_to, answer.status), (to, int(code[:3])))
                other.listener.setblocking(False)
                self.assertRaises(BlockingIOError, other.listener.accept)

    def test_a_login_that_is_not_taken(self) -> None:
        with Peer(status("401 Unauthorized")) as peer, environment(CODENAV_TOKEN="t"):
            server = f"http://127.0.0.1:{peer.port}"
            said = refusal_of(request(login.named(server) + "/projects"))
        self.assertEqual(
            said,
            f"{server}: not a reply of codenav, status 401, the login that was sent isn't taken",
        )

    def test_logins_that_are_none(self) -> None:
        with tempfile.NamedTemporaryFile("w") as netrc:
            netrc.write("machine h nothing\n")
            netrc.flush()
            rows: list[tuple[dict[str, str], str]] = [
                ({"CODENAV_USER": "u"}, "CODENAV_USER is a name and a password, as name:password"),
                (
                    {"CODENAV_TOKEN": "a\r\nX: y"},
                    "CODENAV_TOKEN has other characters than those of ASCII",
                ),
                ({"NETRC": netrc.name}, netrc.name),
                (
                    {"CODENAV_TOKEN": "t", "CODENAV_URL": "http://[::1"},
                    "CODENAV_URL: not the address of a server",
                ),
            ]
            for variables, said in rows:
                with self.subTest(said), environment(**variables), self.assertRaises(
                    BadCall
                ) as fault:
                    request(login.named("http://127.0.0.1:1/"))
                self.assertTrue(str(fault.exception).startswith(said))


class Ways(unittest.TestCase):
    def test_proxies(self) -> None:
        """A server elsewhere is asked by way of the proxy, one that no_proxy names isn't, and one
        on this machine never is."""
        with Peer(sends(FOUND)) as peer, environment(
            http_proxy=f"http://u:p@127.0.0.1:{peer.port}"
        ):
            answer = request("http://codenav.invalid/projects?a=b")
        lines = peer.heads[0].split("\r\n")
        self.assertEqual(
            (answer.status, lines[0]), (200, "GET http://codenav.invalid/projects?a=b HTTP/1.1")
        )
        self.assertIn("Host: codenav.invalid", lines)
        self.assertIn("Proxy-Authorization: Basic dTpw", lines)
        with environment(http_proxy="http://127.0.0.1:1", no_proxy="codenav.invalid"):
            self.assertNotEqual(request("http://codenav.invalid/").fault, "Connection refused")
        with Peer(sends(FOUND)) as peer, environment(http_proxy="http://127.0.0.1:1"):
            self.assertEqual(request(f"http://localhost:{peer.port}/").status, 200)
        for proxy in "socks5://h:1", "http://[::1", "http://h:x", "http://a..b":
            with environment(http_proxy=proxy):
                self.assertRaises(BadCall, request, "http://codenav.invalid/")
        with Peer(status("407 Proxy Authentication Required")) as peer, environment(
            https_proxy=f"127.0.0.1:{peer.port}"
        ):
            answer = request("https://codenav.invalid/")
        self.assertEqual(peer.heads[0].split("\r\n")[0], "CONNECT codenav.invalid:443 HTTP/1.0")
        self.assertEqual(
            (answer.fault, answer.may_come),
            ("Tunnel connection failed: 407 Proxy Authentication Required", False),
        )

    @unittest.skipUnless(shutil.which("openssl"), "openssl isn't installed: TLS isn't tried")
    def test_tls(self) -> None:
        with tempfile.TemporaryDirectory() as folder:
            key, certificate = os.path.join(folder, "key"), os.path.join(folder, "certificate")
            made = "openssl req -x509 -newkey rsa:2048 -nodes -days 1 -subj /CN=localhost".split()
            subprocess.run(
                [
                    *made,
                    "-addext",
                    "subjectAltName=DNS:localhost",
                    "-keyout",
                    key,
                    "-out",
                    certificate,
                ],
                check=True,
                capture_output=True,
            )
            context = ssl.SSLContext(ssl.PROTOCOL_TLS_SERVER)
            context.load_cert_chain(certificate, key)
            with Peer(sends(FOUND), tls=context) as peer, environment(SSL_CERT_FILE=certificate):
                self.assertEqual(request(f"https://localhost:{peer.port}/").status, 200)
            with Peer(sends(FOUND), tls=context) as peer, environment():
                answer = request(f"https://localhost:{peer.port}/")
                self.assertEqual(
                    (answer.fault, answer.may_come),
                    ("its certificate isn't trusted: self-signed certificate", False),
                )
            with Peer(
                sends(b"HTTP/1.1 200 OK\r\n\r\n", *[b"x"] * 40, wait=0.05), tls=context
            ) as peer:
                with environment(SSL_CERT_FILE=certificate):
                    answer = request(f"https://localhost:{peer.port}/", seconds=1)
                self.assertEqual(
                    (answer.fault, answer.may_come), ("no answer within 1 seconds", True)
                )
            with Peer(lambda peer: peer.sendall(FOUND)) as peer, environment():
                self.assertEqual(
                    request(f"https://localhost:{peer.port}/").fault, "no TLS: WRONG_VERSION_NUMBER"
                )


if __name__ == "__main__":
    unittest.main()
