"""Requests to the server, by `http.client`: a connection each, since the server closes it after its
reply, and what a proxy in front of the server asks for: TLS, a login, and the way there by other
proxies.
"""

import json
import os
import socket
import ssl
import threading
import time
from contextlib import contextmanager, suppress
from http.client import HTTPConnection, HTTPException, HTTPResponse, HTTPSConnection, IncompleteRead
from typing import IO, Any, Callable, Iterator, NamedTuple, Optional
from urllib.parse import SplitResult, unquote, urlencode, urlsplit

from codenav.client.login import basic, is_kept_back, login_of, place_of
from codenav.faults import BadCall, NoReply
from codenav.names import server_of

WAITS = (0.2, 0.4, 0.8, 1.6, 3.2)
AGAIN = (429, 502, 503, 504)
SECONDS = 300
MOST_BYTES = 1 << 30
BLOCK = 1 << 16
LOCAL = ("localhost", "127.0.0.1", "::1")


class TooLong(HTTPException):
    """A reply with more bytes than are read."""


class Answer(NamedTuple):
    """What came of a request: the server, without a login, and its reply; without a reply the
    status is 0, and `fault` says why.

    `may_come`: whether a reply may come where the request is sent again; `has_login`: whether a
    login was sent.
    """

    server: str
    status: int
    body: bytes = b""
    leads_to: str = ""
    fault: str = ""
    may_come: bool = False
    method: str = "GET"
    has_login: bool = False


def address(server: str, path: str, parameters: dict[str, Any]) -> str:
    """The address of a request."""
    return f"{server}{path}" + (f"?{urlencode(parameters)}" if parameters else "")


def proxy_of(parts: SplitResult) -> Optional[SplitResult]:
    """The proxy on the way to a server, by the variables that the standard library honours; a
    server on this machine has none."""
    if parts.hostname in LOCAL or not any(name.lower().endswith("_proxy") for name in os.environ):
        return None
    from urllib.request import getproxies, proxy_bypass  # here, since few calls need it

    proxy = getproxies().get(parts.scheme)
    if not proxy or proxy_bypass(parts.netloc.rpartition("@")[2]):
        return None
    with suppress(BadCall):
        found = urlsplit(server_of(proxy if "://" in proxy else f"http://{proxy}"))
        if found.scheme == "http":
            return found
    raise BadCall(f"{parts.scheme}_proxy isn't the address of a proxy, as http://proxy:3128")


def connection_to(parts: SplitResult, seconds: float) -> tuple[HTTPConnection, dict[str, str], str]:
    """A connection to a server, which isn't open yet, with the fields and the beginning of the
    target of a request to it."""
    login, proxy = login_of(parts), proxy_of(parts)
    fields = {"Authorization": login} if login else {}
    kind = HTTPSConnection if parts.scheme == "https" else HTTPConnection
    if proxy is None:
        return kind(parts.hostname or "", parts.port, timeout=seconds), fields, ""
    own = {}
    if proxy.username is not None:
        own["Proxy-Authorization"] = basic(
            f"{unquote(proxy.username)}:{unquote(proxy.password or '')}"
        )
    connection = kind(proxy.hostname or "", proxy.port or 80, timeout=seconds)
    if parts.scheme == "https":
        connection.set_tunnel(parts.hostname or "", parts.port or 443, own)
        return connection, fields, ""
    return connection, {**fields, **own}, place_of(parts)


@contextmanager
def ended_after(connection: HTTPConnection, seconds: float) -> Iterator[threading.Event]:
    """An open connection that is ended after so many seconds, however much comes meanwhile; the
    event says that it was."""
    late, opened = threading.Event(), connection.sock

    def end() -> None:
        late.set()
        with suppress(OSError):
            # That of plain sockets, since an SSLSocket's own takes away the TLS while another
            # thread reads.
            socket.socket.shutdown(opened, socket.SHUT_RDWR)

    timer = threading.Timer(seconds, end)
    timer.daemon = True
    timer.start()
    try:
        yield late
    finally:
        timer.cancel()


def exchange(
    connection: HTTPConnection,
    method: str,
    target: str,
    fields: dict[str, str],
    body: Optional[IO[bytes]],
) -> HTTPResponse:
    """Sends a request and answers the reply, whose body hasn't been read yet. A reply that comes
    before the body is all sent counts too."""
    if body is not None:
        fields = {**fields, "Content-Length": str(body.seek(0, os.SEEK_END))}
        body.seek(0)
    try:
        connection.request(method, target, body, fields)
    except (BrokenPipeError, ConnectionResetError, ssl.SSLEOFError, ssl.SSLZeroReturnError):
        if body is None:
            raise
    return connection.getresponse()


def body_of(reply: HTTPResponse, most: int) -> bytes:
    """The body of a reply, of at most so many bytes."""
    pieces, count = [], 0
    while piece := reply.read(BLOCK):
        pieces.append(piece)
        count += len(piece)
        if count > most:
            raise TooLong(f"a reply of over {most} bytes")
    if reply.length:
        raise IncompleteRead(b"", reply.length)
    return b"".join(pieces)


def request(
    url: str,
    method: str = "GET",
    body: Optional[IO[bytes]] = None,
    seconds: float = SECONDS,
    most: int = MOST_BYTES,
) -> Answer:
    """Sends one request, with a body that can be read again from its beginning, and waits for all
    of its reply up to so many seconds."""
    parts = urlsplit(url)
    server, late = place_of(parts), threading.Event()
    connection, fields, before = connection_to(parts, seconds)
    target = f"{before}{parts.path or '/'}" + (f"?{parts.query}" if parts.query else "")
    try:
        connection.connect()
        with ended_after(connection, seconds) as late:
            reply = exchange(connection, method, target, fields, body)
            found = body_of(reply, most)
        if not late.is_set():
            where = reply.getheader("Location", "")
            has_login = "Authorization" in fields
            return Answer(server, reply.status, found, where, method=method, has_login=has_login)
    except TimeoutError:
        pass
    except (OSError, HTTPException, ValueError) as fault:
        if not late.is_set():
            return Answer(server, 0, fault=reason_of(fault), may_come=may_come(fault))
    finally:
        connection.close()
    return Answer(server, 0, fault=f"no answer within {seconds:g} seconds", may_come=True)


def reason_of(fault: Exception) -> str:
    """Why no reply came, in some words."""
    if isinstance(fault, ssl.SSLCertVerificationError):
        return f"its certificate isn't trusted: {fault.verify_message}"
    if isinstance(fault, (ConnectionResetError, BrokenPipeError, IncompleteRead, ssl.SSLEOFError)):
        return "the connection was cut before all of the answer came"
    if isinstance(fault, ssl.SSLError):
        return f"no TLS: {fault.reason or fault}"
    if isinstance(fault, (OSError, TooLong)):
        return getattr(fault, "strerror", None) or str(fault)
    return f"it doesn't speak HTTP/1.1: {str(fault)[:100]!r}"


def may_come(fault: Exception) -> bool:
    """Whether a reply may come where the request is sent again: the connection was refused or cut,
    or there was no way to the server."""
    if isinstance(fault, (socket.gaierror, ssl.SSLCertVerificationError)):
        return False
    if isinstance(fault, ssl.SSLError):
        return isinstance(fault, ssl.SSLEOFError)
    if isinstance(fault, (ConnectionError, IncompleteRead)):
        return True
    return isinstance(fault, OSError) and fault.errno is not None


def request_again(
    url: str,
    method: str,
    body: Optional[IO[bytes]] = None,
    retry: bool = True,
    is_final: Callable[[Answer], bool] = lambda answer: False,
) -> Answer:
    """Sends a request and, with `retry`, sends it again, up to five times, where the connection is
    refused, no answer comes, or the server or a proxy can't answer now; not where the answer is
    said to be final."""
    answer = request(url, method, body)
    for wait in WAITS if retry else ():
        if answer.status not in AGAIN and not answer.may_come or is_final(answer):
            break
        time.sleep(wait)
        answer = request(url, method, body)
    return answer


def reply_in(answer: Answer) -> Optional[dict[str, Any]]:
    """The object that the body of a reply is, or None."""
    try:
        reply = json.loads(answer.body)
    except (ValueError, RecursionError):
        return None
    return reply if isinstance(reply, dict) else None


def refusal_of(answer: Answer) -> str:
    """Why an answer isn't what was asked for, in one line: the server's own fault, or what came
    from something else in its place."""
    if answer.status == 0:
        return f"{answer.server}: {answer.fault}"
    reply = reply_in(answer)
    if reply is not None and answer.status != 200 and "fault" in reply:
        cause = STORE_CAUSES[answer.method == "GET"] if reply["fault"] == "S01" else ""
        return f"{reply['fault']} {reply.get('text')}{cause}"
    text = f"{answer.server}: not a reply of codenav, status {answer.status}"
    if answer.leads_to:
        return f"{text}, which leads to {answer.leads_to}"
    if answer.status == 401 and answer.has_login:
        return f"{text}, the login that was sent isn't taken"
    if answer.status == 401 and is_kept_back(answer.server):
        return f"{text}, a login is asked for: that of the environment goes to the server of CODENAV_URL or else of the call"
    return f"{text}, {MEANINGS[answer.status]}" if answer.status in MEANINGS else text


MEANINGS = {
    401: "a login is asked for: CODENAV_TOKEN, CODENAV_USER or ~/.netrc has it",
    403: "the login may not do this",
    407: "the proxy on the way asks for a login, which http_proxy or https_proxy has",
    413: "the proxy takes no body of this size: codenav takes 33554432 bytes",
    429: "the proxy takes no more requests now",
    502: "the proxy has no answer of codenav",
    503: "the proxy has no answer of codenav",
    504: "the proxy has no answer of codenav",
}


STORE_CAUSES = (
    ", which means that the server can't write its database: its disk is full, the file may not be written any more, or it's "
    "damaged; nothing was changed",
    ", which means that the server can't read its database: the file is damaged, or another program changed it",
)


def found_in(answer: Answer, member: str) -> Any:
    """What a query found, the member of its reply that has it; raises NoReply where there is none
    or it's a fault."""
    reply = reply_in(answer)
    if answer.status != 200 or reply is None or member not in reply:
        raise NoReply(refusal_of(answer))
    return reply[member]
