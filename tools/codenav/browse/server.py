"""Serves the pages on 127.0.0.1, to this machine's browsers, and by the names that are given: no
other site's page, and no other name that leads here, gets at the files."""

import json
import os
import sys
from http.server import BaseHTTPRequestHandler, ThreadingHTTPServer
from typing import Any, Callable, Iterator, Sequence
from urllib.parse import parse_qsl, unquote_to_bytes

from codenav.browse.answers import Browser, Parameters
from codenav.browse.drawn import drawn
from codenav.browse.folder import Refused
from codenav.browse.found_page import search_page
from codenav.browse.frame import PAGE, Shown, listed
from codenav.browse.pages import error_page, file_page
from codenav.browse.past import blame_page, compare_page, history_page
from codenav.browse.start_page import Start
from codenav.faults import BadCall

SECONDS = 30
HTML, JSON = "text/html; charset=utf-8", "application/json"
KINDS = {".css": "text/css; charset=utf-8", ".js": "text/javascript; charset=utf-8"}
HEADERS = {
    "Content-Security-Policy": "default-src 'none'; script-src 'self'; style-src 'self'; connect-src 'self'; img-src data:; base-uri 'none'; "
    "form-action 'self'; frame-ancestors 'none'",
    "X-Content-Type-Options": "nosniff",
    "Referrer-Policy": "no-referrer",
    "Cross-Origin-Opener-Policy": "same-origin",
    "Cross-Origin-Resource-Policy": "same-origin",
    "Cache-Control": "no-cache",
}
ASSETS = {
    f"/{name}": KINDS[os.path.splitext(name)[1]]
    for name in os.listdir(PAGE)
    if os.path.splitext(name)[1] in KINDS
}
QUESTIONS: dict[str, Callable[[Browser, Parameters], Any]] = {
    "/ask": Browser.asked,
    "/names": Browser.names,
    "/outline": Browser.outline,
    "/find": Browser.files,
    "/address": Browser.address,
}


def entries(browser: Browser, parameters: Parameters) -> dict[str, Any]:
    """Some entries of a folder."""
    at = parameters.get("path", "")
    bounds = [parameters.get(name, "") for name in ("start", "end")]
    if not all(bound.isdecimal() and len(bound) < 9 for bound in bounds):
        raise Refused(400, "bad parameter")
    start, end = map(int, bounds)
    return {"entries": listed(browser.folder, at, start, end, parameters.get("revision", ""))}


QUESTIONS["/list"] = entries
PAGES = ("/files/", "/history/", "/blame/", "/compare/")


def page_of(start: Start, kind: str, name: str, parameters: Parameters) -> Iterator[str]:
    """A page, piece by piece; raises Refused before the first one."""
    browser = start.browser
    if kind == "compare":
        view = browser.view(
            {"path": name, "revision": parameters.get("to", "") or parameters.get("revision", "")}
        )
    else:
        view = browser.view({**parameters, "path": name})
    if f"/{kind}/" in PAGES[1:] and (not name or name in browser.projects):
        raise Refused(403, "not a file")
    shown = Shown(view, name, browser.settings.project, browser.search)
    if kind == "history":
        return history_page(shown, parameters)
    if kind == "blame":
        return blame_page(shown)
    if kind == "compare":
        return compare_page(
            shown, parameters, lambda one: browser.view({"path": name, "revision": one})
        )
    if kind == "search":
        return search_page(browser, shown, parameters)
    if name or view.revision:
        return file_page(shown)
    return file_page(shown, start.html(), bool(browser.projects))


def refusal_of(fault: Exception) -> Refused:
    """How a request is refused that ended by a fault."""
    if isinstance(fault, Refused):
        return fault
    if isinstance(fault, BadCall):
        return Refused(502, f"the index: {fault}")
    if isinstance(fault, OSError):
        return Refused(500, fault.strerror or "a fault")
    return Refused(500, f"{type(fault).__name__}: {' '.join(str(fault).split())}")


class Handler(BaseHTTPRequestHandler):
    """Serves one connection."""

    timeout = SECONDS
    is_begun = False
    browser: Browser
    start: Start
    hosts: tuple[str, ...]
    local: tuple[str, ...]

    def do_GET(self) -> None:
        """Answers a request: a page in pieces, as they're made, anything else whole. A fault is a
        page where a page was asked for."""
        path, _, query = self.path.partition("?")
        is_page = path in ("/", "/search") or path.startswith(PAGES)
        self.is_begun = False
        try:
            self.refuse_others(is_page)
            parameters = dict(parse_qsl(query, errors="surrogateescape"))
            if is_page:
                self.answer_page(path, parameters)
            else:
                self.answer(200, *self.body(path, parameters))
        except ConnectionError:
            raise
        except Exception as fault:
            if self.is_begun:
                raise
            self.refuse(refusal_of(fault), is_page)

    do_HEAD = do_GET

    def refuse_others(self, is_page: bool) -> None:
        """Refuses a request to another host, and one of another origin's pages, unless it's a link
        that is followed to a page."""
        host: list[str] = self.headers.get_all("Host", [])
        if len(host) != 1 or not self.is_own(host[0].lower()):
            raise Refused(403, "another host")
        site, mode = self.headers.get("Sec-Fetch-Site", "none"), self.headers.get("Sec-Fetch-Mode")
        is_link = (
            is_page and mode == "navigate" and self.headers.get("Sec-Fetch-Dest") == "document"
        )
        is_other = site not in ("none", "same-origin") and not is_link
        scheme, _, name = self.headers.get("Origin", "").partition("://")
        schemes = ("http",) if host[0].lower() in self.local else ("http", "https")
        is_own = scheme in schemes and name == host[0].lower()
        if "Origin" in self.headers and not is_own or is_other:
            raise Refused(403, "another origin")

    def is_own(self, host: str) -> bool:
        """Whether a name is that of this server: of this machine with the port, or one that was
        given, with its port or without one with any."""
        name, colon, port = host.rpartition(":")
        is_named = bool(colon) and port.isdecimal() and name in self.hosts
        return host in self.local or host in self.hosts or is_named

    def body(self, path: str, parameters: Parameters) -> tuple[str, bytes]:
        """The type and the body of an answer; raises Refused or BadCall."""
        if path in ASSETS:
            with open(os.path.join(PAGE, path[1:]), "rb") as file:
                return ASSETS[path], file.read()
        if path in QUESTIONS:
            text = json.dumps(QUESTIONS[path](self.browser, parameters), ensure_ascii=False)
            return JSON, drawn(text).encode(errors="replace")
        raise Refused(404, "no such page")

    def answer_page(self, path: str, parameters: Parameters) -> None:
        """Sends a page as its pieces are made; the connection's end is the page's. A link at a word
        leads on."""
        kind, _, own = path[1:].partition("/")
        name = os.fsdecode(unquote_to_bytes(own)).removesuffix("/")
        if kind == "files" and "at" in parameters:
            self.head(303, HTML, 0, self.browser.target(name, parameters))
            return
        pieces = page_of(self.start, kind or "files", name, parameters)
        first = next(pieces)
        self.head(200, HTML)
        self.send(first)
        for piece in pieces:
            self.send(piece)

    def send(self, piece: str) -> None:
        """Sends a piece of a page."""
        if self.command != "HEAD":
            self.wfile.write(piece.encode(errors="replace"))

    def refuse(self, fault: Refused, is_page: bool) -> None:
        """Answers by a fault."""
        if is_page:
            page = error_page(fault, self.browser.settings.project)
            self.answer(fault.status, HTML, page.encode(errors="replace"))
        else:
            self.answer(fault.status, JSON, json.dumps({"fault": str(fault)}).encode())

    def head(self, status: int, kind: str, length: int = -1, location: str = "") -> None:
        """Sends the head of an answer, of which the length is known or not, and which may lead
        elsewhere."""
        self.is_begun = True
        self.send_response(status)
        fields = {**HEADERS, "Content-Type": kind}
        if length >= 0:
            fields["Content-Length"] = str(length)
        if location:
            fields["Location"] = location
        for name, value in fields.items():
            self.send_header(name, value)
        self.end_headers()

    def answer(self, status: int, kind: str, body: bytes) -> None:
        """Sends an answer."""
        self.head(status, kind, len(body))
        if self.command != "HEAD":
            self.wfile.write(body)

    def version_string(self) -> str:
        """What the answers call the server."""
        return "codenav-browse"

    def log_message(self, format: str, *words: Any) -> None:
        """Requests aren't printed."""


class Pages(ThreadingHTTPServer):
    """Serves the pages of a browser on a port of this machine, each request by a thread of its own;
    `hosts` are the names besides this machine's by which it's asked."""

    daemon_threads = True
    request_queue_size = 128

    def __init__(self, browser: Browser, port: int, hosts: Sequence[str] = ()) -> None:
        start = Start(browser)
        known = {"browser": browser, "start": start, "hosts": tuple(host.lower() for host in hosts)}
        super().__init__(("127.0.0.1", port), type("BrowserHandler", (Handler,), known))
        own = self.server_address[1]
        self.RequestHandlerClass.local = (f"127.0.0.1:{own}", f"localhost:{own}")  # type: ignore[attr-defined]

    def handle_error(self, request: Any, client_address: Any) -> None:
        """A connection that breaks off isn't printed."""
        if not isinstance(sys.exc_info()[1], OSError):
            super().handle_error(request, client_address)
