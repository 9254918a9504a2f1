#!/usr/bin/python3 -B
"""Stands in for the program where it isn't built, so that the tools can be tried against a server:
`serve`, `replay`, `check-lsif` and `check-tags` over the plain model in plain_index.py.

It's written for being read, and it's slow.
"""

import argparse
import os
import re
import socket
import sqlite3
import sys
from contextlib import suppress
from http import HTTPStatus
from typing import BinaryIO, Callable, NamedTuple, NoReturn, Optional

sys.path.insert(0, os.path.dirname(os.path.dirname(os.path.realpath(__file__))))

from tests.accepted import fault, lines_of
from tests.plain_index import CODES, Index, Refused
from tests.tag_lines import read_tags

MOST_HEAD, MOST_LINES, MOST_BODY = 8192, 34, 33_554_432
SECONDS, PAUSE = 10, 1
TOKEN = rb"[\w!#$%&'*+.^`|~-]+"
HEAD = re.compile(
    rb"(?P<method>%b) (?P<target>[!-~]+) HTTP/1\.[01]\r\n(?P<fields>(?:%b:[^\r\n]*\r\n)*)\r\n"
    % (TOKEN, TOKEN),
    re.ASCII,
)
ENDS = ("H01", "H02", "H03", "H04", "H05", "H08")


class Reply(NamedTuple):
    """A reply, and whether nothing after it is served."""

    status: int
    body: bytes
    allow: str = ""
    ends: bool = False

    def text(self) -> bytes:
        """What is sent."""
        phrase = "Payload Too Large" if self.status == 413 else HTTPStatus(self.status).phrase
        lines = [
            f"HTTP/1.1 {self.status} {phrase}",
            "Connection: close",
            "Content-Type: application/json",
            *([f"Allow: {self.allow}"] if self.allow else []),
            f"Content-Length: {len(self.body)}",
        ]
        return "".join(f"{line}\r\n" for line in [*lines, ""]).encode() + self.body


def head_of(stream: BinaryIO) -> bytes:
    """The next head of a stream, up to its empty line or the stream's end. Raises Refused where
    it's too large."""
    head = b""
    while not head.endswith(b"\r\n\r\n"):
        if len(head) == MOST_HEAD or head.count(b"\n") >= MOST_LINES:
            raise Refused("H02")
        line = stream.readline(MOST_HEAD - len(head))
        if not line:
            break
        head += line
    return head


def length_of(method: bytes, fields: bytes) -> int:
    """How many bytes follow a head. Raises Refused where they aren't taken."""
    pairs = [line.partition(b":") for line in fields.split(b"\r\n")[:-1]]
    if any(name.lower() == b"transfer-encoding" for name, _, _ in pairs):
        raise Refused("H08")
    lengths = [value.strip(b" \t") for name, _, value in pairs if name.lower() == b"content-length"]
    if len(lengths) > 1 or not all(re.fullmatch(b"[0-9]{1,19}", own) for own in lengths):
        raise Refused("H01")
    if not lengths and method == b"PUT":
        raise Refused("H03")
    length = int(lengths[0]) if lengths else 0
    if length > MOST_BODY:
        raise Refused("H04")
    return length


def next_reply(index: Index, stream: BinaryIO) -> Optional[Reply]:
    """The reply to the next request of a stream, or None at its end."""
    try:
        head = head_of(stream)
        if not head:
            return None
        found = HEAD.fullmatch(head)
        if found is None:
            raise Refused("H01")
        length = length_of(found["method"], found["fields"])
        body = stream.read(length)
        if len(body) < length:
            raise Refused("H05")
        return Reply(200, index.reply(found["method"].decode(), found["target"].decode(), body))
    except Refused as refused:
        return Reply(refused.status, refused.body, refused.allow, refused.code in ENDS)


def serve(call: argparse.Namespace) -> int:
    """Serves connections, one after the other, with one request each."""
    index = Index(call.db)
    try:
        listener = socket.create_server(("127.0.0.1", call.port))
    except OSError:
        end("cannot listen")
    print(f"listening on 127.0.0.1:{call.port}", flush=True)
    for _ in range(call.requests):
        connection = listener.accept()[0]
        with connection, suppress(OSError):
            connection.settimeout(SECONDS)
            reply = next_reply(index, connection.makefile("rb"))
            connection.sendall(reply.text() if reply else b"")
            connection.shutdown(socket.SHUT_WR)
            connection.settimeout(PAUSE)
            while connection.recv(65536):
                pass
    index.file.close()
    return 0


def replay(call: argparse.Namespace) -> int:
    """Prints the replies to the requests in a file."""
    index = Index(call.db)
    with open(call.file, "rb") as stream:
        reply = next_reply(index, stream)
        while reply is not None:
            sys.stdout.buffer.write(reply.text())
            sys.stdout.buffer.flush()
            reply = None if reply.ends else next_reply(index, stream)
    index.file.close()
    return 0


def check_lsif(call: argparse.Namespace) -> int:
    """Says whether a dump would be accepted."""
    with open(call.file, "rb") as file:
        body = file.read()
    return said(fault(body, call.profile) or f"ok {len(lines_of(body))} elements")


def check_tags(call: argparse.Namespace) -> int:
    """Says whether a tags file would be accepted."""
    with open(call.file, "rb") as file:
        found = read_tags(file.read())
    return said(found if isinstance(found, str) else f"ok {len(found)} tags")


def said(found: str) -> int:
    """Prints what was found, with the text of a code; answers 1 where it's a fault."""
    code = found[-3:]
    print(f"{found} {CODES[code][0]}" if code in CODES else found)
    return int(code in CODES)


def end(text: str) -> NoReturn:
    """Ends with a line on the standard error."""
    print(f"codenav: {text}", file=sys.stderr)
    sys.exit(2)


def number_to(most: int) -> Callable[[str], int]:
    """What reads a number from 1 on."""

    def number(text: str) -> int:
        if not 1 <= int(text) <= most:
            raise ValueError(text)
        return int(text)

    return number


def main() -> int:
    """Answers the program's status."""
    parser = argparse.ArgumentParser("codenav", description=__doc__)
    parser.add_argument("-V", "--version", action="version", version="codenav 0.1.0")
    commands = parser.add_subparsers(required=True)
    for name, run, words in (
        ("check-lsif", check_lsif, ["file"]),
        ("check-tags", check_tags, ["file"]),
        ("replay", replay, ["db", "file"]),
        ("serve", serve, ["db"]),
    ):
        command = commands.add_parser(name, description=run.__doc__)
        command.set_defaults(run=run)
        for word in words:
            command.add_argument(word)
        if run is check_lsif:
            command.add_argument("--profile", choices="12", default="1")
        if run is serve:
            command.add_argument("--port", type=number_to(65535), required=True)
            command.add_argument("--requests", type=number_to(1_000_000), required=True)
    call = parser.parse_args()
    try:
        status: int = call.run(call)
    except OSError:
        end("cannot read the file")
    except sqlite3.Error as fault_of_file:
        is_foreign = "no such column" in str(fault_of_file)
        end("not a codenav database" if is_foreign else "store refused")
    return status


if __name__ == "__main__":
    sys.exit(main())
