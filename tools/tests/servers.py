"""Servers for tests, of the built program or of what stands in for it, and a relay that loses
answers on their way."""

import os
import random
import socket
import subprocess
import sys
import threading
import unittest
from contextlib import ExitStack
from typing import Any, Callable, Optional
from urllib.parse import urlencode

from codenav.client.http import Answer
from codenav.program import BUILT as BUILT_IN
from codenav.program import Program, free_port
from codenav.records import ADDRESS

TOP = os.path.dirname(os.path.dirname(os.path.dirname(os.path.abspath(__file__))))
SECONDS = 60
NOT_BUILT = "the program isn't built, and CODENAV_PROGRAM names none"
BUILT = os.path.join(TOP, BUILT_IN)
STAND_IN = os.path.join(TOP, "tools", "tests", "stand_in.py")


def built_program() -> Optional[str]:
    """The program that CODENAV_PROGRAM names, or the one that this clone has built; None where it
    hasn't."""
    named = os.environ.get("CODENAV_PROGRAM")
    if named:
        return os.path.abspath(named)
    return BUILT if os.path.isfile(BUILT) else None


def command(word: str) -> list[str]:
    """What calls a word in a process of its own."""
    return [sys.executable, "-B", os.path.join(TOP, "tools", "codenav", "__main__.py"), word]


def free_row(count: int) -> int:
    """The first of so many ports, one after the other, that nobody listens on now, of those that
    the system gives to nobody who names none."""
    while True:
        first = random.randrange(20_000, 32_000)
        with ExitStack() as stack:
            try:
                for port in range(first, first + count):
                    stack.enter_context(socket.create_server(("127.0.0.1", port)))
            except OSError:
                continue
        return first


def ended(process: "subprocess.Popen[Any]") -> None:
    """Ends a process that still runs, and closes what it printed."""
    if process.poll() is None:
        process.terminate()
        process.wait(SECONDS)
    if process.stdout is not None:
        process.stdout.close()


def program() -> str:
    """The built program, or what stands in for it where it isn't built."""
    return built_program() or STAND_IN


def replying(answer: Answer, asked: list[str]) -> Callable[..., Answer]:
    """What stands in for requests: each gets the answer, and its address is kept, but for those of
    the record of a revision, of which there is none."""

    def request(url: str, **_: object) -> Answer:
        if urlencode({"uri": ADDRESS}) in url and answer.status == 200:
            return answer._replace(body=b'{"contents":null}')
        asked.append(url)
        return answer

    return request


class OnServer(unittest.TestCase):
    """Tests that ask a server, which each test has for itself, empty at first; they may kill it and
    start it again."""

    program: str
    url: str
    database = ":memory:"

    def setUp(self) -> None:
        self.program, self.port = program(), free_port()
        self.url = f"http://127.0.0.1:{self.port}"
        self.start()
        self.addCleanup(lambda: self.server.end())

    def start(self) -> None:
        """Starts the server."""
        self.server = Program(self.program).serve(self.database, self.port)

    def kill(self) -> None:
        """Kills the server."""
        self.server.kill()


class Relay:
    """Hands requests on to a server, and its replies back but for the first ones: these are lost,
    and the connection is cut, when the server has acted and `meanwhile` has been called."""

    def __init__(self, url: str, lost: int, meanwhile: Callable[[], object] = lambda: None) -> None:
        self.port = int(url.rpartition(":")[2])
        self.lost, self.meanwhile = lost, meanwhile
        self.listener = socket.create_server(("127.0.0.1", 0))
        self.url = f"http://127.0.0.1:{self.listener.getsockname()[1]}"
        self.taken = 0

    def __enter__(self) -> "Relay":
        self.thread = threading.Thread(target=self.serve, daemon=True)
        self.thread.start()
        return self

    def __exit__(self, *_: object) -> None:
        self.listener.shutdown(socket.SHUT_RDWR)
        self.listener.close()
        self.thread.join(10)

    def serve(self) -> None:
        """Takes connections, one after the other, until the listener is closed."""
        while True:
            try:
                client = self.listener.accept()[0]
            except OSError:
                return
            client.settimeout(SECONDS)
            with client:
                self.taken += 1
                reply = self.reply_to(client)
                if self.taken > self.lost:
                    client.sendall(reply)
                else:
                    self.meanwhile()

    def reply_to(self, client: socket.socket) -> bytes:
        """What the server answers to what a client sends; the client's side isn't read any more
        then."""
        with socket.create_connection(("127.0.0.1", self.port), SECONDS) as server:
            onward = threading.Thread(target=self.hand_on, args=(client, server), daemon=True)
            onward.start()
            reply = b""
            while piece := server.recv(65536):
                reply += piece
        client.shutdown(socket.SHUT_RD)
        onward.join(SECONDS)
        return reply

    def hand_on(self, client: socket.socket, server: socket.socket) -> None:
        """Hands on what a client sends, until one of both ends."""
        try:
            while piece := client.recv(65536):
                server.sendall(piece)
        except OSError:
            pass
