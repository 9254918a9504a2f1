"""Tests of what keeps a server running, over real servers: starts, refusals, copies, a copy put
back, turns, and each of them killed in between."""

import errno
import os
import shutil
import signal
import socket
import sqlite3
import subprocess
import sys
import tempfile
import threading
import time
import unittest
from contextlib import AbstractContextManager, nullcontext, suppress
from typing import Any, Callable
from unittest import mock

from codenav.client.http import address, request
from codenav.program import Program, free_port
from codenav.service import digests
from codenav.service.copies import NAME, copied_now, put
from codenav.service.digests import files_of
from codenav.service.folder import Serving, database_at, locked, serving_of, side_of, use
from codenav.service.front import told
from codenav.service.hung import Watch, worked
from codenav.service.locks import UNSEEN
from codenav.service.refusals import Refusal, refusal_by, refusal_of
from codenav.service.standing import state_of
from codenav.service.supervise import Supervisor
from codenav.service.turning import How
from tests.fronts import Front, fronted, lacking
from tests.servers import TOP, command, free_row, program
from tests.test_fronts import HOVER
from tests.test_uploads import DUMP

SECONDS = 60
TICK = 0.02
# a user without rights
NOBODY = 65534
# Python reads it first: a copy of a file says that it begins, and waits, so that who copies is
# killed in the midst of it.
SLOW = """import os, time
copy = os.copy_file_range
def slow(*words):
    open({path!r}, "w").close()
    time.sleep(60)
    return copy(*words)
os.copy_file_range = slow
"""


class OnService(unittest.TestCase):
    """A folder for a service, and how its tools are called."""

    def setUp(self) -> None:
        self.program, self.environment = program(), dict[str, str]()
        self.base = self.enterContext(tempfile.TemporaryDirectory())
        self.folder, self.copies = f"{self.base}/service", f"{self.base}/copies"
        os.mkdir(self.folder)
        self.port = free_row(3)
        os.mkdir(f"{self.base}/slow")
        with open(f"{self.base}/slow/sitecustomize.py", "w", encoding="utf-8") as script:
            script.write(SLOW.format(path=f"{self.base}/copying"))

    def launched(
        self, tool: str, *words: str, is_slow: bool = False, by: tuple[str, ...] = ()
    ) -> "subprocess.Popen[str]":
        """A tool that's called as users do, or by way of another program."""
        own = {"PYTHONPATH": f"{self.base}/slow"} if is_slow else {}
        process = subprocess.Popen(
            [*by, *command(tool), *words],
            env={**os.environ, **self.environment, **own},
            stdin=subprocess.DEVNULL,
            stdout=subprocess.PIPE,
            stderr=subprocess.PIPE,
            text=True,
        )
        self.addCleanup(self.over, process)
        return process

    def over(self, process: "subprocess.Popen[str]") -> None:
        if process.poll() is None:
            process.terminate()
            process.wait(SECONDS)
        for stream in process.stdout, process.stderr:
            if stream is not None:
                stream.close()

    def called(self, tool: str, *words: str, by: tuple[str, ...] = ()) -> tuple[int, str]:
        """The status of a tool, and what it printed."""
        done = self.launched(tool, *words, by=by)
        said, warned = done.communicate(timeout=SECONDS)
        return done.returncode, said + warned

    def service(self, *words: str, is_slow: bool = False) -> "subprocess.Popen[str]":
        """The service, which serves, and has named its side."""
        process, side = self.supervised(*words, is_slow=is_slow), f"{self.folder}/side"
        self.until(lambda: process.poll() is not None or os.path.exists(side) and self.answers())
        self.assertIsNone(process.poll())
        return process

    def supervised(self, *words: str, is_slow: bool = False) -> "subprocess.Popen[str]":
        given = ["--program", self.program, "--port", str(self.port), *words, self.folder]
        return self.launched("supervise", *given, is_slow=is_slow)

    def until(self, is_so: Callable[[], bool]) -> None:
        """Waits for something."""
        stop = time.monotonic() + SECONDS
        while not is_so():
            self.assertLess(time.monotonic(), stop)
            time.sleep(TICK)

    def url(self) -> str:
        return f"http://127.0.0.1:{self.port}"

    def answers(self) -> bool:
        return request(f"{self.url()}/projects", seconds=5).status == 200

    def put(self, text: str, key: str, url: str = "") -> bytes:
        """What an upload of a dump whose hover says the text is answered."""
        path = f"{self.base}/dump"
        with open(path, "w", encoding="utf-8") as file:
            file.write(DUMP % text)
        with open(path, "rb") as body:
            to = address(url or self.url(), "/projects/app/lsif", {"key": key})
            return request(to, "PUT", body, seconds=SECONDS).body

    def hover(self) -> bytes:
        return request(f"{self.url()}{HOVER}", seconds=SECONDS).body

    def ended(self, process: "subprocess.Popen[str]") -> tuple[int, str]:
        """The status of a service, and what it said, after SIGTERM."""
        process.terminate()
        _, said = process.communicate(timeout=SECONDS)
        return process.returncode, said

    def known(self) -> Serving:
        found = serving_of(self.folder)
        assert found is not None
        return found


class Starts(OnService):
    def test_a_service(self) -> None:
        """It's started again after a kill, and at its end; what was accepted stays; it ends by
        SIGTERM."""
        process = self.service("--requests", "5")
        self.assertIn(b"accepted", self.put("one", "k"))
        server = self.known().server
        os.kill(server, signal.SIGKILL)
        self.until(lambda: self.known().server != server and self.answers())
        server = self.known().server
        self.until(lambda: self.answers() and self.known().server != server)
        self.until(self.answers)
        self.assertEqual(self.hover(), b'{"contents":"one"}')
        status, said = self.ended(process)
        self.assertEqual(status, 0)
        self.assertIn("codenav supervise: the server ended with status -9\n", said)
        self.assertIn("codenav supervise: the server ended with status 0\n", said)
        self.assertIsNone(serving_of(self.folder))

    def test_a_killed_service(self) -> None:
        """Its server ends with it, so another service finds the port and the database free."""
        process = self.service()
        server = self.known().server
        process.kill()
        self.until(lambda: state_of(server) in ("", "Z"))
        self.service()

    def test_a_changed_file(self) -> None:
        """One letter that was changed while no server ran is found; without the digest the file is
        taken as it is."""
        database = self.prepared("one")
        self.assertEqual(self.ended(self.service())[0], 0)
        at = self.flip(database)
        status, said = self.refused()
        self.assertEqual(status, 78)
        self.assertIn(f"codenav supervise: {database}: changed since its server ended", said)
        self.flip(database, at)
        self.assertEqual(self.ended(self.service())[0], 0)
        self.flip(database)
        os.unlink(f"{database}.digest")
        self.assertNotIn("changed since", self.ended(self.supervised())[1])

    def test_small_files_of_any_bytes(self) -> None:
        """A digest that's no text is another one, and what isn't known of a server isn't asked."""
        for text in b"[" * 100_000, b"\xff", b"{}", b"[]", b"":
            with open(f"{self.folder}/server", "wb") as out:
                out.write(text)
            self.assertEqual(self.called("turn", self.folder)[0], 2)
            self.assertEqual(self.ended(self.service())[0], 0)
        database = database_at(self.folder, "a")
        for text in b"\xff\xfe", b"\0", b"":
            with open(f"{database}.digest", "wb") as out:
                out.write(text)
            status, said = self.refused()
            self.assertEqual((status, said.count("\n")), (78, 1), said)
            self.assertIn(f"codenav supervise: {database}: changed since its server ended", said)
            status, said = self.called("restore", f"{self.folder}/a", f"{self.base}/other")
            text_of = f"codenav restore: {self.folder}/a: the copy changed since it was made\n"
            self.assertEqual((status, said), (2, text_of))

    def prepared(self, text: str) -> str:
        """A database that has a dump whose hover says the text, all of it in the file itself."""
        body, database = DUMP % text, database_at(self.folder, "a")
        os.mkdir(os.path.dirname(database))
        with open(f"{self.base}/stream", "w", encoding="utf-8") as stream:
            stream.write(
                f"PUT /projects/app/lsif?key=k HTTP/1.1\r\nContent-Length: {len(body)}\r\n"
            )
            stream.write(f"\r\n{body}")
        words = [self.program, "replay", database, f"{self.base}/stream"]
        self.assertIn(b"200 OK", subprocess.run(words, check=True, capture_output=True).stdout)
        return database

    def flip(self, path: str, at: int = -1) -> int:
        """Changes one bit in a letter of a text of the database, or where it was changed before;
        answers where."""
        with open(path, "r+b") as file:
            at = file.read().rfind(b"file:///a") if at < 0 else at
            self.assertGreaterEqual(at, 0)
            file.seek(at)
            letter = file.read(1)
            file.seek(at)
            file.write(bytes([letter[0] ^ 1]))
        return at

    def refused(self) -> tuple[int, str]:
        """How a service that ends by itself ended."""
        process = self.supervised()
        _, said = process.communicate(timeout=SECONDS)
        return process.returncode, said

    def test_a_folder_that_is_locked(self) -> None:
        """That it's locked is said, and the service may be ended; when it's free the server is
        started."""
        with locked(self.folder):
            for _ in range(2):
                process = self.supervised()
                self.says(process, f"{self.folder}/lock: another process has it")
                self.assertEqual(self.ended(process)[0], 0)
            process = self.supervised()
            self.says(process, f"{self.folder}/lock: another process has it")
        self.until(self.answers)

    def test_refusals_for_good(self) -> None:
        """A file that a person has to mend ends the service, which says what is to be done."""
        os.mkdir(f"{self.folder}/a", 0o700)
        database = database_at(self.folder, "a")
        foreign = sqlite3.connect(database)
        foreign.execute("CREATE TABLE document (own TEXT)")
        foreign.commit()
        foreign.close()
        self.refuses("not a codenav database")
        with open(database, "wb") as file:
            file.write(b"no database, " * 1000)
        self.refuses("is damaged: restore a backup")
        os.link(database, f"{database}.second")
        self.refuses("has a second name")
        os.unlink(database)
        os.mkdir(database)
        self.refuses("is no file")

    def refuses(self, is_said: str) -> None:
        status, said = self.refused()
        self.assertEqual((status, is_said in said), (78, True), said)

    def test_numbers_out_of_range(self) -> None:
        """They're refused by one line before anything is touched."""
        self.ended(self.service())
        front, before = ("--front", "http://127.0.0.1:9"), self.kept()
        for *words, said_of in (
            ("--port", "0", "port is 1 to 65535"),
            ("--port", "-1", "port is 1 to 65535"),
            ("--port", "65536", "port is 1 to 65535"),
            ("--port", "65534", *front, "port is 1 to 65533"),
            ("--requests", "0", "requests is 1 to 1000000"),
            ("--requests", "1000001", "requests is 1 to 1000000"),
        ):
            given = ["--program", self.program, *words, self.folder]
            found = self.called("supervise", *given)
            self.assertEqual(found, (2, f"codenav supervise: --{said_of}\n"))
            self.assertEqual(self.kept(), before)

    def kept(self) -> tuple[list[str], bytes]:
        """The names in the side in use, and the digest there."""
        path = f"{self.folder}/{side_of(self.folder)}"
        with open(f"{path}/index.db.digest", "rb") as file:
            return sorted(os.listdir(path)), file.read()

    def test_servers_that_do_not_serve(self) -> None:
        """A server that ends before it listens, over and over, is said once, and what's known of
        the database stays known."""
        process = self.service()
        self.put("one", "k")
        self.ended(process)
        before, own, calls = self.kept(), self.program, f"{self.base}/calls"
        self.program = f"{self.base}/ending"
        for number, said_of in (0, ""), (3, ""), (2, "codenav: of a kind"), (1, "one\ntwo"):
            with open(self.program, "w", encoding="utf-8") as script:
                script.write(f"#!/bin/sh\necho '{said_of}' >&2\necho >>{calls}\nexit {number}\n")
            os.chmod(self.program, 0o700)
            with open(calls, "w", encoding="utf-8"):
                pass
            process = self.supervised()
            self.until(lambda: os.path.getsize(calls) > 3)
            status, said = self.ended(process)
            self.assertEqual(status, 0)
            text = said_of if number == 2 else f"the server ended with status {number}"
            self.assertEqual(said.count(f"codenav supervise: {text}\n"), 1, said)
            self.assertEqual([said.count(one) for one in ("one", "two")], [number == 1] * 2)
            self.assertEqual(self.kept(), before)
        self.program = own
        database = database_at(self.folder, "a")
        with open(f"{database}-wal", "ab") as file:
            file.write(b"!")
        self.refuses(f"{database}: changed since its server ended")

    def test_a_program_that_may_not_be_started(self) -> None:
        """It's tried again, and what's known of the database stays known."""
        self.ended(self.service())
        before, own = self.kept(), self.program
        self.program = f"{self.base}/unknown"
        with open(self.program, "wb") as script:
            script.write(b"\0" * 100)
        os.chmod(self.program, 0o700)
        process = self.supervised()
        self.says(process, f"{self.program}: Exec format error")
        self.assertEqual(self.ended(process), (0, ""))
        self.assertEqual(self.kept(), before)
        process = self.supervised()
        self.says(process, f"{self.program}: Exec format error")
        os.unlink(self.program)
        os.symlink(own, self.program)
        self.until(self.answers)

    def test_files_that_may_not_be_read(self) -> None:
        """They end the service by one line, whichever of its files they are."""
        self.ended(self.service())
        user = ("setpriv", f"--reuid={NOBODY}", f"--regid={NOBODY}", "--clear-groups")
        by = user if os.getuid() == 0 else ()
        os.chmod(self.base, 0o755)
        self.program = shutil.copy(self.program, f"{self.base}/program")
        for at, _, names in os.walk(self.folder):
            for path in [at, *(os.path.join(at, name) for name in names)]:
                os.chown(path, *((NOBODY, NOBODY) if by else (-1, -1)))
        owner = os.stat(self.folder).st_uid
        before = self.kept()
        files = "", "/a", "/a/index.db", "/a/index.db-wal", "/a/index.db.digest", "/lock", "/side"
        for path in (f"{self.folder}{name}" for name in files):
            mode = os.stat(path).st_mode
            for less in 0o000, 0o200, 0o400:
                if less == 0o400 and path.endswith(("/side", ".digest")):
                    continue
                os.chmod(path, less)
                given = ["--program", self.program, "--port", str(self.port), self.folder]
                status, said = self.called("supervise", *given, by=by)
                os.chmod(path, mode)
                text = f"codenav supervise: {path} may not be read and written: its owner is"
                self.assertEqual((status, said), (78, f"{text} {owner}\n"))
                self.assertEqual(self.kept(), before)

    def test_refusals_that_pass(self) -> None:
        """A port or a database that another program has is tried again, and is served when it's
        free."""
        process = self.service()
        self.put("one", "k")
        self.ended(process)
        database = database_at(self.folder, "a")
        for port, is_said in (free_port(), "is in use by process"), (self.port, "cannot listen"):
            own = database if port != self.port else ":memory:"
            words = [self.program, "serve", own, "--port", str(port), "--requests", "9"]
            holder = subprocess.Popen(words, stdout=subprocess.PIPE)
            assert holder.stdout is not None
            holder.stdout.readline()
            waiting = self.supervised()
            self.assertEqual(len(self.says(waiting, is_said)), 1)
            time.sleep(2.5)
            self.assertIsNone(waiting.poll())
            holder.terminate()
            holder.communicate()
            self.until(lambda: self.answers() and serving_of(self.folder) is not None)
            self.assertEqual(self.hover(), b'{"contents":"one"}')
            status, said = self.ended(waiting)
            self.assertEqual(status, 0, said)
            self.assertNotIn(is_said, said, "it's said once")

    def test_a_holder_that_has_ended(self) -> None:
        """That a database is damaged is a guess where somebody may have had it, so it's said where
        it's so twice, one after the other."""
        said: list[str] = []
        shows = mock.Mock(warn=said.append)
        how = How(Program(self.program), (self.port, self.port), 9)
        supervisor = Supervisor(self.folder, how, None, shows)
        database = database_at(self.folder, "a")
        os.makedirs(os.path.dirname(database))
        with open(database, "wb"):
            pass
        guess = refusal_of("codenav: store refused", database)
        other = Refusal("it's in use", True)
        rows = [(guess, True), (other, True), (guess, True), (guess, False)]
        for refusal, may_wait in rows:
            self.assertEqual(supervisor.may_wait(refusal), may_wait)
        self.assertEqual(said, [other.text, f"{database} is damaged: restore a backup"])

    def test_a_second_service(self) -> None:
        """It waits until the first one has ended, and leaves what's known of that as it is."""
        first = self.service()
        known = self.known()
        second = self.supervised()
        self.says(second, f"{self.folder} is served by process {first.pid}")
        self.assertEqual(self.known(), known)
        self.assertEqual(self.called("turn", self.folder)[0], 0)
        self.ended(first)
        self.until(lambda: getattr(serving_of(self.folder), "supervisor", 0) == second.pid)
        self.until(self.answers)

    def says(self, process: "subprocess.Popen[str]", text: str) -> list[str]:
        """The lines of a service until one has a text."""
        assert process.stderr is not None
        late = threading.Timer(SECONDS, process.kill)
        late.start()
        lines: list[str] = []
        while not lines or text not in lines[-1]:
            lines.append(process.stderr.readline())
            self.assertNotEqual(lines[-1], "", lines)
        late.cancel()
        return lines


class Sides(OnService):
    """A side that's named and gone, or lost, and one that a person wrote: nothing is served, copied
    or changed then, and one line says so."""

    def setUp(self) -> None:
        super().setUp()
        process = self.service()
        self.put("one", "k")
        self.ended(process)

    def seen(self) -> dict[str, bytes]:
        """The files of the folder but for its lock, with what they have."""
        found = {}
        for at, _, names in os.walk(self.folder):
            for name in names:
                with open(os.path.join(at, name), "rb") as file:
                    found[os.path.relpath(os.path.join(at, name), self.folder)] = file.read()
        return {path: text for path, text in found.items() if path != "lock"}

    def refuses(self, text: str, *, restores: bool = False) -> None:
        """Has `supervise` end with 78, `backup` and, but for where it helps, `restore` with 2, each
        by one line with the text, and nothing be changed."""
        before, own = self.seen(), ["--program", self.program]
        calls = {"supervise": (78, [*own, "--port", str(self.port), self.folder])}
        calls["backup"] = 2, [*own, self.folder, self.copies]
        if not restores:
            calls["restore"] = 2, [self.other(), self.folder]
        for word, (wanted, words) in calls.items():
            status, said = self.called(word, *words)
            self.assertEqual((status, said.count("\n")), (wanted, 1), said)
            self.assertIn(f"codenav {word}: {self.folder}/{text}", said)
            self.assertEqual(self.seen(), before, word)

    def other(self) -> str:
        """A copy that was made elsewhere."""
        path = f"{self.base}/elsewhere"
        if not os.path.isdir(path):
            os.mkdir(path)
            with Program(self.program).serve(f"{path}/index.db"):
                pass
            digests.keep(f"{path}/index.db")
        return path

    def second(self) -> None:
        """Has the second side be in use."""
        os.rename(f"{self.folder}/a", f"{self.folder}/b")
        self.named(b"b\n")

    def named(self, text: bytes) -> None:
        with open(f"{self.folder}/side", "wb") as out:
            out.write(text)

    def serves(self, text: str) -> None:
        process = self.service()
        self.assertEqual(self.hover(), f'{{"contents":"{text}"}}'.encode())
        self.ended(process)

    def test_a_side_that_is_gone(self) -> None:
        """It's the same for the first one, which a service names itself, for one whose folder is
        there alone, and where the other side has what a killed turn left."""
        for side in "a", "b":
            if side == "b":
                self.second()
            os.rename(f"{self.folder}/{side}", f"{self.base}/away")
            for has_folder, has_other in (False, False), (True, False), (False, True):
                with suppress(FileNotFoundError):
                    os.rmdir(f"{self.folder}/{side}")
                if has_folder:
                    os.mkdir(f"{self.folder}/{side}")
                if has_other:
                    other = f"{self.folder}/{'ab'.replace(side, '')}"
                    shutil.copytree(self.other(), other)
                text = f"side: names {side}, and {self.folder}/{side}/index.db isn't there"
                self.refuses(text, restores=True)
                if has_other:
                    shutil.rmtree(other)
            os.rename(f"{self.base}/away", f"{self.folder}/{side}")
            self.serves("one")

    def test_a_restore_of_a_side_that_is_gone(self) -> None:
        """A restore puts a copy in its place; without `side` an empty database is begun."""
        shutil.copytree(f"{self.folder}/a", f"{self.base}/kept")
        for number in range(2):
            shutil.rmtree(f"{self.folder}/{side_of(self.folder)}")
            status, said = self.called("restore", f"{self.base}/kept", self.folder)
            self.assertEqual(status, 0, (number, said))
            self.serves("one")
        shutil.rmtree(f"{self.folder}/{side_of(self.folder)}")
        os.unlink(f"{self.folder}/side")
        process = self.service()
        self.assertIn(b"D01", self.hover())
        self.ended(process)

    def test_a_lost_side(self) -> None:
        """Where the second side has a database it isn't known which one is in use, whether the
        first has one too or not; of the first alone it's known."""
        self.second()
        os.unlink(f"{self.folder}/side")
        lost = f"side: isn't there, and {self.folder}/b/index.db is: write a or b there"
        self.refuses(lost)
        os.mkdir(f"{self.folder}/a")
        self.refuses(lost)
        shutil.copy(f"{self.other()}/index.db", f"{self.folder}/a/index.db")
        self.refuses(lost)
        self.named(b"b")
        self.serves("one")
        shutil.rmtree(f"{self.folder}/a")
        os.rename(f"{self.folder}/b", f"{self.folder}/a")
        os.unlink(f"{self.folder}/side")
        self.serves("one")

    def test_a_side_that_is_none(self) -> None:
        for text, shown in (
            (b"zz", "'zz'"),
            (b"", "''"),
            (b"c\n", "'c'"),
            (b"a\nb\n", "'a\\nb'"),
            (b"\xff", "'\ufffd'"),
            (b"a\xff\n", "'a\ufffd'"),
            (b"\0" * 50, f"'{chr(92)}x00"),
        ):
            self.named(text)
            self.refuses(f"side: not a side: {shown}")
        self.named(b" a\n\n")
        self.serves("one")

    def test_a_restore_to_a_new_folder_that_is_killed(self) -> None:
        """The folder is still a new one, with which a service starts."""
        copy, own = f"{self.base}/copy", self.folder
        os.rename(f"{own}/a", copy)
        for is_made in False, True:
            self.folder = f"{self.base}/new-{is_made}"
            if is_made:
                os.mkdir(self.folder)
            restoring = self.launched("restore", copy, self.folder, is_slow=True)
            self.until(lambda: os.path.exists(f"{self.base}/copying"))
            os.unlink(f"{self.base}/copying")
            restoring.kill()
            restoring.wait()
            if is_made:
                self.ended(self.service())
            self.assertEqual(self.called("restore", copy, self.folder)[0], 0)
            self.serves("one")

    def test_a_side_that_is_changed_while_it_serves(self) -> None:
        """A turn that isn't taken ends nothing."""
        words = ["--port", str(self.port - 1), "--front", f"http://127.0.0.1:{free_port()}"]
        process = self.launched("supervise", "--program", self.program, *words, self.folder)
        self.until(self.answers)
        for text in b"b\n", b"\xff", None:
            if text is None:
                os.unlink(f"{self.folder}/side")
            else:
                self.named(text)
            status, said = self.called("turn", self.folder)
            self.assertEqual((status, "no turn: " in said), (1, True), said)
            self.assertEqual((self.answers(), side_of(self.folder)), (True, "a"))
        self.assertEqual(self.ended(process)[0], 0)


class Watched(OnService):
    """What a service says to systemd, which stands in as a socket."""

    def setUp(self) -> None:
        super().setUp()
        self.heard = self.enterContext(socket.socket(socket.AF_UNIX, socket.SOCK_DGRAM))
        self.heard.bind(f"{self.base}/heard")
        self.heard.settimeout(SECONDS)

    def says_next(self, text: str) -> str:
        """The next of what it says that has a text."""
        while text not in (said := self.heard.recv(4096).decode()):
            pass
        return said

    def test_ready(self) -> None:
        """It's ready when its server listens, and then goes on; where it waits it says for what,
        and that it goes on."""
        self.environment["NOTIFY_SOCKET"] = f"{self.base}/heard"
        with socket.create_server(("127.0.0.1", self.port)):
            process = self.supervised()
            self.assertIn("codenav: cannot listen", self.says_next("STATUS="))
            self.says_next("WATCHDOG=1")
        said = self.says_next("READY=1")
        self.assertIn(f"STATUS=serves {self.folder}/a/index.db after ", said)
        self.assertTrue(self.answers())
        self.says_next("WATCHDOG=1")
        self.assertEqual(self.ended(process)[0], 0)

    def test_a_server_that_hangs(self) -> None:
        """It's started again."""
        self.environment["WATCHDOG_USEC"] = "30000000"
        process = self.service()
        self.put("one", "k")
        server = self.known().server
        os.kill(server, signal.SIGSTOP)
        self.until(lambda: self.known().server != server and self.answers())
        self.assertEqual(self.hover(), b'{"contents":"one"}')
        self.assertIn("nothing was heard of the server for 10 s\n", self.ended(process)[1])

    def test_what_hangs(self) -> None:
        """A server that answers doesn't, nor one that works, nor one that's copied."""
        os.close(os.open(f"{self.folder}/lock", os.O_CREAT))
        with Program(self.program).serve() as server:
            watch = Watch(self.folder, SECONDS)
            os.kill(server.pid, signal.SIGSTOP)
            self.until(lambda: state_of(server.pid) == "T")
            for is_working, is_copied, hangs in (
                (False, False, True),
                (False, True, False),
                (True, False, False),
            ):
                watch.heard = time.monotonic() - 2 * SECONDS
                watch.work = "" if is_working else worked(server.pid)
                with locked(self.folder) if is_copied else nullcontext():
                    self.assertEqual(watch.hangs(server), hangs, (is_working, is_copied))
            os.kill(server.pid, signal.SIGCONT)
            watch.heard = time.monotonic() - 2 * SECONDS
            watch.ask(server.url)
            self.assertFalse(watch.hangs(server))

    def test_measures(self) -> None:
        """They're there for all to read, and know the last good copy and the turns."""
        self.environment["RUNTIME_DIRECTORY"] = self.base
        self.service()
        self.put("one", "k")
        given = ["--program", self.program, self.folder, self.copies]
        self.assertEqual(self.called("backup", *given)[0], 0)
        self.assertEqual(self.called("turn", self.folder)[0], 0)
        self.until(lambda: self.measured().get("codenav_turns_total") == 1)
        found = self.measured()
        self.assertEqual(found["codenav_turns_tried_total"], 1)
        self.assertAlmostEqual(found["codenav_last_copy_timestamp_seconds"], time.time(), delta=600)
        self.until(lambda: self.measured()["codenav_database_bytes"] == self.size())
        self.assertEqual(os.stat(f"{self.base}/codenav.prom").st_mode & 0o777, 0o644)

    def size(self) -> int:
        return sum(map(os.path.getsize, files_of(database_at(self.folder, "a"))))

    def measured(self) -> dict[str, int]:
        """The measures by their names, where they're written."""
        path = f"{self.base}/codenav.prom"
        if not os.path.exists(path):
            return {}
        with open(path, encoding="utf-8") as file:
            pairs = [line.split() for line in file]
        return {name: int(value) for name, value in pairs}


class Refused(unittest.TestCase):
    """What the system refuses while a side is named, and while a copy is put in its place."""

    def setUp(self) -> None:
        self.folder = self.enterContext(tempfile.TemporaryDirectory())
        for name, text in ("a", "old"), ("copy", "new"):
            os.mkdir(f"{self.folder}/{name}")
            with open(f"{self.folder}/{name}/index.db", "w", encoding="utf-8") as out:
                out.write(text)

    def refused(self, name: str, fails: Callable[[str], bool]) -> AbstractContextManager[Any]:
        """Refuses a call of `os` by EIO, for paths of which that's said."""
        own = getattr(os, name)

        def call(*words: Any) -> Any:
            if any(fails(str(word)) for word in words):
                raise OSError(errno.EIO, os.strerror(errno.EIO), words[-1])
            return own(*words)

        return mock.patch.object(os, name, call)

    def served(self) -> str:
        """What the database of the side in use has."""
        with open(database_at(self.folder, side_of(self.folder)), encoding="utf-8") as file:
            return file.read()

    def test_naming_a_side(self) -> None:
        """Where the name doesn't get to the disk it's the one of before."""
        with self.refused("open", self.folder.__eq__):
            with self.assertRaises(OSError):
                use(self.folder, "b")
        self.assertEqual(side_of(self.folder), "a")

    def test_putting_a_copy(self) -> None:
        """It's in its place, or the old one is as it was."""
        for name, fails, text, files in (
            ("replace", lambda path: path.endswith("/side"), "old", ["a", "copy"]),
            ("rename", lambda path: path.endswith("/before"), "new", ["a", "b", "copy", "side"]),
            ("rename", lambda path: False, "new", ["a", "before", "copy", "side"]),
        ):
            with self.refused(name, fails), suppress(OSError):
                put(f"{self.folder}/copy", self.folder)
            self.assertEqual((self.served(), sorted(os.listdir(self.folder))), (text, files))

    def test_faults_of_the_system(self) -> None:
        """They're named, and tried again."""
        for number in errno.ENOSPC, errno.EIO, errno.EACCES, errno.EMFILE:
            found = refusal_by(OSError(number, os.strerror(number)), self.folder)
            self.assertEqual(found, Refusal(f"{self.folder}: {os.strerror(number)}", True))


class Copies(OnService):
    def backup(self, *words: str, by: tuple[str, ...] = ()) -> tuple[int, str]:
        given = ["--program", self.program, *words, self.folder, self.copies]
        return self.called("backup", *given, by=by)

    def names(self) -> list[str]:
        return sorted(os.listdir(self.copies)) if os.path.isdir(self.copies) else []

    def test_a_backup_and_its_restore(self) -> None:
        """A copy that was made while the server ran has what it had then, and is refused where it
        was changed."""
        process = self.service()
        self.put("one", "k")
        status, said = self.backup("--keep", "2")
        self.assertEqual((status, len(self.copied())), (0, 1), said)
        self.put("two", "l")
        copy = f"{self.copies}/{self.copied()[0]}"
        self.assertEqual(self.called("restore", copy, self.folder)[0], 2)
        self.assertEqual(self.hover(), b'{"contents":"two"}')
        self.assertEqual(self.ended(process)[0], 0)
        self.assertEqual(self.called("restore", copy, self.folder)[0], 0)
        process = self.service()
        self.assertEqual(self.hover(), b'{"contents":"one"}')
        self.ended(process)
        with open(f"{copy}/index.db", "r+b") as file:
            file.seek(5000)
            file.write(b"!")
        status, said = self.called("restore", copy, self.folder)
        self.assertEqual((status, "the copy changed" in said), (2, True))

    def test_a_server_whose_files_are_hidden(self) -> None:
        """In another space of users, as a unit with PrivateUsers is, the open files of a process
        aren't seen; the server is found all the same, and stands while it's copied."""
        hidden = ("unshare", "--user", "--map-root-user")
        if subprocess.run([*hidden, "true"], check=False, capture_output=True).returncode != 0:
            self.skipTest("no space of users can be made here")
        self.service()
        self.put("one", "k")
        server = self.known().server
        words = ["--program", self.program, self.folder, self.copies]
        copying = self.launched("backup", *words, is_slow=True, by=hidden)
        self.until(lambda: self.stands() or copying.poll() is not None)
        self.assertEqual((state_of(server), copying.poll()), ("T", None))
        copying.kill()
        self.until(lambda: state_of(server) == "S")
        status, said = self.backup(by=hidden)
        self.assertEqual((status, len(self.copied())), (0, 1), said)

    def test_a_server_that_is_started_all_the_time(self) -> None:
        """It's copied all the same."""
        process = self.service()
        self.put("one", "k")
        is_over = threading.Event()

        def start() -> None:
            while not is_over.is_set():
                process.send_signal(signal.SIGHUP)
                time.sleep(TICK)

        starting = threading.Thread(target=start)
        starting.start()
        try:
            made = [self.backup() for _ in range(4)]
        finally:
            is_over.set()
            starting.join()
        self.assertEqual([status for status, _ in made], [0] * 4, made)
        self.assertEqual(len(self.copied()), 4)

    def test_a_server_that_has_just_ended(self) -> None:
        """A copy is tried again where the one that had the database can't be seen, or is gone."""
        self.ended(self.service())
        with subprocess.Popen(["true"]) as gone:
            gone.wait()
        for first in UNSEEN, gone.pid:
            new = f"{self.base}/{first}"
            with mock.patch("codenav.service.copies.holder_of", side_effect=[first, None]):
                copied_now(self.folder, new)
            self.assertTrue(os.path.isfile(f"{new}/index.db"))

    def test_a_server_that_was_just_started(self) -> None:
        """It stands too, though it hasn't opened the database yet."""
        self.ended(self.service())
        words = ["--program", self.program, self.folder, self.copies]
        self.program = f"{self.base}/waiting"
        with open(self.program, "w", encoding="utf-8") as script:
            script.write("#!/usr/bin/python3\nimport time\ntime.sleep(600)\n")
        os.chmod(self.program, 0o700)
        self.supervised()
        self.until(lambda: serving_of(self.folder) is not None)
        copying = self.launched("backup", *words, is_slow=True)
        self.until(lambda: self.stands() or self.copies_now())
        self.assertTrue(self.stands())
        copying.kill()
        self.until(lambda: state_of(self.known().server) == "S")

    def test_folders_that_are_not_apart(self) -> None:
        """Nothing is copied from a folder to itself, or to what's in it, or to a copy: that's one
        line, and nothing changes."""
        self.ended(self.service())
        for _ in range(2):
            self.assertEqual(self.backup()[0], 0)
        one, two = (f"{self.copies}/{name}" for name in self.copied())
        shutil.copytree(one, f"{self.folder}/before")
        os.symlink(self.folder, f"{self.base}/link")
        backup = ("backup", "--program", self.program)
        before = self.files(self.base)
        for words in (
            (*backup, self.folder, self.folder),
            (*backup, f"{self.base}/link", self.folder),
            (*backup, self.folder, f"{self.base}/link/copies"),
            (*backup, self.folder, self.base),
            ("restore", one, one),
            ("restore", one, two),
            ("restore", one, self.copies),
            ("restore", self.copies, self.copies),
            ("restore", self.copies, f"{self.copies}/new"),
            ("restore", f"{self.folder}/before", f"{self.base}/link"),
            ("restore", "--turn", self.copies, self.copies),
        ):
            status, said = self.called(*words)
            self.assertEqual((status, said.count("\n")), (2, 1), (words, said))
            self.assertEqual(self.files(self.base), before, words)

    def test_a_turn_to_a_copy_without_a_front(self) -> None:
        """That's said, and the server goes on."""
        process = self.service()
        self.put("one", "k")
        self.assertEqual(self.backup()[0], 0)
        known, before = self.known(), self.files(self.folder)
        words = ("restore", "--turn", self.copies, self.folder)
        text = f"nothing was restored: the service of {self.folder} has no --front\n"
        self.assertEqual(self.called(*words), (1, text))
        self.assertEqual((self.known(), self.files(self.folder)), (known, before))
        self.ended(process)
        before = self.files(self.folder)
        self.assertEqual(self.called(*words)[0], 2)
        self.assertEqual(self.files(self.folder), before)

    def test_one_address(self) -> None:
        """Whoever asks the server asks one port after any number of turns and restores."""
        process = self.service()
        self.put("one", "k")
        self.assertEqual(self.backup()[0], 0)
        for side in "b", "a", "b":
            server = self.known().server
            self.assertEqual(self.called("turn", self.folder)[0], 0)
            self.until(lambda: self.known().server != server and self.answers())
            self.ended(process)
            self.assertEqual(self.called("restore", self.copies, self.folder)[0], 0)
            process = self.service()
            self.assertEqual((self.known().side, self.hover()), (side, b'{"contents":"one"}'))

    def copied(self) -> list[str]:
        return [name for name in self.names() if name.endswith("Z")]

    def test_old_copies(self) -> None:
        """The oldest go, and those that were made when the clock was ahead are the oldest; the one
        that's just made stays, and is restored where no copy is named."""
        self.ended(self.service())
        for years, keep, left in (
            ((2001, 2002, 2003), 2, [2003]),
            ((2001, 2931, 2932), 2, [2001]),
            ((2931, 2932), 2, [2932]),
            ((2931, 2932), 1, []),
        ):
            shutil.rmtree(self.copies, ignore_errors=True)
            old = [f"{year}0101T000000Z" for year in years]
            for name in old:
                os.makedirs(f"{self.copies}/{name}")
                with open(f"{self.copies}/{name}/index.db", "wb"):
                    pass
            os.makedirs(f"{self.copies}/of-another-Z")
            self.assertEqual(self.backup("--keep", str(keep))[0], 0)
            found = self.copied()
            self.assertIn("of-another-Z", found)
            new = [name for name in found if name not in [*old, "of-another-Z"]]
            self.assertEqual(len(new), 1, years)
            self.assertEqual([int(name[:4]) for name in found if name in old], left)
            status, said = self.called("restore", self.copies, self.folder)
            text = f"{self.folder} has the copy {self.copies}/{new[0]}\n"
            self.assertEqual((status, said), (0, text))

    def test_copies_of_one_second(self) -> None:
        """Where the names of these seconds are taken, a copy has that of the next second."""
        self.ended(self.service())
        begin = time.time()
        taken = [time.strftime(NAME, time.gmtime(begin + later)) for later in range(8)]
        for name in taken:
            os.makedirs(f"{self.copies}/{name}/of-another")
        status, said = self.backup()
        self.assertEqual((status, len(self.copied())), (0, len(taken) + 1), said)

    def test_copies_that_are_not_whole(self) -> None:
        """A copy whose digest, log or database's end is missing isn't put back."""
        self.service()
        self.put("one", "k")
        for name, said_of in (
            ("index.db.digest", "no index.db.digest, so it can't be known whether it's whole"),
            ("index.db-wal", "the copy changed since it was made"),
            ("index.db", "the copy changed since it was made"),
        ):
            self.assertEqual(self.backup()[0], 0)
            copy = f"{self.copies}/{self.copied()[-1]}"
            if name == "index.db":
                os.truncate(f"{copy}/{name}", 4096)
            else:
                os.unlink(f"{copy}/{name}")
            other = f"{self.base}/{name}"
            status, said = self.called("restore", copy, other)
            self.assertEqual((status, said), (2, f"codenav restore: {copy}: {said_of}\n"))
            self.assertFalse(os.path.exists(other))

    def test_copies_that_root_makes(self) -> None:
        """What root copies and puts back belongs to the service's user, who makes the next copy."""
        if os.getuid() != 0:
            self.skipTest("this isn't root")
        self.ended(self.service())
        os.chmod(self.base, 0o755)
        for path in self.folder, f"{self.folder}/a", *self.files(f"{self.folder}/a"):
            os.chown(path, NOBODY, NOBODY)
        shutil.rmtree(self.copies, ignore_errors=True)
        os.unlink(f"{self.folder}/lock")
        user = ("setpriv", f"--reuid={NOBODY}", f"--regid={NOBODY}", "--clear-groups")
        # where the service's user may call them
        self.program = shutil.copy(self.program, f"{self.base}/program")
        tools = shutil.copytree(os.path.join(TOP, "tools", "codenav"), f"{self.base}/tools/codenav")
        own = [sys.executable, "-B", f"{tools}/__main__.py"]
        self.enterContext(mock.patch("tests.test_service.command", lambda tool: [*own, tool]))
        for by in (), user, user:
            status, said = self.backup("--keep", "2", by=by)
            self.assertEqual((status, said.count("Permission denied")), (0, 0), said)
        copy = f"{self.copies}/{self.copied()[0]}"
        self.assertEqual(len(self.copied()), 2)
        self.assertEqual(self.called("restore", copy, self.folder)[0], 0)
        made = [*self.files(self.folder), *self.files(self.copies)]
        self.assertGreater(len(made), 8)
        known = {path: os.stat(path).st_uid for path in made if not path.endswith("/server")}
        self.assertEqual(set(known.values()), {NOBODY}, known)

    def files(self, folder: str) -> list[str]:
        """All that's in a folder, with it."""
        return [folder] + [
            os.path.join(at, name)
            for at, folders, names in os.walk(folder)
            for name in [*folders, *names]
        ]

    def test_a_restore_without_room(self) -> None:
        """The database stays as it is, and nothing is left of the copy."""
        process = self.service()
        self.put("one", "k")
        self.assertEqual(self.backup()[0], 0)
        self.ended(process)
        before = self.files(self.folder)
        copy = f"{self.copies}/{self.copied()[0]}"
        status, said = self.called("restore", copy, self.folder, by=("prlimit", "--fsize=4096"))
        self.assertEqual((status, said.count("\n")), (2, 1), said)
        self.assertEqual(self.files(self.folder), before)

    def test_a_backup_that_is_killed(self) -> None:
        """The server goes on, no copy is there, and the next backup is made."""
        self.service()
        self.put("one", "k")
        words = ["--program", self.program, self.folder, self.copies]
        copying = self.launched("backup", *words, is_slow=True)
        self.until(self.stands)
        copying.kill()
        self.until(lambda: state_of(self.known().server) == "S")
        self.assertEqual((self.hover(), self.copied()), (b'{"contents":"one"}', []))
        self.assertEqual(self.backup()[0], 0)
        self.assertEqual(len(self.copied()), 1)

    def stands(self) -> bool:
        return state_of(self.known().server) == "T"

    def test_no_copy_that_is_refused(self) -> None:
        """A damaged database isn't copied over the good copies."""
        os.mkdir(f"{self.folder}/a")
        with open(database_at(self.folder, "a"), "wb") as file:
            file.write(b"no database" * 1000)
        status, said = self.backup()
        self.assertEqual((status, self.copied(), said.count("\n")), (2, [], 1))
        self.assertIn("the copy is refused: codenav: store refused", said)

    def test_a_restore_that_is_killed(self) -> None:
        """The database is the old one until the copy is whole."""
        process = self.service()
        self.put("one", "k")
        self.assertEqual(self.backup()[0], 0)
        self.put("two", "l")
        self.ended(process)
        copy = f"{self.copies}/{self.copied()[0]}"
        restoring = self.launched("restore", copy, self.folder, is_slow=True)
        self.until(self.copies_now)
        restoring.kill()
        restoring.wait()
        process = self.service()
        self.assertEqual(self.hover(), b'{"contents":"two"}')
        self.ended(process)
        self.assertEqual(self.called("restore", copy, self.folder)[0], 0)
        self.service()
        self.assertEqual(self.hover(), b'{"contents":"one"}')

    def copies_now(self) -> bool:
        """Whether `cp` was called."""
        return os.path.exists(f"{self.base}/copying")


class Turns(OnService):
    def setUp(self) -> None:
        super().setUp()
        why = lacking("lua")
        if why:
            self.skipTest(why)
        servers = [f"127.0.0.1:{self.port + 1}", f"127.0.0.1:{self.port + 2}"]
        os.mkdir(f"{self.base}/front")
        front = fronted("lua", f"{self.base}/front", servers, asked=self.port)
        self.front: Front = self.enterContext(front)
        self.local = f"http://127.0.0.1:{self.front.local}"

    def test_turns(self) -> None:
        """Two turns while writes come: each is answered, and none is lost."""
        self.service("--front", self.local)
        answers: list[tuple[int, bytes]] = []
        is_over = threading.Event()

        def write() -> None:
            while not is_over.is_set():
                number = len(answers)
                body = (DUMP % f"text {number}").encode()
                path = f"/projects/p{number}/lsif?key=k"
                status, _, found = self.front.ask("PUT", path, body)
                answers.append((status, found))

        writing = threading.Thread(target=write)
        writing.start()
        for side in "b", "a":
            status, said = self.called("turn", self.folder)
            self.assertEqual((status, side_of(self.folder)), (0, side), said)
            self.assertTrue(self.answers())
            self.assertFalse(os.path.exists(database_at(self.folder, "ab".replace(side, ""))))
            count = len(answers)
            self.until(lambda: len(answers) > count + 3)
        is_over.set()
        writing.join()
        self.assertEqual(set(answers), {(200, b'{"accepted":"lsif","count":6}')})
        for number in range(len(answers)):
            found = self.front.ask("GET", HOVER.replace("/app/", f"/p{number}/"))[2]
            self.assertEqual(found, f'{{"contents":"text {number}"}}'.encode())

    def other(self, text: str) -> str:
        """A folder with a database that another place made, of which the hover says a text."""
        path = os.path.join(self.base, f"made-{text}")
        os.mkdir(path)
        with Program(self.program).serve(f"{path}/index.db") as server:
            self.assertIn(b"accepted", self.put(text, "k", server.url))
        digests.keep(f"{path}/index.db")
        return path

    def test_a_turn_to_another_database(self) -> None:
        """Questions meanwhile are answered from the old database or the new one, none twice the
        other way round, and none fails; the old one stays beside. What was offered by who is gone
        isn't taken."""
        self.service("--front", self.local)
        self.front.ask("PUT", "/projects/app/lsif?key=k", (DUMP % "old").encode())
        answers: list[tuple[int, bytes]] = []
        is_over = threading.Event()

        def ask() -> None:
            while not is_over.is_set():
                status, _, found = self.front.ask("GET", HOVER)
                answers.append((status, found))

        asking = threading.Thread(target=ask)
        asking.start()
        self.until(lambda: len(answers) > 3)
        status, said = self.called("restore", "--turn", self.other("new"), self.folder)
        self.assertEqual((status, side_of(self.folder)), (0, "b"), said)
        count = len(answers)
        self.until(lambda: len(answers) > count + 3)
        is_over.set()
        asking.join()
        old, new = (200, b'{"contents":"old"}'), (200, b'{"contents":"new"}')
        first = answers.index(new)
        self.assertEqual(answers, [old] * first + [new] * (len(answers) - first))
        self.assertTrue(os.path.isfile(f"{self.folder}/before/index.db"))
        path = self.other("never")
        shutil.copytree(path, f"{self.folder}/next", dirs_exist_ok=True)
        self.assertEqual(self.called("turn", self.folder)[0], 0)
        self.assertEqual(self.front.ask("GET", HOVER)[2], new[1])

    def test_turns_to_another_database_that_are_not_taken(self) -> None:
        """Where there's no service, no front, no digest, or no database of the program, nothing
        changes, and that's a line."""
        path, foreign = self.other("new"), os.path.join(self.base, "foreign")
        words = ("restore", "--turn", path, self.folder)
        self.assertEqual(self.called(*words)[0], 2)
        port, self.port = self.port, free_port()
        process = self.service()
        self.put("old", "k")
        self.assertEqual(self.called(*words)[0], 1)
        self.until(self.answers)
        self.assertEqual(self.hover(), b'{"contents":"old"}')
        self.ended(process)
        self.port = port
        self.service("--front", self.local)
        os.mkdir(foreign)
        with open(f"{foreign}/index.db", "wb") as file:
            file.write(b"no database")
        for status in 2, 1:
            found, said = self.called("restore", "--turn", foreign, self.folder)
            self.assertEqual((found, said.count("\n")), (status, 1), said)
            digests.keep(f"{foreign}/index.db")
        self.assertEqual(self.front.ask("GET", HOVER)[2], b'{"contents":"old"}')
        self.assertEqual(os.listdir(f"{self.folder}/next"), ["lock"])

    def test_a_turn_before_the_requests_are_over(self) -> None:
        """The last requests of a run come slowly enough that the service sees in time how many are
        left. Where it begins to count late, on a busy machine, that's so of the next run."""
        self.service("--front", self.local, "--requests", "100")
        time.sleep(1.5)
        for count in range(300):
            self.assertEqual(self.front.ask("GET", "/projects")[0], 200)
            if self.known().turns > 0:
                break
            if count > 80:
                time.sleep(0.15)
        self.assertEqual((self.known().turns, self.known().side), (1, "b"))

    def test_a_turn_that_is_killed(self) -> None:
        """Writes go on at the old side when the service is there again."""
        process = self.service("--front", self.local, is_slow=True)
        self.front.ask("PUT", "/projects/app/lsif?key=k", (DUMP % "one").encode())
        os.kill(process.pid, signal.SIGHUP)
        self.until(self.stands)
        process.kill()
        process.wait()
        self.service("--front", self.local)
        self.assertEqual(side_of(self.folder), "a")
        self.assertEqual(
            self.front.ask("PUT", "/projects/app/lsif?key=l", (DUMP % "two").encode())[0], 200
        )
        self.assertEqual(self.front.ask("GET", HOVER)[2], b'{"contents":"two"}')

    def stands(self) -> bool:
        return state_of(self.known().server) == "T"

    def test_turns_that_are_not_taken(self) -> None:
        """Without a front the server is started again. Where none runs, or the front is away,
        nothing changes."""
        status, said = self.called("turn", self.folder)
        self.assertEqual((status, said.count("\n")), (2, 1))
        port, self.port = self.port, free_port()
        process = self.service()
        self.assertEqual(self.called("turn", self.folder)[0], 0)
        self.ended(process)
        self.port = port
        self.service("--front", f"http://127.0.0.1:{free_port()}")
        for _ in range(2):
            status, said = self.called("turn", self.folder)
            self.assertEqual((status, "no turn: " in said, self.answers()), (1, True, True), said)

    def test_a_full_disk(self) -> None:
        """No turn is taken, who asked for one is told so at once, and the service goes on."""
        words = ["mount", "-t", "tmpfs", "-o", "size=8m", "codenav", self.folder]
        if subprocess.run(words, check=False, capture_output=True).returncode != 0:
            self.skipTest("no file system can be mounted here")
        self.addCleanup(lambda: subprocess.run(["umount", "--lazy", self.folder], check=True))
        process = self.service("--front", self.local)
        with open(f"{self.folder}/full", "wb", buffering=0) as file:
            with suppress(OSError):
                while file.write(bytes(1 << 12)):
                    pass
        for _ in range(2):
            status, said = self.called("turn", self.folder)
            self.assertEqual((status, "No space left" in said), (1, True), said)
        os.unlink(f"{self.folder}/full")
        self.assertEqual(self.called("turn", self.folder)[0], 0)
        self.ended(process)

    def test_a_turn_that_finds_no_room(self) -> None:
        """Where the other side can't be made the server goes on, and writes too; the next turn is
        taken."""
        self.service("--front", self.local)
        server = self.known().server
        with open(f"{self.folder}/b", "wb"):
            pass
        for _ in range(2):
            status, said = self.called("turn", self.folder)
            self.assertEqual((status, said), (1, f"no turn: {self.folder}/b: Not a directory\n"))
        self.assertEqual((self.known().server, self.known().side), (server, "a"))
        state = told(self.local, "/state")
        self.assertEqual(state and state.held, False)
        path = "/projects/app/lsif?key=k"
        self.assertEqual(self.front.ask("PUT", path, (DUMP % "one").encode())[0], 200)
        os.unlink(f"{self.folder}/b")
        self.assertEqual(self.called("turn", self.folder)[0], 0)
        self.assertEqual(self.known().side, "b")


if __name__ == "__main__":
    unittest.main()
