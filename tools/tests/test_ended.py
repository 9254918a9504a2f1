"""Tests of calls that are ended in their midst: nothing that they started goes on, and no file
stays."""

import contextlib
import io
import os
import shlex
import signal
import subprocess
import sys
import tempfile
import time
import unittest
from collections import Counter
from pathlib import Path
from typing import ContextManager
from unittest import mock
from unittest.mock import DEFAULT

from codenav.cli.prepare import PREPARE
from codenav.faults import BadCall
from codenav.index.indexers import indexed
from codenav.progress import Quiet
from codenav.sets.split.writing import Writer
from codenav.texts.decoded import body_of
from tests.packages import needs
from tests.servers import TOP, command

RAW = os.path.join(TOP, "demo", "crate.raw.lsif")
BODY = "codenav.dumps.scip.documents.body_of"
SECONDS = 60
GOES_ON = 60


def processes_with(mark: str) -> list[str]:
    """The processes whose environment has a text, once they had the time to end."""
    found: list[str] = []
    until = time.monotonic() + GOES_ON
    while True:
        found.clear()
        for path in Path("/proc").glob("[0-9]*"):
            with contextlib.suppress(OSError):
                if mark.encode() in (path / "environ").read_bytes():
                    found.append((path / "cmdline").read_text().replace("\0", " "))
        if not found or time.monotonic() > until:
            return found
        time.sleep(0.1)


class Descriptors(unittest.TestCase):
    def test_what_is_closed_or_full(self) -> None:
        """A standard input, output or error that isn't there, or takes nothing: what is written is
        whole, and what can't be written is one line with status 2."""
        folder = self.enterContext(tempfile.TemporaryDirectory())
        whole, own = os.path.join(folder, "whole"), os.path.join(folder, "own")
        prepare = shlex.join([*command("prepare"), RAW])
        subprocess.run(["sh", "-c", f"{prepare} {whole}"], check=True, capture_output=True)
        closed, full = "Bad file descriptor", "No space left on device"
        rows = [
            (f"{prepare} {own} 2>&-", 0, ""),
            (f"{prepare} {own} 2>/dev/full", 0, ""),
            (f"{prepare} - 2>&- >{own}", 0, ""),
            (f"{prepare} - >&-", 2, f"codenav prepare: standard output: {closed}\n"),
            (f"{prepare} - >/dev/full", 2, f"codenav prepare: standard output: {full}\n"),
            (f"{shlex.join(command('--version'))} >&-", 2, f"codenav: standard output: {closed}\n"),
            (f"{shlex.join(command('prepare'))} - {own} <&-", 2, f"codenav prepare: .*{closed}\n"),
        ]
        for line, status, said in rows:
            with self.subTest(line):
                if os.path.exists(own):
                    os.unlink(own)
                run = subprocess.run(
                    ["sh", "-c", line], capture_output=True, text=True, check=False
                )
                self.assertEqual((run.returncode, run.stdout), (status, ""))
                self.assertRegex(run.stderr.splitlines(True)[-1] if said else "", f"^{said}$")
                if status == 0:
                    self.assertEqual(Path(own).read_bytes(), Path(whole).read_bytes())
                else:
                    self.assertFalse(os.path.exists(own))


class Ended(unittest.TestCase):
    def setUp(self) -> None:
        self.folder = self.enterContext(tempfile.TemporaryDirectory())
        self.home = self.enterContext(tempfile.TemporaryDirectory())

    def test_signals(self) -> None:
        """The indexer, and what it started, ends with a publish."""
        lines = ["sleep 300", "sleep 300; true", "(sleep 300 & wait) & sleep 300"]
        rows = [
            (signal.SIGTERM, 143, "codenav publish: ended by SIGTERM\n"),
            (signal.SIGHUP, 129, "codenav publish: ended by SIGHUP\n"),
            (signal.SIGINT, 130, "codenav publish: ended by Ctrl-C\n"),
            (signal.SIGKILL, -9, ""),
        ]
        for line in lines:
            for number, status, text in rows:
                with self.subTest(line=line, number=number):
                    self.assertEqual(self.ended(line, number), (status, text, []))
        self.assertEqual(os.listdir(self.folder), [])

    def ended(self, line: str, number: int) -> tuple[int, str, list[str]]:
        """The status of a publish that a signal ends while it indexes, what it said, and what goes
        on after it."""
        begun, mark = os.path.join(self.home, "begun"), f"CODENAV_ENDED={self.folder}"
        with tempfile.TemporaryDirectory() as work:
            words = ["--dry-run", "--index", f"touch {begun}; {line}", "http://127.0.0.1:1", "app"]
            env = {**os.environ, "TMPDIR": work, **dict([mark.split("=")])}
            with contextlib.suppress(FileNotFoundError):
                os.unlink(begun)
            with subprocess.Popen(
                [*command("publish"), *words, self.folder],
                stderr=subprocess.PIPE,
                text=True,
                env=env,
            ) as call:
                until = time.monotonic() + SECONDS
                while not os.path.exists(begun) and time.monotonic() < until:
                    time.sleep(0.05)
                call.send_signal(number)
                _, said = call.communicate(timeout=SECONDS)
            left = processes_with(mark)
            if number != signal.SIGKILL:
                self.assertEqual(os.listdir(work), [])
        return call.returncode, said, left

    def test_signals_that_python_does_not_see(self) -> None:
        """One that comes within a finaliser, and one that another thread of the process gets while
        the call waits, end the call too."""
        kill = "signal.pthread_kill(threading.get_ident(), number)"
        rows = [
            f"type('Dropped', (), {{'__del__': lambda _: {kill}}})()",
            f"threading.Timer(0.2, lambda: {kill}).start()",
        ]
        for number in signal.SIGTERM, signal.SIGINT, signal.SIGHUP:
            for line in rows:
                lines = [
                    "import os, signal, threading",
                    "from codenav.cli.ends import end_by_signals, status_of",
                    "def call():",
                    f"    {line}",
                    "    return os.read(os.pipe()[0], 1)[0]",
                    f"number = {int(number)}",
                    "end_by_signals()",
                    "os._exit(status_of('x', call))",
                ]
                with self.subTest(line, number=number):
                    done = subprocess.run(
                        [sys.executable, "-c", "\n".join(lines)],
                        cwd=os.path.join(TOP, "tools"),
                        stdout=subprocess.PIPE,
                        stderr=subprocess.PIPE,
                        timeout=SECONDS,
                        check=False,
                        text=True,
                    )
                    name = {signal.SIGINT: "Ctrl-C"}.get(number, number.name)
                    wanted = 128 + number, f"x: ended by {name}\n"
                    self.assertEqual((done.returncode, done.stderr), wanted)

    def test_as_it_starts(self) -> None:
        """Ctrl-C is no traceback at any moment."""
        words = [os.path.join(TOP, "codenav"), "ask", "http://127.0.0.1:1", "app", "names", "x"]
        ends = Counter[int]()
        moment = 0.001
        while 2 not in ends and moment < SECONDS:
            moment *= 1.15
            with subprocess.Popen(words, stderr=subprocess.PIPE, text=True) as call:
                time.sleep(moment)
                call.send_signal(signal.SIGINT)
                _, said = call.communicate(timeout=SECONDS)
            ends[call.returncode] += 1
            lines = said.splitlines()
            self.assertLessEqual(len(lines), 1, said)
            if call.returncode == 130:
                self.assertRegex(said, "^codenav( ask)?: ended by Ctrl-C$")
        # that of the shell before it starts Python, and in the end that of a call that was done
        self.assertLessEqual(ends.keys(), {130, -signal.SIGINT, 2})

    def test_an_earlier_index(self) -> None:
        """What an earlier call kept isn't taken for what an indexer wrote."""
        rows = [('cp "$RAW" "$OUT"', "index.out"), ('cat "$RAW"', "index.raw")]
        with mock.patch.dict(os.environ, {"RAW": RAW}):
            for line, name in [*rows, *rows]:
                found = indexed(line, TOP, "app", self.folder, Quiet())
                self.assertEqual(os.path.basename(found), name)
            indexed(rows[0][0], TOP, "app", self.folder, Quiet())
            with self.assertRaisesRegex(BadCall, "^the indexer wrote nothing: true$"):
                indexed("true", TOP, "app", self.folder, Quiet())

    def test_a_writer(self) -> None:
        """Where a process that writes parts is killed, or can't write, the call ends by a line, and
        the folder is as it was."""
        dies = mock.patch.object(Writer, "write", lambda *_: os.kill(os.getpid(), signal.SIGKILL))
        full = OSError(28, "No space left on device", "x.lsif")
        fails = mock.patch.object(Writer, "write", mock.Mock(side_effect=full))
        rows: list[tuple[ContextManager[object], str]] = [
            (dies, "a process that writes parts ended with status -9"),
            (fails, "x.lsif: No space left on device"),
        ]
        out = os.path.join(self.folder, "set")
        words = ["--set", "--name", "app", "--elements", "185", "--jobs", "2", RAW, out]
        for patch, text in rows:
            with patch, contextlib.redirect_stderr(io.StringIO()) as said:
                status = PREPARE.main(words)
            self.assertEqual((status, said.getvalue()), (2, f"codenav prepare: {text}\n"))
            self.assertEqual(os.listdir(self.folder), [])

    def test_a_text_that_is_gone(self) -> None:
        """An index is read twice: a text that can't be had any more then is no less to be there."""
        needs("google.protobuf", "python3-protobuf")
        crate, out = os.path.join(TOP, "demo", "crate"), os.path.join(self.folder, "out.lsif")
        words = ["--source", crate, f"{crate}.scip", out]
        line = "left out: document whose file can't be read (gone): 1, the first at src/lib.rs"
        for number, status, text in (
            (1, 1, line),
            (3, 2, "src/lib.rs: gone"),
            (4, 2, "src/lib.rs: gone"),
        ):
            read = [DEFAULT] * (number - 1) + [BadCall("src/lib.rs: gone")] + [DEFAULT] * 4
            with mock.patch(BODY, mock.Mock(wraps=body_of, side_effect=read)):
                with contextlib.redirect_stderr(io.StringIO()) as said:
                    self.assertEqual(PREPARE.main(words), status)
            self.assertIn(text, said.getvalue())
            self.assertEqual(os.path.exists(out), status == 1)
            with contextlib.suppress(FileNotFoundError):
                os.unlink(out)


if __name__ == "__main__":
    unittest.main()
