"""Tests of the one command `codenav`: its words, its ends, and that pip installs it."""

import glob
import importlib.util
import io
import os
import shutil
import signal
import socket
import subprocess
import sys
import tempfile
import unittest
import venv
from contextlib import redirect_stderr, redirect_stdout

import tomllib

from codenav import VERSION
from codenav.cli.main import OWN, TOOLS, main, usage
from codenav.program import NONE, PACKAGED, PROVED
from tests.packages import needs
from tests.servers import BUILT, SECONDS, TOP, OnServer, command


def files_of(folder: str) -> set[str]:
    """The files of a package, from its folder on, without what Python keeps of them."""
    return {
        os.path.relpath(os.path.join(at, name), folder)
        for at, _, names in os.walk(folder)
        for name in names
        if "__pycache__" not in at
    }


class OneCommand(unittest.TestCase):
    def test_each_tool(self) -> None:
        for name in TOOLS:
            with self.subTest(name), redirect_stdout(io.StringIO()) as said:
                with self.assertRaises(SystemExit) as end:
                    main([name, "--help"])
            words = ["usage:", "codenav", name]
            self.assertEqual(
                (end.exception.code, said.getvalue().split()[: len(words)]), (0, words)
            )

    def test_a_call_that_is_none(self) -> None:
        """It's one line, and status 2."""
        place = ["http://127.0.0.1:1", "app", "definition", "a.c"]
        rows = [[name, "--no-such-option=\u00e9\n"] for name in TOOLS]
        rows += [
            ["ask", *place, *last] for last in (["1"], ["x", "1"], ["1", "\uff11"], ["1_0", "1"])
        ]
        rows += [
            ["ask", "http://127.0.0.1:1", "app", "nothing"],
            ["ask"],
            ["browse", "--port", "-1"],
        ]
        for words in rows:
            with self.subTest(words), redirect_stderr(io.StringIO()) as said:
                try:
                    status = main(words)
                except SystemExit as end:
                    status = int(end.code or 0)
                self.assertEqual((status, said.getvalue().count("\n")), (2, 1), said.getvalue())
                self.assertRegex(
                    said.getvalue(), f"^codenav {words[0]}: .*; codenav .* --help says"
                )

    def test_help_is_one_screen(self) -> None:
        lines = usage().splitlines()
        self.assertLessEqual((len(lines), max(map(len, lines))), (24, 80))
        for word in OWN:
            self.assertIn(f"\n  {word} ", usage())

    def test_version(self) -> None:
        """Of the tools, and of the program, which is known to be proved where a package says so."""
        with open(os.path.join(TOP, "pyproject.toml"), "rb") as file:
            self.assertEqual(tomllib.load(file)["tool"]["poetry"]["version"], VERSION)
        with tempfile.TemporaryDirectory() as folder:
            for place, is_marked, said in (
                (PACKAGED, False, "not known to be proved"),
                (PACKAGED, True, "proved"),
                ("bin/codenav", True, "not known to be proved"),
            ):
                path = os.path.join(os.path.realpath(folder), place)
                os.makedirs(os.path.dirname(path), exist_ok=True)
                if is_marked:
                    open(path + PROVED, "w", encoding="utf-8").close()
                with open(path, "w", encoding="utf-8") as out:
                    out.write("#!/bin/sh\necho codenav 7.8\n")
                os.chmod(path, 0o755)
                wanted = f"codenav {VERSION}\nthe program 7.8, {said}: {path}\n"
                found = self.called("--version", CODENAV_PROGRAM=path)
                self.assertEqual(found, (0, wanted, ""))

    def called(self, *words: str, **more: str) -> tuple[int, str, str]:
        """The status of a call in a process of its own, and what it printed."""
        done = subprocess.run(
            [*command(words[0]), *words[1:]],
            env={**os.environ, **more},
            stdin=subprocess.DEVNULL,
            capture_output=True,
            text=True,
            check=False,
        )
        return done.returncode, done.stdout, done.stderr

    def test_calls(self) -> None:
        cases: list[tuple[list[str], int]] = [(["--help"], 0), (["-h"], 0), ([], 2), (["none"], 2)]
        for words, status in cases:
            with redirect_stdout(io.StringIO()) as said, redirect_stderr(io.StringIO()) as warned:
                self.assertEqual(main(words), status)
            self.assertEqual(
                (said.getvalue() != "", warned.getvalue().count("\n")), (status == 0, status // 2)
            )
        found = self.called("restore", "/no/folder", "/no/other")
        self.assertEqual(found, (2, "", "codenav restore: /no/folder: no copy of a database\n"))

    def test_the_program(self) -> None:
        """Its words are its own, wherever it is; where it's nowhere that's one line."""
        with tempfile.TemporaryDirectory() as folder:
            path = os.path.join(folder, "one")
            with open(path, "w", encoding="utf-8") as out:
                out.write('#!/bin/sh\necho "$@"\nexit 7\n')
            os.chmod(path, 0o755)
            for word in OWN:
                status, said, _ = self.called(word, "--x", "y z", CODENAV_PROGRAM=path)
                self.assertEqual((status, said), (7, f"{word} --x y z\n"))
            # a script of the name may be these tools again
            os.rename(path, f"{folder}/codenav")
            if not os.path.exists(BUILT):
                status, _, warned = self.called("serve", CODENAV_PROGRAM="", PATH=folder)
                self.assertEqual((status, warned), (2, f"codenav serve: {NONE}\n"))
        status, _, warned = self.called("serve", CODENAV_PROGRAM="/no/program")
        self.assertEqual((status, warned), (2, "codenav serve: /no/program: no program\n"))

    def test_ends(self) -> None:
        """A signal is one line and its status, and so is a full disk; where nobody reads there's no
        line."""
        with socket.create_server(("127.0.0.1", 0)) as silent:
            url = f"http://127.0.0.1:{silent.getsockname()[1]}"
            for number, text in (signal.SIGINT, "Ctrl-C"), (signal.SIGTERM, "SIGTERM"):
                words = [*command("list"), url]
                with subprocess.Popen(words, stderr=subprocess.PIPE, text=True) as call:
                    with silent.accept()[0] as peer:
                        peer.recv(1)
                        call.send_signal(number)
                        _, warned = call.communicate(timeout=SECONDS)
                wanted = 128 + number, f"codenav list: ended by {text}\n"
                self.assertEqual((call.returncode, warned), wanted)
        for words in ["--help"], ["turn", "--help"]:
            out, into = os.pipe()
            os.close(out)
            done = subprocess.run(
                [*command(words[0]), *words[1:]], stdout=into, stderr=subprocess.PIPE, check=False
            )
            os.close(into)
            self.assertEqual((done.stderr, done.returncode), (b"", 141))
            with open("/dev/full", "wb") as full:
                done = subprocess.run(
                    [*command(words[0]), *words[1:]],
                    stdout=full,
                    stderr=subprocess.PIPE,
                    check=False,
                    env={**os.environ, "PYTHONUNBUFFERED": ""},
                )
            line = b"codenav: standard output: No space left on device\n"
            self.assertEqual((done.stderr, done.returncode), (line, 2))

    def test_an_interpreter_without_a_package(self) -> None:
        """It's named, since another one may have it."""
        with tempfile.NamedTemporaryFile() as index:
            index.write(b"\n\2\x10\1")
            index.flush()
            _, *rest = command("prepare")
            done = subprocess.run(
                [sys.executable, "-S", *rest, index.name, os.devnull],
                capture_output=True,
                text=True,
                check=False,
            )
        said = f"codenav prepare: it needs Debian's python3-protobuf, which {sys.executable} hasn't"
        self.assertEqual((done.returncode, done.stdout, done.stderr), (2, "", said + "\n"))

    def test_outputs_that_are_full(self) -> None:
        base = os.path.join(TOP, "demo", "base.lsif")
        for word, *words in (
            ["why", base, "/a.ts", "1", "5"],
            ["explain", base, "line 1: L06 x"],
        ):
            with self.subTest(word), open("/dev/full", "wb") as out:
                call = [*command(word), *words]
                for kept, name in ("", "standard output: "), ("1", ""):
                    done = subprocess.run(
                        call,
                        stdout=out,
                        stderr=subprocess.PIPE,
                        env={**os.environ, "PYTHONUNBUFFERED": kept},
                        check=False,
                    )
                    said = f"codenav {word}: {name}No space left on device\n"
                    self.assertEqual((done.returncode, done.stderr.decode()), (2, said))


class Installed(OnServer):
    """The package in a fresh environment that sees Debian's packages; nothing is fetched."""

    def setUp(self) -> None:
        if importlib.util.find_spec("ensurepip") is None:
            self.skipTest("ensurepip isn't installed (Debian's python3-venv)")
        needs("poetry.core", "python3-poetry-core")
        super().setUp()
        self.folder = os.path.realpath(self.enterContext(tempfile.TemporaryDirectory()))
        self.home = os.path.join(self.folder, "home")
        source = os.path.join(self.folder, "source")
        shutil.copytree(
            os.path.join(TOP, "tools", "codenav"),
            os.path.join(source, "tools", "codenav"),
            ignore=shutil.ignore_patterns("__pycache__"),
        )
        shutil.copy(os.path.join(TOP, "pyproject.toml"), source)
        venv.create(self.home, with_pip=True, symlinks=True, system_site_packages=True)
        words = ["--quiet", "--no-index", "--no-build-isolation", source]
        done = self.run_there("pip", "install", *words)
        self.assertEqual(done.returncode, 0, done.stderr)

    def run_there(self, program: str, *words: str) -> subprocess.CompletedProcess[str]:
        """Runs a program of the environment, without what variables say to pip and of modules
        elsewhere."""
        kept = {
            name: value
            for name, value in os.environ.items()
            if not name.startswith(("PIP_", "PYTHON", "CODENAV_"))
        }
        return subprocess.run(
            [os.path.join(self.home, "bin", program), *words],
            cwd=self.folder,
            env={**kept, "PIP_CONFIG_FILE": os.devnull},
            stdin=subprocess.DEVNULL,
            capture_output=True,
            text=True,
            check=False,
        )

    def test_the_way_from_a_dump_to_an_answer(self) -> None:
        """The tools run from there; each file of the package is there, and pip takes them all away
        again."""
        (copy,) = glob.glob(os.path.join(self.home, "lib", "*", "site-packages", "codenav"))
        self.assertEqual(files_of(copy), files_of(os.path.join(TOP, "tools", "codenav")))
        crate, raw = (os.path.join(TOP, "demo", name) for name in ("crate", "crate.raw.lsif"))
        place = [os.path.join(crate, "src", "lib.rs"), "18", "12"]
        for words, status, said in (
            (["--help"], 0, "usage: codenav WORD"),
            (["turn", "--help"], 0, "usage: codenav turn"),
            (
                ["list", "http://127.0.0.1:1"],
                2,
                "codenav list: http://127.0.0.1:1: Connection refused",
            ),
            (["prepare", raw, "dump"], 0, "codenav prepare: version 0.5.0 -> 0.6.0"),
            (["upload", self.url, "app", "dump"], 0, '{"accepted":"lsif"'),
            (["list", self.url], 0, "app: dump\n"),
            (
                ["ask", "--map", f"file:///src/tr/crate={crate}", self.url, "app", "hover", *place],
                0,
                "\n```rust\ntemperature::scale\n```",
            ),
            (["remove", self.url, "app"], 0, "app: removed\n"),
            (["try-it"], 1, "codenav try-it: runs in a clone of the repository"),
        ):
            with self.subTest(words):
                done = self.run_there("codenav", *words)
                self.assertEqual(
                    (done.returncode, (done.stdout + done.stderr)[: len(said)]), (status, said)
                )
        done = self.run_there("pip", "uninstall", "--quiet", "--yes", "codenav-tools")
        self.assertEqual((done.returncode, os.path.exists(copy)), (0, False), done.stderr)


if __name__ == "__main__":
    unittest.main()
