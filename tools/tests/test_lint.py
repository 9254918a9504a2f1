"""The types of all Python here, its layout and what a linter finds, by Debian's mypy, black and
flake8. Where one isn't installed its test is skipped."""

import ast
import os
import shutil
import subprocess
import sys
import unittest
from pathlib import Path

import tomllib

from tests.servers import TOP

CHECKED = ["tools/codenav", "tools/tests", "bench", "checks", "quick"]
CHECKED += ["packaging/stage", "packaging/completions"]
BLACK = "23."


def python_files(path: Path) -> list[Path]:
    """The modules and the scripts of a folder, or the one file."""
    found = sorted(path.rglob("*")) if path.is_dir() else [path]
    texts = [own for own in found if own.suffix in (".py", "") and own.is_file()]
    texts = [own for own in texts if "samples" not in own.parts]
    return [own for own in texts if own.suffix or b"python3" in own.read_bytes().split(b"\n")[0]]


def imported(path: Path) -> list[str]:
    """The modules that a file imports by their whole names."""
    found = []
    for node in ast.walk(ast.parse(path.read_text("utf-8"))):
        if isinstance(node, ast.Import):
            found += [name.name for name in node.names]
        elif isinstance(node, ast.ImportFrom) and node.module and not node.level:
            found += [f"{node.module}.{name.name}" for name in node.names]
    return found


class Lint(unittest.TestCase):
    def said_by(self, *words: str) -> str:
        """What a program says where it finds something; an empty text where it doesn't."""
        path = shutil.which(words[0])
        if path is None:
            self.skipTest(f"{words[0]} isn't installed (Debian's package {words[0]})")
        done = subprocess.run(
            [path, *words[1:]],
            cwd=TOP,
            stdin=subprocess.DEVNULL,
            stdout=subprocess.PIPE,
            stderr=subprocess.STDOUT,
            text=True,
            check=False,
        )
        return done.stdout if done.returncode != 0 else ""

    def test_types(self) -> None:
        """Libraries that needn't be installed are named in pyproject.toml: where one isn't, what it
        answers may be anything."""
        words = ["--strict", "--cache-dir", os.devnull, "--no-error-summary", *CHECKED]
        self.assertEqual(self.said_by("mypy", *words), "")

    def test_libraries(self) -> None:
        """What is imported is of Python, of this repository, or named as what may be missing."""
        with open(os.path.join(TOP, "pyproject.toml"), "rb") as file:
            overrides = tomllib.load(file)["tool"]["mypy"]["overrides"]
        named = {
            module.removesuffix(".*")
            for own in overrides
            if own.get("ignore_missing_imports")
            for module in own["module"]
        }
        files = [path for name in CHECKED for path in python_files(Path(TOP, name))]
        own = {"codenav", "tests", *(path.stem for path in files)}
        for path in files:
            for module in imported(path):
                root = module.partition(".")[0]
                known = root in sys.stdlib_module_names or root in own
                is_named = any(f"{module}.".startswith(f"{name}.") for name in named)
                self.assertTrue(known or is_named, f"{path}: {module}")

    def test_layout(self) -> None:
        """Layouts differ between the years of black."""
        path = shutil.which("black")
        if path is not None:
            version = subprocess.run([path, "--version"], capture_output=True, text=True).stdout
            if not version.split()[1:2] or not version.split()[1].startswith(BLACK):
                self.skipTest(f"black isn't of version {BLACK}, as Debian 12's: {version.strip()}")
        self.assertEqual(self.said_by("black", "--check", "--quiet", "--diff", *CHECKED), "")

    def test_linter(self) -> None:
        """Names that aren't there or aren't used, and what isn't Python; not of what protoc
        wrote."""
        words = ["--isolated", "--select=F,E9,W6", "--exclude=*_pb2.py", *CHECKED]
        self.assertEqual(self.said_by("flake8", *words), "")


if __name__ == "__main__":
    unittest.main()
