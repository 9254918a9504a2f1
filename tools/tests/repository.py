"""Git repositories for tests: one with a commit of some files, and the demo crates as two
checkouts."""

import os
import shutil
import subprocess
import tempfile
import unittest

from codenav.settings.found import FILE
from tests.servers import TOP

IDENTITY = ["-c", "user.name=t", "-c", "user.email=t@t.example", "-c", "commit.gpgsign=false"]


def git_in(top: str, *words: str) -> str:
    """What a git command prints in a folder."""
    done = subprocess.run(
        ["git", *IDENTITY, "-c", "protocol.file.allow=always", *words],
        cwd=top,
        check=True,
        capture_output=True,
        env={**os.environ, "GIT_CONFIG_GLOBAL": os.devnull, "GIT_CONFIG_NOSYSTEM": "1"},
    )
    return done.stdout.decode().strip()


def checkouts(home: str, url: str) -> dict[str, str]:
    """Makes a checkout of each demo crate below a folder, with a `.codenav.toml` that isn't
    committed, and answers their commits."""
    commits = {}
    maps = "".join(f'"file:///src/tr/{name}" = "../{name}"\n' for name in ("crate", "user"))
    for name, project in ("crate", "temperature"), ("user", "kettle"):
        top = os.path.join(home, name)
        shutil.copytree(os.path.join(TOP, "demo", name), top)
        git_in(top, "init", "-q")
        git_in(top, "add", "-A")
        git_in(top, "commit", "-qm", "x")
        commits[name] = git_in(top, "rev-parse", "HEAD")
        text = (
            f'server = "{url}"\nproject = "{project}"\nrevision = "{commits[name]}"\n[map]\n{maps}'
        )
        with open(os.path.join(top, FILE), "w", encoding="utf-8") as file:
            file.write(text)
    return commits


class InRepository(unittest.TestCase):
    """Tests over a repository of their own, which is at `top`, below `home`."""

    def setUp(self) -> None:
        self.home = os.path.realpath(self.enterContext(tempfile.TemporaryDirectory()))
        self.top = os.path.join(self.home, "work")
        os.mkdir(self.top)
        self.git("init", "-q")

    def git(self, *words: str, top: str = "") -> str:
        """What a git command prints."""
        return git_in(top or self.top, *words)

    def write(self, name: str, text: str, top: str = "") -> str:
        """Writes a file, and answers its path."""
        path = os.path.join(top or self.top, name)
        os.makedirs(os.path.dirname(path), exist_ok=True)
        with open(path, "w", encoding="utf-8", newline="") as file:
            file.write(text)
        return path

    def commit(self, top: str = "") -> str:
        """Commits all files, and answers the commit."""
        self.git("add", "-A", top=top)
        self.git("commit", "-qm", "x", top=top)
        return self.git("rev-parse", "HEAD", top=top)
