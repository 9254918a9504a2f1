"""The texts of a git revision, the names that files had there, and the names that they have today.

A repository is asked by one `git cat-file --batch` for texts, and by another for their blobs.
"""

import os
import re
import secrets
import subprocess
import threading
import time
from contextlib import suppress
from functools import cached_property
from typing import Callable, Optional, TypeVar

from codenav.faults import BadCall, NoFile
from codenav.records import COMMIT
from codenav.texts.decoded import decoded
from codenav.texts.git import (
    CALL,
    ENVIRONMENT,
    NO_ANSWER,
    SECONDS,
    checked_top,
    commit_of,
    found_in,
    git,
    no_revision,
)
from codenav.texts.places import is_inside, work_tree
from codenav.texts.renames import Renames

Found = TypeVar("Found")
ODD = re.compile(r"\n|\r\Z")  # of a name that can't be a line for `git cat-file --batch`
FRESH = 5.0
"""Seconds for which it stands that git didn't find something."""
AWAY = 60.0
"""Seconds for which it isn't asked again where no answer came in time."""


class Batch:
    """A `git cat-file` that is asked for one object after the other. It's started where it's needed,
    and again where it ended; one that gives no answer in time is ended, and isn't asked again at
    once."""

    def __init__(self, top: str, *words: str) -> None:
        self.top, self.words = top, words
        self.end_line = os.fsencode(f"{secrets.token_hex(20)} missing\n")
        self.process: Optional[subprocess.Popen[bytes]] = None
        self.away = 0.0

    def asked(self, line: str) -> bytes:
        """What it prints of an object; nothing where it ends at this one alone, as at one that a
        partial clone would fetch. Raises BadCall where it gives no answer."""
        if "\n" in line:
            return b""
        none = b"0" * 40
        for asked in (os.fsencode(line), none, os.fsencode(line)):
            found = self.answer(asked) if time.monotonic() >= self.away else None
            if found is not None and asked != none:
                return found
            if found is None:
                self.end()
                if asked == none or time.monotonic() < self.away:
                    self.away = max(self.away, time.monotonic() + FRESH)
                    raise BadCall(NO_ANSWER.format(self.top))
        return b""

    def answer(self, line: bytes) -> Optional[bytes]:
        """What it prints of an object, up to what it says of one that can't be there, which is
        asked for next; None where it ended before.

        The size that git prints isn't how much comes: it's that of the stored text, before the
        filters.
        """
        process = self.process = self.process or self.started()
        assert process.stdin is not None and process.stdout is not None
        timer = threading.Timer(SECONDS, self.give_up, [process])
        timer.daemon = True
        timer.start()
        lines = []
        try:
            process.stdin.write(line + b"\n" + self.end_line.split()[0] + b"\n")
            process.stdin.flush()
            while (found := process.stdout.readline()) != self.end_line:
                if not found:
                    return None
                lines.append(found)
        except OSError:
            return None
        finally:
            timer.cancel()
        return b"".join(lines)

    def started(self) -> subprocess.Popen[bytes]:
        """A process of git. Raises BadCall."""
        try:
            return subprocess.Popen(
                [*CALL, "-C", self.top, "cat-file", *self.words],
                stdin=subprocess.PIPE,
                stdout=subprocess.PIPE,
                stderr=subprocess.DEVNULL,
                env={**os.environ, **ENVIRONMENT},
            )
        except OSError as fault:
            raise BadCall(f"{self.top}: git can't be started: {fault.strerror}") from None

    def give_up(self, process: subprocess.Popen[bytes]) -> None:
        """Ends a process that gives no answer."""
        self.away = time.monotonic() + AWAY
        process.kill()

    def end(self) -> None:
        """Ends it."""
        process, self.process = self.process, None
        if process is not None:
            process.kill()
            with suppress(OSError):
                process.communicate()


class Revision:
    """A revision of a repository, which has a work tree."""

    def __init__(self, top: str, revision: str) -> None:
        self.top, self.name = os.path.realpath(top), revision
        self.commit, self.led = commit_of(top, revision), found_in(top, f"{revision}^{{commit}}")
        self.names = Batch(self.top, "--batch-check")
        self.blobs = Batch(self.top, "--batch", "--filters")
        self.renames = Renames(self.top)
        self.read: dict[str, tuple[float, str]] = {}

    def follow(self) -> None:
        """Looks up again which commit it is, unless the commit itself is named. Raises BadCall."""
        if COMMIT.fullmatch(self.name):
            return
        words = self.names.asked(f"{self.name}^{{commit}}").split(b" ")
        led = words[0].decode() if words[1:2] == [b"commit"] else ""
        if led != self.led:
            self.commit, self.led = commit_of(self.top, self.name), led
            self.renames.forget()

    def end(self) -> None:
        """Ends the processes."""
        self.names.end()
        self.blobs.end()

    def inside(self, path: str) -> str:
        """The name of a file in the work tree; a link's is that of the file it leads to."""
        return os.path.relpath(os.path.realpath(path), self.top)

    def old_path(self, path: str) -> str:
        """The path that a file of today had."""
        name = self.inside(path)
        return self.base(path, name) + self.old_name(name)

    def new_path(self, path: str) -> str:
        """The path that a file of the revision has today."""
        name = self.inside(path)
        return self.base(path, name) + self.new_name(name)

    def old_folder(self, folder: str) -> str:
        """The path that a folder of today had; its own where the revision has it, or where it's the
        top of a work tree or outside."""
        name = self.inside(folder)
        is_part = (
            name != os.curdir
            and is_inside(name)
            and work_tree(os.path.join(folder, "file")) == self.top
        )
        if not is_part or self.found(name)[1:2] == [b"tree"]:
            return folder
        return self.base(folder, name) + self.renames.old_folder(self.commit, name)

    def base(self, path: str, name: str) -> str:
        """The top of the work tree as a path names it; without links, where there are such behind
        it."""
        is_plain = path.endswith(os.sep + name)
        return path[: -len(name)] if is_plain else self.top + os.sep

    def found(self, name: str) -> list[bytes]:
        """What the revision has by a name: its object, of which kind it is, and more."""
        if ODD.search(name):
            return self.listed_as(name)[:0:-1]
        return self.names.asked(f"{self.commit}:{name}").split(b" ")

    def listed_as(self, name: str) -> list[bytes]:
        """What git lists of a name: its mode, its kind and its object; nothing where it has none."""
        said = git(self.top, "ls-tree", "-z", "--full-tree", self.commit, "--", name) or b""
        return said.partition(b"\t")[0].split()

    @cached_property
    def is_partial(self) -> bool:
        """Whether it's a partial clone, which has no texts but those of what was checked out."""
        return git(self.top, "config", "--get-regexp", r"^remote\..*\.promisor$") is not None

    def blob(self, name: str) -> str:
        """The blob of a file of the revision, or nothing."""
        words = self.found(name)
        return words[0].decode() if words[1:2] == [b"blob"] else ""

    def text(self, name: str) -> str:
        """The text of a file of the revision, as a checkout writes it, which stands for some
        seconds. Raises BadCall where there is none."""
        blob, now = self.blob(name), time.monotonic()
        self.read = {one: own for one, own in self.read.items() if now - own[0] < FRESH}
        asked = f"{blob} {name}"
        if asked not in self.read:
            self.read[asked] = now, self.filtered(blob, name)
        return self.read[asked][1]

    def filtered(self, blob: str, name: str) -> str:
        """What git prints of a blob of that name. Raises BadCall where there is none."""
        body = self.body(blob, name) if blob else None
        if body is None:
            raise self.none(name)
        try:
            return decoded(body)
        except ValueError as fault:
            raise BadCall(f"{name}: {fault} in {self.name}") from None

    def body(self, blob: str, name: str) -> Optional[bytes]:
        """The bytes of a blob of that name, as a checkout writes it."""
        if ODD.search(name):
            return git(self.top, "cat-file", "--filters", f"--path={name}", blob)
        _, mark, body = self.blobs.asked(f"{blob} {name}").partition(b"\n")
        return body[:-1] if mark else None

    def none(self, name: str) -> BadCall:
        """Why a file has no text."""
        if self.names.asked(self.commit).endswith(b" missing\n"):
            return BadCall(no_revision(self.top, self.name))
        if self.is_partial and self.listed_as(name):
            return BadCall(f"{name}: not fetched, in a partial clone, as it was in {self.name}")
        return NoFile(f"{name}: not in {self.name}")

    def old_name(self, name: str) -> str:
        """The name at the revision of a file of today."""
        return name if self.blob(name) else self.renames.old_name(self.commit, name)

    def new_name(self, name: str) -> str:
        """The name of today of a file of the revision."""
        return self.renames.new_name(self.commit, name)


class Checkout:
    """The texts that were indexed are those of a revision, in the work tree that a file is in."""

    def __init__(self, revision: str) -> None:
        self.label = revision
        self.tops: dict[str, str] = {}
        self.revisions: dict[str, Revision] = {}
        self.faults: dict[str, tuple[float, str]] = {}

    def of(self, path: str) -> Revision:
        """The revision of the work tree that a file is in. Raises BadCall where it's in none, or
        that has no such revision."""
        folder = work_tree(path) or os.path.dirname(os.path.realpath(path))
        while not os.path.isdir(folder):
            folder = os.path.dirname(folder)
        top = self.once(self.tops, folder, checked_top)
        revision = self.once(self.revisions, top, lambda own: Revision(own, self.label))
        revision.follow()
        return revision

    def once(self, known: dict[str, Found], key: str, find: Callable[[str], Found]) -> Found:
        """What is known of a folder, or is found of it now. Raises BadCall, for some seconds without
        another look."""
        if key not in known:
            since, fault = self.faults.get(key, (0.0, ""))
            if fault and time.monotonic() - since < FRESH:
                raise BadCall(fault)
            try:
                known[key] = find(key)
            except BadCall as failed:
                self.faults[key] = time.monotonic(), str(failed)
                raise
        return known[key]

    def old_path(self, path: str) -> str:
        """The path that a file of today had, before it was renamed."""
        return self.of(path).old_path(path)

    def old_folder(self, folder: str, path: str) -> str:
        """The path that a folder of today had, as far as it's in the work tree of a file."""
        return self.of(path).old_folder(folder)

    def new_path(self, path: str) -> str:
        """The path that a file has today."""
        return self.of(path).new_path(path)

    def text(self, path: str) -> str:
        """The text of a file of the revision."""
        revision = self.of(path)
        return revision.text(revision.inside(path))

    def end(self) -> None:
        """Ends git."""
        for revision in self.revisions.values():
            revision.end()
