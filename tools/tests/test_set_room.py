"""Tests of sets on a server that has no room left, on its disk (S01) or in memory (S02), in the
midst of a publish: the old set answers on, the publish ends by one line, and the next one
completes."""

import io
import json
import os
import resource
import subprocess
import tempfile
import unittest
from contextlib import redirect_stderr, redirect_stdout
from typing import Any, Callable
from unittest import mock

from codenav.cli.upload import UPLOAD
from codenav.client import http as client
from codenav.sets.publish.store import Store
from tests.servers import NOT_BUILT, OnServer, built_program
from tests.test_set_service import NAME, Revisions, revision, split_into

BIG = 12_000
DISK, LEFT = 8 << 20, 512 << 10
# The server alone sees the disk.
ON_A_DISK = """#!/bin/sh
exec {unshare} sh -c 'mount -t tmpfs -o size={size} none "{disk}" && exec "$@"' sh "{program}" "$@"
"""
UNSHARE = ["unshare", "--mount", *([] if os.getuid() == 0 else ["--map-root-user"])]


def with_large_document(body: bytes) -> bytes:
    """A dump with a document more, which needs a part of its own."""
    elements: list[dict[str, Any]] = [json.loads(line) for line in body.splitlines()]
    last = max(int(one["id"]) for one in elements) + 1 - len(elements)

    def add(kind: str, label: str, **more: Any) -> int:
        elements.append({"id": last + len(elements), "type": kind, "label": label, **more})
        return int(elements[-1]["id"])

    symbol, result = add("vertex", "resultSet"), add("vertex", "referenceResult")
    add("edge", "textDocument/references", outV=symbol, inV=result)
    home = add("vertex", "document", uri="file:///src/tr/crate/src/table.rs")
    ranges = []
    for line in range(BIG):
        ends = {name: {"line": line, "character": at} for name, at in (("start", 0), ("end", 4))}
        ranges.append(add("vertex", "range", **ends))
    add("edge", "contains", outV=home, inVs=ranges)
    for own in ranges:
        add("edge", "next", outV=own, inV=symbol)
    add("edge", "item", outV=result, inVs=ranges, property="references", shard=home)
    return b"".join(json.dumps(one).encode() + b"\n" for one in elements)


class NoRoom(OnServer):
    """A server with a set, and a revision of it whose second part needs more room."""

    def setUp(self) -> None:
        if built_program() is None:
            self.skipTest(NOT_BUILT)
        self.folder = self.enterContext(tempfile.TemporaryDirectory())
        super().setUp()
        self.enterContext(mock.patch.object(client, "WAITS", ()))
        self.both = Revisions(self.folder)
        self.next = os.path.join(self.folder, "next")
        split_into(self.next, with_large_document(revision(1)), most=2 * BIG + 100)
        self.assertEqual(self.publish(self.both.folders[0])[0], 0)

    def publish(self, folder: str) -> tuple[int, str]:
        """The status of a call of upload, and all that it prints."""
        with redirect_stdout(io.StringIO()) as said, redirect_stderr(said):
            status = UPLOAD.main([self.url, folder])
        return status, said.getvalue()

    def check(self, give_room: Callable[[], None], fault: str) -> None:
        """Publishes where there's room for the first part alone, and then where there's room for
        both."""
        status, said = self.publish(self.next)
        self.assertEqual((status, said.count("\n")), (2, 1), said)
        self.assertRegex(said, f"^codenav upload: {fault} .*; the set {NAME} is as it was\n$")
        self.assertEqual(self.both.answering(self.url), 0)
        self.assertEqual(len(Store(self.url).projects()), 4)
        give_room()
        said = "parts 2, kept 1, new 1, removed 2\n"
        self.assertEqual(self.publish(self.next), (0, said))
        self.assertEqual(self.both.answering(self.url), 1)
        self.assertEqual(len(Store(self.url).projects()), 3)


def give_back(pid: int, limits: tuple[int, int]) -> None:
    """Gives a process its limits of memory back."""
    resource.prlimit(pid, resource.RLIMIT_AS, limits)


class NoMemory(NoRoom):
    """The system gives the server no more memory."""

    def test_publish(self) -> None:
        """S02 in the midst of a publish."""
        pid = self.server.pid
        before = resource.prlimit(pid, resource.RLIMIT_AS)
        with open(f"/proc/{pid}/statm", encoding="ascii") as file:
            used = int(file.read().split()[0]) * resource.getpagesize()
        resource.prlimit(pid, resource.RLIMIT_AS, (used + LEFT, before[1]))
        self.check(lambda: give_back(pid, before), "S02")


class FullDisk(NoRoom):
    """The file system of the server's database has no more room."""

    def start(self) -> None:
        """Starts the server over a file system of its own."""
        self.disk = os.path.join(self.folder, "disk")
        os.mkdir(self.disk)
        probe = [*UNSHARE, "mount", "-t", "tmpfs", "none", self.disk]
        try:
            subprocess.run(probe, capture_output=True, text=True, check=True)
        except (OSError, subprocess.CalledProcessError) as fault:
            self.skipTest(f"no file system can be mounted here: {fault}")
        names = {"unshare": " ".join(UNSHARE), "size": DISK, "disk": self.disk}
        wrapper = os.path.join(self.folder, "program")
        with open(wrapper, "w", encoding="utf-8") as script:
            script.write(ON_A_DISK.format(program=self.program, **names))
        os.chmod(wrapper, 0o755)
        self.program, self.database = wrapper, os.path.join(self.disk, "index.db")
        super().start()

    def test_publish(self) -> None:
        """S01 in the midst of a publish."""
        disk = f"/proc/{self.server.pid}/root{self.disk}"
        room = os.statvfs(disk)
        filler = os.path.join(disk, "filler")
        with open(filler, "wb") as out:
            out.write(bytes(room.f_bavail * room.f_bsize - LEFT))
        self.check(lambda: os.unlink(filler), "S01")


if __name__ == "__main__":
    unittest.main()
