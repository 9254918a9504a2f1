"""Publishes into the file of a database that no server has, by the program's `replay`, which reads
requests from a pipe. So what is too much to upload while others ask is made beside the service.
"""

import os
import subprocess
from typing import Any

from codenav.client.http import Answer, address
from codenav.client.projects import fresh_key
from codenav.faults import BadCall, NoReply
from codenav.files import new_folder
from codenav.program import Program, end_with_parent
from codenav.publishing.made import Made
from codenav.publishing.send import Sent, accepted
from codenav.sets.publish.base import remove_set
from codenav.sets.publish.publish import Publish
from codenav.sets.publish.store import Store

LOG = "-wal"
BLOCK = 1 << 20


class Replay(Store):
    """The requests of a publish to a run of `replay` over a database."""

    def __init__(self, program: Program, database: str, shown: str) -> None:
        super().__init__(shown)
        self.process = subprocess.Popen(
            [program.path, "replay", database, "/dev/stdin"],
            stdin=subprocess.PIPE,
            stdout=subprocess.PIPE,
            stderr=subprocess.PIPE,
            preexec_fn=end_with_parent,
        )

    def ask(self, method: str, path: str, parameters: dict[str, Any], body: bytes = b"") -> Answer:
        """Sends a request; raises NoReply where the run has ended."""
        target, (out, said) = address("", path, parameters), (
            self.process.stdin,
            self.process.stdout,
        )
        assert out is not None and said is not None
        try:
            out.write(f"{method} {target} HTTP/1.1\r\nContent-Length: {len(body)}\r\n\r\n".encode())
            out.write(body)
            out.flush()
        except BrokenPipeError:
            pass  # the run has ended, and said why
        head = []
        while (line := said.readline()).strip():
            head.append(line.partition(b": "))
        if not line:
            raise NoReply(f"{self.server}: {self.last_words()}")
        fields = {name.lower(): value for name, _, value in head}
        status = int(head[0][0].split()[1])
        return Answer(self.server, status, said.read(int(fields[b"content-length"])), method=method)

    def last_words(self) -> str:
        """What it said on its standard error, when it has ended."""
        assert self.process.stderr is not None
        said = self.process.stderr.read().decode(errors="replace").strip()
        return said.rpartition("\n")[2] or "the program ended without a word"

    def end(self) -> None:
        """Has it end by itself, so that the file has all; raises BadCall where it fails."""
        self.process.communicate()
        if self.process.returncode != 0:
            raise BadCall(f"{self.server}: replay ended with {self.process.returncode}")

    def kill(self) -> None:
        """Ends it where it's still there."""
        self.process.kill()
        self.process.communicate()


def put_all(store: Store, made: Made) -> Sent:
    """Puts what was made, each in the place of the other: nobody asks meanwhile, so what has become
    small is a project again."""
    if made.files is not None:
        return Sent(report=Publish(store, made.files.folder, in_place_of_project=True).run())
    found = []
    for body in made.bodies:
        key: dict[str, Any] = {"key": fresh_key(body.part)}
        more = {"profile": body.profile} if body.profile else {}
        path = f"/projects/{body.project}/{body.part}"
        with open(body.path, "rb") as file:
            answer = store.ask("PUT", path, {**key, **more}, file.read())
        found.append(accepted(body, answer))
        project = body.project
    remove_set(store, project)
    return Sent(tuple(found))


def publish_into(program: Program, path: str, made: Made) -> Sent:
    """Puts what was made into the database of a path, beside what it has, where it's there: all of
    it or nothing. Raises Refused and BadCall."""
    with new_folder(".codenav-", os.path.dirname(path)) as folder:
        new = os.path.join(folder, "index.db")
        for end in "", LOG:
            if os.path.exists(path + end):
                copied(path + end, new + end)
        store = Replay(program, new, path)
        try:
            sent = put_all(store, made)
            store.end()
        finally:
            store.kill()
        for end in LOG, "":
            if os.path.exists(new + end):
                os.replace(new + end, path + end)
    return sent


def copied(path: str, target: str) -> None:
    """Copies a file."""
    with open(path, "rb") as source, open(target, "xb") as out:
        while piece := source.read(BLOCK):
            out.write(piece)
