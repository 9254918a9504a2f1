"""Writes the parts of a cut into a folder, in processes side by side."""

import gc
import multiprocessing
import os
import signal
from contextlib import suppress
from dataclasses import dataclass
from multiprocessing.connection import Connection
from typing import Iterator, Sequence, Union

from codenav.faults import Fault, Unfit
from codenav.limits import MOST_LINE_BYTES
from codenav.program import end_with_parent
from codenav.sets.files import put_file
from codenav.sets.manifest import content_digest, part_name
from codenav.sets.split.crossing import Cut
from codenav.sets.split.lines import Lines
from codenav.sets.split.part import Part

# What a process reads of the tables becomes its own, since reading counts references. So it ends
# after some parts, and another one takes its place.
PARTS_EACH = 4


@dataclass(frozen=True)
class Written:
    """A part that was written: its project, how many elements it has, and the digest of its
    content."""

    project: str
    elements: int
    digest: str


@dataclass
class Writer:
    """Writes the parts of a cut into a folder."""

    cut: Cut
    name: str
    profile: str
    dump: str
    folder: str
    tags: list[bytes]

    def write(self, part: int) -> Written:
        """Writes one part; the dump is opened anew, since another process may read it too."""
        with open(self.dump, "rb") as dump:
            lines = Lines(self.cut.flat, dump)
            Part(self.cut, part, lines).write()
        body = ("\n".join(lines.lines) + "\n").encode("utf-8", "surrogatepass")
        if max(map(len, lines.lines)) * 4 > MOST_LINE_BYTES:
            refuse_long_lines(lines.lines)
        tags = self.tags[part]
        digest = content_digest(body, self.profile, tags)
        project = part_name(self.name, digest)
        for kind, content in (("lsif", body), ("tags", tags)):
            path = os.path.join(self.folder, f"{project}.{kind}")
            if content and not os.path.exists(path):
                put_file(path, content)
        return Written(project, lines.count, digest)

    def write_all(self, processes: int) -> Iterator[Written]:
        """Writes all parts, in as many processes side by side, and answers them in order."""
        parts = range(self.cut.parts)
        if processes < 2 or len(parts) < 2:
            yield from map(self.write, parts)
            return
        gc.freeze()
        each = min(PARTS_EACH, -(-len(parts) // processes))
        waiting = [parts[at : at + each] for at in range(0, len(parts), each)]
        working: list[Working] = []
        try:
            while waiting or working:
                while waiting and len(working) < processes:
                    working.append(Working(self, waiting.pop(0)))
                yield from working[0].written()
                del working[0]
        finally:
            for one in working:
                one.end()


class Working:
    """A process of its own that writes some parts, and ends by itself."""

    def __init__(self, writer: Writer, parts: Sequence[int]) -> None:
        context = multiprocessing.get_context("fork")
        self.told, tells = context.Pipe(False)
        with tells:
            self.process = context.Process(target=work, args=(writer, parts, tells), daemon=True)
            self.process.start()

    def written(self) -> list[Written]:
        """The parts, once it has written them. Raises what it raised, and ChildProcessError where it
        was killed."""
        try:
            found: Union[list[Written], Fault, OSError] = self.told.recv()
        except EOFError:
            self.process.join()
            text = f"a process that writes parts ended with status {self.process.exitcode}"
            raise ChildProcessError(text) from None
        self.end()
        if isinstance(found, list):
            return found
        raise found

    def end(self) -> None:
        """Ends it, where it's there."""
        self.process.kill()
        self.process.join()
        self.told.close()


def work(writer: Writer, parts: Sequence[int], tells: Connection) -> None:
    """Writes parts in a process of its own, which ends with the one that started it."""
    signal.signal(signal.SIGTERM, signal.SIG_DFL)
    for number in signal.SIGINT, signal.SIGHUP:
        signal.signal(number, signal.SIG_IGN)
    end_with_parent()
    try:
        found: Union[list[Written], Fault, OSError] = [writer.write(part) for part in parts]
    except (Fault, OSError) as fault:
        found = fault
    with suppress(OSError):
        tells.send(found)


def refuse_long_lines(lines: Sequence[str]) -> None:
    """Refuses a line that the server doesn't take."""
    for line in lines:
        if len(line.encode("utf-8", "surrogatepass")) > MOST_LINE_BYTES:
            raise Unfit(f"an element has over {MOST_LINE_BYTES} bytes (L01): {line[:80]}")
