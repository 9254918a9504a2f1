"""How the known indexers are called, and the dump or the index that one writes of a checkout."""

import os
import shutil
import signal
import subprocess
import time
from contextlib import contextmanager, suppress
from typing import Any, Iterable, Iterator, NamedTuple, Optional

from codenav.faults import BadCall
from codenav.index.tags_file import files_of
from codenav.program import end_with_parent
from codenav.progress import Shows

TAIL_LINES = 5
POLL_SECONDS, ENDS_SECONDS = 0.1, 10
ENDING = f"trap : TERM; kill 0; (sleep {ENDS_SECONDS}; kill -KILL 0) & wait $own"
GUARDED = f"trap '{ENDING}' TERM; sh -c \"$1\" & own=$!; wait $own"
"""A line of the shell that calls another one, and hands on SIGTERM to all that this started; what
goes on after it is killed."""


class Indexer(NamedTuple):
    """An indexer: the files at the top of a checkout that it's chosen by, and the line of a shell
    by which it's called there.

    It writes LSIF or SCIP onto its standard output, or into the file that the variable OUT names.
    """

    name: str
    marks: tuple[str, ...]
    line: str

    def program(self) -> str:
        """The program that is called."""
        return self.line.split()[0]


INDEXERS = (
    Indexer("rust-analyzer", ("Cargo.toml",), "rust-analyzer lsif ."),
    Indexer("rust-analyzer-scip", (), 'rust-analyzer scip . --output "$OUT"'),
    Indexer(
        "scip-typescript",
        ("tsconfig.json", "package.json"),
        'scip-typescript index --output "$OUT"',
    ),
    Indexer(
        "scip-python",
        ("pyproject.toml", "setup.py", "setup.cfg"),
        'scip-python index . --project-name "$PROJECT" --output "$OUT"',
    ),
    Indexer("scip-go", ("go.mod",), 'scip-go --output "$OUT"'),
    Indexer(
        "scip-java",
        ("pom.xml", "build.gradle", "build.gradle.kts", "build.sbt"),
        'scip-java index --output "$OUT"',
    ),
    Indexer(
        "scip-clang",
        ("compile_commands.json",),
        'scip-clang --compdb-path compile_commands.json --index-output-path "$OUT"',
    ),
    Indexer("scip-ruby", ("Gemfile",), 'scip-ruby --index-file "$OUT" .'),
    Indexer("lsif-tsc", (), "lsif tsc -p . --stdout"),
    Indexer("lsif-go", (), 'lsif-go --output "$OUT"'),
    Indexer("lsif-clang", (), 'lsif-clang --project-root=. --out="$OUT" compile_commands.json'),
)


def named(name: str) -> Indexer:
    """The indexer of a name."""
    for indexer in INDEXERS:
        if indexer.name == name:
            return indexer
    raise BadCall(f"no indexer {name!r} is known; --index takes the line by which one is called")


class NotInstalled(BadCall):
    """A checkout whose indexers, by their programs, aren't installed."""

    def __init__(self, folder: str, programs: list[str]) -> None:
        super().__init__(
            f"{folder}: {' or '.join(programs)} would index this, and isn't on the path"
        )
        self.programs = programs


class Choice(NamedTuple):
    """The indexer of a checkout, None where none fits, and for each language that it leaves what
    is to be done for it."""

    indexer: Optional[Indexer]
    left: tuple[str, ...]


def marked(names: Iterable[str]) -> dict[Indexer, list[str]]:
    """The files by which indexers are chosen among the files of a checkout, the uppermost first and
    without those below another's folder."""
    found: dict[Indexer, list[str]] = {}
    for name in sorted(names, key=lambda name: (name.count("/"), name)):
        for indexer in INDEXERS:
            if os.path.basename(name) in indexer.marks:
                above = found.setdefault(indexer, [])
                if not any(name.startswith(os.path.dirname(one) + "/") for one in above):
                    above += [name] if not above or "/" in above[0] else []
    return found


def fitting(folder: str) -> Choice:
    """The first known indexer that has a file at the top of a checkout and whose program this machine
    has. Raises NotInstalled where there are such files, and the program of none."""
    found = marked(map(os.fsdecode, files_of(folder)))
    at_top = [one for one in INDEXERS if one in found and "/" not in found[one][0]]
    at_hand = [one for one in at_top if shutil.which(one.program())]
    if at_top and not at_hand:
        raise NotInstalled(folder, [one.program() for one in at_top])
    indexer = at_hand[0] if at_hand else None
    return Choice(indexer, tuple(left(one, found[one]) for one in found if one != indexer))


def left(indexer: Indexer, marks: list[str]) -> str:
    """What is to be done for a language that is left."""
    where, more = os.path.dirname(marks[0]), f" and {len(marks) - 1} more" if marks[1:] else ""
    what = f"{os.fsencode(marks[0]).decode(errors='replace')}{more} is for {indexer.name}"
    if where:
        return f"{what}: publish its folder as a project of its own"
    if shutil.which(indexer.program()):
        return f"{what}: publish it as another project by --indexer {indexer.name}"
    return f"{what}, which isn't on the path"


def tail_of(path: str) -> str:
    """The first line of a log that says that it's an error, else its last ones, as one."""
    with open(path, encoding="utf-8", errors="replace") as log:
        lines = [line.strip() for line in log if line.strip()]
    errors = [line for line in lines if line.lower().startswith(("error:", "fatal:"))]
    return errors[0] if errors else " | ".join(lines[-TAIL_LINES:])


@contextmanager
def begun(line: str, folder: str, **more: Any) -> Iterator["subprocess.Popen[bytes]"]:
    """A line of the shell that is called in a folder. It ends with the context, with all that it
    started, and so it does where this process is killed."""
    run = subprocess.Popen(
        ["sh", "-c", GUARDED, "sh", line],
        cwd=folder,
        stdin=subprocess.DEVNULL,
        process_group=0,
        preexec_fn=end_with_parent,
        **more,
    )
    try:
        yield run
    finally:
        if run.poll() is None:
            os.killpg(run.pid, signal.SIGTERM)
            with suppress(subprocess.TimeoutExpired):
                run.wait(ENDS_SECONDS)
        with suppress(ProcessLookupError):
            os.killpg(run.pid, signal.SIGKILL)
        run.wait()


def indexed(line: str, folder: str, project: str, work: str, shows: Shows) -> str:
    """Calls an indexer in a checkout by a line of the shell; answers the file with what it wrote.
    Its own words stay in `index.log`. No process that it started in its group is left, however the
    call ends."""
    work = os.path.abspath(work)
    out, printed, log = (
        os.path.join(work, name) for name in ("index.out", "index.raw", "index.log")
    )
    with suppress(FileNotFoundError):
        os.unlink(out)  # that of an earlier call
    own = {**os.environ, "OUT": out, "PROJECT": project}
    with open(printed, "wb") as standard, open(log, "wb") as said:
        with begun(line, folder, stdout=standard, stderr=said, env=own) as run:
            while run.poll() is None:
                time.sleep(POLL_SECONDS)
                shows.at(os.path.getsize(out if os.path.exists(out) else printed))
    if run.returncode != 0:
        said_last = tail_of(log)
        raise BadCall(
            f"the indexer ended with status {run.returncode}: {line}"
            + (f": {said_last}" if said_last else "")
        )
    path = out if os.path.exists(out) else printed
    if os.path.getsize(path) == 0:
        raise BadCall(f"the indexer wrote nothing: {line}")
    return path
