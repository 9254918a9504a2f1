"""`codenav try-it`."""

import argparse
import os
import shlex
import subprocess
import tempfile
from dataclasses import dataclass

from codenav.cli.command import Command
from codenav.faults import Failed
from codenav.program import REQUESTS as MOST
from codenav.program import TOP, Program, build

DUMP, TAGS = "demo/crate.raw.lsif", "demo/crate.tags"
REQUESTS, REPLIES = "demo/each_route.http", "demo/each_route.replies"
MAP = ["--map", "file:///src/tr/crate=demo/crate"]
DEFINITION = ["definition", "demo/crate/src/lib.rs", "18", "12"]
AT_DEFINITION = ["demo/crate/src/scale.rs", "4", "8"]
HOVER = """
```rust
temperature::scale
```

```rust
pub fn fahrenheit(celsius: i32) -> i32
```

---

Degrees Fahrenheit of degrees Celsius, rounded towards zero."""
FOLDER = "temperature=demo/crate"
TAG = "demo/crate/src/lib.rs:17:8: is_warm"
NOT_MAPPED = (
    "codenav ask: temperature: no revision is kept with its index; its places aren't mapped"
)
NO_DUMP = "D01 project has no dump: file:///src/tr/crate/src/lib.rs"


@dataclass(slots=True)
class TryItCall:
    """What `try-it` is told."""

    program: str = ""


@dataclass(frozen=True)
class Step:
    """A call, and the output and the status that it should have."""

    words: list[str]
    output: str
    status: int = 0


def steps(url: str, dump: str) -> list[Step]:
    """The calls, for a server at an address and a prepared dump."""
    with open(dump, "rb") as lines:
        accepted = f'{{"accepted":"lsif","count":{sum(1 for _ in lines)}}}'
    with open(os.path.join(TOP, TAGS), "rb") as lines:
        tagged = f'{{"accepted":"tags","count":{sum(1 for _ in lines)}}}'
    ask, project = ["ask", *MAP, url, "temperature"], [url, "temperature"]
    upload = ["upload", "--retry", *project, dump]
    at_definition, uses = ":".join(AT_DEFINITION), ":".join(DEFINITION[1:])

    def asked(words: list[str], output: str) -> Step:
        return Step([*ask, *words], f"{NOT_MAPPED}\n{output}")

    return [
        Step(upload, accepted),
        Step(upload, accepted),
        asked(DEFINITION, at_definition),
        asked(["references", *AT_DEFINITION], f"{uses}\n{at_definition}"),
        asked(["hover", *AT_DEFINITION], HOVER),
        Step(["upload", "--retry", *project, TAGS], tagged),
        Step(["ask", "--tags", FOLDER, *project, "names", "is_warm"], TAG),
        Step(["list", url], "temperature: dump and tags"),
        Step(["remove", *project], "temperature: removed"),
        Step([*ask, *DEFINITION], f"codenav ask: {NO_DUMP}", 2),
        Step(upload, accepted),
        asked(DEFINITION, at_definition),
    ]


def run(words: list[str]) -> tuple[str, int]:
    """Makes a call of `codenav` from the folder of the demo, and prints it with its output."""
    print(f"$ ./codenav {shlex.join(words)}", flush=True)
    done = subprocess.run(
        ["./codenav", *words],
        cwd=TOP,
        stdout=subprocess.PIPE,
        stderr=subprocess.STDOUT,
        check=False,
    )
    output = done.stdout.decode(errors="replace").removesuffix("\n")
    print(output, flush=True)
    return output, done.returncode


def answered(program: Program) -> None:
    """Replays a request for each route. Raises Failed."""
    print(f"$ {shlex.join([program.path, 'replay', ':memory:', REQUESTS])}", flush=True)
    said = program.called("replay", ":memory:", os.path.join(TOP, REQUESTS))
    print(said.out, flush=True)
    with open(os.path.join(TOP, REPLIES), encoding="utf-8", newline="") as replies:
        if (said.out, said.status) != (replies.read(), 0):
            raise Failed(f"the replies should have been those of {REPLIES}")


def trial(program: Program, folder: str) -> int:
    """The calls from the first to the last; answers the number of those that answered as they
    should."""
    answered(program)
    dump = os.path.join(folder, "crate.lsif")
    _, status = run(["prepare", DUMP, dump])
    if status != 0:
        raise Failed(f"prepare ended with status {status}")
    with program.serve() as server:
        print(f"$ {program.path} serve :memory: --port {server.port} --requests {MOST} &")
        todo = steps(server.url, dump)
        for step in todo:
            if run(step.words) != (step.output, step.status):
                raise Failed(f"that should have been, with status {step.status}: {step.output}")
    return len(todo) + 1


def add(parser: argparse.ArgumentParser) -> None:
    """The words of `try-it`."""
    parser.add_argument(
        "program",
        metavar="PROGRAM",
        nargs="?",
        help="the program; without it the one of CODENAV_PROGRAM, of the package, or of this clone, which is built first where it isn't yet",
    )


def try_it(call: TryItCall) -> int:
    """Makes the trial."""
    if not os.path.isdir(os.path.join(TOP, "demo")):
        raise Failed(f"runs in a clone of the repository or a package, and {TOP} is neither")
    if not call.program and not os.environ.get("CODENAV_PROGRAM"):
        build()
    program = Program.needed(call.program)
    if program.called("--version").status != 0:
        raise Failed(f"{program.path} doesn't run")
    with tempfile.TemporaryDirectory() as folder:
        count = trial(program, folder)
    print(f"{count} answers, each as expected; the server ended")
    return 0


TRY_IT = Command(
    "try-it",
    "Tries the whole way from a dump to an answer: prepares the dump of the demo crate, starts a "
    "server, uploads twice, asks for a definition, references and a hover, uploads tags and asks for "
    "a name, removes it all, and uploads the dump again; and replays a request for each route. It "
    "prints each call with its output.",
    TryItCall,
    add,
    try_it,
    epilog="status: 0 exactly where each answer was as expected",
)
