"""Refuses each request for memory of the program in turn, and prints what came of it.

`codenav replay :memory: FILE` runs over a list of uploads, queries and a removal, the whole list
twice. Where the refusal comes before the first reply, the program must print `codenav: out of
memory` with status 2 and no reply. Else no reply is S01, and those that aren't S02 are the replies
to the list without the requests that were answered S02. With --check `codenav check-lsif FILE` runs
in its place: each run but the last must print `codenav: out of memory` with status 2, and in the
last nothing is refused.
"""

import argparse
import os
import subprocess
import sys
import tempfile
from collections import Counter
from dataclasses import dataclass
from itertools import count
from pathlib import Path

from refusing import built
from watched import Lines

# What a program is started with that has one of its requests for memory refused: that of the number
# in REFUSED, counted from 1. With 0 none is, and at its end the program prints on the standard
# error how many there were.
LIBRARY = r"""
#define _GNU_SOURCE
#include <dlfcn.h>
#include <stdio.h>
#include <stdlib.h>

static long refused = -1, count = 0;
static void *(*real_malloc)(size_t);
static void *(*real_realloc)(void *, size_t);

static int is_refused(void) {
    if (refused < 0) {
        const char *text = getenv("REFUSED");
        refused = text ? atol(text) : 0;
        real_malloc = dlsym(RTLD_NEXT, "malloc");
        real_realloc = dlsym(RTLD_NEXT, "realloc");
    }
    return ++count == refused;
}

void *malloc(size_t size) { return is_refused() ? 0 : real_malloc(size); }

void *realloc(void *old, size_t size) { return is_refused() ? 0 : real_realloc(old, size); }

__attribute__((destructor)) static void tell(void) {
    if (refused == 0)
        fprintf(stderr, "%ld\n", count);
}
"""
NO_MEMORY = "codenav: out of memory\n"
STORE = '{"fault":"S01","text":"store refused"}'
MEMORY = '{"fault":"S02","text":"out of memory"}'
# A request's line without its version, and its body.
Request = tuple[str, str]


def base() -> Lines:
    """A dump of a function that is defined and called."""
    own = Lines("shard")
    own.vertex("metaData", ',"version":"0.6.0","positionEncoding":"utf-16"')
    file = own.vertex("document", ',"uri":"file:///a.ts"')
    ranges = [own.range(0, 4, 0, 7), own.range(2, 0, 2, 3)]
    both = own.vertex("resultSet")
    for one in ranges:
        own.edge("next", one, both)
    own.item(own.result("definition", both), ranges[:1], file)
    own.contains(file, ranges)
    return own


def with_moniker(kind: str) -> Lines:
    """A dump of a function of another package, or of its export, which has a definition."""
    own = Lines("shard")
    own.vertex("metaData", ',"version":"0.6.0","positionEncoding":"utf-16"')
    name = {"export": "lib", "import": "app"}[kind]
    file = own.vertex("document", f',"uri":"file:///{name}.ts"')
    place = own.range(0, 9, 0, 10) if kind == "export" else own.range(1, 0, 1, 3)
    own.moniker(place, kind, "lib", "lib::f")
    if kind == "export":
        own.item(own.result("definition", place), [place], file)
    own.contains(file, [place])
    return own


BASE = base().text().decode()
# without its last line
CUT = BASE[: BASE.rindex("{")]
TAGS = 'a\\x41\\tb\tf.c\t/a\\/b/;"\tf\n'
ASKED: list[Request] = [
    ("PUT /projects/app/lsif?key=k1", BASE),
    ("PUT /projects/app/lsif?key=k2", CUT),
    ("PUT /projects/lib/lsif?key=k1", with_moniker("export").text().decode()),
    ("PUT /projects/imp/lsif?key=k1", with_moniker("import").text().decode()),
    ("GET /projects/imp/definition?uri=file:///app.ts&line=1&character=0", ""),
    ("PUT /projects/app/tags?key=k3", TAGS),
    ("GET /names?prefix=aA", ""),
    ("DELETE /projects/lib?key=d1", ""),
    ("GET /projects", ""),
] * 2


def refusing(library: str, number: int) -> dict[str, str]:
    """The environment of a program whose request for memory of this number is refused."""
    return {**os.environ, "LD_PRELOAD": library, "REFUSED": str(number)}


@dataclass(frozen=True)
class Replayed:
    """How a run ended, the bodies of its replies, and what it said on the standard error."""

    status: int
    replies: list[str]
    said: str


class Replays:
    """Runs of a program with the library."""

    def __init__(self, program: str, library: str) -> None:
        self.program, self.library = program, library
        self.whole = self.replay(ASKED, 0)
        # by the places of the requests that are left out, the replies to the others
        self.known: dict[tuple[int, ...], list[str]] = {(): self.whole.replies}

    def replay(self, requests: list[Request], refused: int) -> Replayed:
        """A run over these requests in which this request for memory is refused; none, where it's
        0."""
        stream = Path(self.library).with_name("stream")
        with open(stream, "w", encoding="utf-8") as file:
            for line, body in requests:
                file.write(f"{line} HTTP/1.1\r\nContent-Length: {len(body)}\r\n\r\n{body}")
        done = subprocess.run(
            [self.program, "replay", ":memory:", str(stream)],
            env=refusing(self.library, refused),
            capture_output=True,
            check=False,
        )
        texts = done.stdout.decode().split("HTTP/1.1 ")[1:]
        bodies = [text.split("\r\n\r\n", 1)[1] for text in texts]
        return Replayed(done.returncode, bodies, done.stderr.decode())

    def without(self, missing: tuple[int, ...]) -> list[str]:
        """The replies to the requests but those at these places."""
        if missing not in self.known:
            rows = [row for place, row in enumerate(ASKED) if place not in missing]
            self.known[missing] = self.replay(rows, 0).replies
        return self.known[missing]

    def outcome(self, number: int) -> str:
        """What comes of the refusal of this request for memory: `early`, before the first reply;
        `answered` by S02; or `none`. Ends the process at anything else."""
        run = self.replay(ASKED, number)
        if run.status == 2 and not run.replies and run.said == NO_MEMORY:
            return "early"
        if run.status != 0 or len(run.replies) != len(ASKED) or STORE in run.replies:
            sys.exit(f"request {number} refused: {run}")
        missing = tuple(place for place, body in enumerate(run.replies) if body == MEMORY)
        wanted = self.without(missing)
        if [body for body in run.replies if body != MEMORY] != wanted:
            sys.exit(f"request {number} refused: {run.replies} in place of {wanted}")
        return "answered" if missing else "none"


def replay(program: str, library: str, first: int, last: int, each: int) -> None:
    """Refuses these requests for memory of `replay`, and prints what came of it."""
    replays = Replays(program, library)
    whole = replays.whole
    is_refused = STORE in whole.replies or MEMORY in whole.replies
    if whole.status != 0 or len(whole.replies) != len(ASKED) or is_refused:
        sys.exit(f"none refused: {whole}")
    most = int(whole.said)
    last = min(last, most)
    outcomes = Counter(replays.outcome(number) for number in range(first, last + 1, each))
    print(
        f"of {most} requests {first} to {last} refused in turn, each {each}th:"
        f" {outcomes['early']} before the first reply, {outcomes['answered']} answered by S02,"
        " none by S01"
    )


def check(program: str, library: str, file: str) -> None:
    """Refuses each request for memory of a check, and prints what came of it."""
    words = [program, "check-lsif", file]
    plain = subprocess.run(words, capture_output=True, text=True)
    for number in count(1):
        env = refusing(library, number)
        run = subprocess.run(words, env=env, capture_output=True, text=True)
        if (run.returncode, run.stdout, run.stderr) == (plain.returncode, plain.stdout, ""):
            break
        if (run.returncode, run.stdout, run.stderr) != (2, "", NO_MEMORY):
            sys.exit(f"request {number} refused: {run}")
    print(
        f"{number - 1} requests refused in turn, each answered by 'out of memory';"
        f" with none refused: {plain.stdout.strip()}"
    )


def main() -> None:
    options = argparse.ArgumentParser(
        description=__doc__, formatter_class=argparse.RawDescriptionHelpFormatter
    )
    options.add_argument("--check", metavar="FILE", help="a dump that is checked")
    options.add_argument("--from", type=int, default=1, dest="first", help="the first request; 1")
    options.add_argument("--to", type=int, default=1_000_000, dest="last", help="the last; all")
    options.add_argument("--each", type=int, default=1, help="with 50 each 50th of them")
    options.add_argument("program", help="the built one, the file itself; needs a C compiler")
    given = options.parse_args()
    program = os.path.realpath(given.program)
    with tempfile.TemporaryDirectory() as folder:
        library = built(folder, LIBRARY)
        if given.check:
            check(program, library, given.check)
        else:
            replay(program, library, given.first, given.last, given.each)


if __name__ == "__main__":
    main()
