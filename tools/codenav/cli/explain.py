"""`codenav explain` and `codenav why`."""

import argparse
import os
import sys
from dataclasses import dataclass, field
from typing import Optional

from codenav.cli.command import Command
from codenav.cli.options import number
from codenav.dumps.check.explain import ACCEPTED, explain, fault_of
from codenav.dumps.check.why import why
from codenav.dumps.packed import opened
from codenav.faults import BadCall
from codenav.kinds import BY_NAME
from codenav.printed import line, lines
from codenav.sets.files import part_file
from codenav.texts.decoded import lines_of
from codenav.texts.places import character_at, maps_of

MOST_BYTES = 1000
"""Of a line that names a fault."""


@dataclass(slots=True)
class ExplainCall:
    """What `explain` is told."""

    file: str = ""
    fault: Optional[str] = None


def add_explain(parser: argparse.ArgumentParser) -> None:
    """The words of `explain`."""
    parser.add_argument("file", metavar="FILE", help="the dump or the tags file that was checked")
    parser.add_argument(
        "fault",
        metavar="FAULT",
        nargs="?",
        help="`line N: CODE text`; without it, it's read from the standard input",
    )


def run_explain(call: ExplainCall) -> int:
    """Prints what explains a fault."""
    text = call.fault
    if text is None:
        text = sys.stdin.buffer.readline(MOST_BYTES).decode(errors="replace")
    if ACCEPTED.fullmatch(text.strip()):
        print(f"{call.file}: accepted, so there's nothing to explain")
        return 0
    fault = fault_of(text)
    with opened(call.file) as file:
        print("\n".join(map(line, explain(call.file, file, fault))))
    return 0


@dataclass(slots=True)
class WhyCall:
    """What `why` is told."""

    map: list[str] = field(default_factory=list)
    utf16: bool = False
    request: str = "definition"
    dump: str = ""
    file: str = ""
    line: int = 0
    column: int = 0

    def position(self) -> tuple[int, int]:
        """The position that it's asked of, from 0 in UTF-16 code units. Raises BadCall."""
        if self.line < 1 or self.column < 1:
            raise BadCall(f"lines and columns count from 1, not {min(self.line, self.column)}")
        if self.utf16 or not os.path.isfile(self.file):
            return self.line - 1, self.column - 1
        return self.line - 1, character_at(
            self.file, lines_of(self.file), self.line, self.column, False
        )


def add_why(parser: argparse.ArgumentParser) -> None:
    """The words of `why`."""
    parser.add_argument(
        "--map",
        action="append",
        metavar="URI=FOLDER",
        help="documents below URI are the files of FOLDER",
    )
    parser.add_argument(
        "--utf16",
        action="store_true",
        help="COLUMN counts UTF-16 code units, as it does where FILE can't be read",
    )
    parser.add_argument(
        "--request",
        choices=list(BY_NAME),
        help="without it definition; of declarations and implementations as in profile 2",
    )
    parser.add_argument(
        "dump", metavar="DUMP", help="a dump, or the folder that one was split into"
    )
    parser.add_argument("file", metavar="FILE", help="a path, or a document's uri or its end")
    parser.add_argument("line", metavar="LINE", type=number)
    parser.add_argument("column", metavar="COLUMN", type=number)


def run_why(call: WhyCall) -> int:
    """Prints why a request is answered as it is; answers 0 where a range is asked."""
    maps, position = maps_of(call.map), call.position()
    path = part_file(call.dump, call.file, maps) if os.path.isdir(call.dump) else call.dump
    with opened(path) as file:
        answered = why(file, path, BY_NAME[call.request], call.file, position, maps)
    print("\n".join(map(lines, answered.lines)), flush=True)
    return 0 if answered.is_asked else 1


EXPLAIN = Command(
    "explain",
    "Explains the fault that `codenav check-lsif` named of a dump: its element, the earlier ones "
    "that it conflicts with, and what an indexer should have written; or the fault that `check-tags` "
    "named of a tags file, and what ctags should have written. Lines count from 1; positions "
    "are those of the dump, which count from 0.",
    ExplainCall,
    add_explain,
    run_explain,
)
WHY = Command(
    "why",
    "Says of a dump alone why a request at a place is answered as it is: each range there, the "
    "innermost first, with whether it speaks and by which edges, the result and its items, and the "
    "keys that other projects are asked by; or what is missing. Numbers of lines are those of the "
    "dump, from 1, and positions count from 0 as there. LINE and COLUMN count from 1, COLUMN in "
    "characters where FILE can be read.",
    WhyCall,
    add_why,
    run_why,
    epilog="status: 0 where a range is asked; 1 where none is",
)
