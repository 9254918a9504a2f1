"""Which definitions the promise of `replay` rests on, file by file, with their lines: what
docs/inside/DEFINITIONS.md says in its last part, which a test of the tools compares with this.

A definition rests on each that its text names, in its file or by a `use` of it. Not counted are
blank lines and comments, the types of the program itself (`specs.declared`), the libraries of the
toolchain, and what stands in `specs/Steps`, whose definitions are listed below the table where one
is named.
"""

import argparse
import re
import sys
from dataclasses import dataclass, field
from functools import cache
from pathlib import Path
from typing import Iterator, Optional

TOP = Path(__file__).resolve().parent.parent
REPLAY = "calls/specs/Replay"
USE = re.compile(r"^(?:pub )?use Rattle\.([\w.]+?)(?:\.\{(.*)\}| as (\w+))$")
BEGIN = re.compile(r"^(?:(?:abbrev|unfoldable|printed|pub|data|record) )+(\w+)")
INNER = re.compile(r"^  (?:pub )?([\w']+) :")
NAMES = re.compile(r"[\w']+(?:\.[\w']+)?")


@dataclass(frozen=True)
class Definition:
    """A definition: the file of specs/ that has it, without its ending, and its first name."""

    file: str
    name: str


@dataclass
class Specs:
    """A file of specs/: the lines of each definition, of which one each name is, what it uses of
    other files by its own names for them, and its names for whole files."""

    lines: dict[str, list[str]] = field(default_factory=dict)
    owner: dict[str, str] = field(default_factory=dict)
    used: dict[str, Definition] = field(default_factory=dict)
    files: dict[str, str] = field(default_factory=dict)


def file_of(path: str) -> Optional[str]:
    """The file that a `use` names, as crate/specs/Name; None where it's none of this repository's
    definitions."""
    file = path.replace(".", "/")
    return file if (TOP / "crates" / f"{file}.antt").is_file() else None


@cache
def specs(file: str) -> Specs:
    """What a file has."""
    found, current = Specs(), ""
    for line in (TOP / "crates" / f"{file}.antt").read_text(encoding="utf-8").splitlines():
        use = USE.match(line)
        begin = BEGIN.match(line)
        if use:
            of = file_of(use[1])
            if of and use[3]:
                found.files[use[3]] = of
            for name in use[2].split(", ") if of and use[2] else ():
                own = name.split(" as ")
                found.used[own[-1]] = Definition(of or "", own[0])
        elif begin:
            current = begin[1]
            found.owner[current] = current
            found.lines[current] = [line]
        elif line.strip() and not line.lstrip().startswith("--") and current:
            found.lines[current].append(line)
            inner = INNER.match(line)
            if inner:
                found.owner.setdefault(inner[1], current)
    return found


def resolved(file: str, name: str) -> Optional[Definition]:
    """The definition that a name of a file is of; None where it's a variable's, or of no file
    here."""
    here = specs(file)
    whole, _, member = name.partition(".")
    if member and whole in here.files:
        return resolved(here.files[whole], member)
    if whole in here.owner:
        return Definition(file, here.owner[whole])
    return resolved(here.used[whole].file, here.used[whole].name) if whole in here.used else None


def named(one: Definition) -> Iterator[Definition]:
    """The definitions that the text of one names."""
    for line in specs(one.file).lines[one.name]:
        for name in NAMES.findall(line):
            found = resolved(one.file, name)
            if found is not None and found != one:
                yield found


def is_step(one: Definition) -> bool:
    """Whether a definition stands in `specs/Steps`."""
    return "/specs/Steps" in one.file


def closure(names: list[str]) -> tuple[list[Definition], list[Definition]]:
    """The definitions that those of these names rest on, and of `specs/Steps` those that one of
    them names, which aren't gone into; breadth-first, so each after one that names it."""
    reached = dict.fromkeys(Definition(REPLAY, name) for name in names)
    steps: dict[Definition, None] = {}
    waiting = list(reached)
    for one in waiting:
        for other in named(one):
            if is_step(other):
                steps[other] = None
            elif other not in reached:
                reached[other] = None
                waiting.append(other)
    return list(reached), list(steps)


def counts(definitions: list[Definition]) -> dict[str, int]:
    """How many lines the definitions of each file have, in the order in which the files are
    reached."""
    found: dict[str, int] = {}
    for one in definitions:
        lines = len(specs(one.file).lines[one.name])
        found[one.file] = found.get(one.file, 0) + lines
    return found


def table(names: list[str]) -> list[str]:
    """The rows of the page's table."""
    reached, _ = closure(names)
    return [f"| `crates/{file}.antt` | {count} |" for file, count in counts(reached).items()]


def main() -> int:
    """Prints the table, the sum, and what is named of `specs/Steps`."""
    options = argparse.ArgumentParser(
        description=__doc__, formatter_class=argparse.RawDescriptionHelpFormatter
    )
    each = "a name of crates/calls/specs/Replay.antt; Replays without it"
    options.add_argument("names", nargs="*", metavar="NAME", help=each)
    names = options.parse_args().names or ["Replays"]
    if unknown := [name for name in names if name not in specs(REPLAY).lines]:
        options.error(f"no definition {unknown[0]}")
    reached, steps = closure(names)
    print("\n".join(table(names)))
    print(f"{sum(counts(reached).values()):,} lines of {len(counts(reached))} files")
    for one in steps:
        print(f"of specs/Steps: {one.name} in crates/{one.file}.antt")
    return 0


if __name__ == "__main__":
    sys.exit(main())
