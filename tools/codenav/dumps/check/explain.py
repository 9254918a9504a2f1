"""Explains the fault that `codenav check-lsif` named of a dump, or `check-tags` of tags: its element, the earlier ones that
it conflicts with, and what an indexer should have written. Lines count from 1; positions are those
of the dump, which count from 0.
"""

import io
import re
from dataclasses import dataclass
from typing import BinaryIO, Union

from codenav.dumps.check.conflicts import conflicts
from codenav.dumps.check.lines import Dump
from codenav.dumps.check.sentences import sentence
from codenav.dumps.check.tag_lines import explained
from codenav.faults import BadCall
from codenav.printed import line as printed

REPORT = re.compile(
    r"line ([1-9][0-9]{0,11}): ((?:L(?!00)[01][0-9]|L20|E01|E02|T0[1-9]|T1[01])(?: .*)?)"
)
ACCEPTED = re.compile(r"ok [0-9]+ (?:elements|tags)")
WHOLE = {"L01", "L02", "L03", "L05", "L20"}


class NoFault(BadCall):
    """The text names no fault of the file."""


@dataclass(frozen=True)
class Fault:
    """A line of a dump or of tags, and what is wrong there: the code, and the code with its text as they were
    reported."""

    line: int
    code: str
    report: str


def fault_of(text: str) -> Fault:
    """The fault that a line of `check-lsif` or `check-tags` names; raises NoFault."""
    match = REPORT.fullmatch(text.strip())
    if match is None:
        shown = printed(text.strip()[:80])
        raise NoFault(f"not a fault of a dump or of tags, `line N: CODE text`: `{shown}`")
    return Fault(int(match[1]), match[2][:3], match[2])


def explain(name: str, given: Union[bytes, BinaryIO], fault: Fault) -> list[str]:
    """The lines that explain a fault; raises NoFault or NotADump."""
    file: BinaryIO = io.BytesIO(given) if isinstance(given, bytes) else given
    if fault.code.startswith("T"):
        lines = explained(name, file, fault.line, fault.code)
        if not lines:
            raise NoFault(f"{name} has no line {fault.line}")
        return [f"{name}:{fault.line}: {fault.report}", *lines]
    if not file.seek(0, 2) and (fault.line, fault.code) == (1, "L06"):
        return [f"{name}:1: {fault.report}", f"{name}: empty", sentence(fault.code, {})]
    dump = Dump(name, file, None if fault.code.startswith("E") else fault.line)
    if fault.line > dump.count:
        raise NoFault(f"{name} has {dump.count} lines, and no line {fault.line}")
    element = {} if fault.code in WHOLE else dump.at(fault.line)
    notes = [""] if fault.code in WHOLE else conflicts(dump, fault.line, fault.code, element)
    if not notes:
        raise NoFault(
            f"{name}, line {fault.line}: {fault.code} isn't its fault; is it the dump that was checked?"
        )
    head = [f"{name}:{fault.line}: {fault.report}", dump.shown(fault.line)]
    return [*head, *(note for note in notes if note), sentence(fault.code, element)]
