"""Checks what is uploaded by the server's own rules, where the program is at hand."""

from contextlib import suppress
from typing import Optional

from codenav.dumps.check import explain
from codenav.faults import NotADump
from codenav.program import Program
from codenav.progress import Shows
from codenav.publishing.made import Body, Refused


def refusal(body: Body, said: str) -> Refused:
    """What is said of a body that the server would refuse."""
    if body.part == "lsif":
        with open(body.path, "rb") as dump, suppress(explain.NoFault, NotADump):
            said = "\n".join(explain.explain(body.path, dump, explain.fault_of(said)))
    return Refused(f"the server would refuse this {body.part}: {said}")


def check(bodies: list[Body], named: Optional[str], profile: str, shows: Shows) -> None:
    """Checks bodies by the program that is named, or the one that's found. Raises Refused."""
    program = Program.found(named)
    if program is None:
        shows.warn("not checked before the upload, for the program isn't at hand (--program)")
        return
    for body in bodies:
        shows.begin(f"checked {body.part}")
        is_accepted, said = program.check(body.part, body.path, profile)
        if not is_accepted:
            raise refusal(body, said)
        # the program counts the record of tags too
        shows.end(said if body.part == "lsif" else "ok")
