"""Why a call can't be carried out."""

import re

NO_DUMP, NO_DOCUMENT = "D01", "D02"
CODE = re.compile("[A-Z][0-9]{2}(?= )")


class Fault(Exception):
    """A call that ends with the status; the text is the one line to print."""

    status = 2

    def code(self) -> str:
        """The server's code that the text begins with, or nothing."""
        found = CODE.match(str(self))
        return found[0] if found else ""


class BadCall(Fault):
    """A call that can't be carried out as it was made."""


class NoFile(BadCall):
    """A file that a revision of a repository doesn't have."""


class Unfit(BadCall):
    """Something that the server takes neither whole nor in parts."""


class NotADump(Fault):
    """An input that is no dump: LSIF, or a SCIP index, that can be read to its end."""


class NoReply(BadCall):
    """A request that the server didn't answer as it was asked; the text begins with the fault's
    code where there is one."""


class NoDocument(NoReply):
    """The same of a document that no project has."""


class Failed(Fault):
    """A trial that can't go on."""

    status = 1
