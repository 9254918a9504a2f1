"""`codenav index`."""

import argparse
from dataclasses import dataclass

from codenav.cli.command import Command
from codenav.cli.show import Shown
from codenav.faults import BadCall
from codenav.index.folder import How, index
from codenav.index.given import Limits
from codenav.index.languages import LANGUAGES

KNOWN = "\n".join(f"  {one.name:10} {one.ways[0].line}" for one in LANGUAGES)
DEFAULT = Limits()
NUMBERS = {
    "patience": "a server that says nothing for so many seconds is started again",
    "seconds": "what isn't answered after so many seconds is left out",
    "megabytes": "a server that takes more memory is started again",
    "jobs": "so many processes of a server share the files",
}


@dataclass(slots=True)
class IndexCall(How):
    """What `index` is told."""

    patience: float = DEFAULT.patience
    seconds: float = DEFAULT.seconds
    megabytes: int = DEFAULT.megabytes
    jobs: int = DEFAULT.jobs
    folder: str = ""
    output: str = ""


def add_index(parser: argparse.ArgumentParser) -> None:
    """The words of `index`."""
    parser.add_argument(
        "--server", metavar="COMMAND", help="ask this language server in place of the known one"
    )
    parser.add_argument(
        "--package",
        metavar="'MANAGER NAME VERSION'",
        help="the package that FOLDER is of, where its manifest doesn't say it; other projects lead here by it",
    )
    parser.add_argument(
        "--on-server",
        action="append",
        metavar="NAME",
        help="a package whose project is on the server: what is used of it leads there, and not to the copy that is installed here",
    )
    parser.add_argument(
        "--state",
        metavar="FILE",
        help="keep what was answered in FILE, and ask the next time only what may differ since",
    )
    for name, text in NUMBERS.items():
        kind = type(getattr(DEFAULT, name))
        standing = f"{text}; {getattr(DEFAULT, name)} without it"
        parser.add_argument(f"--{name}", type=kind, metavar="N", help=standing)
    parser.add_argument("folder", metavar="FOLDER", help="the folder that is indexed")
    parser.add_argument("output", metavar="OUT", help="the file of the dump")


def run_index(call: IndexCall) -> int:
    """Indexes a folder; answers 1 where something was left out."""
    for name in NUMBERS:
        if not getattr(call, name) > 0:
            raise BadCall(f"--{name} {getattr(call, name)}: it's more than 0")
    call.limits = Limits(call.patience, call.seconds, call.megabytes, jobs=call.jobs)
    with Shown("codenav index", True) as shows:
        outcome = index(call.folder, call.output, call, shows)
        for line in outcome.lines():
            shows.warn(line)
    return 0 if outcome.is_whole() else 1


INDEX = Command(
    "index",
    "Makes a dump of a folder by asking the language server of its language where each word leads, and "
    "what is said of it. Asked are the words for which the server has semantic tokens: what it says of "
    "others, as in code that isn't compiled, is a guess by the name. Python leads by its own rules, and by "
    "jedi where a value's type counts; PYTHONPATH has more folders of modules. What is outside of the folder "
    "leads to the files of this machine. Each stage is a line on the standard error, and so is what was "
    "left out, and why.",
    IndexCall,
    add_index,
    run_index,
    epilog=f"known languages, and how their servers are called:\n\n{KNOWN}\n\n"
    "status: 0; 1 where something was left out for a fault, or what was written is over a limit of the "
    "server; 2 where nothing can be written",
)
