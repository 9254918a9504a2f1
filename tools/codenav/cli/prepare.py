"""`codenav prepare`."""

import argparse
import os
from dataclasses import dataclass, field, replace
from tempfile import NamedTemporaryFile
from typing import BinaryIO, Optional, cast

from codenav.cli.command import Command
from codenav.cli.options import number
from codenav.cli.show import Shown
from codenav.dumps.dump import Dump, opened_dump, profile_of
from codenav.dumps.lsif.reading import Source
from codenav.dumps.prepare.plan import Options
from codenav.dumps.prepare.prepare import prepare
from codenav.dumps.scip.options import ScipOptions
from codenav.faults import BadCall
from codenav.files import new_beside, whole_file
from codenav.limits import MOST_ELEMENTS
from codenav.names import set_name
from codenav.outcome import Outcome
from codenav.progress import Shows
from codenav.sets.files import MANIFEST
from codenav.sets.split.split import SetFiles, SplitOptions, split
from codenav.texts.columns import ENCODINGS

ADVICE = "leave documents out by --without GLOB, drop what has no effect by --strip, or index parts of the code as projects of their own"


@dataclass(slots=True)
class PrepareCall:
    """What `prepare` is told."""

    strip: bool = False
    keep_file_ranges: bool = False
    keep_unique: bool = False
    lenient: bool = False
    report: bool = False
    profile: str = ""
    without: list[str] = field(default_factory=list)
    source: Optional[str] = None
    encoding: Optional[str] = None
    root: Optional[str] = None
    set: bool = False
    name: str = ""
    revision: str = ""
    map: list[str] = field(default_factory=list)
    tags: str = ""
    tags_folder: str = os.curdir
    elements: int = MOST_ELEMENTS
    jobs: int = 0
    input: str = ""
    output: str = ""

    def of_index(self) -> ScipOptions:
        """How an index is read."""
        return ScipOptions(
            self.source, self.encoding, self.root, tuple(self.without), self.keep_file_ranges
        )


FLAGS = {
    "--strip": "drop all of LSIF that has no effect: elements of other labels, and the members `contents` and `tag`",
    "--keep-file-ranges": "have ranges over whole files answer for each word that has nothing of its own",
    "--keep-unique": "join projects by monikers of LSIF that are unique in a document, project, group or workspace alone: for projects of one workspace",
    "--lenient": "end with 0 where something was left out for a flaw, and leave out of a set what can't be had: documents that are over the limits by "
    "themselves, and places over too many referenceResults",
    "--report": "say of LSIF how many rows the server makes of the dump, which ranges were merged and which labels have no effect",
}
VALUES = {
    "--source FOLDER": "the files that were indexed, for positions that count bytes or code points",
    "--root ADDRESS": "the address, or the folder, that documents are below, in place of the input's own",
}
OF_SET = {
    "--name NAME": "the set's name, of at most 47 characters of a-z 0-9 _ -; that of OUT without it",
    "--revision REV": "the revision of the code, which the manifest keeps",
    "--tags FILE": "a tags file, which is cut as the dump is",
    "--tags-folder FOLDER": "where the tags file was made, the folder of the call without it",
}
NUMBERS = {
    "--elements": "at most so many elements a part, 100000 without it",
    "--jobs": "how many processes write, one for each processor that the call may use without it",
}


def add_prepare(parser: argparse.ArgumentParser) -> None:
    """The words of `prepare`."""
    group = parser.add_argument_group("of a set")
    for option, text in FLAGS.items():
        parser.add_argument(option, action="store_true", help=text)
    groups: list[tuple[argparse._ActionsContainer, dict[str, str]]]
    groups = [(parser, VALUES), (group, OF_SET)]
    for to, values in groups:
        for option, text in values.items():
            name, metavar = option.split()
            to.add_argument(name, metavar=metavar, help=text)
    parser.add_argument(
        "--without",
        action="append",
        metavar="GLOB",
        help="leave out the documents whose path from the project's root on, or address, is like GLOB, where `*` matches `/` too",
    )
    parser.add_argument(
        "--encoding",
        choices=list(ENCODINGS),
        help="what characters count in documents of a SCIP index that don't say so",
    )
    parser.add_argument(
        "--profile",
        choices=["1", "2"],
        help="how the dump is read, for the report and a set; without it 2 where it has declarations or implementations",
    )
    group.add_argument("--set", action="store_true", help="make a set of what isn't too large too")
    group.add_argument(
        "--map",
        action="append",
        metavar="URI=FOLDER",
        help="documents below URI are the files of FOLDER, whose digests the manifest keeps",
    )
    for option, text in NUMBERS.items():
        group.add_argument(option, type=number, metavar="N", help=text)
    parser.add_argument(
        "input", metavar="IN", help="the indexer's dump or index, or - for the standard input"
    )
    parser.add_argument(
        "output",
        metavar="OUT",
        help="the dump, or - for the standard output; of a set the folder of its parts and the manifest, whose cuts are kept while the parts fit",
    )


def whole(dump: Dump, call: PrepareCall, out: BinaryIO, shows: Shows) -> Outcome:
    """Writes the dump of what is read; answers what came of it."""
    if isinstance(dump, Source):
        options = Options(
            call.strip,
            call.keep_file_ranges,
            call.keep_unique,
            tuple(call.without),
            call.source,
            call.root,
            call.report,
            call.profile,
        )
        return prepare(dump, out, options, shows)
    # loaded here: it needs a package that isn't needed for LSIF
    from codenav.dumps.scip.conversion import convert

    return convert(dump, out, call.of_index(), shows)


def as_set(dump: Dump, call: PrepareCall, path: str, shows: Shows) -> SetFiles:
    """Splits an index, or the dump that was prepared, into the folder OUT."""
    if call.output == "-" or os.path.exists(call.output) and not os.path.isdir(call.output):
        raise BadCall(f"{call.output}: the set that it becomes is a folder, and this is none")
    options = SplitOptions(
        set_name(call.name or os.path.basename(os.path.abspath(call.output))),
        call.profile or (profile_of(path) if isinstance(dump, Source) else "2"),
        call.revision,
        tuple(call.map),
        call.tags,
        call.tags_folder,
        call.lenient,
        call.elements,
        call.jobs,
        dump.name,
    )
    if isinstance(dump, Source):
        return split(path, options, call.output, shows)
    return split(dump, options, call.output, shows, call.of_index())


def said(outcome: Outcome) -> list[str]:
    """What's said of a dump that is no set."""
    return [*outcome.lines(), *([ADVICE] if outcome.over else [])]


Said = tuple[list[str], bool]
"""What's said of what was made, and whether all of it is there and within the limits."""


def of_set(
    dump: Dump, call: PrepareCall, path: str, outcome: Optional[Outcome], shows: Shows
) -> Said:
    """Writes a set of an index, or of the dump that was prepared at a path."""
    files = as_set(dump, call, path, shows)
    lines, is_whole = files.lines(), files.reading.is_whole(call.lenient)
    if outcome is not None and isinstance(dump, Source):
        lines = [*outcome.lines(), *lines]
        is_whole = is_whole and replace(outcome, over=()).is_whole(call.lenient)
    return lines, is_whole


def into_set(dump: Dump, call: PrepareCall, shows: Shows) -> Said:
    """Writes OUT, a folder with a set."""
    if not isinstance(dump, Source):
        return of_set(dump, call, "", None, shows)
    with NamedTemporaryFile(prefix="codenav-prepare-") as out:
        outcome = whole(dump, call, cast(BinaryIO, out), shows)
        out.flush()
        within = replace(outcome, over=()) if call.set else outcome
        return of_set(dump, call, out.name, within, shows)


def into_file(dump: Dump, call: PrepareCall, shows: Shows) -> Said:
    """Writes OUT: a dump, or where that is too large for one project a folder with a set."""
    with new_beside(call.output) as new:
        outcome = whole(dump, call, new.out, shows)
        if not outcome.is_too_large():
            new.put()
            return said(outcome), outcome.is_whole(call.lenient)
        new.out.flush()
        return of_set(dump, call, new.path, outcome, shows)


def made(dump: Dump, call: PrepareCall, shows: Shows) -> Said:
    """Writes OUT, whatever it is to be."""
    if call.set or os.path.isfile(os.path.join(call.output, MANIFEST)):
        return into_set(dump, call, shows)
    is_other = os.path.exists(call.output) and not os.path.isdir(call.output)
    if call.output != "-" and (not is_other or os.path.isfile(call.output)):
        return into_file(dump, call, shows)
    with whole_file(call.output) as out:
        outcome = whole(dump, call, out, shows)
    return said(outcome), outcome.is_whole(call.lenient)


def run_prepare(call: PrepareCall) -> int:
    """Makes a dump or a set, and says what came of it."""
    shows = Shown("codenav prepare")
    with opened_dump(call.input) as dump:
        lines, is_whole = made(dump, call, shows)
    for line in lines:
        shows.warn(line)
    return 0 if is_whole else 1


PREPARE = Command(
    "prepare",
    "Makes of an indexer's dump, in LSIF or SCIP, the one that the server takes. Of LSIF what "
    "indexers write and the server refuses is mended where no fact has to be invented, and what "
    "would be answered wrongly is written so that it isn't. IN may be packed by gzip or zstd, in "
    "UTF-16, with a byte order mark, or one JSON array. What was mended and what was left out is "
    "said, each kind with its count and its first line. What is too large for one project becomes a "
    "set of parts, each a dump of its own; asked through a tool that knows sets they answer as the "
    "whole dump would.",
    PrepareCall,
    add_prepare,
    run_prepare,
    epilog="status: 0; 1 where something was left out for a flaw, or what was written is over a limit of the server and no set; "
    "2 where the input can't be prepared, and then OUT stays as it was",
)
