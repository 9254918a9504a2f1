"""The dump of a checkout whose indexer isn't installed."""

import os
from tempfile import TemporaryDirectory
from typing import NamedTuple, Optional

from codenav.faults import BadCall
from codenav.index.folder import TO_MIND, How, Indexing, NoAnswers, NoLanguage
from codenav.index.indexers import NotInstalled
from codenav.progress import Shows
from codenav.publishing.made import Row, rows_of

ALONE = "--no-index uploads tags alone"


class Asked(NamedTuple):
    """The file of a dump and what was left out of it; or else why there's none, where that isn't that
    no file is of a known language."""

    path: str = ""
    left_out: tuple[Row, ...] = ()
    lacking: str = ""


def asked_dump(folder: str, work: str, fault: Optional[NotInstalled], shows: Shows) -> Asked:
    """Makes it of what answers of its languages, of which one is that of the indexer that isn't
    installed, where there's such. Raises BadCall."""
    try:
        indexing = Indexing(folder, How(), shows)
    except BadCall as other:
        if fault is not None:
            raise BadCall(f"{fault}; {ALONE}") from None
        return Asked(lacking="" if isinstance(other, NoLanguage) else str(other))
    if fault is not None:
        if not any(language.indexer in fault.programs for language, _ in indexing.ways):
            raise BadCall(f"{fault}; {ALONE}")
        shows.warn(f"{fault}: asked is {' and '.join(way.line for _, way in indexing.ways)}")
    path = os.path.join(work, "asked.lsif")
    try:
        with TemporaryDirectory(dir=work, ignore_cleanup_errors=True) as own:
            outcome = indexing.write(path, own)
    except NoAnswers as other:
        if fault is not None:
            raise BadCall(f"{fault}; {other}; {ALONE}") from None
        return Asked(lacking=str(other))
    for note in outcome.notes:
        if note.kind == TO_MIND:
            shows.warn(str(note))
    return Asked(path, tuple(rows_of(outcome, "2")))
