"""What `publish` says of what was made and put."""

import json
import os
import shlex
from typing import Any, Iterator, Optional, Sequence

from codenav.names import set_name, shown_name
from codenav.publishing.made import Made, Row
from codenav.publishing.send import Sent
from codenav.publishing.target import Target
from codenav.publishing.there import There
from codenav.settings.checkout import plain
from codenav.texts.places import map_words


def counted(made: Made, sent: Sent, target: Target) -> Iterator[str]:
    """What was put, by its projects."""
    for one in sent.accepted:
        of = f"{one.count} tags"
        if one.part == "lsif":
            of = f"a dump of {one.count} elements, profile {one.profile}"
        yield f"{one.project}: {of}"
    if sent.report is not None:
        where = f" at {target.home}" if target.servers else ""
        said = f"a set{where}, {sent.report.line()}, profile {made.profile}"
        yield f"{shown_name(set_name(target.project))}: {said}"


def uploaded(made: Made, sent: Sent, target: Target) -> Iterator[str]:
    """What was uploaded, where its documents are, and how it's removed again."""
    for line in counted(made, sent, target):
        yield f"uploaded {line}"
    yield from documents(made)
    yield f"codenav remove {plain(target.home)} {shown_name(target.project)} removes it again"


def not_uploaded(made: Made, target: Target, there: There) -> Iterator[str]:
    """What a call that uploads nothing would upload, and what becomes of what is there."""
    what = [
        "tags" if one.part == "tags" else f"a dump, profile {one.profile}" for one in made.bodies
    ]
    if made.files is not None:
        what = [f"{len(made.files.head.parts)} parts, in profile {made.profile}"]
    name, where = shown_name(target.project), plain(target.home)
    would = f"{name} at {where} would have {' and '.join(what)}, {there.changed(made, target)}"
    yield f"nothing was uploaded, as --dry-run asks: {would}"


def documents(made: Made) -> Iterator[str]:
    """Where the documents of an index are, and of which commit it is."""
    if made.bodies[0].part == "lsif":
        folder = os.path.normpath(os.path.join("FOLDER", made.inside))
        words = shlex.quote(map_words(made.where, folder))
        yield f"documents are below {made.where}: elsewhere ask with --map {words}"
        if made.commit:
            yield f"the index is of revision {made.commit}, which it keeps"


def table(rows: Sequence[Row]) -> list[str]:
    """What was left out, and why, as the lines of a table; none where nothing was."""
    cells = [(row.what, "" if row.number is None else str(row.number), row.why) for row in rows]
    if not cells:
        return []
    cells.insert(0, ("left out", "count", "why"))
    first, second = (max(len(row[column]) for row in cells) for column in (0, 1))
    return [f"{what:{first}}  {count:>{second}}  {why}" for what, count, why in cells]


def as_json(made: Made, sent: Optional[Sent], target: Target, there: Optional[There] = None) -> str:
    """What was done, for programs; `uploaded` is null where nothing was to be, and `there` says then
    what becomes of what is there."""
    found: dict[str, Any] = {"project": target.project, "uploaded": None, "set": None}
    found["profile"] = made.profile or None
    if sent is not None:
        found["uploaded"] = [vars(one) for one in sent.accepted]
        found["set"] = sent.report and vars(sent.report)
    found["there"] = there and there.changed(made, target)
    found["documents"], found["revision"] = made.where, made.commit or None
    found["left_out"] = [
        {"what": row.what, "count": row.number, "why": row.why} for row in made.left_out
    ]
    return json.dumps(found, separators=(",", ":"))
