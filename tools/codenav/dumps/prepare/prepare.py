"""Prepares a dump of an indexer for the server: what indexers write and the server refuses is
mended where no fact has to be invented, and what would be answered wrongly is written so that it
isn't. Lines that needn't change are written as they are.

The dump is read twice, so memory grows with the ids alone.
"""

import json
from typing import BinaryIO, Callable, Iterator, Optional

from codenav.addresses import root_of
from codenav.dumps.lsif.reading import Source
from codenav.dumps.lsif.writer import LineWriter
from codenav.dumps.prepare.joints import join_equal
from codenav.dumps.prepare.passes import (
    bind,
    contain,
    drop,
    leave_out_documents,
    refuse_cycles,
    sort_ranges,
)
from codenav.dumps.prepare.plan import Options, Plan
from codenav.dumps.prepare.positions import convert_positions
from codenav.dumps.prepare.rewriting import Rewriting
from codenav.dumps.prepare.survey import Survey
from codenav.dumps.prepare.unreached import drop_unreached
from codenav.dumps.prepare.vertices import VERSION, Mender
from codenav.dumps.tables import rows
from codenav.dumps.tables.graph import Graph
from codenav.dumps.tables.reader import Reader
from codenav.kinds import KINDS
from codenav.outcome import MERGED, NO_EFFECT, Note, Notes, Outcome
from codenav.progress import Shows

PASSES: tuple[Callable[[Plan, Options], None], ...] = (
    drop,
    contain,
    bind,
    refuse_cycles,
    leave_out_documents,
    convert_positions,
    drop_unreached,
    sort_ranges,
    join_equal,
)
"""What decides what is written, in this order."""
OF_ALL = {
    ("vertex", "metaData"),
    ("vertex", "project"),
    ("vertex", "document"),
    ("vertex", "range"),
    ("vertex", "resultSet"),
    ("vertex", "moniker"),
    ("vertex", "packageInformation"),
    ("vertex", "$event"),
    ("edge", "contains"),
    ("edge", "next"),
    ("edge", "moniker"),
    ("edge", "packageInformation"),
    ("edge", "attach"),
    ("edge", "nextMoniker"),
    ("edge", "item"),
}
"""The labels that have an effect besides those of requests."""


def surveyed(source: Source, options: Options, notes: Notes) -> Survey:
    """Reads the dump once."""
    root = "" if options.root is None else root_of(options.root)
    mender = Mender(notes, options.strip, options.keep_unique, root)
    survey = Survey(source.name, notes, mender, options.strip)
    for row in source.rows():
        survey.take(row)
    survey.finish()
    return survey


def written(source: Source, out: BinaryIO, plan: Plan, reader: Optional[Reader]) -> LineWriter:
    """Reads the dump again and writes it prepared. The reader, where there is one, takes each
    element."""
    before = plan.survey.mender
    mender = Mender(Notes(), before.strip, before.keep_unique, before.root)
    writer = LineWriter(out)
    Rewriting(plan, mender, writer, reader).run(source.rows)
    out.flush()
    return writer


def summary(plan: Plan, counts: dict[str, int]) -> str:
    """What was changed, in short."""
    first = plan.survey.metadata
    version = None if first is None else first.element.get("version")
    return (
        f"version {version} -> {VERSION}; equal ranges merged {counts['equal ranges']} of {counts['ranges']}; "
        f"elements {counts['elements before']} -> {counts['elements']}"
    )


def merged(plan: Plan) -> Iterator[Note]:
    """Which ranges were merged; lines and characters count from 0."""
    survey, ids = plan.survey, plan.survey.numbers.ids()
    for own, kept in plan.moved.items():
        if own not in survey.merged:
            start = survey.numbers.starts[own]
            place = (
                f"{survey.uris[plan.home[own]]} line {start >> 31} character {start & 0x7FFFFFFF}"
            )
            ranges = f"range {json.dumps(ids[own])} into {json.dumps(ids[kept])}"
            yield Note(MERGED, f"{place}: {ranges}")


def profile_of(survey: Survey) -> str:
    """The profile in which a dump is read: 2 where it has results of that alone."""
    results = {kind.result for kind in KINDS if not kind.is_of("1")}
    return "2" if any(label in results for _, label in survey.labels) else "1"


def without_effect(survey: Survey, profile: str) -> Iterator[Note]:
    """Which labels have no effect in a profile."""
    asked = [kind for kind in KINDS if kind.is_of(profile)]
    effective = OF_ALL | {("vertex", kind.result) for kind in asked}
    effective |= {("edge", kind.edge) for kind in asked}
    for (of, label), count in sorted(survey.labels.items()):
        if (of, label) not in effective:
            yield Note(NO_EFFECT, f"{of} {label}", count)


def prepare(source: Source, out: BinaryIO, options: Options, shows: Shows) -> Outcome:
    """Writes the dump that the server takes of a dump. Raises NotADump where it can't be made."""
    notes = Notes()
    shows.begin("prepared", 2 * source.size)
    source.watch = shows.at
    plan = Plan(surveyed(source, options, notes))
    for decide in PASSES:
        decide(plan, options)
    profile = options.profile or profile_of(plan.survey)
    reader = Reader(profile, Graph()) if options.reports else None
    source.watch = lambda read: shows.at(source.size + read)
    writer = written(source, out, plan, reader)
    counts = {
        "elements before": plan.survey.elements,
        "elements": writer.elements,
        "ranges": plan.ranges,
        "equal ranges": plan.equal_ranges,
    }
    said = [*source.shape.notes(), *notes.all()]
    over = [*writer.excesses()]
    if reader is not None:
        reader.forget()
        tallies = rows.tallies(reader.graph)
        over += rows.excesses(tallies)
        said += [rows.note(tallies), *merged(plan), *without_effect(plan.survey, profile)]
    outcome = Outcome(summary(plan, counts), counts, tuple(said), tuple(over))
    shows.end(outcome.said)
    return outcome
