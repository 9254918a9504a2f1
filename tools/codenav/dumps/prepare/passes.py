"""The passes over a plan by which is decided which ranges and edges stay. Each says what it needs of
those before it."""

from codenav.addresses import folder_address, is_like
from codenav.dumps.overlaps import by_home, sorted_out
from codenav.dumps.prepare.labels import DOCUMENT, PROJECT, RANGE
from codenav.dumps.prepare.numbers import NONE
from codenav.dumps.prepare.plan import DROPPED, KEPT, MOVED, Options, Plan
from codenav.faults import NotADump
from codenav.outcome import LEFT_AS_ASKED, unlike


def drop(plan: Plan, options: Options) -> None:
    """Takes what the survey dropped or merged. It needs no pass before."""
    for number in plan.survey.dropped:
        plan.state[number] = DROPPED
    for number, kept in plan.survey.merged.items():
        plan.state[number] = MOVED
        plan.moved[number] = kept


def contain(plan: Plan, options: Options) -> None:
    """Finds the document of each range, and drops ranges that have none. It needs `drop`, for merged
    documents."""
    kinds, state, home = plan.kinds, plan.state, plan.home
    for source, target, line in plan.survey.edges["contains"].all():
        if kinds[source] == DOCUMENT and kinds[target] == RANGE:
            source = plan.moved.get(source, source)
            if home[target] in (NONE, source):
                home[target] = source
            else:
                raise plan.survey.refusal(line, "a range in two documents, which can't both be")
        elif kinds[source] != PROJECT or kinds[target] != DOCUMENT:
            if state[source] != DROPPED and state[target] != DROPPED:
                plan.notes.leave_out(
                    "`contains` edge that joins neither a project with documents nor a document with ranges",
                    f"line {line}",
                )
    lines = plan.survey.numbers.lines
    for number in range(plan.count):
        if kinds[number] == RANGE and state[number] == KEPT:
            if home[number] == NONE:
                plan.notes.leave_out("range that no document contains", f"line {lines[number]}")
                state[number] = DROPPED
            elif state[home[number]] == DROPPED:
                state[number] = DROPPED
            else:
                plan.ranges += 1


def bind(plan: Plan, options: Options) -> None:
    """Finds the one edge of each label that leaves a vertex, and the further ones. It needs
    `contain`: edges of what is dropped don't count."""
    state = plan.state
    for label, final in plan.final.items():
        for source, target, line in plan.survey.edges[label].all():
            if state[source] or state[target]:
                continue
            if not plan.fits(label, source, target):
                plan.notes.leave_out(
                    f"`{label}` edge that joins other vertices than it may", f"line {line}"
                )
            elif final[source] == NONE:
                final[source] = target
            elif final[source] == target:
                plan.notes.mend(f"`{label}` edge that is there twice", line)
            else:
                note_second(plan, label, line)
                plan.further[label].setdefault(source, []).append(target)


def note_second(plan: Plan, label: str, line: int) -> None:
    """Notes a second edge of a label that leaves a vertex once."""
    if label == "packageInformation":
        plan.notes.leave_out("second package of a moniker", f"line {line}")
    else:
        plan.notes.mend(f"second `{label}` edge of a vertex, joined with the first", line)


def refuse_cycles(plan: Plan, options: Options) -> None:
    """Refuses `next` edges that lead back to where they come from. It needs `bind`; passes after it
    follow `next` edges to their ends."""
    following = plan.final["next"]
    seen = bytearray(len(following))
    for start in range(plan.count):
        trail, at = [], start
        while at != NONE and not seen[at]:
            seen[at] = 1
            trail.append(at)
            at = following[at]
        if at != NONE and seen[at] == 1:
            ring = set(trail[trail.index(at) :])
            line = max(
                line
                for source, target, line in plan.survey.edges["next"].all()
                if source in ring and target in ring
            )
            raise plan.survey.refusal(line, "a `next` edge that closes a cycle")
        for number in trail:
            seen[number] = 2


def leave_out_documents(plan: Plan, options: Options) -> None:
    """Drops the documents that the options leave out, with their ranges. It needs `contain`, and
    `bind` before it, so that flaws are noted in these documents too."""
    root, left = folder_address(plan.survey.mender.root), set()
    for glob in options.without:
        found = [number for number, uri in plan.survey.uris.items() if is_like(uri, root, glob)]
        if not found:
            raise NotADump(unlike(plan.survey.name, glob))
        left.update(found)
    for number in sorted(left):
        plan.notes.mend(LEFT_AS_ASKED, plan.survey.numbers.lines[number])
        plan.state[number] = DROPPED
    for number in range(plan.count) if left else ():
        if plan.kinds[number] == RANGE and plan.home[number] in left:
            plan.state[number] = DROPPED


def sort_ranges(plan: Plan, options: Options) -> None:
    """Decides which ranges of each document stay. It needs `bind`, which a range over a whole file
    is silenced in, and places in UTF-16 code units."""
    numbers = plan.survey.numbers
    kept = (n for n in range(plan.count) if plan.kinds[n] == RANGE and plan.state[n] == KEPT)
    for ranges in by_home(kept, plan.home).values():
        ranges.sort(key=numbers.places.__getitem__)
        outcome = sorted_out(ranges, lambda own: (numbers.starts[own], numbers.ends[own]))
        for own in outcome.crossing:
            plan.notes.mend("range that overlaps a smaller one, dropped", numbers.lines[own])
            plan.state[own] = DROPPED
        for own, first in outcome.equal.items():
            plan.equal_ranges += 1
            plan.state[own] = MOVED if plan.state[first] == KEPT else DROPPED
            plan.moved[own] = first
        if outcome.around is not None and not options.keep_file_ranges:
            line = numbers.lines[outcome.around]
            plan.notes.mend("range over a whole file, which stays as a place and isn't asked", line)
            equal = [own for own, first in outcome.equal.items() if first == outcome.around]
            for own in (outcome.around, *equal):
                silence(plan, own)


def silence(plan: Plan, own: int) -> None:
    """Leaves out what a range over a whole file would answer at each word that has nothing of
    its own."""
    plan.mute.add(own)
    for final in plan.final.values():
        final[own] = NONE
