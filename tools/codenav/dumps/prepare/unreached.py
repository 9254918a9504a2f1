"""What a dump has no use for once documents were left out: vertices that nothing which stays leads
to."""

from array import array
from itertools import chain
from typing import Iterator

from codenav.dumps.prepare.labels import DOCUMENT, METADATA, PROJECT, RANGE, SINGLE
from codenav.dumps.prepare.plan import DROPPED, KEPT, Options, Plan

ROOTS = (METADATA, PROJECT, DOCUMENT, RANGE)


def drop_unreached(plan: Plan, options: Options) -> None:
    """Drops the vertices that only what was dropped led to, where documents were left out. It needs
    all passes that drop documents or ranges for flaws."""
    if not options.without:
        return
    begins, targets = table(plan)
    reached = bytearray(plan.count)
    led_to = bytearray(plan.count)
    for target in targets:
        led_to[target] = 1
    todo = [
        own
        for own in range(plan.count)
        if plan.state[own] == KEPT and (plan.kinds[own] in ROOTS or not led_to[own])
    ]
    for own in todo:
        reached[own] = 1
    while todo:
        own = todo.pop()
        for target in targets[begins[own] : begins[own + 1]]:
            if not reached[target] and plan.state[target] != DROPPED:
                reached[target] = 1
                todo.append(target)
    for own in range(plan.count):
        if plan.state[own] == KEPT and not reached[own]:
            plan.state[own] = DROPPED


def pairs(plan: Plan) -> Iterator[tuple[int, int]]:
    """The edges along which what stays needs something else: all but those to places; those between
    monikers both ways."""
    edges = plan.survey.edges
    for label in (*SINGLE, "moniker", "other"):
        yield from zip(edges[label].sources, edges[label].targets)
    attached = edges["attach"]
    yield from chain(
        zip(attached.sources, attached.targets), zip(attached.targets, attached.sources)
    )
    items = plan.survey.items
    for source, target, leads in zip(items.sources, items.targets, plan.survey.leads):
        if leads:
            yield source, target


def table(plan: Plan) -> tuple["array[int]", "array[int]"]:
    """The targets of each vertex, one after the other, and where those of each begin."""
    begins = array("i", [0]) * (plan.count + 2)
    for source, _ in pairs(plan):
        begins[source + 2] += 1
    for own in range(2, plan.count + 2):
        begins[own] += begins[own - 1]
    targets = array("i", [0]) * begins[plan.count + 1]
    for source, target in pairs(plan):
        targets[begins[source + 1]] = target
        begins[source + 1] += 1
    return begins, targets
