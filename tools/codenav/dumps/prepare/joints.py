"""What ranges at one place mean together, and vertices with two edges where one may be: all of them
are asked, by a joint result set.

Of the vertices that are joined, the heads, the joint result set has each one's definitions,
implementations and declarations, and a reference result that leads to each one's. `next` edges lead
from it to the first head, over a helper for each further head that has monikers. The helper has
these monikers and that head's own results alone: so a project that asks by such a moniker gets
nothing of the other heads, as it would from the joint result set.
"""

from typing import Iterator

from codenav.dumps.prepare.labels import HOVER, RANGE, REFERENCE, RESULT_OF, RESULT_SET
from codenav.dumps.prepare.names import Bearer, Groups, symbols
from codenav.dumps.prepare.numbers import NONE
from codenav.dumps.prepare.plan import AS_SET, DROPPED, KEPT, MOVED, NewEdge, Options, Plan

REFERENCES, HOVERS = "textDocument/references", "textDocument/hover"


def join_equal(plan: Plan, options: Options) -> None:
    """Joins what several vertices mean where they're one. It needs all other passes."""
    Joints(plan).make()


class Joints:
    """Makes the joints of a plan."""

    def __init__(self, plan: Plan) -> None:
        self.plan = plan
        self.monikers: dict[int, list[int]] = {}
        self.holders: dict[tuple[str, int], int] = {}
        self.sets: dict[tuple[int, ...], int] = {}
        self.results: dict[tuple[int, ...], int] = {}
        self.made: dict[int, tuple[int, ...]] = {}
        self.parts: dict[int, list[int]] = {}
        self.empty: dict[int, int] = {}

    def make(self) -> None:
        """Joins the further results of vertices, those of one symbol, the further `next` edges, and
        then equal ranges."""
        plan = self.plan
        groups: dict[int, list[int]] = {}
        for own, first in plan.moved.items():
            if plan.kinds[own] == RANGE and plan.state[own] == MOVED and first not in plan.mute:
                groups.setdefault(first, []).append(own)
        further = {
            label: found
            for label, found in plan.further.items()
            if found and label != "packageInformation"
        }
        if groups or further:
            self.learn_monikers()
        for label in RESULT_OF:
            self.seconds(label, further.get(label, {}))
        self.share(list(symbols(plan)))
        self.seconds("next", further.get("next", {}))
        for first, others in groups.items():
            self.place(first, others)
        self.fill()

    def learn_monikers(self) -> None:
        """Finds the monikers of each vertex."""
        plan = self.plan
        for source, target, _ in plan.survey.edges["moniker"].all():
            if (
                plan.state[source] != DROPPED
                and plan.state[target] == KEPT
                and plan.fits("moniker", source, target)
            ):
                self.monikers.setdefault(source, []).append(target)

    def seconds(self, label: str, further: dict[int, list[int]]) -> None:
        """Joins what several edges of a label lead to where one may be."""
        plan, is_next = self.plan, label == "next"
        sources = self.from_the_ends(further) if is_next else list(further)
        for source in sources if label != HOVERS else ():
            if plan.is_asked(source):
                both = [plan.final[label][source], *further[source]]
                joint = self.joint(both) if is_next else self.result(RESULT_OF[label], both)
                plan.set(label, source, joint)
        self.holders.clear()

    def from_the_ends(self, further: dict[int, list[int]]) -> list[int]:
        """The vertices with several `next` edges, each behind those that it leads to: what it means
        is what these mean once they're joined."""
        found: list[int] = []
        known: set[int] = set()
        waiting = [(own, False) for own in further]
        while waiting:
            own, is_left = waiting.pop()
            if is_left:
                found.append(own)
            elif own not in known:
                known.add(own)
                to = [self.plan.final["next"][own], *further.get(own, ())]
                waiting += [(own, True)] if own in further else []
                waiting += [(other, False) for other in to if other != NONE]
        return found

    def share(self, found: list[list[Bearer]]) -> None:
        """Gives the vertices of each symbol the results that one of them has."""
        plan = self.plan
        for label in RESULT_OF:
            groups = Groups()
            order: dict[int, tuple[bool, int]] = {}
            for number, bearers in enumerate(found):
                for is_import, place, own in bearers:
                    holder = self.holder(label, own)
                    holder = own if holder == NONE else holder
                    groups.join(~number, holder)
                    order[holder] = min(order.get(holder, (True, place)), (is_import, place))
            members: dict[int, list[int]] = {}
            for own in sorted(order, key=order.__getitem__):
                members.setdefault(groups.of(own), []).append(own)
            for those in members.values():
                self.share_results(label, those)
            self.holders.clear()
        for bearers in found:
            places = sorted(bearer.place for bearer in bearers)
            if len(places) > 1:
                line = plan.survey.edges["moniker"].lines[places[1]]
                plan.notes.mend("one symbol by its moniker in several places, joined", line)

    def share_results(self, label: str, those: list[int]) -> None:
        """Gives the results that some vertices have to all of them; a hover to those that have
        none."""
        final = self.plan.final[label]
        results = [final[own] for own in those if final[own] != NONE]
        if results:
            result = results[0] if label == HOVERS else self.result(RESULT_OF[label], results)
            for own in those:
                if label != HOVERS or final[own] == NONE:
                    self.plan.set(label, own, result)

    def place(self, first: int, others: list[int]) -> None:
        """Joins what ranges at one place mean."""
        plan = self.plan
        heads = self.telling([self.head(own) for own in (first, *others)])
        for own in others:
            if own in heads:
                plan.state[own] = AS_SET
        if len(heads) > 1:
            line = plan.survey.numbers.lines[others[0]]
            plan.notes.mend("two symbols at one place, joined", line)
            heads = [self.stand_in(own) if own == first else own for own in heads]
        if len(heads) > 1 or heads and heads[0] != self.head(first):
            plan.set("next", first, self.joint(heads))

    def head(self, own: int) -> int:
        """What has a range's meaning: the vertex that its `next` edge leads to, or itself where it
        has more than that edge."""
        final = self.plan.final
        if own in self.monikers or any(final[label][own] != NONE for label in RESULT_OF):
            return own
        following = final["next"][own]
        return own if following == NONE else following

    def chain(self, own: int) -> Iterator[int]:
        """A vertex, and those that `next` edges lead to."""
        while own != NONE:
            self.plan.spend(1)
            yield own
            own = self.plan.final["next"][own]

    def holder(self, label: str, own: int) -> int:
        """The vertex along a chain that has the first result for a request; it's kept for all on
        the way to it."""
        found, way = NONE, []
        for member in self.chain(own):
            if (label, member) in self.holders:
                found = self.holders[label, member]
                break
            way.append(member)
            if self.plan.final[label][member] != NONE:
                found = member
                break
        for member in way:
            self.holders[label, member] = found
        return found

    def first(self, label: str, own: int) -> int:
        """The first result of a vertex for a request."""
        holder = self.holder(label, own)
        return NONE if holder == NONE else self.plan.final[label][holder]

    def borne(self, own: int) -> list[int]:
        """The monikers of a vertex and of those that `next` edges lead to."""
        found = [moniker for member in self.chain(own) for moniker in self.monikers.get(member, ())]
        self.plan.spend(len(found))
        return list(dict.fromkeys(found))

    def telling(self, heads: list[int]) -> list[int]:
        """The heads that say something which those before don't."""
        said: set[tuple[str, int]] = set()
        kept = []
        for own in dict.fromkeys(heads):
            says = {(label, self.first(label, own)) for label in RESULT_OF}
            says = {pair for pair in says if pair[1] != NONE}
            says |= {("moniker", moniker) for moniker in self.borne(own)}
            if not says <= said:
                kept.append(own)
                said |= says
        return kept

    def joint(self, heads: list[int]) -> int:
        """The joint result set of heads; the head itself where it's one."""
        heads = self.telling(heads) or heads[:1]
        if len(heads) == 1:
            return heads[0]
        key = tuple(heads)
        if key not in self.sets:
            self.sets[key] = self.new_joint(heads)
        return self.sets[key]

    def new_joint(self, heads: list[int]) -> int:
        """Makes the joint result set of several heads."""
        plan = self.plan
        own = plan.fresh(RESULT_SET)
        for label, kind in RESULT_OF.items():
            found = [self.first(label, head) for head in heads]
            found = [result for result in dict.fromkeys(found) if result != NONE]
            if found:
                plan.set(label, own, found[0] if label == HOVERS else self.result(kind, found))
        along = heads[0]
        for head in reversed(heads[1:]):
            along = self.helper(head, along)
        plan.set("next", own, along)
        return own

    def helper(self, head: int, along: int) -> int:
        """A result set with the monikers and the results of a head alone, before another in the
        chain; that one where the head has no moniker."""
        plan, borne = self.plan, self.borne(head)
        if not borne:
            return along
        own = plan.fresh(RESULT_SET)
        plan.new_edges += [NewEdge("moniker", own, [moniker]) for moniker in borne]
        for label, kind in RESULT_OF.items():
            found = self.first(label, head)
            if found == NONE and kind != HOVER and self.first(label, along) != NONE:
                found = self.empty.setdefault(kind, NONE)
                if found == NONE:
                    found = self.empty[kind] = plan.fresh(kind)
            if found != NONE:
                plan.set(label, own, found)
        plan.set("next", own, along)
        return own

    def stand_in(self, own: int) -> int:
        """A result set with all that a range has itself, which the range has then no more."""
        plan = self.plan
        other = plan.fresh(RESULT_SET)
        for label in ("next", *RESULT_OF):
            if plan.final[label][own] != NONE:
                plan.set(label, other, plan.final[label][own])
                plan.final[label][own] = NONE
        self.monikers[other] = self.monikers.pop(own, [])
        plan.new_edges += [NewEdge("moniker", other, [moniker]) for moniker in self.monikers[other]]
        plan.without_monikers.add(own)
        return other

    def result(self, kind: int, results: list[int]) -> int:
        """One result for several: with the places of each, or of references one that leads to
        each."""
        results = list(dict.fromkeys(results))
        if len(results) == 1:
            return results[0]
        if kind != REFERENCE:
            parts = (part for one in results for part in self.made.get(one, (one,)))
            results = list(dict.fromkeys(parts))
            self.plan.spend(len(results))
        key = tuple(results)
        if key not in self.results:
            own = self.results[key] = self.plan.fresh(kind)
            self.made[own] = key
            if kind == REFERENCE:
                self.plan.new_edges.append(NewEdge("item", own, results, "referenceResults"))
            else:
                for part in results:
                    self.parts.setdefault(part, []).append(own)
        return self.results[key]

    def fill(self) -> None:
        """Gives the joint results the places of those that they're of."""
        plan, survey = self.plan, self.plan.survey
        found: dict[int, dict[int, None]] = {}
        for source, target, _ in survey.items.all() if self.parts else ():
            for own in self.parts.get(source, ()):
                target = plan.moved.get(target, target)
                if plan.kinds[target] == RANGE and plan.state[target] == KEPT:
                    plan.spend(1)
                    found.setdefault(own, {})[target] = None
        for own, places in found.items():
            homes: dict[int, list[int]] = {}
            for target in places:
                homes.setdefault(plan.home[target], []).append(target)
            plan.new_edges += [
                NewEdge("item", own, targets, None, home) for home, targets in homes.items()
            ]
