"""What a picture shows: the moment after a record, and what that record changed or would have."""

from typing import Dict, FrozenSet, Iterable, List, NamedTuple, Optional, Set, Tuple

from model.limits import CONTAINERS, DEVICES, DIVERT_ACTION, FORBID_TAG, MAP_SORTS
from model.limits import PROCESS_CONTAINERS, process_container
from model.tracker import State, allowed, broken_places, forbids
from tools.changes import Changes, changes_between
from tools.provenance import BREAKING, DONE, Link, Moment, Step, fresh, gifts_of


class Label(NamedTuple):
    """How often a container is mapped, as it stands on the link."""

    text: str
    mark: str = ""  # new: more often than before the record; less: not so often


class View(NamedTuple):
    """A moment, with the record before it."""

    step: Optional[Step]  # None before the first record
    moment: Moment
    changes: Changes
    stopped: Dict[int, FrozenSet[int]]  # what a call that breaks a rule would have put where
    forbidden: Dict[int, Set[int]]  # the items that rules forbid each container

    def mark(self, container: int) -> str:
        """The mark of a container's box."""
        if container in self.stopped:
            return "stopped"
        process = container - PROCESS_CONTAINERS.start
        if container in self.changes.used or (process in self.changes.started):
            return "new"
        return "gone" if container in self.gone() else ""

    def gone(self) -> Set[int]:
        """The containers whose use the record ended."""
        return {*self.changes.freed, *map(process_container, self.changes.ended)}

    def touched(self) -> Set[int]:
        """The containers whose boxes have a mark of this record."""
        changes = self.changes
        found = {*changes.gained, *changes.lost, *changes.used, *self.gone(), *self.stopped}
        found.update(map(process_container, changes.started))
        found.update(process_container(process) for process, _ in changes.descriptors)
        for ends in changes.names.values():
            found.update(end for end in ends if end is not None)
        return found

    def shown(self) -> List[int]:
        """The containers that are drawn: those in use, without devices that nothing concerns."""
        state = self.moment.state
        busy = set(state.descriptors.values()) | {end for link in state.links for end in link}
        busy.update(container for container in CONTAINERS if state.items[container])
        busy.update(named_devices(state))
        used = {c for c in state.used() if c in busy or c not in DEVICES}
        unlinked = {end for link in self.changes.unlinked for end in link}
        return sorted(used | unlinked | self.gone() | {*self.stopped})

    def moves(self) -> Dict[Link, str]:
        """Between which containers the call moved items, or would have, each with its mark."""
        step = self.step
        if step is None or step.answer.word not in (*DONE, *BREAKING):
            return {}
        call, before = step.record, step.before.state
        found: Dict[Tuple[Optional[int], int], str] = {}
        if step.judged:
            meant = allowed(before, step.judged.state)
            found.update({pair: "stopped" for pair in gifts_of(call, meant, before)})
        if step.answer.word in DONE:
            found.update({pair: "done" for pair in gifts_of(call, step.answer, before)})
        return {
            (giver, target): mark
            for (giver, target), mark in found.items()
            if giver is not None and not {giver, target} <= {*PROCESS_CONTAINERS}
        }

    def links(self) -> Dict[Link, str]:
        """The links that are drawn, each with its mark."""
        marks = {link: "" for link in self.moment.state.links}
        marks.update({link: "new" for link in self.changes.linked})
        marks.update({link: "gone" for link in self.changes.unlinked})
        return marks

    def labels(self) -> Dict[Link, Label]:
        """The links that say how often they are mapped, by the ends, the process first.

        These are mapped more than once, by one sort or by both, or were before the record.
        """
        state, found = self.moment.state, {}
        changed = {key[:2]: after > before for key, (before, after) in self.changes.mapped.items()}
        for process, container in sorted({key[:2] for key in state.mappings}):
            counts = [state.count(process, container, sort) for sort in MAP_SORTS]
            more = changed.get((process, container))
            if sum(counts) > 1 or more is False:
                mark = "" if more is None else "new" if more else "less"
                found[process_container(process), container] = Label(count_text(*counts), mark)
        return found


def count_text(read: int, both: int) -> str:
    """Counts of mappings in short; the sort is said where there are both."""
    return f"read {read}, both {both}" if read and both else f"{read + both}\u00d7"


def named_devices(state: State) -> Set[int]:
    """The devices in the set of a rule that forbids, or to which a rule diverts."""
    found: Set[int] = set()
    for rule in state.rules:
        found.update(rule.containers if rule.tag == FORBID_TAG else ())
        found.update([rule.substitute] if rule.action == DIVERT_ACTION else ())
    return found & {*DEVICES}


def forbidden_items(state: State) -> Dict[int, Set[int]]:
    """The items that the loaded rules forbid each container."""
    found: Dict[int, Set[int]] = {}
    for rule in state.rules:
        for container in CONTAINERS:
            if forbids(rule, container, rule.items[0]):
                found.setdefault(container, set()).add(rule.items[0])
    return found


def stopped_items(step: Step) -> Dict[int, FrozenSet[int]]:
    """Where a call would have broken its rule, and what would have come there."""
    if step.judged is None:
        return {}
    before, judged = step.before.state, step.judged.state
    rule = before.rules[step.answer.numbers[0]]
    return {
        place: frozenset(rule.items) - before.items[place] for place in broken_places(judged, rule)
    }


def first_view() -> View:
    """The view before the first record."""
    moment = fresh()
    return View(None, moment, changes_between(moment.state, moment.state), {}, {})


def view_after(step: Step, forbidden: Dict[int, Set[int]]) -> View:
    """The view after a record."""
    changes = changes_between(step.before.state, step.after.state)
    return View(step, step.after, changes, stopped_items(step), forbidden)


def view_at(steps: List[Step], at: int) -> View:
    """The view after so many records."""
    if at == 0:
        return first_view()
    step = steps[at - 1]
    return view_after(step, forbidden_items(step.after.state))


def views_of(steps: Iterable[Step]) -> List[View]:
    """The views of a log: before the first record, then after each."""
    views = [first_view()]
    for step in steps:
        rules_kept = len(step.before.state.rules) == len(step.after.state.rules)
        forbidden = views[-1].forbidden if rules_kept else forbidden_items(step.after.state)
        views.append(view_after(step, forbidden))
    return views
