"""The difference of two states, part by part."""

from typing import Dict, FrozenSet, List, NamedTuple, Optional, Tuple, TypeVar

from model.limits import FILES
from model.records import Rule
from model.tracker import MapKey, State, gains
from tools.provenance import Link

Key = TypeVar("Key")
Moves = Dict[Key, Tuple[Optional[int], Optional[int]]]  # where an entry led before, and leads now


class Changes(NamedTuple):
    """What is different in a later state."""

    started: List[int]  # processes
    ended: List[int]
    used: List[int]  # files and pipes that came into use
    freed: List[int]  # and those that are no longer in use
    gained: Dict[int, FrozenSet[int]]  # items by container
    lost: Dict[int, FrozenSet[int]]
    mapped: Dict[MapKey, Tuple[int, int]]  # how often before, and how often now
    linked: List[Link]
    unlinked: List[Link]
    names: "Moves[int]"
    descriptors: "Moves[Tuple[int, int]]"  # by process and descriptor
    rules: List[Rule]

    @property
    def nothing(self) -> bool:
        """Whether the states are equal."""
        return not any(self)


def moves(before: Dict[Key, int], after: Dict[Key, int]) -> "Moves[Key]":
    """The entries of a table that lead elsewhere now."""
    return {
        key: (before.get(key), after.get(key))
        for key in sorted({*before, *after})  # type: ignore[type-var]
        if before.get(key) != after.get(key)
    }


def counts_moved(before: State, after: State) -> Dict[MapKey, Tuple[int, int]]:
    """The counts of mappings that are different now."""
    keys = sorted({*before.mappings, *after.mappings})
    counts = {key: (before.count(*key), after.count(*key)) for key in keys}
    return {key: pair for key, pair in counts.items() if pair[0] != pair[1]}


def changes_between(before: State, after: State) -> Changes:
    """What is different after a record."""
    used, used_after = before.used() & {*FILES}, after.used() & {*FILES}
    return Changes(
        sorted(after.live - before.live),
        sorted(before.live - after.live),
        sorted(used_after - used),
        sorted(used - used_after),
        gains(before, after),
        gains(after, before),  # what was held before and no longer is
        counts_moved(before, after),
        sorted(after.links - before.links),
        sorted(before.links - after.links),
        moves(before.names, after.names),
        moves(before.descriptors, after.descriptors),
        after.rules[len(before.rules) :],
    )
