"""The contents machine and the two runs of demand 3.

Document 01, The contents in demand 3. The machine takes live processes, names,
descriptors and verdicts from the tracker's states. It counts mappings by itself, so
that bytes pass over the links of document 02, Paper 4, whatever the tracker makes of
them, and it decides by itself what moves.
"""

import hashlib
from collections import Counter
from dataclasses import replace
from typing import Any, Callable, Dict, Iterable, List, NamedTuple, Optional, Set, Tuple, Union

from model.limits import CALL_TAG, CONTAINERS, FILES, VALUE_LENGTHS, Kind, MapSort
from model.limits import process_container
from model.records import Call, decode_call, read_frame
from model.tracker import Answer, State, Tracker, forbids


class RecordStep(NamedTuple):
    """A step that hands one record to the tracker."""

    data: bytes


class MemoryStep(NamedTuple):
    """A step in which mapped memory changes some containers."""

    containers: Tuple[int, ...]


Step = Union[RecordStep, MemoryStep]
Feeders = List[Tuple[int, Any]]


def mix(*numbers: int) -> int:
    """A 64-bit number that depends on all the arguments."""
    text = ",".join(map(str, numbers)).encode()
    return int.from_bytes(hashlib.blake2b(text, digest_size=8).digest(), "big")


class MixedFunctions:
    """Functions that depend on every argument they may depend on."""

    zero = 0

    def __init__(self, seed: int) -> None:
        self.seed = seed

    def gift(self, place: int, number: int, old: int, givers: List[int]) -> int:
        """The contents of a receiver with one giver, or two in map both."""
        return mix(self.seed, 1, place, number, old, *givers)

    def fork(self, place: int, number: int, old: int, parent: int) -> int:
        """The contents of a forked child."""
        return mix(self.seed, 2, place, number, old, parent)

    def memory(self, place: int, number: int, own: int, feeders: Feeders) -> int:
        """The contents of a container after a memory step."""
        flat = [value for feeder in feeders for value in feeder]
        return mix(self.seed, 3, place, number, own, *flat)


class VariedFunctions(MixedFunctions):
    """Functions that at each place and container mix, copy, keep or clear."""

    def gift(self, place: int, number: int, old: int, givers: List[int]) -> int:
        mixed = super().gift(place, number, old, givers)
        return self._one_of(place, number, [mixed, givers[0], givers[-1], old, 0])

    def fork(self, place: int, number: int, old: int, parent: int) -> int:
        mixed = super().fork(place, number, old, parent)
        return self._one_of(place, number, [mixed, parent, old])

    def memory(self, place: int, number: int, own: int, feeders: Feeders) -> int:
        mixed = super().memory(place, number, own, feeders)
        copied = feeders[place % len(feeders)][1] if feeders else own
        return self._one_of(place, number, [mixed, copied, own, 0])

    def _one_of(self, place: int, number: int, results: List[int]) -> int:
        return results[mix(self.seed, 4, place, number) % len(results)]


class ItemSets:
    """Contents as sets of items: what has come in from labels and no more."""

    zero: frozenset = frozenset()

    def __init__(self, memory_joins: bool) -> None:
        self.memory_joins = memory_joins

    def gift(self, place: int, number: int, old: frozenset, givers: List[frozenset]) -> frozenset:
        """Old contents and the givers' together."""
        return old.union(*givers)

    def fork(self, place: int, number: int, old: frozenset, parent: frozenset) -> frozenset:
        """The parent's contents."""
        return parent

    def memory(self, place: int, number: int, own: frozenset, feeders: Feeders) -> frozenset:
        """Its own contents, joined with the feeders' if memory joins."""
        if not self.memory_joins:
            return own
        return own.union(*(contents for _, contents in feeders))


class Machine:
    """A tracker with contents; the input of each label goes by its place."""

    def __init__(self, functions: Any, source: Callable[[int, int], Any]) -> None:
        self.tracker = Tracker()
        self.functions = functions
        self.source = source  # place and item of a label to its input
        self.contents: Dict[int, Any] = dict.fromkeys(CONTAINERS, functions.zero)
        self.mappings: Counter = Counter()  # by process, container and sort

    def step(self, place: int, step: Step) -> Optional[Answer]:
        """Do one step; gives the answer of a record."""
        if isinstance(step, MemoryStep):
            self._memory(place, step)
            return None
        before = self.state()
        answer, _ = self.tracker.answer_record(step.data)
        call = call_of(step)
        if call is not None and answer.word in ("allow", "modify"):
            self._give(place, call, answer, before)
            self._fork(place, call)
            self.mappings = mapped_after(self.mappings, call, before)
            for container in cleared(call, before, self.state()):
                self.contents[container] = self.functions.zero
        return answer

    def state(self) -> State:
        """The tracker's state, with the mappings as they are counted here."""
        return replace(self.tracker.state, mappings=dict(self.mappings))

    def _memory(self, place: int, step: MemoryStep) -> None:
        old = dict(self.contents)
        links = sorted(self.state().links)
        for container in step.containers:
            feeders = [(source, old[source]) for source, target in links if target == container]
            self.contents[container] = self.functions.memory(
                place, container, old[container], feeders
            )

    def _give(self, place: int, call: Call, answer: Answer, before: State) -> None:
        received: Dict[int, List[Any]] = {}
        for giver, target in gifts(call, answer, before):
            given = self.source(place, call.b) if giver is None else self.contents[giver]
            for receiver in before.reach(target):
                received.setdefault(receiver, []).append(given)
        for receiver, givers in received.items():
            old = self.contents[receiver]
            self.contents[receiver] = self.functions.gift(place, receiver, old, givers)

    def _fork(self, place: int, call: Call) -> None:
        if call.kind == Kind.FORK:
            child = process_container(call.a)
            self.contents[child] = self.functions.fork(
                place, child, self.contents[child], self.contents[call.caller]
            )


def call_of(step: Step) -> Optional[Call]:
    """The call in a step, if it has the form of a call."""
    frame = read_frame(step.data) if isinstance(step, RecordStep) else None
    if frame is None or frame.tag != CALL_TAG or len(frame.value) != VALUE_LENGTHS[CALL_TAG]:
        return None
    return decode_call(frame.value)


def mapped_after(mappings: Counter, call: Call, before: State) -> Counter:
    """The counts of mappings after a call that is done: document 02, Paper 4."""
    own = {key: count for key, count in mappings.items() if key[0] == call.process}
    if call.kind == Kind.FORK:
        child = {(call.a, container, sort): count for (_, container, sort), count in own.items()}
        return Counter({**mappings, **child})
    if call.kind == Kind.EXIT:
        return mappings - Counter(own)
    if call.kind == Kind.UNMAP:
        return mappings - Counter([(call.process, call.a, call.b)])
    if call.kind not in (Kind.MAP_READ, Kind.MAP_BOTH):
        return mappings
    sort = MapSort.MAPPED_BOTH if call.kind == Kind.MAP_BOTH else MapSort.MAPPED_READ
    return mappings + Counter([(call.process, before.descriptors[call.process, call.a], sort)])


def gifts(call: Call, answer: Answer, before: State) -> List[Tuple[Optional[int], int]]:
    """The pairs of giver and target of a call; a label's giver is None."""
    if answer.word == "modify":
        return [(call.caller, answer.numbers[1])]
    if call.kind == Kind.LABEL:
        return [(None, call.a)]
    if call.kind not in (Kind.READ, Kind.WRITE, Kind.MAP_READ, Kind.MAP_BOTH):
        return []
    container = before.descriptors[call.process, call.a]
    to_process = (container, call.caller)
    to_container = (call.caller, container)
    if call.kind == Kind.MAP_BOTH:
        return [to_process, to_container]
    return [to_container] if call.kind == Kind.WRITE else [to_process]


def cleared(call: Call, before: State, after: State) -> Set[int]:
    """The containers that are started, new or emptied by a call."""
    found = {c for c in before.used() - after.used() if c in FILES}
    if call.kind in (Kind.START, Kind.EXIT):
        found.add(call.caller)
    if call.kind in (Kind.CREATE, Kind.PIPE):
        found.add(call.c)
    if call.kind == Kind.TRUNCATE:
        container = before.descriptors[call.process, call.a]
        if not before.is_fed(container):
            found.add(container)
    return found


class Fault(NamedTuple):
    """A moment at which a claim fails; place -1 is the start."""

    place: int
    container: int
    claim: str


class TwinReport(NamedTuple):
    """What two runs showed, counted over moments and containers."""

    faults: List[Fault]
    equal_beside_different: int  # equal as claimed while another container differs
    held_but_equal: int  # holding a chosen item, contents equal all the same
    forbidden: int  # rules forbid every chosen item


class TwinRun:
    """Two machines that share steps and functions and differ in chosen inputs."""

    def __init__(self, functions: Any, chosen: Iterable[int], seed: int) -> None:
        self.chosen = frozenset(chosen)
        self.mask = sum(1 << item for item in self.chosen)
        self.first = Machine(functions, lambda place, item: mix(seed, place))
        self.second = Machine(functions, lambda place, item: self._other_input(seed, place, item))
        self.forbidden: Set[int] = set()
        self.faults: List[Fault] = []
        self.equal_beside_different = 0
        self.held_but_equal = 0
        self.forbidden_moments = 0

    def run(self, steps: List[Step]) -> TwinReport:
        """Do the steps in both runs and compare at every moment."""
        self._note_forbidden()
        self._compare(-1)
        for place, step in enumerate(steps):
            answers = [self.first.step(place, step), self.second.step(place, step)]
            if answers[0] != answers[1]:
                self.faults.append(Fault(place, -1, "equal answers"))
            if answers[0] is not None and answers[0].word == "rule":
                self._note_forbidden()
            self._compare(place)
        return TwinReport(
            self.faults, self.equal_beside_different, self.held_but_equal, self.forbidden_moments
        )

    def _other_input(self, seed: int, place: int, item: int) -> int:
        return mix(seed, place, 1) if item in self.chosen else mix(seed, place)

    def _compare(self, place: int) -> None:
        self.forbidden_moments += len(self.forbidden)
        contents = self.first.contents, self.second.contents
        different = {c for c in CONTAINERS if contents[0][c] != contents[1][c]}
        for container in CONTAINERS:
            free = not self.first.tracker.query_items(container) & self.mask
            if container in different:
                if free:
                    self.faults.append(Fault(place, container, "holds no chosen item"))
                if container in self.forbidden:
                    self.faults.append(Fault(place, container, "chosen items forbidden"))
            elif free:
                self.equal_beside_different += bool(different)
            else:
                self.held_but_equal += 1

    def _note_forbidden(self) -> None:
        """Add the containers that the loaded rules forbid every chosen item."""
        rules = self.first.tracker.state.rules
        for container in set(CONTAINERS) - self.forbidden:
            if all(any(forbids(rule, container, item) for rule in rules) for item in self.chosen):
                self.forbidden.add(container)


def exactness_faults(steps: List[Step], memory_joins: bool) -> List[Fault]:
    """Compare contents as item sets with the recorded items at every moment."""
    machine = Machine(ItemSets(memory_joins), lambda place, item: frozenset([item]))
    faults = []
    for place in range(-1, len(steps)):
        if place >= 0:
            machine.step(place, steps[place])
        for container, contents in machine.contents.items():
            if machine.tracker.query_items(container) != sum(1 << item for item in contents):
                faults.append(Fault(place, container, "contents are the recorded items"))
    return faults
